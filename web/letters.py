"""Bytes as letters of a page in UTF-8, as src/letters.js says, which reads them in the page: 6.75 bits in each byte of the page, where base
85 has 6.4. No letter ends a script, is a blank, or may not stand in HTML."""

ASCII = [letter for letter in map(chr, range(0x21, 0x7F)) if letter not in "<>&"]
BASE, BITS, GROUPS = 108, 27, 8
FIRST = 0xC0
PAIRS = (BASE - len(ASCII)) * BASE


def digits_of(data):
    """Digits of base 108; BITS bytes are GROUPS groups of BITS bits each."""
    digits = []
    for at in range(0, len(data), BITS):
        number = int.from_bytes(data[at : at + BITS].ljust(BITS, b"\0"), "big")
        for shift in range(BITS * (GROUPS - 1), -1, -BITS):
            group = number >> shift & (1 << BITS) - 1
            digits += [group // BASE**3, group // BASE**2 % BASE, group // BASE % BASE, group % BASE]
    return digits[: -(-8 * len(data) * 4 // BITS)]


def to_letters(data):
    letters, digits = [], iter(digits_of(data))
    for digit in digits:
        large = digit - len(ASCII)
        if large < 0:
            letters.append(ASCII[digit])
            continue
        behind = next(digits, None)
        letters.append(chr(FIRST + (PAIRS + large if behind is None else large * BASE + behind)))
    return "".join(letters)


def from_letters(letters):
    digits = []
    for letter in letters:
        pair = ord(letter) - FIRST
        if pair < 0:
            digits.append(ASCII.index(letter))
        elif pair >= PAIRS:
            digits.append(len(ASCII) + pair - PAIRS)
        else:
            digits += [len(ASCII) + pair // BASE, pair % BASE]
    length = len(digits) * BITS // 4 // 8
    digits += [BASE - 1] * (-len(digits) % 4)
    digits += [0] * (-len(digits) % (4 * GROUPS))
    data = bytearray()
    for at in range(0, len(digits), 4 * GROUPS):
        number = 0
        for first in range(at, at + 4 * GROUPS, 4):
            a, b, c, d = digits[first : first + 4]
            number = number << BITS | ((a * BASE + b) * BASE + c) * BASE + d
        data += number.to_bytes(BITS, "big")
    return bytes(data[:length])
