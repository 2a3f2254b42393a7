/* Arithmetic of 128 bits that the compiler calls by these names, since WebAssembly has none. */
typedef unsigned long u64;
typedef __int128 i128;
typedef union {
  i128 whole;
  struct {
    u64 low, high;
  } half;
} parts;

i128 __multi3(i128 a, i128 b);
i128 __ashlti3(i128 a, int bits);
i128 __lshrti3(i128 a, int bits);

/* the product of two words, from four products of their halves */
static parts product_of_words(u64 a, u64 b) {
  u64 a_low = (unsigned)a, a_high = a >> 32, b_low = (unsigned)b, b_high = b >> 32;
  u64 low = a_low * b_low, across = a_low * b_high, other = a_high * b_low, high = a_high * b_high;
  u64 middle = (low >> 32) + (unsigned)across + (unsigned)other;
  parts product;
  product.half.low = (middle << 32) | (unsigned)low;
  product.half.high = high + (across >> 32) + (other >> 32) + (middle >> 32);
  return product;
}

i128 __multi3(i128 a, i128 b) {
  parts x = {a}, y = {b};
  parts product = product_of_words(x.half.low, y.half.low);
  product.half.high += x.half.high * y.half.low + x.half.low * y.half.high;
  return product.whole;
}

i128 __ashlti3(i128 a, int bits) {
  parts from = {a}, to = {a};
  if (bits & 64) {
    to.half.high = from.half.low << (bits & 63);
    to.half.low = 0;
  } else if (bits) {
    to.half.high = from.half.high << bits | from.half.low >> (64 - bits);
    to.half.low = from.half.low << bits;
  }
  return to.whole;
}

i128 __lshrti3(i128 a, int bits) {
  parts from = {a}, to = {a};
  if (bits & 64) {
    to.half.low = from.half.high >> (bits & 63);
    to.half.high = 0;
  } else if (bits) {
    to.half.low = from.half.low >> bits | from.half.high << (64 - bits);
    to.half.high = from.half.high >> bits;
  }
  return to.whole;
}

#ifdef __wasm_simd128__
/* The one instruction of x86-64 that the crates ask for by its name (serde_json does, by which it looks whether a text is UTF-8): of each byte
 * of `at` the byte of `table` at its last four bits, or 0 where its first bit is set. */
typedef unsigned char bytes __attribute__((vector_size(16)));
bytes shuffle_bytes(bytes table, bytes at);
bytes shuffle_bytes(bytes table, bytes at) {
  return __builtin_wasm_swizzle_i8x16(table, at & 0x8f);
}
#endif
