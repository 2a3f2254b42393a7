// The two parts of a run file (docs/JOURNAL.md, "Run files"): the length of the image in four bytes, the image, the journal. The
// toolchain has accepted the file before it is cut here. A journal's number of threads stands after its four letters and version.
// Tried by web/test/shares.mjs and web/test/opening.mjs.

const LENGTH = 4, THREADS = 6;

export function partsOf(bytes) {
  const length = new DataView(bytes.buffer, bytes.byteOffset).getUint32(0);
  return { image: bytes.slice(LENGTH, LENGTH + length), threads: bytes[LENGTH + length + THREADS] };
}
