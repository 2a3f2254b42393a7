/* The arithmetic of 128 bits against the compiler's own, over random words and each shift. */
#include <stdio.h>
#include <stdlib.h>

typedef unsigned long u64;
typedef __int128 i128;
typedef unsigned __int128 u128;

/* the functions of builtins.c, under other names here: the compiler's library has them too */
i128 asl_multi3(i128 a, i128 b);
i128 asl_ashlti3(i128 a, int bits);
i128 asl_lshrti3(i128 a, int bits);

static u64 seed = 88172645463325252UL;

static u64 word(void) {
  seed ^= seed << 13;
  seed ^= seed >> 7;
  seed ^= seed << 17;
  switch (seed % 8) {
  case 0: return 0;
  case 1: return ~0UL;
  case 2: return 1UL << (seed >> 58);
  default: return seed;
  }
}

static void must(int holds, const char *what) {
  if (holds) return;
  fprintf(stderr, "builtins: %s\n", what);
  exit(1);
}

int main(void) {
  for (int round = 0; round < 1000000; round++) {
    u128 a = (u128)word() << 64 | word(), b = (u128)word() << 64 | word();
    must((u128)asl_multi3((i128)a, (i128)b) == a * b, "a product");
    int bits = round % 128;
    must((u128)asl_ashlti3((i128)a, bits) == a << bits, "a shift to the left");
    must((u128)asl_lshrti3((i128)a, bits) == a >> bits, "a shift to the right");
  }
  puts("builtins: 1 passed, 0 failed");
}
