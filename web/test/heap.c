/* The heap against a model: random requests over an array in place of the module's memory, each block filled with a pattern
 * of its own, which must still be there when the block is given back; and memory that cannot grow. */
#include "../memory.h"
#include <stdio.h>
#include <stdlib.h>
#include <string.h>

enum { BLOCKS = 500, ROUNDS = 200000, MEMORY = 1 << 26 };

static _Alignas(16) u8 memory[MEMORY];
static u64 limit = MEMORY;

u64 first_free_byte(void) { return (u64)memory; }
int grow_memory_to(u64 end) { return end <= (u64)memory + limit; }

typedef struct {
  u8 *at;
  u64 bytes;
  u8 pattern;
} held;

static held blocks[BLOCKS];
static u64 seed = 88172645463325252UL;

static u64 below(u64 limit_of) {
  seed ^= seed << 13;
  seed ^= seed >> 7;
  seed ^= seed << 17;
  return seed % limit_of;
}

static void must(int holds, const char *what) {
  if (holds) return;
  fprintf(stderr, "heap: %s\n", what);
  exit(1);
}

static void check(const held *block) {
  for (u64 i = 0; i < block->bytes; i++) must(block->at[i] == block->pattern, "a block was written by another");
}

static void fill(held *block, u8 *at, u64 bytes) {
  must(((u64)at & 15) == 0, "a block is not aligned");
  must(at >= memory && at + bytes <= memory + MEMORY, "a block is not in memory");
  *block = (held){at, bytes, (u8)below(256)};
  memset(at, block->pattern, bytes);
}

static void change(held *block) {
  if (!block->at) {
    u64 bytes = below(4) ? below(200) : below(20000);
    tried got = rattle_alloc(bytes, 16);
    if (got.met) fill(block, got.at, bytes);
    return;
  }
  check(block);
  if (below(2)) {
    rattle_dealloc(block->at);
    block->at = 0;
    return;
  }
  u64 bytes = below(30000), kept = bytes < block->bytes ? bytes : block->bytes;
  tried got = rattle_realloc(block->at, block->bytes, bytes, 16);
  if (!got.met) return;
  for (u64 i = 0; i < kept; i++) must(got.at[i] == block->pattern, "a moved block lost a byte");
  fill(block, got.at, bytes);
}

int main(void) {
  for (int round = 0; round < ROUNDS; round++) change(&blocks[below(BLOCKS)]);
  for (int i = 0; i < BLOCKS; i++)
    if (blocks[i].at) check(&blocks[i]);
  limit = 0;
  must(!rattle_alloc(1UL << 30, 16).met, "memory that is not there was given");
  must(!rattle_alloc(~0UL, 16).met, "a size past all memory was met");
  must(!asl_take(1UL << 41), "a size past all memory was taken");
  u8 *kept = 0;
  for (int i = 0; i < BLOCKS && !kept; i++) kept = blocks[i].at;
  must(!rattle_realloc(kept, 1, 1UL << 30, 16).met, "a block grew past memory");
  puts("heap: 1 passed, 0 failed");
}
