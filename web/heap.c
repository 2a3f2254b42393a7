/* The heap of the module: blocks of powers of two over the module's memory, which only grows.
 *
 * A block begins with a header of 16 bytes: the power of two of its size. What stands after the header is the caller's, and
 * is aligned to 16 bytes. A block that is given back waits in the list of its size, and is taken again before memory grows.
 * No size is split or joined: a call takes constant time, and a block wastes at most half of its bytes.
 *
 * The library calls the functions whose names begin with `rattle_`; the host takes and gives with `asl_take` and `asl_give`. */
#include "memory.h"

enum { HEADER = 16, LEAST = 5, MOST = 40 };

typedef struct block {
  u64 power;          /* the block has 1 << power bytes, the header among them */
  struct block *next; /* while it waits in a list */
} block;

static u64 top;                /* the first byte that no block has had */
static block *waiting[MOST + 1];

static u64 power_of(u64 bytes) {
  u64 power = LEAST;
  while ((1UL << power) < bytes) power++;
  return power;
}

/* a block that was never used, or none where memory cannot grow so far */
static block *fresh_block(u64 power) {
  u64 begin = top ? top : first_free_byte();
  u64 end = begin + (1UL << power);
  if (!grow_memory_to(end)) return 0;
  top = end;
  return (block *)begin;
}

static u8 *take(u64 bytes) {
  if (bytes > (1UL << MOST) - HEADER) return 0;
  u64 power = power_of(bytes + HEADER);
  block *found = waiting[power];
  if (found)
    waiting[power] = found->next;
  else
    found = fresh_block(power);
  if (!found) return 0;
  found->power = power;
  return (u8 *)found + HEADER;
}

static block *block_of(u8 *bytes) { return (block *)(bytes - HEADER); }

static void give(u8 *bytes) {
  block *given = block_of(bytes);
  given->next = waiting[given->power];
  waiting[given->power] = given;
}

tried rattle_alloc(u64 bytes, u64 align) {
  (void)align; /* at most 16 */
  u8 *at = take(bytes);
  return (tried){at != 0, at};
}

tried rattle_realloc(u8 *at, u64 kept, u64 bytes, u64 align) {
  (void)align;
  if (bytes <= (1UL << block_of(at)->power) - HEADER) return (tried){1, at};
  u8 *moved = take(bytes);
  if (!moved) return (tried){0, at};
  __builtin_memcpy(moved, at, kept < bytes ? kept : bytes);
  give(at);
  return (tried){1, moved};
}

void rattle_dealloc(u8 *at) { give(at); }

u8 *asl_take(u64 bytes) { return take(bytes); }

void asl_give(u8 *at) { give(at); }
