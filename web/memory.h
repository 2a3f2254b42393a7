/* What the heap stands on: the module's memory, or in the tests an array in its place. */
#ifndef ASL_MEMORY_H
#define ASL_MEMORY_H

typedef unsigned long u64;
typedef unsigned char u8;

/* what the library wants back of a request: whether it was met, and where */
typedef struct tried {
  u64 met;
  u8 *at;
} tried;

tried rattle_alloc(u64 bytes, u64 align);
tried rattle_realloc(u8 *at, u64 kept, u64 bytes, u64 align);
void rattle_dealloc(u8 *at);
u8 *asl_take(u64 bytes);
void asl_give(u8 *at);

#ifdef __wasm__
enum { PAGE = 65536 };
extern u8 __heap_base;

static inline u64 first_free_byte(void) { return ((u64)&__heap_base + 15) & ~15UL; }

static inline int grow_memory_to(u64 end) {
  u64 have = __builtin_wasm_memory_size(0) * PAGE;
  return end <= have || __builtin_wasm_memory_grow(0, (end - have + PAGE - 1) / PAGE) != (u64)-1;
}
#else
u64 first_free_byte(void);
int grow_memory_to(u64 end);
#endif

#endif
