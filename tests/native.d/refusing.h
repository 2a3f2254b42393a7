/* Memory that can be made to refuse: link with --wrap=malloc,--wrap=calloc,--wrap=realloc,--wrap=aligned_alloc. */
#include <stdatomic.h>
#include <stddef.h>

static atomic_long granted = -1; /* so many requests of memory are granted yet; negative: all */

static int is_granted(void) {
  long left = atomic_load(&granted);
  while (left > 0 && !atomic_compare_exchange_weak(&granted, &left, left - 1)) continue;
  return left != 0;
}

void *__real_malloc(size_t size);
void *__real_calloc(size_t count, size_t size);
void *__real_realloc(void *at, size_t size);
void *__real_aligned_alloc(size_t alignment, size_t size);
void *__wrap_malloc(size_t size);
void *__wrap_calloc(size_t count, size_t size);
void *__wrap_realloc(void *at, size_t size);
void *__wrap_aligned_alloc(size_t alignment, size_t size);
void *__wrap_malloc(size_t size) { return is_granted() ? __real_malloc(size) : NULL; }
void *__wrap_calloc(size_t count, size_t size) { return is_granted() ? __real_calloc(count, size) : NULL; }
void *__wrap_realloc(void *at, size_t size) { return is_granted() ? __real_realloc(at, size) : NULL; }
void *__wrap_aligned_alloc(size_t alignment, size_t size) { return is_granted() ? __real_aligned_alloc(alignment, size) : NULL; }
