/* malloc and realloc that can be made to refuse: link with --wrap=malloc and --wrap=realloc. */
#include <stdbool.h>
#include <stddef.h>

static long granted = -1; /* so many requests of memory are granted yet; -1: all */

static bool is_granted(void) {
  if (granted == 0) return false;
  if (granted > 0) granted--;
  return true;
}

#ifdef __cplusplus
extern "C" {
#endif
void *__real_malloc(size_t size);
void *__real_realloc(void *at, size_t size);
void *__wrap_malloc(size_t size);
void *__wrap_realloc(void *at, size_t size);
void *__wrap_malloc(size_t size) { return is_granted() ? __real_malloc(size) : NULL; }
void *__wrap_realloc(void *at, size_t size) { return is_granted() ? __real_realloc(at, size) : NULL; }
#ifdef __cplusplus
}
#endif
