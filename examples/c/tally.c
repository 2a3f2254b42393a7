/* C that calls the functions of a source from threads of its own, and is called by it in place of two others (docs/PARALLEL.md, "From C").
 * In the top folder of the repository:
 *
 *   ./asl c --entry add --entry read --extern square=squared --extern bump=bumped < examples/c/tally.asl > tally_text.c
 *   cc -O2 -pthread -DASLR_NO_MAIN -I include -I runtime tally_text.c examples/c/tally.c runtime/asl_*.c out/lib/libasl.a -o tally && ./tally
 *
 * Four threads add the squares of the numbers from 1 to 1,000 each, and the sum and how many they were are printed.
 * usage: tally */
#include "asl_runtime.h"
#include <pthread.h>
#include <stdio.h>
#include <stdlib.h>

enum { THREADS = 4, NUMBERS = 1000 };

/* the entries, as the printed text has them */
aslr_value aslr_entry_add(aslr_thread *t, aslr_value n);
aslr_value aslr_entry_read(aslr_thread *t, aslr_value of);

/* in place of functions of the text */
aslr_value squared(aslr_thread *t, aslr_value n);
aslr_value bumped(aslr_thread *t, aslr_value p, aslr_value w);

/* In place of `square`, which accesses nothing: what the language cannot say. */
aslr_value squared(aslr_thread *t, aslr_value n) {
  if (!aslr_is_int(n)) aslr_fault(t, ASLR_FAULT_TYPE);
  uint32_t of = (uint32_t)aslr_int_of(n);
  return aslr_int((int32_t)(of * of));
}

/* In place of `bump`, which loads and stores the cell of p: so the sections that call it hold that cell. */
aslr_value bumped(aslr_thread *t, aslr_value p, aslr_value w) {
  aslr_value old = aslr_load(t, p);
  aslr_store(t, p, aslr_add(t, old, w));
  return old;
}

static void fail(const char *why) {
  fprintf(stderr, "tally: %s\n", why);
  exit(1);
}

static aslr_thread *opened(aslr_runtime *runtime) {
  aslr_thread *t;
  if (aslr_thread_open(runtime, &t) != ASLR_OK) fail("no thread of the runtime");
  return t;
}

/* A thread of the system with one of the runtime. A fault of an entry, and want of memory in it, go on at `failed`. */
static void *add_all(void *given) {
  aslr_thread *t = opened(given);
  if (setjmp(t->failed)) fail("an entry failed");
  for (int32_t n = 1; n <= NUMBERS; n++) aslr_entry_add(t, aslr_int(n));
  aslr_thread_close(t);
  return NULL;
}

/* What the entry `read` gives, which is an integer. */
static int32_t read_one(aslr_runtime *runtime, int32_t of) {
  aslr_thread *t = opened(runtime);
  if (setjmp(t->failed)) fail("an entry failed");
  aslr_value found = aslr_entry_read(t, aslr_int(of));
  aslr_thread_close(t);
  return aslr_int_of(found);
}

int main(void) {
  aslr_runtime *runtime;
  pthread_t threads[THREADS];
  if (aslr_open(aslr_printed, &(aslr_options){.engine = ASLR_WORDS}, &runtime) != ASLR_OK) fail("no runtime");
  for (int i = 0; i < THREADS; i++)
    if (pthread_create(&threads[i], NULL, add_all, runtime)) fail("no thread of the system");
  for (int i = 0; i < THREADS; i++) pthread_join(threads[i], NULL);
  printf("total %d of %d\n", read_one(runtime, 0), read_one(runtime, 1));
  return aslr_close(runtime) == ASLR_OK ? 0 : 1;
}
