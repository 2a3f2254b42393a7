/* Many threads for a long time: they come and go, more of them than have numbers, and fail in sections. Accounts are objects that globals point to;
 * sections transfer, read, replace an account by a new object, put accounts into other globals, and look at them all. Each access asks whether it is
 * covered or fresh; the sum is looked at by sections and at the end of each second, when all threads end and another runtime begins.
 * Run by tests/runtime and tests/release.
 * usage: soak forest|words SECONDS SEED THREADS AT_ONCE */
#define _POSIX_C_SOURCE 200809L
#include "asl_runtime.h"
#include <pthread.h>
#include <stdio.h>
#include <stdlib.h>
#include <string.h>
#include <time.h>

enum { ACCOUNTS = 6, START = 1000, SUM = ACCOUNTS * START, MOST_THREADS = 400 };

static void fail(const char *why) {
  fprintf(stderr, "soak: %s\n", why);
  exit(1);
}

/* ---- the program: globals of class 0, accounts of class 1; the lists are those that its sections would be given */

#define END {ASLR_END, 0, 0, 0, {0}}
#define CELL(mode, r, ...) {ASL_LEAF, mode, ASLR_REGISTER, r, {__VA_ARGS__}}
static const aslr_lock transfers[] = {CELL(ASL_S, 0, 0), CELL(ASL_X, 0, 1, ASLR_FOLLOW), CELL(ASL_S, 1, 0), CELL(ASL_X, 1, 1, ASLR_FOLLOW), END};
static const aslr_lock reads[] = {CELL(ASL_S, 0, 0), CELL(ASL_S, 0, 1, ASLR_FOLLOW), END};
static const aslr_lock replaces[] = {CELL(ASL_X, 0, 0), CELL(ASL_S, 0, 1, ASLR_FOLLOW), END};
static const aslr_lock turns[] = {CELL(ASL_X, 0, 0), CELL(ASL_X, 1, 0), END};
static const aslr_lock totals[] = {{ASL_CLASS, ASL_S, ASLR_REGISTER, 0, {0}}, {ASL_CLASS, ASL_S, ASLR_REGISTER, 1, {0}}, END};
static const aslr_lock all[] = {{ASL_ROOT, ASL_X, ASLR_REGISTER, 0, {0}}, END};
enum { TRANSFERS, READS, REPLACES, TURNS, TOTALS, ALL };
static const aslr_lock *const lists[] = {transfers, reads, replaces, turns, totals, all, NULL};
static const uint16_t classes[ACCOUNTS];
static const aslr_program program = {2, ACCOUNTS, classes, lists, NULL};

static aslr_value get(aslr_thread *t, aslr_value at) {
  aslr_check(t, at, false);
  return aslr_load(t, at);
}

static void set(aslr_thread *t, aslr_value at, aslr_value value) {
  aslr_check(t, at, true);
  aslr_store(t, at, value);
}

/* ---- what threads do */

static aslr_runtime *runtime;
static atomic_bool stops;
static atomic_ullong faults, threads_opened;

typedef struct {
  uint64_t chance;
} worker;

static unsigned draw(worker *w, unsigned below) {
  w->chance = w->chance * 6364136223846793005u + 1442695040888963407u;
  return (unsigned)(w->chance >> 33) % below;
}

/* a fault where nothing is half done */
static void fail_sometimes(aslr_thread *t, worker *w) {
  if (draw(w, 40) == 0) aslr_add(t, ASLR_NULL, aslr_int(draw(w, 9) == 0 ? 1 : 2));
}

static void transfer(aslr_thread *t, worker *w, const aslr_value registers[2]) {
  aslr_enter(t, TRANSFERS, registers);
  aslr_value f = get(t, registers[0]), g = get(t, registers[1]), amount = aslr_int((int32_t)draw(w, 9));
  fail_sometimes(t, w);
  set(t, f, aslr_sub(t, get(t, f), amount));
  set(t, g, aslr_add(t, get(t, g), amount));
  fail_sometimes(t, w);
  aslr_leave(t);
}

static void replace(aslr_thread *t, worker *w, const aslr_value registers[2]) {
  aslr_enter(t, REPLACES, registers);
  aslr_value made = aslr_new(t, 1, 1);
  set(t, made, get(t, get(t, registers[0])));
  fail_sometimes(t, w);
  aslr_enter(t, ALL, registers);
  set(t, registers[0], made);
  fail_sometimes(t, w);
  aslr_leave(t);
  aslr_leave(t);
}

static void turn(aslr_thread *t, worker *w, const aslr_value registers[2]) {
  aslr_enter(t, TURNS, registers);
  aslr_value one = get(t, registers[0]), other = get(t, registers[1]);
  fail_sometimes(t, w);
  set(t, registers[0], other);
  set(t, registers[1], one);
  aslr_leave(t);
}

static int64_t sum(aslr_thread *t) {
  int64_t found = 0;
  for (uint32_t g = 0; g < ACCOUNTS; g++) found += aslr_int_of(get(t, get(t, aslr_glob(t, g))));
  return found;
}

static void look(aslr_thread *t, worker *w, uint32_t list, const aslr_value registers[2]) {
  aslr_enter(t, list, registers);
  if (list == READS)
    get(t, get(t, registers[0]));
  else if (sum(t) != SUM)
    fail("the sum is wrong in a section");
  fail_sometimes(t, w);
  aslr_leave(t);
}

static void do_something(aslr_thread *t, worker *w) {
  unsigned from = draw(w, ACCOUNTS), roll = draw(w, 100);
  const aslr_value registers[2] = {aslr_glob(t, from), aslr_glob(t, (from + 1 + draw(w, ACCOUNTS - 1)) % ACCOUNTS)};
  if (roll < 40) transfer(t, w, registers);
  else if (roll < 60) look(t, w, READS, registers);
  else if (roll < 78) replace(t, w, registers);
  else if (roll < 95) turn(t, w, registers);
  else if (roll < 99) look(t, w, TOTALS, registers);
  else look(t, w, ALL, registers);
}

static void do_turns(aslr_thread *t, worker *w) {
  for (unsigned left = 1 + draw(w, 200); left > 0 && !atomic_load(&stops); left--) do_something(t, w);
}

/* until a fault, or for some turns; whether there is time for more */
static bool do_some(aslr_thread *t, worker *w) {
  if (!setjmp(t->failed)) {
    do_turns(t, w);
  } else {
    if (t->status != ASLR_OK || t->ended_by != ASLR_FAULT_TYPE || t->depth != 0) fail("an access is not covered");
    atomic_fetch_add(&faults, 1);
  }
  return !atomic_load(&stops);
}

static void *work(void *given) {
  worker *w = given;
  bool goes_on = true;
  while (goes_on) {
    aslr_thread *t;
    if (aslr_thread_open(runtime, &t) != ASLR_OK) fail("a thread is refused");
    atomic_fetch_add(&threads_opened, 1);
    goes_on = do_some(t, w);
    if (aslr_thread_close(t) != ASLR_OK) fail("a thread is still in a section");
    if (draw(w, 4) == 0) break; /* another thread of the system goes on in its place */
  }
  return NULL;
}

/* ---- a second */

static void open_accounts(void) {
  aslr_thread *t;
  if (aslr_thread_open(runtime, &t) != ASLR_OK || setjmp(t->failed)) fail("no accounts");
  const aslr_value none[2] = {0};
  aslr_enter(t, ALL, none);
  for (uint32_t g = 0; g < ACCOUNTS; g++) {
    aslr_value made = aslr_new(t, 1, 1);
    set(t, made, aslr_int(START));
    set(t, aslr_glob(t, g), made);
  }
  aslr_leave(t);
  aslr_thread_close(t);
}

static int64_t sum_at_the_end(void) {
  int64_t found = 0;
  for (uint32_t g = 0; g < ACCOUNTS; g++) found += aslr_int_of(aslr_read(aslr_cell_of(aslr_read(aslr_cell_of(aslr_global(runtime, g))))));
  return found;
}

static double seconds(void) {
  struct timespec now;
  clock_gettime(CLOCK_MONOTONIC, &now);
  return (double)now.tv_sec + (double)now.tv_nsec / 1e9;
}

static void run_for_a_second(worker *workers, int threads) {
  pthread_t ids[MOST_THREADS];
  atomic_store(&stops, false);
  for (int i = 0; i < threads; i++)
    if (pthread_create(&ids[i], NULL, work, &workers[i])) fail("a thread does not start");
  for (double end = seconds() + 1; seconds() < end;) /* in turn, those that have ended begin again */
    for (int i = 0; i < threads && seconds() < end; i++) {
      pthread_join(ids[i], NULL);
      if (pthread_create(&ids[i], NULL, work, &workers[i])) fail("a thread does not start");
    }
  atomic_store(&stops, true);
  for (int i = 0; i < threads; i++) pthread_join(ids[i], NULL);
}

int main(int argc, char **argv) {
  if (argc != 6) fail("usage: soak forest|words SECONDS SEED THREADS AT_ONCE");
  int threads = atoi(argv[4]);
  if (threads < 1 || threads > MOST_THREADS) fail("1 to 400 threads");
  aslr_engine engine = strcmp(argv[1], "words") == 0 ? ASLR_WORDS : ASLR_FOREST;
  aslr_options options = {.engine = engine, .at_once = (uint32_t)atoi(argv[5]), .shares_numbers = true};
  static worker workers[MOST_THREADS];
  for (int i = 0; i < threads; i++) workers[i].chance = strtoull(argv[3], NULL, 10) * 1000003 + (uint64_t)i;
  aslr_counts whole = {0};
  for (int left = atoi(argv[2]); left > 0; left--) {
    if (aslr_open(&program, &options, &runtime) != ASLR_OK) fail("no runtime");
    open_accounts();
    run_for_a_second(workers, threads);
    if (sum_at_the_end() != SUM) fail("the sum is wrong");
    aslr_counts counts;
    aslr_counts_of(runtime, &counts);
    whole.sections += counts.sections, whole.refusals += counts.refusals, whole.again += counts.again, whole.sleeps += counts.sleeps;
    if (aslr_close(runtime) != ASLR_OK) fail("the runtime does not close");
  }
  if (!whole.refusals || !whole.again || !faults) fail("nothing was tried");
  printf("%s: sections %llu, refusals %llu, again %llu, sleeps %llu, faults %llu, threads opened %llu\n", argv[1], (unsigned long long)whole.sections,
         (unsigned long long)whole.refusals, (unsigned long long)whole.again, (unsigned long long)whole.sleeps, (unsigned long long)faults,
         (unsigned long long)threads_opened);
}
