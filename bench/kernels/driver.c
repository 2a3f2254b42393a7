/* Measures sections a second of one program that `asl c` printed, with bench_work in the place of its function `work`. EMITTED names its text, P_bank
 * and the like say which it is, and F_transfer and the like which functions are whose. Sections are kept apart by the runtime, or with BENCH_MUTEX by
 * one mutex, BENCH_RWLOCK by one read-write lock, BENCH_TM by transactions of gcc.
 * usage: driver turn                                           how many nanoseconds a turn of work takes
 *        driver ENGINE THREADS MILLISECONDS TURNS              SECTIONS REFUSALS AGAIN SLEEPS a second */
#define _GNU_SOURCE
#include "asl_runtime.h"
#include <pthread.h>
#include <sched.h>
#include <stdio.h>
#include <stdlib.h>
#include <string.h>
#include <time.h>

/* ---- how sections are kept apart */

#ifdef BENCH_TM
_Noreturn void aslr_fault(aslr_thread *t, aslr_fault_kind fault) __attribute__((transaction_pure));
aslr_value aslr_new(aslr_thread *t, uint8_t s, uint16_t k) __attribute__((transaction_pure));
#define PURE __attribute__((transaction_pure))
#else
#define PURE
#endif
aslr_value bench_work(aslr_thread *t, aslr_value turns) PURE;

#if defined BENCH_MUTEX
static pthread_mutex_t one = PTHREAD_MUTEX_INITIALIZER;
#define aslr_enter(t, ...) ((t)->counts.sections++, pthread_mutex_lock(&one))
#define aslr_leave(t) pthread_mutex_unlock(&one)
#elif defined BENCH_RWLOCK
static pthread_rwlock_t one = PTHREAD_RWLOCK_INITIALIZER;
static bool writes[256];
#define aslr_enter(t, list, ...) ((t)->counts.sections++, writes[list] ? pthread_rwlock_wrlock(&one) : pthread_rwlock_rdlock(&one))
#define aslr_leave(t) pthread_rwlock_unlock(&one)
#endif

#define main emitted_main
#include EMITTED
#undef main
#undef aslr_enter
#undef aslr_leave

static void read_writes(void) {
#ifdef BENCH_RWLOCK
  for (int l = 0; aslr_lists[l]; l++)
    for (const aslr_lock *lock = aslr_lists[l]; lock->kind != ASLR_END; lock++) writes[l] = writes[l] || lock->mode == ASL_X;
#endif
}

/* ---- work */

aslr_value bench_work(aslr_thread *t, aslr_value turns) {
  (void)t;
  for (int32_t n = aslr_int_of(turns); n > 0; n--) __asm__ volatile("");
  return turns;
}

static double seconds(void) {
  struct timespec now;
  clock_gettime(CLOCK_MONOTONIC, &now);
  return (double)now.tv_sec + (double)now.tv_nsec / 1e9;
}

static double nanoseconds_a_turn(void) {
  double best = 1e9;
  for (int i = 0; i < 400; i++) {
    double begin = seconds();
    bench_work(NULL, aslr_int(100000));
    double took = (seconds() - begin) * 1e9 / 100000;
    if (took < best) best = took;
  }
  return best;
}

/* ---- the programs: how one begins, a section of it, and whether its data are right in the end */

#if defined P_bank
enum { ACCOUNTS = 64 };
static void setup(aslr_thread *t) {
  for (unsigned i = 0; i < ACCOUNTS; i++) F_open(t, aslr_glob(t, i));
}
static void section(aslr_thread *t, uint64_t r, aslr_value turns) {
  unsigned from = r % ACCOUNTS, to = (from + 1 + (r >> 8) % (ACCOUNTS - 1)) % ACCOUNTS;
  F_transfer(t, aslr_glob(t, from), aslr_glob(t, to), aslr_int((int32_t)(r >> 20) % 10), turns);
}
static bool is_right(aslr_thread *t) {
  int64_t sum = 0;
  for (unsigned i = 0; i < ACCOUNTS; i++) sum += aslr_int_of(aslr_load(t, aslr_load(t, aslr_glob(t, i))));
  return sum == 1000 * ACCOUNTS;
}
#elif defined P_hash
enum { LENGTH = 8 };
typedef aslr_value operation(aslr_thread *, aslr_value, aslr_value);
typedef aslr_value pushing(aslr_thread *, aslr_value);
#define EACH(F) {F(0), F(1), F(2), F(3), F(4), F(5), F(6), F(7), F(8), F(9), F(10), F(11), F(12), F(13), F(14), F(15)}
#define FIND(i) F_find##i
#define BUMP(i) F_bump##i
#define PUSH(i) F_push##i
static operation *const finds[] = EACH(FIND), *const bumps[] = EACH(BUMP);
static pushing *const pushes[] = EACH(PUSH);
static void setup(aslr_thread *t) {
  for (int key = 0; key < LENGTH; key++)
    for (int b = 0; b < 16; b++) pushes[b](t, aslr_int(key));
}
static void section(aslr_thread *t, uint64_t r, aslr_value turns) {
  aslr_value key = aslr_int((int32_t)((r >> 8) % LENGTH));
  (r >> 20 & 1 ? finds : bumps)[r % 16](t, key, turns);
}
static bool is_right(aslr_thread *t) { return aslr_is_address(aslr_load(t, aslr_glob(t, 0))); }
#elif defined P_list
enum { LENGTH = 32 };
static void setup(aslr_thread *t) {
  for (int i = 0; i < LENGTH; i++) F_push(t, aslr_int(i));
}
static void section(aslr_thread *t, uint64_t r, aslr_value turns) { r >> 20 & 1 ? F_walk(t, turns) : F_rotate(t, turns); }
static bool is_right(aslr_thread *t) {
  int length = 0;
  for (aslr_value x = aslr_load(t, aslr_glob(t, 0)); aslr_is_address(x); x = aslr_load(t, aslr_field(t, x, 1))) length++;
  return length == LENGTH;
}
#elif defined P_tree
enum { KEYS = 1023 };
static void setup(aslr_thread *t) { /* the middle first, so that it is level */
  for (int step = 512; step > 0; step /= 2)
    for (int key = step; key <= KEYS; key += 2 * step) F_insert(t, aslr_int(key));
}
static void section(aslr_thread *t, uint64_t r, aslr_value turns) {
  aslr_value key = aslr_int((int32_t)(1 + r % KEYS));
  (r >> 20) % 20 == 0 ? F_touch(t, key, turns) : F_find(t, key, turns);
}
static bool is_right(aslr_thread *t) { return aslr_is_address(aslr_load(t, aslr_glob(t, 0))); }
#elif defined P_queue
enum { LENGTH = 16 };
static void setup(aslr_thread *t) {
  for (int i = 0; i < LENGTH; i++) F_put(t, aslr_int(i));
}
static void section(aslr_thread *t, uint64_t r, aslr_value turns) { (void)r, F_pass(t, turns); }
static bool is_right(aslr_thread *t) {
  int length = 0;
  for (aslr_value x = aslr_load(t, aslr_glob(t, 0)); aslr_is_address(x); x = aslr_load(t, aslr_field(t, x, 1))) length++;
  return length == LENGTH;
}
#endif

/* ---- threads */

static void fail(const char *why) {
  fprintf(stderr, "driver: %s\n", why);
  exit(1);
}

static atomic_bool stops;
static aslr_value work_turns;

typedef struct {
  _Alignas(64) aslr_thread *thread;
  uint64_t made;
  unsigned number;
} runner;

static void *repeat(void *given) {
  runner *self = given;
  cpu_set_t cpu; /* else threads may share a processor */
  CPU_ZERO(&cpu);
  CPU_SET(self->number % CPU_SETSIZE, &cpu);
  pthread_setaffinity_np(pthread_self(), sizeof cpu, &cpu);
  uint64_t random = 88172645463325252u + self->number * 7919u, made = 0;
  if (setjmp(self->thread->failed)) fail("a section has a fault");
  for (; !atomic_load_explicit(&stops, memory_order_relaxed); made++) {
    random ^= random << 13;
    random ^= random >> 7;
    random ^= random << 17;
    section(self->thread, random >> 11, work_turns);
    self->made++;
  }
  return NULL;
}

static void measure(aslr_runtime *runtime, int threads, long milliseconds) {
  static runner runners[64];
  pthread_t ids[64];
  for (int i = 0; i < threads; i++) {
    runners[i].number = (unsigned)i;
    if (aslr_thread_open(runtime, &runners[i].thread) != ASLR_OK) fail("no thread");
  }
  double begin = seconds();
  for (int i = 0; i < threads; i++)
    if (pthread_create(&ids[i], NULL, repeat, &runners[i])) fail("a thread does not start");
  nanosleep(&(struct timespec){milliseconds / 1000, milliseconds % 1000 * 1000000}, NULL);
  atomic_store(&stops, true);
  uint64_t made = 0;
  for (int i = 0; i < threads; i++) {
    pthread_join(ids[i], NULL);
    made += runners[i].made;
  }
  double took = seconds() - begin;
  for (int i = 0; i < threads; i++) aslr_thread_close(runners[i].thread);
  aslr_counts counts;
  aslr_counts_of(runtime, &counts);
  printf("%.0f %.0f %.0f %.0f\n", (double)made / took, (double)counts.refusals / took, (double)counts.again / took, (double)counts.sleeps / took);
}

int main(int argc, char **argv) {
  (void)emitted_main;
  if (argc == 2 && strcmp(argv[1], "turn") == 0) return printf("%.6f\n", nanoseconds_a_turn()) < 0;
  if (argc != 5 || atoi(argv[2]) < 1 || atoi(argv[2]) > 64) fail("usage: driver ENGINE THREADS MILLISECONDS TURNS");
  aslr_options options = {.engine = strcmp(argv[1], "words") == 0 ? ASLR_WORDS : ASLR_FOREST, .shares_numbers = true};
  aslr_runtime *runtime;
  aslr_thread *first;
  if (aslr_open(&aslr_this, &options, &runtime) != ASLR_OK || aslr_thread_open(runtime, &first) != ASLR_OK) fail("no runtime");
  if (setjmp(first->failed)) fail("the setup has a fault");
  read_writes();
  setup(first);
  work_turns = aslr_int(atoi(argv[4]));
  measure(runtime, atoi(argv[2]), atol(argv[3]));
  if (!is_right(first)) fail("the data are wrong");
  aslr_thread_close(first);
  aslr_close(runtime);
}
