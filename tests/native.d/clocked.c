/* Sections that are clocked: each is noted with the moment in which it asked, came in and left, and with the nodes that it held, which are told here
 * by the lists alone. Afterwards no two that clash have overlapped; and under the engine `forest` nobody has passed who asked earlier for what
 * clashes, where that one's list reads no cell. Hundreds come and go over both moves of runtime/asl_holding.h while memory is refused now and
 * then; they fail and give up in sections in each other, read and replace what globals point to, and ask whether cells are covered.
 * Who asks has the guard: its order is that of the first mutex that a thread takes as it enters. Link it as refusing.h says, with
 * --wrap=pthread_mutex_lock,--wrap=pthread_mutex_trylock besides.
 * Run by tests/runtime.
 * usage: clocked forest|words THREADS TURNS SEED AT_ONCE */
#define _POSIX_C_SOURCE 200809L
#include "asl_runtime.h"
#include "refusing.h"
#include <pthread.h>
#include <stdio.h>
#include <stdlib.h>
#include <string.h>
#include <time.h>

enum { GLOBALS = 6, MOST_THREADS = 400, MOST_NODES = 6 };

static void fail(const char *why) {
  fprintf(stderr, "clocked: %s\n", why);
  _Exit(1);
}

static void nap(long microseconds) { nanosleep(&(struct timespec){0, microseconds * 1000}, NULL); }

/* ---- the clock, and who asks when */

static atomic_ullong moments;
static _Thread_local bool enters;
static _Thread_local unsigned long long asked; /* 0: not yet */

static unsigned long long moment(void) { return atomic_fetch_add(&moments, 1) + 1; }

static void note_guard(void) {
  if (enters && !asked) asked = moment();
}

int __real_pthread_mutex_lock(pthread_mutex_t *mutex);
int __real_pthread_mutex_trylock(pthread_mutex_t *mutex);
int __wrap_pthread_mutex_lock(pthread_mutex_t *mutex);
int __wrap_pthread_mutex_trylock(pthread_mutex_t *mutex);
int __wrap_pthread_mutex_lock(pthread_mutex_t *mutex) {
  int status = __real_pthread_mutex_lock(mutex);
  note_guard();
  return status;
}
int __wrap_pthread_mutex_trylock(pthread_mutex_t *mutex) {
  int status = __real_pthread_mutex_trylock(mutex);
  if (status == 0) note_guard();
  return status;
}

/* ---- a program: globals of class 0, what they point to of class 1, of two cells, and an object of class 2 for each thread */

#define END {ASLR_END, 0, 0, 0, {0}}
#define CELL(mode, r, ...) {ASL_LEAF, mode, ASLR_REGISTER, r, {__VA_ARGS__}}
#define ALL(kind, mode, klass) {kind, mode, ASLR_REGISTER, klass, {0}}
static const aslr_lock reads[] = {CELL(ASL_S, 0, 0), END};
static const aslr_lock writes[] = {CELL(ASL_X, 0, 0), END};
static const aslr_lock both[] = {CELL(ASL_S, 0, 0), CELL(ASL_X, 1, 0), END};
static const aslr_lock reads_class[] = {ALL(ASL_CLASS, ASL_S, 0), END};
static const aslr_lock mixed[] = {CELL(ASL_X, 0, 0), ALL(ASL_CLASS, ASL_S, 0), END};
static const aslr_lock writes_class[] = {ALL(ASL_CLASS, ASL_X, 0), END};
static const aslr_lock reads_all[] = {ALL(ASL_ROOT, ASL_S, 0), END};
static const aslr_lock writes_all[] = {ALL(ASL_ROOT, ASL_X, 0), END};
static const aslr_lock behind[] = {CELL(ASL_S, 0, 0), CELL(ASL_X, 0, 2, ASLR_FOLLOW, 1), END};
enum { READS, WRITES, BOTH, READS_CLASS, MIXED, WRITES_CLASS, READS_ALL, WRITES_ALL, BEHIND, LISTS };
static const aslr_lock *const lists[] = {reads, writes, both, reads_class, mixed, writes_class, reads_all, writes_all, behind, NULL};
static const uint16_t classes[GLOBALS];
static const aslr_program program = {3, GLOBALS, classes, lists, NULL};

/* ---- what sections hold */

enum { ROOT = 0, FIRST_CLASS = 1, FIRST_LEAF = 4 };

typedef struct {
  uint32_t node;
  uint8_t mode;
  bool follows; /* its list reads a cell */
  unsigned long long asked, in, out;
} held;

static uint32_t leaf_of(aslr_value at) { return FIRST_LEAF + aslr_object_of(at)->number * 4u + aslr_offset_of(at); }
static uint32_t class_of(aslr_value at) { return FIRST_CLASS + aslr_object_of(at)->klass; }

typedef struct {
  unsigned count;
  held nodes[MOST_NODES];
} holding;

static void hold(holding *all, uint32_t node, uint8_t mode) {
  unsigned i = 0;
  while (i < all->count && all->nodes[i].node != node) i++;
  if (i == all->count) all->nodes[all->count++] = (held){.node = node};
  all->nodes[i].mode |= mode;
}

static void hold_cell(holding *all, aslr_value at, uint8_t mode) {
  hold(all, ROOT, mode == ASL_X ? ASL_IX : ASL_IS);
  hold(all, class_of(at), mode == ASL_X ? ASL_IX : ASL_IS);
  hold(all, leaf_of(at), mode);
}

static void hold_class(holding *all, uint8_t mode) {
  hold(all, ROOT, mode == ASL_X ? ASL_IX : ASL_IS);
  hold(all, FIRST_CLASS, mode);
}

/* the cell behind the first register; or 0 */
static aslr_value cell_behind(aslr_value at) {
  aslr_value v = aslr_read(aslr_cell_of(at));
  return aslr_is_address(v) ? v + (UINT64_C(1) << 56) : 0;
}

/* What a section of the list holds. In the section it is told, since a cell may be read. */
static holding holding_of(uint32_t list, const aslr_value registers[2]) {
  holding all = {0};
  if (list == READS || list == BOTH || list == BEHIND) hold_cell(&all, registers[0], ASL_S);
  if (list == WRITES || list == MIXED) hold_cell(&all, registers[0], ASL_X);
  if (list == BOTH) hold_cell(&all, registers[1], ASL_X);
  if (list == READS_CLASS || list == MIXED) hold_class(&all, ASL_S);
  if (list == WRITES_CLASS) hold_class(&all, ASL_X);
  if (list == READS_ALL || list == WRITES_ALL) hold(&all, ROOT, list == READS_ALL ? ASL_S : ASL_X);
  aslr_value at = list == BEHIND ? cell_behind(registers[0]) : 0;
  if (at) hold_cell(&all, at, ASL_X);
  return all;
}

static bool is_covered(const holding *all, aslr_value at, bool to_write) {
  for (unsigned i = 0; i < all->count; i++) {
    uint32_t node = all->nodes[i].node;
    if ((node == ROOT || node == class_of(at) || node == leaf_of(at)) && all->nodes[i].mode & (to_write ? 8 : 4)) return true;
  }
  return false;
}

/* ---- workers */

static aslr_runtime *runtime;
static bool in_order; /* the engine keeps it */
static int threads;
static atomic_int inside, most_inside, crowds, refused, begun; /* begun: turns */
static atomic_bool is_crowded; /* more than 16 have been inside since 4 were */

typedef struct {
  uint64_t chance;
  aslr_thread *thread;
  aslr_value mine; /* an object */
  int turns;
  held *notes;
  unsigned count;
} worker;

static unsigned draw(worker *w, unsigned below) {
  w->chance = w->chance * 6364136223846793005u + 1442695040888963407u;
  return (unsigned)(w->chance >> 33) % below;
}

static void open_thread(worker *w) {
  uint32_t status;
  while ((status = aslr_thread_open(runtime, &w->thread)) == ASLR_NO_MEMORY) nap(20);
  if (status != ASLR_OK) fail("a thread is refused");
}

static void count_in(void) {
  int now = atomic_fetch_add(&inside, 1) + 1, most = atomic_load(&most_inside);
  while (now > most && !atomic_compare_exchange_weak(&most_inside, &most, now)) continue;
  if (now > 16) atomic_store(&is_crowded, true);
}

static void count_out(void) {
  if (atomic_fetch_sub(&inside, 1) <= 4 && atomic_exchange(&is_crowded, false)) atomic_fetch_add(&crowds, 1);
}

static uint32_t roll_list(worker *w) {
  static const unsigned OFTEN[LISTS] = {26, 46, 60, 64, 70, 72, 74, 76, 100};
  unsigned roll = draw(w, 100);
  uint32_t list = 0;
  while (OFTEN[list] <= roll) list++;
  return list;
}

/* Enters the section; who is refused memory holds nothing, and tries again. */
static void enter(worker *w, uint32_t list, const aslr_value registers[2]) {
  uint32_t status;
  do {
    asked = 0;
    enters = true;
    status = aslr_section_enter(w->thread, list, registers);
    enters = false;
    if (status == ASLR_OK) return;
    if (status != ASLR_NO_MEMORY || w->thread->depth != 0 || aslr_may_access(w->thread, registers[0], false)) fail("a refusal");
    atomic_fetch_add(&refused, 1);
    nap(20);
  } while (true);
}

/* Whether it covers what it holds, and no more. With words two cells may share one. */
static void look(worker *w, const holding *all, const aslr_value registers[2]) {
  const aslr_value cells[] = {registers[0], registers[1], aslr_global(runtime, draw(w, GLOBALS)), w->mine};
  for (int i = 0; i < 4; i++)
    for (int to_write = 0; to_write < 2; to_write++) {
      bool covers = aslr_may_access(w->thread, cells[i], to_write), is = is_covered(all, cells[i], to_write);
      if (in_order ? covers != is : is && !covers) fail("what a section covers");
    }
}

/* Stores where it may: a new object into a global, or a number behind one. */
static void store(worker *w, uint32_t list, const aslr_value registers[2]) {
  aslr_value made = 0, at = list == BEHIND ? cell_behind(registers[0]) : 0;
  if (at) aslr_write(aslr_cell_of(at), aslr_int((int32_t)w->count));
  if (list == WRITES && registers[0] != w->mine && aslr_object_new(w->thread, 2, 1, &made) == ASLR_OK) {
    if (!aslr_may_access(w->thread, made, true)) fail("a new object");
    aslr_write(aslr_cell_of(registers[0]), made);
  }
}

/* Ends all that the thread is in, in one of four ways. */
static void end(worker *w) {
  unsigned how = draw(w, 8);
  if (how < 3 && aslr_section_enter(w->thread, WRITES_ALL, &w->mine) != ASLR_OK) fail("a section in a section");
  if (how == 0) aslr_fault(w->thread, ASLR_FAULT_TYPE);
  if (how == 1 && aslr_abandon(w->thread) != ASLR_OK) fail("it cannot give up");
  if (how == 2 && aslr_section_leave(w->thread) != ASLR_OK) fail("it cannot leave the inner one");
  if (how != 1 && aslr_section_leave(w->thread) != ASLR_OK) fail("it cannot leave");
}

static void note(worker *w, holding *all, uint32_t list, unsigned long long when, unsigned long long in) {
  count_out();
  unsigned long long out = moment();
  for (unsigned i = 0; i < all->count; i++) {
    held *one = &all->nodes[i];
    one->follows = list == BEHIND;
    one->asked = when;
    one->in = in;
    one->out = out;
    w->notes[w->count++] = *one;
  }
}

static void one_section(worker *w, bool many) {
  uint32_t list = many && draw(w, 8) ? WRITES : roll_list(w);
  aslr_value registers[2] = {aslr_global(runtime, draw(w, GLOBALS)), aslr_global(runtime, draw(w, GLOBALS))};
  if (many && list == WRITES) registers[0] = w->mine;
  enter(w, list, registers);
  unsigned long long when = asked, in = moment();
  count_in();
  holding all = holding_of(list, registers);
  store(w, list, registers);
  if (draw(w, 4) == 0) look(w, &all, registers);
  nap(many ? 200 + draw(w, 20 * (unsigned)threads) : draw(w, 3) ? 0 : draw(w, 40));
  holding now = holding_of(list, registers);
  if (list != WRITES && memcmp(&all, &now, sizeof all) != 0) fail("what a section has read has changed");
  note(w, &all, list, when, in);
  end(w);
}

/* By turns all are in sections of their own for long, and few in some for a moment. */
static void *work(void *given) {
  worker *w = given;
  for (volatile int turn = 0; turn < w->turns; turn++) {
    bool many = atomic_fetch_add(&begun, 1) / (8 * threads) % 2;
    if (!setjmp(w->thread->failed)) one_section(w, many);
    if (w->thread->depth != 0 || aslr_may_access(w->thread, w->mine, false)) fail("it is still in a section");
    if (!many && draw(w, 3)) nap(draw(w, 300));
    if (draw(w, 16) == 0) {
      if (aslr_thread_close(w->thread) != ASLR_OK) fail("a thread does not close");
      open_thread(w);
    }
  }
  return NULL;
}

/* ---- memory is refused now and then */

static atomic_bool stops;

static void *refuse(void *given) {
  worker w = {.chance = *(uint64_t *)given};
  while (!atomic_load(&stops)) {
    atomic_store(&granted, (long)draw(&w, 30));
    nap(300);
    atomic_store(&granted, -1);
    nap(draw(&w, 600));
  }
  return NULL;
}

/* ---- afterwards */

static bool modes_go_together(uint8_t a, uint8_t b) {
  static const char TABLE[5][6] = {"yyyy.", "yy...", "y.y..", "y....", "....."}; /* docs/LOCKS.md, without NL */
  static const uint8_t MODES[5] = {ASL_IS, ASL_IX, ASL_S, ASL_SIX, ASL_X};
  unsigned i = 0, j = 0;
  while (MODES[i] != a) i++;
  while (MODES[j] != b) j++;
  return TABLE[i][j] == 'y';
}

static int by_in(const void *a, const void *b) {
  const held *x = a, *y = b;
  if (x->node != y->node) return x->node < y->node ? -1 : 1;
  return x->in < y->in ? -1 : x->in > y->in;
}

static int by_asked(const void *a, const void *b) {
  const held *x = a, *y = b;
  if (x->node != y->node) return x->node < y->node ? -1 : 1;
  return x->asked < y->asked ? -1 : x->asked > y->asked;
}

/* Of those before each at its node: all that clash have left before it came in; `all`: those too whose lists read cells. Returns how many
 * did clash. */
static unsigned long long look_at(const held *notes, size_t count, bool all, const char *why) {
  unsigned long long last[16] = {0}, clashes = 0;
  for (size_t i = 0; i < count; i++) {
    if (i == 0 || notes[i].node != notes[i - 1].node) memset(last, 0, sizeof last);
    for (uint8_t mode = 1; mode < 16; mode++) {
      if (!last[mode] || modes_go_together(mode, notes[i].mode)) continue;
      if (last[mode] > notes[i].in) fail(why);
      clashes++;
    }
    if ((all || !notes[i].follows) && notes[i].out > last[notes[i].mode]) last[notes[i].mode] = notes[i].out;
  }
  return clashes;
}

static void judge(worker *workers) {
  size_t count = 0, at = 0;
  for (int i = 0; i < threads; i++) count += workers[i].count;
  held *all = calloc(count, sizeof *all);
  if (!all) fail("no memory");
  for (int i = 0; i < threads; i++) {
    memcpy(all + at, workers[i].notes, workers[i].count * sizeof *all);
    at += workers[i].count;
    free(workers[i].notes);
  }
  qsort(all, count, sizeof *all, by_in);
  unsigned long long clashes = look_at(all, count, true, "two sections that clash overlap");
  qsort(all, count, sizeof *all, by_asked);
  if (in_order) look_at(all, count, false, "a section has passed one that asked earlier for what clashes");
  free(all);
  if (clashes == 0) fail("nothing clashed");
  printf("%s: %zu nodes held, %llu times after what clashes, at most %d sections at once, %d crowds, memory refused %d times\n",
         in_order ? "forest" : "words", count, clashes, atomic_load(&most_inside), atomic_load(&crowds), atomic_load(&refused));
}

static void make_worker(worker *w, uint64_t seed, int turns) {
  *w = (worker){.chance = seed, .turns = turns, .notes = calloc((size_t)turns * MOST_NODES, sizeof *w->notes)};
  if (!w->notes) fail("no memory");
  open_thread(w);
  if (aslr_object_new(w->thread, 2, 2, &w->mine) != ASLR_OK) fail("no object");
}

int main(int argc, char **argv) {
  if (argc != 6) fail("usage: clocked forest|words THREADS TURNS SEED AT_ONCE");
  threads = atoi(argv[2]);
  if (threads < 1 || threads > MOST_THREADS) fail("1 to 400 threads");
  uint64_t seed = strtoull(argv[4], NULL, 10) * 1000003;
  in_order = strcmp(argv[1], "words") != 0;
  aslr_options options = {.engine = in_order ? ASLR_FOREST : ASLR_WORDS, .at_once = (uint32_t)atoi(argv[5])};
  if (aslr_open(&program, &options, &runtime) != ASLR_OK) fail("no runtime");
  static worker workers[MOST_THREADS];
  static pthread_t ids[MOST_THREADS], refuser;
  for (int i = 0; i < threads; i++) make_worker(&workers[i], seed + (uint64_t)i * 7919, atoi(argv[3]));
  if (pthread_create(&refuser, NULL, refuse, &seed)) fail("a thread does not start");
  for (int i = 0; i < threads; i++)
    if (pthread_create(&ids[i], NULL, work, &workers[i])) fail("a thread does not start");
  for (int i = 0; i < threads; i++) pthread_join(ids[i], NULL);
  atomic_store(&stops, true);
  pthread_join(refuser, NULL);
  for (int i = 0; i < threads; i++)
    if (aslr_thread_close(workers[i].thread) != ASLR_OK) fail("a thread is still in a section");
  judge(workers);
  if (aslr_close(runtime) != ASLR_OK) fail("the runtime does not close");
}
