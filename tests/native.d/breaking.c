/* What may go wrong around sections, under both engines: cells outside of objects; threads that are opened again, too many of them, cancelled
 * while they wait, and given up in sections; crowds that wait; runtimes that are closed as soon as they may be; signals; a process that was forked;
 * who fails where nobody has set where to go on; lists as long as they may be; and a heap whose objects change their shape while lists are
 * evaluated. Run by tests/runtime. */
#define _POSIX_C_SOURCE 200809L
#ifdef __linux__
#define _GNU_SOURCE /* for sched_setaffinity */
#endif
#include "asl_runtime.h"
#include <pthread.h>
#include <sched.h>
#include <signal.h>
#include <stdio.h>
#include <stdlib.h>
#include <string.h>
#include <sys/resource.h>
#include <sys/time.h>
#include <sys/wait.h>
#include <time.h>
#include <unistd.h>

static atomic_int passed;

static void must(int line, bool holds) {
  if (!holds) {
    fprintf(stderr, "breaking.c:%d\n", line);
    _exit(1);
  }
  atomic_fetch_add(&passed, 1);
}
#define MUST(condition) must(__LINE__, condition)

static void moment(long milliseconds) { nanosleep(&(struct timespec){0, milliseconds * 1000000}, NULL); }

/* ---- a program: four globals of class 0, objects of class 1 */

#define END {ASLR_END, 0, 0, 0, {0}}
static const aslr_lock on_cell[] = {{ASL_LEAF, ASL_X, ASLR_REGISTER, 0, {0}}, END};
static const aslr_lock on_root[] = {{ASL_ROOT, ASL_X, ASLR_REGISTER, 0, {0}}, END};
static const aslr_lock deep[] = {
  {ASL_LEAF, ASL_S, ASLR_REGISTER, 0, {0}}, {ASL_LEAF, ASL_S, ASLR_REGISTER, 0, {2, ASLR_FOLLOW, 1}},
  {ASL_LEAF, ASL_X, ASLR_REGISTER, 0, {4, ASLR_FOLLOW, 1, ASLR_FOLLOW, 2}}, END};
static const aslr_lock stores[] = {{ASL_LEAF, ASL_X, ASLR_REGISTER, 0, {0}}, {ASL_LEAF, ASL_X, ASLR_REGISTER, 0, {2, ASLR_FOLLOW, 1}}, END};
enum { ON_CELL, ON_ROOT, DEEP, STORES, LONGEST, GLOBALS = 4, MOST_LOCKS = 256 };
static aslr_lock longest[MOST_LOCKS + 1];
static const aslr_lock *const lists[] = {on_cell, on_root, deep, stores, longest, NULL};
static const uint16_t classes[GLOBALS];
static const aslr_program program = {2, GLOBALS, classes, lists, NULL};

static aslr_engine engine;

static aslr_runtime *opened_for(const aslr_program *of, uint32_t at_once) {
  aslr_runtime *runtime = NULL;
  MUST(aslr_open(of, &(aslr_options){.engine = engine, .at_once = at_once, .shares_numbers = true}, &runtime) == ASLR_OK);
  return runtime;
}

static aslr_thread *thread_of(aslr_runtime *runtime) {
  aslr_thread *thread = NULL;
  MUST(aslr_thread_open(runtime, &thread) == ASLR_OK);
  return thread;
}

static void end(aslr_runtime *runtime, aslr_thread *thread) {
  MUST(aslr_thread_close(thread) == ASLR_OK && aslr_close(runtime) == ASLR_OK);
}

/* ---- cells */

/* whether so many cells on from an address is a fault */
static bool is_outside(aslr_thread *t, aslr_value at, uint32_t on) {
  if (setjmp(t->failed)) return t->ended_by == ASLR_FAULT_BOUNDS;
  aslr_field(t, at, on);
  return false;
}

/* C may go on by any number, also by one that leads around to an earlier cell in 32 bits or in 8. */
static void stays_in_objects(void) {
  aslr_runtime *runtime = opened_for(&program, 0);
  aslr_thread *t = thread_of(runtime);
  aslr_value made;
  MUST(aslr_object_new(t, 3, 1, &made) == ASLR_OK);
  aslr_value last = aslr_field(t, made, 2);
  MUST(!is_outside(t, made, 2) && is_outside(t, made, 3) && !is_outside(t, last, 0) && is_outside(t, last, 1));
  MUST(is_outside(t, last, 254) && is_outside(t, last, 255) && is_outside(t, last, 256));
  MUST(is_outside(t, last, UINT32_MAX) && is_outside(t, last, UINT32_MAX - 1));
  end(runtime, t);
}

/* ---- threads */

static void never(aslr_thread *t) {
  (void)t;
  MUST(false);
}

static void is_opened_anew(void) {
  aslr_runtime *runtime = opened_for(&program, 0);
  aslr_thread *t = thread_of(runtime);
  aslr_value a = aslr_global(runtime, 0);
  t->number = 7;
  if (!setjmp(t->failed)) {
    aslr_enter(t, ON_CELL, &a);
    aslr_check(t, aslr_global(runtime, 1), true);
  }
  MUST(t->depth == 0 && t->status == ASLR_OK && t->ended_by == ASLR_FAULT_UNPROTECTED && t->fault_writes);
  if (!setjmp(t->failed)) aslr_stop(t, ASLR_NO_MEMORY);
  MUST(t->status == ASLR_NO_MEMORY);
  t->before_access = never;
  MUST(aslr_thread_close(t) == ASLR_OK && thread_of(runtime) == t);
  MUST(t->number == 0 && t->status == ASLR_OK && t->fault_at == 0 && !t->fault_writes && t->frames == 1 && t->counts.sections == 0);
  if (setjmp(t->failed)) MUST(false);
  aslr_enter(t, ON_CELL, &a);
  aslr_check(t, a, true);
  MUST(!aslr_may_access(t, aslr_int(5), false) && !aslr_may_access(t, ASLR_NULL, true) && !aslr_may_access(t, 0, false));
  aslr_leave(t);
  end(runtime, t);
}

/* With words as many threads may be open as a word can count; with the forest any number, of which so many hold something as it has numbers. */
static void opens_many(void) {
  enum { MANY = 16383 };
  static aslr_thread *threads[MANY];
  aslr_runtime *runtime = opened_for(&program, 0);
  for (int i = 0; i < MANY; i++) threads[i] = thread_of(runtime);
  aslr_thread *more = NULL;
  MUST(aslr_thread_open(runtime, &more) == (engine == ASLR_WORDS ? ASLR_BAD_COUNT : ASLR_OK) && !more == (engine == ASLR_WORDS));
  MUST(aslr_thread_close(more ? more : threads[0]) == ASLR_OK);
  more = thread_of(runtime);
  int in = 0, most = engine == ASLR_WORDS ? 1 : 128; /* with words two cells may share one */
  for (int i = 1; i <= most; i++) { /* each is in a section of its own cell */
    aslr_value made;
    MUST(aslr_object_new(threads[i], 1, 1, &made) == ASLR_OK && aslr_section_enter(threads[i], ON_CELL, &made) == ASLR_OK);
    in += aslr_may_access(threads[i], made, true);
  }
  MUST(in == most && aslr_close(runtime) == ASLR_IN_USE);
  for (int i = 1; i <= most; i++) MUST(aslr_abandon(threads[i]) == ASLR_OK);
  for (int i = 1; i < MANY; i++) MUST(aslr_thread_close(threads[i]) == ASLR_OK);
  if (engine == ASLR_FOREST) MUST(aslr_thread_close(threads[0]) == ASLR_OK);
  end(runtime, more);
}

typedef struct {
  aslr_thread *thread;
  aslr_value at;
  const aslr_value *registers; /* of the longest list; NULL: it asks for the cell at `at` */
  atomic_int in; /* sections that it has entered */
} visitor;

static void give_up(void *thread) { aslr_abandon(thread); }

/* Waits for its section, and is in it until it is cancelled; in no call that sanitizers watch, since they lose sight of threads that end there. */
static void *visit_until_cancelled(void *given) {
  visitor *v = given;
  pthread_cleanup_push(give_up, v->thread);
  MUST(aslr_section_enter(v->thread, ON_CELL, &v->at) == ASLR_OK);
  atomic_fetch_add(&v->in, 1);
  for (;;) pthread_testcancel();
  pthread_cleanup_pop(1);
  return NULL;
}

static void *visit(void *given) {
  visitor *v = given;
  MUST(aslr_section_enter(v->thread, v->registers ? LONGEST : ON_CELL, v->registers ? v->registers : &v->at) == ASLR_OK);
  atomic_fetch_add(&v->in, 1);
  MUST(aslr_section_leave(v->thread) == ASLR_OK);
  return NULL;
}

/* Who is cancelled while it waits has its turn, ends in the section, and gives back by its cleanup handler; who waits behind goes on. */
static void is_cancelled(void) {
  aslr_runtime *runtime = opened_for(&program, 0);
  aslr_thread *holder = thread_of(runtime);
  visitor first = {.thread = thread_of(runtime), .at = aslr_global(runtime, 0)}, second = {.thread = thread_of(runtime), .at = first.at};
  pthread_t ids[2];
  void *ended;
  MUST(aslr_section_enter(holder, ON_CELL, &first.at) == ASLR_OK);
  MUST(pthread_create(&ids[0], NULL, visit_until_cancelled, &first) == 0);
  moment(200);
  MUST(pthread_create(&ids[1], NULL, visit, &second) == 0);
  moment(100);
  MUST(pthread_cancel(ids[0]) == 0);
  moment(100);
  MUST(atomic_load(&first.in) == 0 && atomic_load(&second.in) == 0);
  MUST(aslr_section_leave(holder) == ASLR_OK);
  MUST(pthread_join(ids[0], &ended) == 0 && ended == PTHREAD_CANCELED && pthread_join(ids[1], NULL) == 0);
  MUST(atomic_load(&first.in) == 1 && atomic_load(&second.in) == 1 && first.thread->depth == 0);
  MUST(aslr_thread_close(first.thread) == ASLR_OK && aslr_thread_close(second.thread) == ASLR_OK);
  end(runtime, holder);
}

/* Who gives up sections in each other lets those go on who wait, and is in none. */
static void gives_up_nested_sections(void) {
  aslr_runtime *runtime = opened_for(&program, 0);
  aslr_thread *holder = thread_of(runtime);
  visitor v = {.thread = thread_of(runtime), .at = aslr_global(runtime, 0)};
  pthread_t id;
  for (int depth = 0; depth < 3; depth++) MUST(aslr_section_enter(holder, ON_CELL, &v.at) == ASLR_OK);
  MUST(pthread_create(&id, NULL, visit, &v) == 0);
  moment(100);
  MUST(atomic_load(&v.in) == 0 && aslr_section_leave(holder) == ASLR_OK && aslr_abandon(holder) == ASLR_OK);
  MUST(pthread_join(id, NULL) == 0 && atomic_load(&v.in) == 1);
  MUST(holder->depth == 0 && holder->section == 0 && aslr_section_leave(holder) == ASLR_NO_SECTION && !aslr_may_access(holder, v.at, false));
  MUST(aslr_thread_close(v.thread) == ASLR_OK);
  end(runtime, holder);
}

/* ---- crowds */

enum { CROWD = 300 };

static long sleeps_of_process(void) {
  struct rusage used;
  MUST(getrusage(RUSAGE_SELF, &used) == 0);
  return used.ru_nvcsw;
}

/* It sleeps in its section, so that those who were woken in vain sleep again. */
static void *visit_longer(void *given) {
  visitor *v = given;
  MUST(aslr_section_enter(v->thread, ON_CELL, &v->at) == ASLR_OK);
  atomic_fetch_add(&v->in, 1);
  moment(1);
  MUST(aslr_section_leave(v->thread) == ASLR_OK);
  return NULL;
}

/* Where hundreds wait at one cell, who gives back wakes the one that goes on, and who comes elsewhere need not wait. */
static void wakes_who_goes_on(void) {
  aslr_runtime *runtime = opened_for(&program, 0);
  aslr_thread *holder = thread_of(runtime), *other = thread_of(runtime);
  static visitor v[CROWD];
  static pthread_t ids[CROWD];
  aslr_value at = aslr_global(runtime, 0), elsewhere = aslr_global(runtime, 1);
  MUST(aslr_section_enter(holder, ON_CELL, &at) == ASLR_OK);
  for (int i = 0; i < CROWD; i++) {
    v[i] = (visitor){.thread = thread_of(runtime), .at = at};
    MUST(pthread_create(&ids[i], NULL, visit_longer, &v[i]) == 0);
  }
  moment(500);
  MUST(aslr_section_enter(other, ON_CELL, &elsewhere) == ASLR_OK && other->counts.refusals == 0 && aslr_section_leave(other) == ASLR_OK);
  long before = sleeps_of_process();
  MUST(aslr_section_leave(holder) == ASLR_OK);
  for (int i = 0; i < CROWD; i++) MUST(pthread_join(ids[i], NULL) == 0 && atomic_load(&v[i].in) == 1 && aslr_thread_close(v[i].thread) == ASLR_OK);
  MUST(sleeps_of_process() - before < 20 * CROWD);
  MUST(aslr_thread_close(other) == ASLR_OK);
  end(runtime, holder);
}

/* On one processor who waits sleeps at once, however long it may look: else nobody could give back meanwhile. */
static void sleeps_on_one_processor(void) {
#ifdef __linux__
  cpu_set_t all, one;
  int first = 0;
  MUST(sched_getaffinity(0, sizeof all, &all) == 0);
  while (!CPU_ISSET(first, &all)) first++;
  CPU_ZERO(&one);
  CPU_SET(first, &one);
  MUST(sched_setaffinity(0, sizeof one, &one) == 0);
  aslr_runtime *runtime = NULL;
  MUST(aslr_open(&program, &(aslr_options){.engine = engine, .spin_ns = UINT32_MAX}, &runtime) == ASLR_OK);
  MUST(sched_setaffinity(0, sizeof all, &all) == 0);
  aslr_thread *holder = thread_of(runtime);
  visitor v = {.thread = thread_of(runtime), .at = aslr_global(runtime, 0)};
  pthread_t id;
  for (int turn = 0; turn < 20 && v.thread->counts.sleeps == 0; turn++) { /* on a busy machine it may come too late to wait */
    MUST(aslr_section_enter(holder, ON_CELL, &v.at) == ASLR_OK && pthread_create(&id, NULL, visit, &v) == 0);
    moment(100);
    MUST(aslr_section_leave(holder) == ASLR_OK && pthread_join(id, NULL) == 0);
  }
  MUST(v.thread->counts.sleeps > 0 && aslr_thread_close(v.thread) == ASLR_OK);
  end(runtime, holder);
#endif
}

/* Twenty sections: at a global, at all, and behind a global, whose cell leads to an object that others replace. */
static void *visit_often(void *given) {
  visitor *v = given;
  aslr_thread *t = v->thread;
  if (setjmp(t->failed)) MUST(false);
  for (unsigned i = 0; i < 20; i++) {
    unsigned roll = (unsigned)v->at + i;
    aslr_value at = aslr_global(t->runtime, roll % GLOBALS);
    aslr_enter(t, roll % 23 == 0 ? ON_ROOT : roll % 5 == 0 ? STORES : ON_CELL, &at);
    aslr_value old = aslr_load(t, at), made = aslr_new(t, 2, 1);
    aslr_store(t, made, (aslr_is_address(old) ? aslr_load(t, old) : 0) + aslr_int(1));
    aslr_store(t, at, made);
    aslr_leave(t);
  }
  return NULL;
}

/* Everybody comes in, whatever those wait for who stand before and behind, and with few numbers too. */
static void crowds_come_in(uint32_t at_once) {
  aslr_runtime *runtime = opened_for(&program, at_once);
  static visitor v[CROWD];
  static pthread_t ids[CROWD];
  int sum = 0;
  for (int i = 0; i < CROWD; i++) {
    v[i] = (visitor){.thread = thread_of(runtime), .at = (aslr_value)i};
    MUST(pthread_create(&ids[i], NULL, visit_often, &v[i]) == 0);
  }
  for (int i = 0; i < CROWD; i++) MUST(pthread_join(ids[i], NULL) == 0 && aslr_thread_close(v[i].thread) == ASLR_OK);
  for (uint32_t g = 0; g < GLOBALS; g++) sum += aslr_int_of(aslr_read(aslr_cell_of(aslr_read(aslr_cell_of(aslr_global(runtime, g))))));
  MUST(sum == 20 * CROWD && aslr_close(runtime) == ASLR_OK);
}

/* ---- runtimes */

/* Runtimes one after the other, each closed when its last thread has been: who woke another may be the last one there. */
static void closes_at_once(void) {
  for (int turn = 0; turn < 200; turn++) {
    aslr_runtime *runtime = opened_for(&program, 1 + (uint32_t)turn % 2);
    aslr_thread *holder = thread_of(runtime);
    visitor v[2] = {{.thread = thread_of(runtime), .at = aslr_global(runtime, 0)}, {.thread = thread_of(runtime), .at = aslr_global(runtime, 0)}};
    pthread_t ids[2];
    MUST(aslr_section_enter(holder, turn % 3 ? ON_CELL : ON_ROOT, &v[0].at) == ASLR_OK);
    for (int i = 0; i < 2; i++) MUST(pthread_create(&ids[i], NULL, visit, &v[i]) == 0);
    if (turn % 4 == 0) moment(1);
    MUST(aslr_section_leave(holder) == ASLR_OK && aslr_thread_close(holder) == ASLR_OK);
    for (int i = 0; i < 2; i++) MUST(pthread_join(ids[i], NULL) == 0 && aslr_thread_close(v[i].thread) == ASLR_OK);
    MUST(aslr_close(runtime) == ASLR_OK);
  }
}

static void opens_the_least(void) {
  static const aslr_lock *const none[] = {NULL}, *const root_alone[] = {on_root, NULL};
  const aslr_program empty = {0, 0, NULL, none, NULL}, least = {0, 0, NULL, root_alone, NULL};
  aslr_runtime *runtime = opened_for(&empty, 0);
  aslr_thread *t = thread_of(runtime);
  aslr_value any = ASLR_NULL, made;
  MUST(aslr_section_enter(t, 0, &any) == ASLR_BAD_SECTION && aslr_object_new(t, 1, 0, &made) == ASLR_BAD_SIZE);
  end(runtime, t);
  runtime = opened_for(&least, 1);
  t = thread_of(runtime);
  MUST(aslr_section_enter(t, 0, &any) == ASLR_OK && aslr_section_leave(t) == ASLR_OK);
  end(runtime, t);
}

/* A list as long as it may be, each of whose paths is as long as it may be: 256 locks, each at a cell, a class and the root. */
static void asks_for_the_most(void) {
  enum { CLASSES = MOST_LOCKS };
  const aslr_program wide = {CLASSES, GLOBALS, classes, lists, NULL};
  aslr_runtime *runtime = opened_for(&wide, 0);
  aslr_thread *t = thread_of(runtime), *other = thread_of(runtime);
  static aslr_value registers[MOST_LOCKS];
  for (unsigned i = 0; i < MOST_LOCKS; i++) { /* an object whose first cell leads to itself */
    MUST(aslr_object_new(t, 2, (uint16_t)i, &registers[i]) == ASLR_OK);
    aslr_store(t, registers[i], registers[i]);
  }
  MUST(aslr_section_enter(t, LONGEST, registers) == ASLR_OK);
  for (unsigned i = 0; i < MOST_LOCKS; i++) MUST(aslr_may_access(t, registers[i], true));
  if (engine == ASLR_FOREST) MUST(!aslr_may_access(t, aslr_field(t, registers[0], 1), true)); /* with words two cells may share one */
  MUST(aslr_section_leave(t) == ASLR_OK);
  /* one whose last path leads through a cell that is covered for writing waits until it is given back */
  visitor v = {.thread = other, .registers = registers};
  pthread_t id;
  MUST(aslr_section_enter(t, ON_CELL, &registers[MOST_LOCKS - 1]) == ASLR_OK && pthread_create(&id, NULL, visit, &v) == 0);
  moment(100);
  MUST(atomic_load(&v.in) == 0 && aslr_section_leave(t) == ASLR_OK && pthread_join(id, NULL) == 0 && atomic_load(&v.in) == 1);
  MUST(aslr_thread_close(other) == ASLR_OK);
  end(runtime, t);
}

/* ---- what comes from outside */

static atomic_int alarms;

static void on_alarm(int number) {
  (void)number;
  atomic_fetch_add(&alarms, 1);
}

static void *count_up(void *given) {
  visitor *v = given;
  for (int i = 0; i < 2000; i++) {
    MUST(aslr_section_enter(v->thread, ON_CELL, &v->at) == ASLR_OK);
    aslr_store(v->thread, v->at, aslr_load(v->thread, v->at) + aslr_int(1));
    if (i % 500 == 0) moment(1);
    MUST(aslr_section_leave(v->thread) == ASLR_OK);
  }
  return NULL;
}

/* Signals meet threads in sections, and while they wait. */
static void goes_on_after_signals(void) {
  aslr_runtime *runtime = opened_for(&program, 0);
  visitor v[4];
  pthread_t ids[4];
  struct itimerval often = {{0, 500}, {0, 500}}, off = {{0, 0}, {0, 0}};
  struct sigaction action = {.sa_handler = on_alarm}; /* calls that are interrupted are not begun again */
  sigemptyset(&action.sa_mask);
  MUST(sigaction(SIGALRM, &action, NULL) == 0 && setitimer(ITIMER_REAL, &often, NULL) == 0);
  for (int i = 0; i < 4; i++) {
    v[i] = (visitor){.thread = thread_of(runtime), .at = aslr_global(runtime, 0)};
    MUST(pthread_create(&ids[i], NULL, count_up, &v[i]) == 0);
  }
  for (int i = 0; i < 4; i++) MUST(pthread_join(ids[i], NULL) == 0 && aslr_thread_close(v[i].thread) == ASLR_OK);
  setitimer(ITIMER_REAL, &off, NULL);
  MUST(aslr_read(aslr_cell_of(v[0].at)) == aslr_int(8000) && atomic_load(&alarms) > 0 && aslr_close(runtime) == ASLR_OK);
}

/* A process that was forked where no other thread was there goes on by itself, with the same runtime and with others. */
static void goes_on_in_a_fork(void) {
  aslr_runtime *runtime = opened_for(&program, 0);
  aslr_thread *t = thread_of(runtime);
  aslr_value at = aslr_global(runtime, 0);
  MUST(aslr_section_enter(t, ON_CELL, &at) == ASLR_OK);
  pid_t child = fork();
  if (child == 0) {
    aslr_runtime *other = opened_for(&program, 0);
    aslr_thread *u = thread_of(other);
    aslr_value there = aslr_global(other, 0);
    MUST(aslr_section_enter(u, ON_CELL, &there) == ASLR_OK && aslr_section_leave(u) == ASLR_OK);
    end(other, u);
  }
  MUST(aslr_may_access(t, at, true) && aslr_section_leave(t) == ASLR_OK);
  end(runtime, t);
  if (child == 0) _exit(0);
  int status = 1;
  MUST(child > 0 && waitpid(child, &status, 0) == child && status == 0);
}

/* ---- who fails where nobody has set where to go on */

static void loads_null(aslr_thread *t) { aslr_load(t, ASLR_NULL); }
static void lacks_lock(aslr_thread *t) { aslr_check(t, aslr_global(t->runtime, 0), true); }
static void lacks_memory(aslr_thread *t) { aslr_stop(t, ASLR_NO_MEMORY); }

/* a thread that was another's, who had set it */
static aslr_thread *handed_on(aslr_runtime *runtime) {
  aslr_thread *t = thread_of(runtime);
  if (setjmp(t->failed)) MUST(false);
  MUST(aslr_thread_close(t) == ASLR_OK && thread_of(runtime) == t);
  return t;
}

/* A process that does this says why it cannot go on, and is aborted. */
static void says_and_aborts(void (*fails)(aslr_thread *), const char *wanted) {
  aslr_runtime *runtime = opened_for(&program, 0);
  aslr_thread *t = handed_on(runtime);
  int ends[2], status = 0;
  char said[128] = {0};
  MUST(pipe(ends) == 0);
  pid_t child = fork();
  if (child == 0) {
    setrlimit(RLIMIT_CORE, &(struct rlimit){0, 0});
    dup2(ends[1], STDERR_FILENO);
    fails(t);
    _exit(0);
  }
  MUST(child > 0 && close(ends[1]) == 0 && waitpid(child, &status, 0) == child && WIFSIGNALED(status) && WTERMSIG(status) == SIGABRT);
  MUST(read(ends[0], said, sizeof said - 1) > 0 && strcmp(said, wanted) == 0 && close(ends[0]) == 0);
  end(runtime, t);
}

static void goes_on_nowhere(void) {
  says_and_aborts(loads_null, "asl: fault Null outside setjmp(t->failed)\n");
  says_and_aborts(lacks_lock, "asl: fault Unprotected outside setjmp(t->failed)\n");
  says_and_aborts(lacks_memory, "asl: OutOfMemory outside setjmp(t->failed)\n");
}

/* ---- a heap whose objects change their shape */

static atomic_bool stops;
static atomic_int looked; /* cells behind a path */

/* whether the section may access what its paths lead to now, each cell on the way for reading and the last for writing */
static void look_behind(aslr_thread *t, aslr_value at) {
  const unsigned on[] = {1, 2};
  for (unsigned i = 0; i < 2; i++) {
    MUST(aslr_may_access(t, at, false));
    aslr_value v = aslr_load(t, at);
    if (!aslr_is_address(v) || aslr_offset_of(v) + on[i] >= aslr_object_of(v)->size) return;
    at = aslr_field(t, v, on[i]);
  }
  MUST(aslr_may_access(t, at, true));
  aslr_store(t, at, aslr_int(9));
  atomic_fetch_add(&looked, 1);
}

/* what a cell holds next: an integer, null, or a new object of 1 to 4 cells, whose second leads on */
static aslr_value another(aslr_thread *t, unsigned roll, aslr_value old) {
  if (roll % 8 == 0) return aslr_int(3);
  if (roll % 8 == 1) return ASLR_NULL;
  aslr_value made = aslr_new(t, (uint8_t)(1 + roll / 8 % 4), 1);
  if (aslr_object_of(made)->size > 1) aslr_store(t, aslr_field(t, made, 1), old);
  return made;
}

static void change_often(visitor *v) {
  uint64_t random = 88172645463325252u + v->at;
  for (int i = 0; i < 200000 && !atomic_load(&stops); i++) {
    random = random * 6364136223846793005u + 1442695040888963407u;
    unsigned roll = (unsigned)(random >> 40);
    aslr_value at = aslr_global(v->thread->runtime, roll / 64 % 2), *registers = &at;
    aslr_enter(v->thread, roll % 2 ? DEEP : STORES, registers);
    if (roll % 2)
      look_behind(v->thread, at);
    else
      aslr_store(v->thread, at, another(v->thread, roll / 2, aslr_load(v->thread, at)));
    aslr_leave(v->thread);
  }
}

static void *change_shapes(void *given) {
  visitor *v = given;
  if (setjmp(v->thread->failed)) MUST(false);
  change_often(v);
  return NULL;
}

static void follows_other_shapes(void) {
  enum { THREADS = 6 };
  aslr_runtime *runtime = opened_for(&program, 0);
  visitor v[THREADS];
  pthread_t ids[THREADS];
  atomic_store(&stops, false);
  atomic_store(&looked, 0);
  for (int i = 0; i < THREADS; i++) {
    v[i] = (visitor){.thread = thread_of(runtime), .at = (aslr_value)i};
    MUST(pthread_create(&ids[i], NULL, change_shapes, &v[i]) == 0);
  }
  moment(700);
  atomic_store(&stops, true);
  for (int i = 0; i < THREADS; i++) MUST(pthread_join(ids[i], NULL) == 0 && aslr_thread_close(v[i].thread) == ASLR_OK);
  MUST(atomic_load(&looked) > 0 && aslr_close(runtime) == ASLR_OK);
}

static void make_longest(void) {
  for (int i = 0; i < MOST_LOCKS; i++) {
    longest[i] = (aslr_lock){ASL_LEAF, ASL_X, ASLR_REGISTER, (uint16_t)i, {ASLR_LONGEST_PATH}};
    for (int o = 1; o <= ASLR_LONGEST_PATH; o++) longest[i].path[o] = ASLR_FOLLOW;
  }
  longest[MOST_LOCKS] = (aslr_lock)END;
}

int main(void) {
  make_longest();
  for (int e = 0; e < 2; e++) {
    engine = e ? ASLR_WORDS : ASLR_FOREST;
    goes_on_in_a_fork();
    goes_on_nowhere();
    stays_in_objects();
    is_opened_anew();
    opens_many();
    is_cancelled();
    gives_up_nested_sections();
    wakes_who_goes_on();
    sleeps_on_one_processor();
    crowds_come_in(0);
    crowds_come_in(2);
    closes_at_once();
    opens_the_least();
    asks_for_the_most();
    goes_on_after_signals();
    follows_other_shapes();
  }
  printf("breaking: %d hold\n", atomic_load(&passed));
}
