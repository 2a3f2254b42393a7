/* Each status of each function of the runtime, under both engines; memory refused at each request in turn; who waits for whom, and who goes on
 * first. Link it as refusing.h says. Run by tests/runtime. */
#define _POSIX_C_SOURCE 200809L
#include "asl_runtime.h"
#include "refusing.h"
#include <pthread.h>
#include <stdio.h>
#include <stdlib.h>
#include <string.h>
#include <time.h>

static int passed;

static void must(int line, bool holds) {
  if (!holds) {
    fprintf(stderr, "statuses.c:%d\n", line);
    exit(1);
  }
  passed++;
}
#define MUST(condition) must(__LINE__, condition)

/* in which another thread will have begun to wait, on a busy machine too */
static void moment(void) { nanosleep(&(struct timespec){0, 300000000}, NULL); }

/* ---- names: of a fault that of docs/INSTRUCTIONS.md, of a status that of its constant, but for what printed programs have always said */

static void names_them(void) {
  static const char *const FAULTS[] = {"Type", "Null", "Bounds", "Unprotected", "Full", "Stack", "Open", "Deep", "NoSection"};
  static const struct { uint32_t status; const char *name; } STATUSES[] = {
    {ASLR_OK, "Ok"}, {ASLR_NO_MEMORY, "OutOfMemory"}, {ASLR_BAD_COUNT, "BadCount"}, {ASLR_BAD_PROGRAM, "BadProgram"},
    {ASLR_NULL_POINTER, "NullPointer"}, {ASLR_BAD_ENGINE, "BadEngine"}, {ASLR_IN_USE, "InUse"}, {ASLR_BAD_SECTION, "BadSection"},
    {ASLR_TOO_DEEP, "TooDeep"}, {ASLR_NO_SECTION, "NoSection"}, {ASLR_FULL, "Full"}, {ASLR_BAD_SIZE, "BadSize"}, {99, "NoSuchStatus"}};
  for (int f = 0; f <= ASLR_FAULT_NO_SECTION; f++) MUST(strcmp(aslr_fault_name((aslr_fault_kind)f), FAULTS[f]) == 0);
  MUST(strcmp(aslr_fault_name((aslr_fault_kind)(ASLR_FAULT_NO_SECTION + 1)), "NoSuchFault") == 0);
  for (size_t s = 0; s < sizeof STATUSES / sizeof *STATUSES; s++) MUST(strcmp(aslr_status_name(STATUSES[s].status), STATUSES[s].name) == 0);
}

/* ---- a program: two globals of class 0, and objects of class 1 */

static const aslr_lock on_cell[] = {{ASL_LEAF, ASL_X, ASLR_REGISTER, 0, {0}}, {ASLR_END, 0, 0, 0, {0}}};
static const aslr_lock reads_cell[] = {{ASL_LEAF, ASL_S, ASLR_REGISTER, 0, {0}}, {ASLR_END, 0, 0, 0, {0}}};
static const aslr_lock behind[] = {
  {ASL_LEAF, ASL_S, ASLR_REGISTER, 0, {0}}, {ASL_LEAF, ASL_X, ASLR_REGISTER, 0, {2, ASLR_FOLLOW, 1}}, {ASLR_END, 0, 0, 0, {0}}};
static const aslr_lock on_class[] = {{ASL_CLASS, ASL_S, ASLR_REGISTER, 1, {0}}, {ASLR_END, 0, 0, 0, {0}}};
static const aslr_lock on_root[] = {{ASL_ROOT, ASL_X, ASLR_REGISTER, 0, {0}}, {ASLR_END, 0, 0, 0, {0}}};
static const aslr_lock on_global[] = {{ASL_LEAF, ASL_X, ASLR_GLOBAL, 1, {0}}, {ASLR_END, 0, 0, 0, {0}}};
static const aslr_lock nothing[] = {{ASLR_END, 0, 0, 0, {0}}};
enum { ON_CELL, READS_CELL, BEHIND, ON_CLASS, ON_ROOT, ON_GLOBAL, NOTHING, LISTS };
static const aslr_lock *const lists[] = {on_cell, reads_cell, behind, on_class, on_root, on_global, nothing, NULL};
static const uint16_t classes[] = {0, 0};
static const aslr_program program = {2, 2, classes, lists, NULL};

static aslr_engine engine;

static aslr_runtime *opened(uint32_t at_once) {
  aslr_runtime *runtime = NULL;
  aslr_options options = {.engine = engine, .at_once = at_once};
  MUST(aslr_open(&program, &options, &runtime) == ASLR_OK && runtime);
  return runtime;
}

static aslr_thread *thread_of(aslr_runtime *runtime) {
  aslr_thread *thread = NULL;
  MUST(aslr_thread_open(runtime, &thread) == ASLR_OK && thread);
  return thread;
}

/* ---- refused programs and options */

static void refuses_lock(aslr_lock lock) {
  const aslr_lock one[] = {lock, {ASLR_END, 0, 0, 0, {0}}};
  const aslr_lock *const all[] = {nothing, one, NULL};
  const aslr_program bad = {2, 2, classes, all, NULL};
  aslr_runtime *runtime = NULL;
  MUST(aslr_open(&bad, NULL, &runtime) == ASLR_BAD_PROGRAM && !runtime);
}

static void refuses_programs(void) {
  refuses_lock((aslr_lock){4, ASL_S, ASLR_REGISTER, 0, {0}});
  refuses_lock((aslr_lock){ASL_LEAF, ASL_IX, ASLR_REGISTER, 0, {0}});
  refuses_lock((aslr_lock){ASL_LEAF, ASL_S, 2, 0, {0}});
  refuses_lock((aslr_lock){ASL_LEAF, ASL_S, ASLR_REGISTER, 256, {0}});
  refuses_lock((aslr_lock){ASL_LEAF, ASL_S, ASLR_GLOBAL, 2, {0}});
  refuses_lock((aslr_lock){ASL_LEAF, ASL_S, ASLR_REGISTER, 0, {9}});
  refuses_lock((aslr_lock){ASL_LEAF, ASL_S, ASLR_REGISTER, 0, {1, 256}});
  refuses_lock((aslr_lock){ASL_LEAF, ASL_S, ASLR_REGISTER, 0, {1, -2}});
  refuses_lock((aslr_lock){ASL_CLASS, ASL_S, ASLR_REGISTER, 2, {0}});
  aslr_lock many[258];
  for (int i = 0; i < 257; i++) many[i] = (aslr_lock){ASL_ROOT, ASL_S, ASLR_REGISTER, 0, {0}};
  many[257] = (aslr_lock){ASLR_END, 0, 0, 0, {0}};
  const aslr_lock *const all[] = {many, NULL};
  aslr_runtime *runtime = NULL;
  MUST(aslr_open(&(aslr_program){2, 2, classes, all, NULL}, NULL, &runtime) == ASLR_BAD_PROGRAM && !runtime);
  MUST(aslr_open(&(aslr_program){2, 2, classes, (const aslr_lock *const[]){many + 1, NULL}, NULL}, NULL, &runtime) == ASLR_OK);
  MUST(aslr_close(runtime) == ASLR_OK);
  runtime = NULL;
  MUST(aslr_open(&(aslr_program){2, 1, (const uint16_t[]){2}, lists + NOTHING, NULL}, NULL, &runtime) == ASLR_BAD_PROGRAM && !runtime);
  MUST(aslr_open(&(aslr_program){65537, 2, classes, lists, NULL}, NULL, &runtime) == ASLR_BAD_COUNT && !runtime);
  MUST(aslr_open(&(aslr_program){2, 65537, classes, lists, NULL}, NULL, &runtime) == ASLR_BAD_COUNT && !runtime);
  MUST(aslr_open(&program, &(aslr_options){.at_once = 129}, &runtime) == ASLR_BAD_COUNT && !runtime);
  MUST(aslr_open(&program, &(aslr_options){.engine = (aslr_engine)7}, &runtime) == ASLR_BAD_ENGINE && !runtime);
  MUST(aslr_open(NULL, NULL, &runtime) == ASLR_NULL_POINTER && aslr_open(&program, NULL, NULL) == ASLR_NULL_POINTER);
  MUST(aslr_open(&(aslr_program){2, 2, NULL, lists, NULL}, NULL, &runtime) == ASLR_NULL_POINTER);
  MUST(aslr_open(&(aslr_program){2, 2, classes, NULL, NULL}, NULL, &runtime) == ASLR_NULL_POINTER);
  MUST(aslr_close(NULL) == ASLR_NULL_POINTER && aslr_thread_close(NULL) == ASLR_NULL_POINTER && aslr_abandon(NULL) == ASLR_NULL_POINTER);
  MUST(aslr_section_leave(NULL) == ASLR_NULL_POINTER && aslr_thread_open(NULL, NULL) == ASLR_NULL_POINTER);
}

/* ---- sections of one thread */

static void enters_and_leaves(void) {
  aslr_runtime *runtime = opened(0);
  aslr_thread *t = thread_of(runtime);
  aslr_value registers[] = {aslr_global(runtime, 0)}, other = aslr_global(runtime, 1);
  MUST(aslr_section_leave(t) == ASLR_NO_SECTION && !aslr_may_access(t, registers[0], false));
  MUST(aslr_section_enter(t, LISTS, registers) == ASLR_BAD_SECTION && aslr_section_enter(t, 0, NULL) == ASLR_NULL_POINTER && t->depth == 0);
  MUST(aslr_section_enter(t, READS_CELL, registers) == ASLR_OK && t->depth == 1);
  MUST(aslr_may_access(t, registers[0], false) && !aslr_may_access(t, registers[0], true) && !aslr_may_access(t, other, false));
  MUST(aslr_thread_close(t) == ASLR_IN_USE && aslr_close(runtime) == ASLR_IN_USE);
  for (int depth = 2; depth <= 255; depth++) MUST(aslr_section_enter(t, ON_ROOT, registers) == ASLR_OK);
  MUST(!aslr_may_access(t, registers[0], true) && aslr_section_enter(t, ON_ROOT, registers) == ASLR_TOO_DEEP && t->depth == 255);
  for (int depth = 255; depth > 0; depth--) MUST(aslr_section_leave(t) == ASLR_OK);
  MUST(aslr_section_leave(t) == ASLR_NO_SECTION && !aslr_may_access(t, registers[0], false));
  MUST(aslr_section_enter(t, ON_GLOBAL, registers) == ASLR_OK && aslr_may_access(t, other, true) && !aslr_may_access(t, registers[0], false));
  MUST(aslr_section_enter(t, ON_ROOT, registers) == ASLR_OK && aslr_abandon(t) == ASLR_OK && t->depth == 0 && aslr_abandon(t) == ASLR_OK);
  MUST(aslr_section_enter(t, ON_ROOT, registers) == ASLR_OK && aslr_may_access(t, other, true) && aslr_section_leave(t) == ASLR_OK);
  MUST(aslr_section_enter(t, NOTHING, registers) == ASLR_OK && !aslr_may_access(t, other, false) && aslr_section_leave(t) == ASLR_OK);
  MUST(t->counts.sections == 4 && t->counts.refusals == 0);
  MUST(aslr_thread_close(t) == ASLR_OK);
  aslr_counts counts;
  aslr_counts_of(runtime, &counts);
  MUST(counts.sections == 4 && aslr_close(runtime) == ASLR_OK);
}

static void makes_objects(void) {
  aslr_runtime *runtime = opened(0);
  aslr_thread *t = thread_of(runtime);
  aslr_value registers[] = {aslr_global(runtime, 0)}, made = 0, early = 0;
  MUST(aslr_object_new(t, 0, 1, &made) == ASLR_BAD_SIZE && aslr_object_new(t, 1, 2, &made) == ASLR_BAD_SIZE && made == 0);
  MUST(aslr_object_new(NULL, 1, 1, &made) == ASLR_NULL_POINTER && aslr_object_new(t, 1, 1, NULL) == ASLR_NULL_POINTER);
  MUST(aslr_object_new(t, 2, 1, &early) == ASLR_OK && aslr_section_enter(t, BEHIND, registers) == ASLR_OK);
  MUST(aslr_object_new(t, 255, 1, &made) == ASLR_OK && aslr_may_access(t, made, true) && !aslr_may_access(t, early, false));
  for (int i = 0; i < 255; i++) MUST(aslr_read(&aslr_object_of(made)->cells[i]) == aslr_int(0));
  MUST(aslr_section_leave(t) == ASLR_OK && aslr_section_enter(t, ON_CLASS, registers) == ASLR_OK);
  MUST(aslr_may_access(t, made, false) && !aslr_may_access(t, made, true) && aslr_section_leave(t) == ASLR_OK);
  /* the cell behind a global, one further */
  aslr_write(aslr_cell_of(registers[0]), early);
  MUST(aslr_section_enter(t, BEHIND, registers) == ASLR_OK && !aslr_may_access(t, early, false));
  MUST(aslr_may_access(t, aslr_field(t, early, 1), true) && aslr_section_leave(t) == ASLR_OK);
  uint32_t status = ASLR_OK;
  for (int objects = 4; objects < 65536 && status == ASLR_OK; objects++) status = aslr_object_new(t, 1, 1, &made);
  MUST(status == ASLR_OK && aslr_object_new(t, 1, 1, &made) == ASLR_FULL);
  MUST(aslr_thread_close(t) == ASLR_OK && aslr_close(runtime) == ASLR_OK);
}

/* ---- memory */

/* Calls `turn` with one request more granted each time, until it is done. Returns how often it was refused. */
static int refused_in_turn(uint32_t (*turn)(void)) {
  for (long requests = 0;; requests++) {
    atomic_store(&granted, requests);
    uint32_t status = turn();
    atomic_store(&granted, -1);
    if (status == ASLR_OK) return (int)requests;
    MUST(status == ASLR_NO_MEMORY);
  }
}

static uint32_t whole_life(void) {
  aslr_runtime *runtime = NULL;
  aslr_thread *t = NULL;
  aslr_options options = {.engine = engine};
  uint32_t status = aslr_open(&program, &options, &runtime);
  if (status != ASLR_OK) return MUST(!runtime), status;
  status = aslr_thread_open(runtime, &t);
  aslr_value made, registers[] = {aslr_global(runtime, 0)};
  if (status == ASLR_OK) status = aslr_object_new(t, 3, 1, &made);
  if (status == ASLR_OK) {
    status = aslr_section_enter(t, ON_CELL, registers);
    MUST(t->depth == (status == ASLR_OK) && aslr_may_access(t, registers[0], true) == (status == ASLR_OK));
    /* what was refused has changed nothing: with memory it is granted */
    atomic_store(&granted, -1);
    if (status != ASLR_OK) MUST(aslr_section_enter(t, ON_CELL, registers) == ASLR_OK && aslr_may_access(t, registers[0], true));
    MUST(aslr_section_leave(t) == ASLR_OK);
  }
  if (t) MUST(aslr_thread_close(t) == ASLR_OK);
  MUST(aslr_close(runtime) == ASLR_OK);
  return status;
}

/* ---- who waits, and who goes on first */

typedef struct {
  aslr_thread *thread;
  uint32_t list, status;
  aslr_value register_0;
  bool waits; /* it cannot come in at once */
  int place;  /* in which the threads came in */
} visitor;

static atomic_int come_in;

static void *visit(void *given) {
  visitor *v = given;
  v->status = aslr_section_enter(v->thread, v->list, &v->register_0);
  if (v->status != ASLR_OK) return NULL;
  v->place = atomic_fetch_add(&come_in, 1);
  aslr_section_leave(v->thread);
  return NULL;
}

/* One section is entered, then the others come, one after the other; it is left, and all end. Who need not wait ends before the next comes. */
static void visits(aslr_runtime *runtime, uint32_t first, aslr_value at, visitor *others, int count) {
  pthread_t ids[8];
  aslr_thread *holder = thread_of(runtime);
  atomic_store(&come_in, 0);
  MUST(aslr_section_enter(holder, first, &at) == ASLR_OK);
  for (int i = 0; i < count; i++) {
    others[i].thread = thread_of(runtime);
    MUST(pthread_create(&ids[i], NULL, visit, &others[i]) == 0);
    if (others[i].waits) moment();
    else pthread_join(ids[i], NULL);
  }
  MUST(aslr_section_leave(holder) == ASLR_OK);
  for (int i = 0; i < count; i++)
    if (others[i].waits) pthread_join(ids[i], NULL);
  for (int i = 0; i < count; i++) MUST(aslr_thread_close(others[i].thread) == ASLR_OK);
  MUST(aslr_thread_close(holder) == ASLR_OK);
}

static void goes_in_order(void) {
  aslr_runtime *runtime = opened(0);
  aslr_value a = aslr_global(runtime, 0), b = aslr_global(runtime, 1);
  /* a writer who waits for readers goes before a reader who came later, but holds up nobody elsewhere */
  visitor others[] = {
    {.list = ON_CELL, .register_0 = a, .waits = true}, {.list = READS_CELL, .register_0 = a, .waits = true}, {.list = ON_CELL, .register_0 = b}};
  visits(runtime, READS_CELL, a, others, 3);
  MUST(others[2].place == 0 && others[0].place == 1 && others[1].place == 2);
  MUST(aslr_close(runtime) == ASLR_OK);
}

static void lends_numbers(void) {
  aslr_runtime *runtime = opened(1);
  aslr_value a = aslr_global(runtime, 0), b = aslr_global(runtime, 1);
  visitor others[] = {{.list = ON_CELL, .register_0 = b, .waits = true}, {.list = NOTHING, .register_0 = a}};
  visits(runtime, ON_CELL, a, others, 2);
  /* with one number who asks for something else waits, too; who asks for nothing needs none */
  MUST(others[0].place == 1 && others[1].place == 0);
  MUST(aslr_close(runtime) == ASLR_OK);
}

/* who waits is refused memory while another grants for him */
static void refuses_waiters(void) {
  aslr_runtime *runtime = opened(0);
  aslr_value a = aslr_global(runtime, 0);
  aslr_thread *holder = thread_of(runtime), *second = thread_of(runtime);
  visitor v = {.thread = second, .list = ON_CELL, .register_0 = a};
  pthread_t id;
  MUST(aslr_section_enter(holder, ON_CELL, &a) == ASLR_OK);
  MUST(pthread_create(&id, NULL, visit, &v) == 0);
  moment();
  atomic_store(&granted, 0);
  MUST(aslr_section_leave(holder) == ASLR_OK);
  pthread_join(id, NULL);
  atomic_store(&granted, -1);
  MUST(v.status == ASLR_OK || (v.status == ASLR_NO_MEMORY && second->depth == 0));
  printf("who waits while memory is refused: status %u\n", v.status);
  MUST(aslr_section_enter(holder, ON_CELL, &a) == ASLR_OK && aslr_section_leave(holder) == ASLR_OK);
  MUST(aslr_thread_close(holder) == ASLR_OK && aslr_thread_close(second) == ASLR_OK && aslr_close(runtime) == ASLR_OK);
}

int main(void) {
  names_them();
  refuses_programs();
  for (int e = 0; e < 2; e++) {
    engine = e ? ASLR_WORDS : ASLR_FOREST;
    enters_and_leaves();
    makes_objects();
    goes_in_order();
    if (!e) lends_numbers();
    if (!e) refuses_waiters();
    int refusals = refused_in_turn(whole_life);
    printf("%s: memory refused at each of %d requests in turn\n", e ? "words" : "forest", refusals);
    MUST(refusals > 5);
  }
  printf("statuses: %d hold\n", passed);
}
