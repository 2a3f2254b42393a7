/* Runtimes, threads, objects, and the entry and exit of sections, which ask the engine. */
#define _POSIX_C_SOURCE 200809L
#ifdef __linux__
#define _GNU_SOURCE /* for sched_getaffinity */
#endif
#include "inside.h"
#include <sched.h>
#include <stdio.h>
#include <stdlib.h>
#include <string.h>
#include <unistd.h>

enum { MOST_OBJECTS = 65536, MOST_CLASSES = 65536, MOST_LOCKS = 256, MOST_LISTS = 65536, BLOCK = 1 << 16, NAMES_AT_ONCE = 1 << 20, SPIN_NS = 50000 };

/* ---- names */

const char *aslr_fault_name(aslr_fault_kind fault) {
  static const char *const NAMES[] = {"Type", "Null", "Bounds", "Unprotected", "Full", "Stack", "Open", "Deep", "NoSection"};
  return (size_t)fault < sizeof NAMES / sizeof *NAMES ? NAMES[fault] : "NoSuchFault";
}

const char *aslr_status_name(uint32_t status) {
  switch (status) {
    case ASLR_OK: return "Ok";
    case ASLR_NO_MEMORY: return "OutOfMemory";
    case ASLR_BAD_COUNT: return "BadCount";
    case ASLR_BAD_PROGRAM: return "BadProgram";
    case ASLR_NULL_POINTER: return "NullPointer";
    case ASLR_BAD_ENGINE: return "BadEngine";
    case ASLR_IN_USE: return "InUse";
    case ASLR_BAD_SECTION: return "BadSection";
    case ASLR_TOO_DEEP: return "TooDeep";
    case ASLR_NO_SECTION: return "NoSection";
    case ASLR_FULL: return "Full";
    case ASLR_BAD_SIZE: return "BadSize";
    default: return "NoSuchStatus";
  }
}

/* ---- programs */

/* Whether the program has the class, the global or the register that a lock of its lists names; else it is refused as ASLR_BAD_PROGRAM. */
static bool is_there(const aslr_program *program, const aslr_lock *lock) {
  if ((lock->mode != ASL_S && lock->mode != ASL_X) || lock->kind > ASL_LEAF) return false;
  if (lock->kind == ASL_CLASS) return lock->at < program->classes;
  if (lock->kind == ASL_ROOT) return true;
  if (lock->path[0] < 0 || lock->path[0] > ASLR_LONGEST_PATH) return false;
  for (int i = 1; i <= lock->path[0]; i++)
    if (lock->path[i] < ASLR_FOLLOW || lock->path[i] > 255) return false;
  if (lock->base == ASLR_GLOBAL) return lock->at < program->globals;
  return lock->base == ASLR_REGISTER && lock->at < 256;
}

/* A list follows cells where a path has `*`: then it is evaluated under the guard, and again by who gives back (asl_forest_engine.c). */
static bool read_list(const aslr_program *program, const aslr_lock *locks, list *into) {
  *into = (list){locks, 0, false};
  for (const aslr_lock *lock = locks; lock->kind != ASLR_END; lock++) {
    if (!is_there(program, lock) || ++into->count > MOST_LOCKS) return false;
    for (int i = 1; lock->kind == ASL_LEAF && i <= lock->path[0]; i++) into->follows = into->follows || lock->path[i] == ASLR_FOLLOW;
  }
  return true;
}

static uint32_t read_lists(aslr_runtime *made, const aslr_program *program) {
  uint32_t count = 0;
  while (program->lists[count])
    if (++count > MOST_LISTS) return ASLR_BAD_PROGRAM;
  made->lists = calloc(count + 1u, sizeof *made->lists);
  if (!made->lists) return ASLR_NO_MEMORY;
  made->list_count = count;
  for (uint32_t l = 0; l < count; l++) {
    if (!read_list(program, program->lists[l], &made->lists[l])) return ASLR_BAD_PROGRAM;
    /* each lock asks for a node and its parents, and what is held back for one node and its parents more */
    uint32_t nodes = 3 * (made->lists[l].count + 1);
    if (nodes > made->longest) made->longest = nodes;
  }
  return ASLR_OK;
}

/* ---- objects */

/* Memory for an object, aligned to 16 bytes, since what is asked for is a multiple of 16; NULL where there is none. An address needs 8
 * alone: its last bits, which aslr_object_of leaves out, say what a value is. By 16, what stands before the cells is in one line of the
 * cache. Nothing is freed before the runtime is closed. */
static void *allocate(mine *self, size_t bytes) {
  if (!self->free_at || (size_t)(self->free_end - self->free_at) < bytes) {
    block *made = aligned_alloc(64, BLOCK);
    if (!made) return NULL;
    aslr_runtime *runtime = self->thread.runtime;
    pthread_mutex_lock(&runtime->mutex);
    made->next = runtime->blocks;
    runtime->blocks = made;
    pthread_mutex_unlock(&runtime->mutex);
    self->free_at = (char *)made + 64;
    self->free_end = (char *)made + BLOCK;
  }
  void *found = self->free_at;
  self->free_at += bytes;
  return found;
}

static bool take_number(aslr_runtime *runtime, uint16_t *number) {
  uint64_t given = atomic_load_explicit(&runtime->numbers_given, memory_order_relaxed);
  do {
    if (given >= MOST_OBJECTS && !runtime->shares_numbers) return false;
  } while (!atomic_compare_exchange_weak_explicit(&runtime->numbers_given, &given, given + 1, memory_order_relaxed, memory_order_relaxed));
  *number = (uint16_t)given;
  return true;
}

uint32_t aslr_object_new(aslr_thread *thread, uint8_t cells, uint16_t klass, aslr_value *into) {
  if (!thread || !into) return ASLR_NULL_POINTER;
  aslr_runtime *runtime = thread->runtime;
  if (cells == 0 || klass >= runtime->program->classes) return ASLR_BAD_SIZE;
  if (atomic_load_explicit(&runtime->numbers_given, memory_order_relaxed) >= MOST_OBJECTS && !runtime->shares_numbers) return ASLR_FULL;
  aslr_object *made = allocate(of_thread(thread), (offsetof(aslr_object, cells) + cells * sizeof(aslr_cell) + 15) & ~(size_t)15);
  if (!made) return ASLR_NO_MEMORY;
  if (!take_number(runtime, &made->number)) return ASLR_FULL; /* another thread took the last; what was allocated is freed with the rest */
  made->made_in = thread->section;
  made->klass = klass;
  made->size = cells;
#ifdef ASLR_PLAIN
  memset(made->cells, 0, cells * sizeof(aslr_cell));
#else
  for (unsigned i = 0; i < cells; i++) atomic_init(&made->cells[i], 0);
#endif
  *into = aslr_address(made);
  return ASLR_OK;
}

/* ---- runtimes */

static void free_blocks(aslr_runtime *runtime) {
  while (runtime->blocks) {
    block *next = runtime->blocks->next;
    free(runtime->blocks);
    runtime->blocks = next;
  }
}

static void free_threads(aslr_runtime *runtime) {
  while (runtime->closed) {
    mine *next = runtime->closed->next_closed;
    runtime->engine->thread_close(runtime->closed);
    free(runtime->closed);
    runtime->closed = next;
  }
}

static void free_runtime(aslr_runtime *runtime) {
  free_threads(runtime);
  if (runtime->engine_at) runtime->engine->close(runtime);
  free_blocks(runtime);
  pthread_mutex_destroy(&runtime->mutex);
  free(runtime->globals);
  free(runtime->lists);
  free(runtime);
}

static uint32_t make_globals(aslr_runtime *made, const aslr_program *program) {
  made->globals = calloc(program->globals + 1u, sizeof *made->globals);
  if (!made->globals) return ASLR_NO_MEMORY;
  mine maker = {.thread = {.runtime = made}};
  for (uint32_t g = 0; g < program->globals; g++) {
    uint32_t status = aslr_object_new(&maker.thread, 1, program->class_of_global[g], &made->globals[g]);
    if (status != ASLR_OK) return status == ASLR_BAD_SIZE ? (uint32_t)ASLR_BAD_PROGRAM : status;
  }
  return ASLR_OK;
}

static uint32_t open_parts(aslr_runtime *made, const aslr_program *program, const aslr_options *options) {
  uint32_t status = read_lists(made, program);
  if (status == ASLR_OK) status = make_globals(made, program);
  if (status == ASLR_OK) status = made->engine->open(made, options);
  return status;
}

/* on which the thread may run that opens the runtime */
static uint32_t processors(void) {
#ifdef __linux__
  cpu_set_t allowed;
  if (sched_getaffinity(0, sizeof allowed, &allowed) == 0) return (uint32_t)CPU_COUNT(&allowed);
#endif
  long found = sysconf(_SC_NPROCESSORS_ONLN);
  return found > 0 ? (uint32_t)found : 1;
}

/* Chooses the engine of the runtime, by the options, and opens it: it stays the same until the runtime is closed. */
uint32_t aslr_open(const aslr_program *program, const aslr_options *options, aslr_runtime **runtime) {
  static const aslr_options DEFAULTS;
  if (!program || !runtime || !program->lists || (!program->class_of_global && program->globals)) return ASLR_NULL_POINTER;
  if (!options) options = &DEFAULTS;
  if (options->at_once > 128 || program->classes > MOST_CLASSES || program->globals > MOST_OBJECTS) return ASLR_BAD_COUNT;
  if (options->engine != ASLR_FOREST && (options->engine != ASLR_WORDS || !ASLR_CELLS_ARE_ATOMIC)) return ASLR_BAD_ENGINE;
  aslr_runtime *made = calloc(1, sizeof *made);
  if (!made) return ASLR_NO_MEMORY;
  made->program = program;
  made->engine = options->engine == ASLR_FOREST ? &aslr_forest_engine : &aslr_words_engine;
  made->spin_ns = options->spin_ns ? options->spin_ns : SPIN_NS;
  made->processors = processors();
  made->shares_numbers = options->shares_numbers;
  atomic_init(&made->numbers_given, 0);
  atomic_init(&made->names_given, 1);
  if (pthread_mutex_init(&made->mutex, NULL)) {
    free(made);
    return ASLR_NO_MEMORY;
  }
  uint32_t status = open_parts(made, program, options);
  if (status == ASLR_OK)
    *runtime = made;
  else
    free_runtime(made);
  return status;
}

uint32_t aslr_close(aslr_runtime *runtime) {
  if (!runtime) return ASLR_NULL_POINTER;
  pthread_mutex_lock(&runtime->mutex);
  bool in_use = runtime->open > 0;
  pthread_mutex_unlock(&runtime->mutex);
  if (in_use) return ASLR_IN_USE;
  free_runtime(runtime);
  return ASLR_OK;
}

void aslr_counts_of(aslr_runtime *runtime, aslr_counts *counts) {
  pthread_mutex_lock(&runtime->mutex);
  *counts = runtime->counts;
  pthread_mutex_unlock(&runtime->mutex);
}

aslr_value aslr_global(const aslr_runtime *runtime, uint32_t global) { return runtime->globals[global]; }

/* ---- threads */

/* a thread, and behind it the engine's part; all zero at first: at depth 0, in no section */
static mine *make_thread(aslr_runtime *runtime) {
  size_t front = (sizeof(mine) + 63) & ~(size_t)63;
  mine *made = aligned_alloc(64, front + ((runtime->engine->thread_size + 63) & ~(size_t)63));
  if (!made) return NULL;
  memset(made, 0, front + runtime->engine->thread_size);
  made->at = (char *)made + front;
  made->thread.runtime = runtime;
  made->thread.globals = runtime->globals;
  if (runtime->engine->thread_open(made) == ASLR_OK) return made;
  free(made);
  return NULL;
}

/* What C reads and writes of a thread, as at first: it may have been another's that was closed. */
static void begin_anew(aslr_thread *thread) {
  thread->frames = 1;
  thread->number = 0;
  thread->counts = (aslr_counts){0};
  memset(&thread->failed, 0, sizeof thread->failed);
  thread->status = ASLR_OK;
  thread->ended_by = ASLR_FAULT_TYPE;
  thread->fault_at = 0;
  thread->fault_writes = false;
  thread->before_access = NULL;
}

uint32_t aslr_thread_open(aslr_runtime *runtime, aslr_thread **thread) {
  enum { MOST_WITH_WORDS = 16383 };
  if (!runtime || !thread) return ASLR_NULL_POINTER;
  pthread_mutex_lock(&runtime->mutex);
  bool too_many = runtime->engine == &aslr_words_engine && runtime->open == MOST_WITH_WORDS;
  mine *found = too_many ? NULL : runtime->closed;
  if (found) runtime->closed = found->next_closed;
  if (!found && !too_many) found = make_thread(runtime);
  if (found) runtime->open++;
  pthread_mutex_unlock(&runtime->mutex);
  if (!found) return too_many ? ASLR_BAD_COUNT : ASLR_NO_MEMORY;
  begin_anew(&found->thread);
  *thread = &found->thread;
  return ASLR_OK;
}

static void add_counts(aslr_counts *to, const aslr_counts *more) {
  to->sections += more->sections;
  to->refusals += more->refusals;
  to->again += more->again;
  to->sleeps += more->sleeps;
}

uint32_t aslr_thread_close(aslr_thread *thread) {
  if (!thread) return ASLR_NULL_POINTER;
  if (thread->depth > 0) return ASLR_IN_USE;
  aslr_runtime *runtime = thread->runtime;
  mine *self = of_thread(thread);
  pthread_mutex_lock(&runtime->mutex);
  add_counts(&runtime->counts, &thread->counts);
  self->next_closed = runtime->closed;
  runtime->closed = self;
  runtime->open--;
  pthread_mutex_unlock(&runtime->mutex);
  return ASLR_OK;
}

/* ---- sections */

static void name_section(mine *self) {
  if (self->next_name == self->last_name) {
    self->next_name = atomic_fetch_add_explicit(&self->thread.runtime->names_given, NAMES_AT_ONCE, memory_order_relaxed);
    self->last_name = self->next_name + NAMES_AT_ONCE;
  }
  self->thread.section = self->next_name++;
}

uint32_t aslr_section_enter(aslr_thread *thread, uint32_t at, const aslr_value *registers) {
  if (!thread || !registers) return ASLR_NULL_POINTER;
  if (at >= thread->runtime->list_count) return ASLR_BAD_SECTION;
  if (thread->depth == 255) return ASLR_TOO_DEEP;
  if (thread->depth == 0) {
    const list *of = &thread->runtime->lists[at];
    if (of->count > 0) {
      uint32_t status = thread->runtime->engine->acquire(of_thread(thread), of, registers);
      if (status != ASLR_OK) return status;
    }
    thread->counts.sections++;
    name_section(of_thread(thread));
  }
  thread->depth++;
  return ASLR_OK;
}

/* gives back what the thread holds, if it does */
static void end_outermost(aslr_thread *thread) {
  thread->depth = 0;
  thread->section = 0;
  thread->runtime->engine->release(of_thread(thread));
}

uint32_t aslr_section_leave(aslr_thread *thread) {
  if (!thread) return ASLR_NULL_POINTER;
  if (thread->depth == 0) return ASLR_NO_SECTION;
  if (thread->depth > 1)
    thread->depth--;
  else
    end_outermost(thread);
  return ASLR_OK;
}

uint32_t aslr_abandon(aslr_thread *thread) {
  if (!thread) return ASLR_NULL_POINTER;
  if (thread->depth > 0) end_outermost(thread);
  return ASLR_OK;
}

bool aslr_may_access(aslr_thread *thread, aslr_value at, bool writes) {
  if (thread->depth == 0 || !aslr_is_address(at)) return false;
  return aslr_object_of(at)->made_in == thread->section || thread->runtime->engine->covers(of_thread(thread), at, writes);
}

/* ---- for emitted programs */

/* Whether nobody has set where a thread goes on that fails: all is 0, as begin_anew leaves it. C does not promise that setjmp writes anything
 * else. It has to keep where the stack and the code are, and on no machine that is known both are told by zeros. */
static bool has_no_way_on(const aslr_thread *t) {
  static const jmp_buf AT_FIRST;
  return memcmp(t->failed, AT_FIRST, sizeof AT_FIRST) == 0;
}

/* A jump would lead anywhere. What the thread holds is left as it is, for who looks at the process afterwards. */
static _Noreturn void end_process(const aslr_thread *t, uint32_t status) {
  const char *kind = status == ASLR_OK ? "fault " : "", *name = status == ASLR_OK ? aslr_fault_name(t->ended_by) : aslr_status_name(status);
  fprintf(stderr, "asl: %s%s outside setjmp(t->failed)\n", kind, name);
  abort();
}

void aslr_stop(aslr_thread *t, uint32_t status) {
  if (has_no_way_on(t)) end_process(t, status);
  aslr_abandon(t);
  t->frames = 1;
  t->status = status;
  longjmp(t->failed, 1);
}

void aslr_fault(aslr_thread *t, aslr_fault_kind fault) {
  t->ended_by = fault;
  aslr_stop(t, ASLR_OK);
}

void aslr_check(aslr_thread *t, aslr_value at, bool writes) {
  if (t->before_access) t->before_access(t);
  if (aslr_may_access(t, at, writes)) return;
  t->fault_at = at;
  t->fault_writes = writes;
  aslr_fault(t, ASLR_FAULT_UNPROTECTED);
}

aslr_value aslr_new(aslr_thread *t, uint8_t s, uint16_t k) {
  aslr_value made = ASLR_NULL;
  uint32_t status = aslr_object_new(t, s, k, &made);
  if (status == ASLR_FULL) aslr_fault(t, ASLR_FAULT_FULL);
  if (status != ASLR_OK) aslr_stop(t, status);
  return made;
}

void aslr_outermost(aslr_thread *t, uint32_t at, const aslr_value *registers) {
  uint32_t status = aslr_section_enter(t, at, registers);
  if (status != ASLR_OK) aslr_stop(t, status);
}

void aslr_outermost_end(aslr_thread *t) { end_outermost(t); }
