/* `main` of an emitted program: its threads, what they print, and how it ends. */
#define _POSIX_C_SOURCE 200809L
#include "inside.h"
#include <stdio.h>
#include <stdlib.h>
#include <string.h>
#include <sys/resource.h>
#include <unistd.h>

enum { ALL_DONE = 0, REFUSED = 1, WRONG_USAGE = 2, A_FAULT = 3, MOST_THREADS = 10000, STACK = 16 << 20 };

/* threads begin together, once all of them are there, or not at all */
typedef struct {
  pthread_mutex_t mutex;
  pthread_cond_t open;
  enum { CLOSED, OPEN, CANCELLED } state;
} gate;

static gate start = {PTHREAD_MUTEX_INITIALIZER, PTHREAD_COND_INITIALIZER, CLOSED};

static bool may_start(void) {
  pthread_mutex_lock(&start.mutex);
  while (start.state == CLOSED) pthread_cond_wait(&start.open, &start.mutex);
  bool may = start.state == OPEN;
  pthread_mutex_unlock(&start.mutex);
  return may;
}

static void open_gate(bool all_there) {
  pthread_mutex_lock(&start.mutex);
  start.state = all_there ? OPEN : CANCELLED;
  pthread_cond_broadcast(&start.open);
  pthread_mutex_unlock(&start.mutex);
}

/* ---- what is printed: a line by one call, so that lines of threads do not mix */

static const char *show(char to[32], aslr_value value) {
  if (aslr_is_int(value))
    snprintf(to, 32, "int %d", aslr_int_of(value));
  else if (value == ASLR_NULL)
    snprintf(to, 32, "null");
  else
    snprintf(to, 32, "addr %u.%u", aslr_object_of(value)->number, aslr_offset_of(value));
  return to;
}

void aslr_out(aslr_thread *t, aslr_value a) {
  char value[32];
  printf("%u out %s\n", t->number, show(value, a));
}

static void print_fault(const aslr_thread *t) {
  if (t->ended_by == ASLR_FAULT_UNPROTECTED)
    printf("%u fault Unprotected %u.%u %s\n", t->number, aslr_object_of(t->fault_at)->number, aslr_offset_of(t->fault_at),
           t->fault_writes ? "write" : "read");
  else
    printf("%u fault %s\n", t->number, aslr_fault_name(t->ended_by));
}

/* ---- a thread */

static void run_entry(aslr_thread *t) {
  char value[32];
  if (setjmp(t->failed)) return;
  aslr_value done = t->runtime->program->entry(t, aslr_int((int32_t)t->number));
  if (t->depth > 0) aslr_fault(t, ASLR_FAULT_OPEN);
  printf("%u done %s\n", t->number, show(value, done));
  t->frames = 0;
}

static bool is_done(const aslr_thread *t) { return t->frames == 0; }

static void *run(void *given) {
  aslr_thread *t = given;
  if (!may_start()) return NULL;
  run_entry(t);
  if (!is_done(t) && t->status == ASLR_OK) print_fault(t);
  return NULL;
}

/* ---- the program */

typedef struct {
  uint32_t threads;
  bool counts;
  aslr_options options;
} usage;

static bool read_threads(const char *word, uint32_t *threads) {
  char *end;
  unsigned long found = word[0] >= '0' && word[0] <= '9' ? strtoul(word, &end, 10) : 0;
  if (found < 1 || found > MOST_THREADS || *end) return false;
  *threads = (uint32_t)found;
  return true;
}

static bool read_usage(int argc, char **argv, usage *into) {
  for (int i = 1; i < argc; i++) {
    const char *word = argv[i];
    if (strcmp(word, "--counts") == 0)
      into->counts = true;
    else if (strcmp(word, "--share-numbers") == 0)
      into->options.shares_numbers = true;
    else if (strcmp(word, "--engine") == 0 && i + 1 < argc && strcmp(argv[i + 1], "forest") == 0)
      into->options.engine = ASLR_FOREST, i++;
    else if (strcmp(word, "--engine") == 0 && i + 1 < argc && strcmp(argv[i + 1], "words") == 0)
      into->options.engine = ASLR_WORDS, i++;
    else if (i + 1 < argc || !read_threads(word, &into->threads))
      return false;
  }
  return true;
}

static int refused(uint32_t status) {
  fprintf(stderr, "asl: %s\n", aslr_status_name(status));
  return REFUSED;
}

/* For the stacks of all threads together: 64 GB, or a quarter of the addresses that the process may have. */
static uint64_t most_for_stacks(void) {
  uint64_t most = UINT64_C(64) << 30, addresses = SIZE_MAX;
#ifdef RLIMIT_AS
  struct rlimit limit;
  if (getrlimit(RLIMIT_AS, &limit) == 0 && (uint64_t)limit.rlim_cur < addresses) addresses = limit.rlim_cur;
#endif
  return addresses / 4 < most ? addresses / 4 : most;
}

/* What a frame may take for the entries of sections. Many compilers give each a place of its own, for up to 65 values of 8 bytes, and sanitizers make
 * up to three times as much of it. Each section has its list, so no function has more of them. */
static size_t in_a_frame(uint64_t sections) { return (size_t)sections * 2048; }

/* Room for 256 frames, as far as there is room for all threads; what else they take is in STACK. A stack is mapped, not filled: what is never used of
 * it takes no memory. */
static size_t stack_for(const aslr_runtime *runtime, uint32_t threads) {
  uint64_t most = most_for_stacks() / threads, sections = most > STACK ? (most - STACK) / (256 * in_a_frame(1)) : 0;
  if (sections > runtime->list_count) sections = runtime->list_count;
  return STACK + 256 * in_a_frame(sections);
}

/* Behind the stack is a guard as large as a frame: who finds no room ends by a signal, and does not come into another's stack. */
static int set_stack(pthread_attr_t *attributes, size_t stack, const aslr_runtime *runtime) {
  int refusal = pthread_attr_setstacksize(attributes, stack);
  return refusal ? refusal : pthread_attr_setguardsize(attributes, (1 << 16) + in_a_frame(runtime->list_count));
}

/* Starts and joins a thread of the system for each, with such a stack; 0, or what is returned where a stack or a start is refused: then none runs. */
static int run_all(aslr_thread **threads, pthread_t *ids, uint32_t count, size_t stack) {
  pthread_attr_t attributes;
  int refusal = pthread_attr_init(&attributes);
  if (refusal) return refusal;
  refusal = set_stack(&attributes, stack, threads[0]->runtime);
  start.state = CLOSED;
  uint32_t started = 0;
  while (started < count && !refusal) {
    refusal = pthread_create(&ids[started], &attributes, run, threads[started]);
    started += !refusal;
  }
  open_gate(!refusal);
  for (uint32_t i = 0; i < started; i++) pthread_join(ids[i], NULL);
  pthread_attr_destroy(&attributes);
  return refusal;
}

static void print_globals(const aslr_runtime *runtime) {
  char value[32];
  for (uint32_t g = 0; g < runtime->program->globals; g++)
    printf("global %u %s\n", g, show(value, aslr_read(aslr_cell_of(aslr_global(runtime, g)))));
}

/* The status of the process, after all have run. */
static int ending(aslr_thread **threads, uint32_t count) {
  int found = ALL_DONE;
  for (uint32_t i = 0; i < count; i++) {
    if (is_done(threads[i])) continue;
    if (threads[i]->status != ASLR_OK) return refused(threads[i]->status);
    found = A_FAULT;
  }
  return found;
}

/* With memory for the threads, and as many of them open as `opened` says. */
static int run_threads(aslr_runtime *runtime, aslr_thread **threads, pthread_t *ids, uint32_t count, uint32_t *opened) {
  while (*opened < count) {
    uint32_t status = aslr_thread_open(runtime, &threads[*opened]);
    if (status != ASLR_OK) return refused(status);
    threads[*opened]->number = *opened;
    ++*opened;
  }
  size_t stack = stack_for(runtime, count);
  int refusal = run_all(threads, ids, count, stack);
  if (refusal && stack > STACK) refusal = run_all(threads, ids, count, STACK);
  if (refusal) {
    fprintf(stderr, "asl: Spawn\n");
    return REFUSED;
  }
  print_globals(runtime);
  return ending(threads, count);
}

static int run_program(aslr_runtime *runtime, const usage *given) {
  aslr_thread **threads = calloc(given->threads, sizeof *threads);
  pthread_t *ids = calloc(given->threads, sizeof *ids);
  uint32_t opened = 0;
  int status = threads && ids ? run_threads(runtime, threads, ids, given->threads, &opened) : refused(ASLR_NO_MEMORY);
  for (uint32_t i = 0; i < opened; i++) aslr_thread_close(threads[i]);
  free(ids);
  free(threads);
  if (given->counts) {
    aslr_counts counts;
    aslr_counts_of(runtime, &counts);
    fprintf(stderr, "sections %llu refusals %llu again %llu sleeps %llu\n", (unsigned long long)counts.sections,
            (unsigned long long)counts.refusals, (unsigned long long)counts.again, (unsigned long long)counts.sleeps);
  }
  return status;
}

int aslr_main(const aslr_program *program, int argc, char **argv) {
  long processors = sysconf(_SC_NPROCESSORS_ONLN);
  usage given = {.threads = processors > 0 && processors < MOST_THREADS ? (uint32_t)processors : 1};
  if (!read_usage(argc, argv, &given)) {
    fprintf(stderr, "usage: %s [--engine forest|words] [--counts] [--share-numbers] [THREADS]\n", argc > 0 ? argv[0] : "PROGRAM");
    return WRONG_USAGE;
  }
  aslr_runtime *runtime;
  uint32_t opened = aslr_open(program, &given.options, &runtime);
  if (opened != ASLR_OK) return refused(opened);
  int status = run_program(runtime, &given);
  aslr_close(runtime);
  if (fflush(stdout) != 0 || ferror(stdout)) {
    fprintf(stderr, "asl: Write\n");
    return REFUSED;
  }
  return status;
}
