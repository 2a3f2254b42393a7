/* `main` of a printed program where the start of a thread is refused, or its stack, or memory. Each thread makes an object and puts it into a global,
 * in a section. Link it as refusing.h says, with --wrap=pthread_create,--wrap=pthread_attr_setstacksize besides.
 * usage: starts thread N WORD..     the start of thread N is refused, with whatever stack, then all begins again with none refused: status 10 where
 *                                   that was so; 40 where it was not asked for twice, at last with 16 MB
 *        starts stack N WORD..      more than 16 MB of stack are refused to thread N, or to the attributes where N is -1: the status of the program,
 *                                   or 40 where more was not asked for once, or a thread has not 16 MB in the end
 *        starts addresses N WORD..  there are N MB of addresses (ulimit -v): the status of the program, or 40 where the stacks are not a quarter of
 *                                   that, and not 16 MB each where that is more
 *        starts memory N WORD..     memory is refused after N requests, or never where N is -1: the status of the program
 * Run by tests/runtime. */
#define _POSIX_C_SOURCE 200809L
#include "asl_runtime.h"
#include "refusing.h"
#include <errno.h>
#include <pthread.h>
#include <stdlib.h>
#include <string.h>
#include <sys/resource.h>

enum { LISTS = 128, MOST_STARTED = 16, MB = 1 << 20, LEAST = 16 * MB, ATTRIBUTES = -1, NOTHING = -2 };

static long refused = NOTHING; /* what gets no more stack than `allowed`: a thread, by its number, or the attributes */
static size_t allowed, refused_last;
static int refusals;
static size_t stacks[MOST_STARTED]; /* of the threads that were started last, by their numbers */
static size_t guards[MOST_STARTED]; /* behind them */

static bool refuses(long what, size_t stack) {
  if (what != refused || stack <= allowed) return false;
  refused_last = stack;
  refusals++;
  return true;
}

int __real_pthread_attr_setstacksize(pthread_attr_t *attributes, size_t size);
int __wrap_pthread_attr_setstacksize(pthread_attr_t *attributes, size_t size);
int __wrap_pthread_attr_setstacksize(pthread_attr_t *attributes, size_t size) {
  return refuses(ATTRIBUTES, size) ? EINVAL : __real_pthread_attr_setstacksize(attributes, size);
}

int __real_pthread_create(pthread_t *id, const pthread_attr_t *attributes, void *(*run)(void *), void *given);
int __wrap_pthread_create(pthread_t *id, const pthread_attr_t *attributes, void *(*run)(void *), void *given);
int __wrap_pthread_create(pthread_t *id, const pthread_attr_t *attributes, void *(*run)(void *), void *given) {
  uint32_t number = ((aslr_thread *)given)->number;
  size_t stack = 0;
  pthread_attr_getstacksize(attributes, &stack);
  if (refuses(number, stack)) return EAGAIN;
  if (number < MOST_STARTED) {
    stacks[number] = stack;
    pthread_attr_getguardsize(attributes, &guards[number]);
  }
  return __real_pthread_create(id, attributes, run, given);
}

/* Whether all that were started have so much stack together, up to a MB less for each, or each has 16 MB where that is more; and behind it a guard as
 * large as the frame of a function with all sections and 64 registers. */
static bool all_have(size_t together) {
  size_t count = 0;
  while (count < MOST_STARTED && stacks[count]) count++;
  if (count == 0) return false;
  size_t each = together / count > LEAST ? together / count : LEAST;
  for (size_t i = 0; i < count; i++)
    if (stacks[i] > each || stacks[i] + MB <= each || guards[i] < LISTS * 65 * 8) return false;
  return true;
}

/* ---- the program */

/* its second lock reads a cell, so that the engine `words` evaluates it again */
static const aslr_lock on_global[] = {
  {ASL_LEAF, ASL_X, ASLR_GLOBAL, 0, {0}}, {ASL_LEAF, ASL_S, ASLR_GLOBAL, 0, {1, ASLR_FOLLOW}}, {ASLR_END, 0, 0, 0, {0}}};
static const aslr_lock *lists[LISTS + 1]; /* all are this one, as if there were so many sections */
static const uint16_t classes[1];

static aslr_value entry(aslr_thread *t, aslr_value r0) {
  aslr_out(t, r0);
  aslr_enter(t, 0, &r0);
  aslr_store(t, aslr_glob(t, 0), aslr_new(t, 255, 0));
  aslr_leave(t);
  return r0;
}

static const aslr_program program = {1, 1, classes, lists, entry};

/* ---- ways to refuse */

static int without_thread(int argc, char **argv, long number) {
  refused = number;
  int first = aslr_main(&program, argc, argv);
  if (refusals != 2 || refused_last != LEAST) return 40;
  refused = NOTHING;
  return 10 * first + aslr_main(&program, argc, argv);
}

static int without_stack(int argc, char **argv, long number) {
  refused = number;
  allowed = LEAST;
  int status = aslr_main(&program, argc, argv);
  return refusals == 1 && all_have(0) ? status : 40;
}

static int with_addresses(int argc, char **argv, long number) {
  rlim_t most = (rlim_t)number * MB;
  if (setrlimit(RLIMIT_AS, &(struct rlimit){most, most})) return 40;
  int status = aslr_main(&program, argc, argv);
  return all_have(most / 4) ? status : 40;
}

static int with_memory(int argc, char **argv, long number) {
  atomic_store(&granted, number);
  return aslr_main(&program, argc, argv);
}

int main(int argc, char **argv) {
  static const struct {
    const char *word;
    int (*run)(int argc, char **argv, long number);
  } WAYS[] = {{"thread", without_thread}, {"stack", without_stack}, {"addresses", with_addresses}, {"memory", with_memory}};
  for (int i = 0; i < LISTS; i++) lists[i] = on_global;
  for (size_t i = 0; argc > 2 && i < sizeof WAYS / sizeof *WAYS; i++)
    if (strcmp(argv[1], WAYS[i].word) == 0) return WAYS[i].run(argc - 2, argv + 2, atol(argv[2]));
  return 2;
}
