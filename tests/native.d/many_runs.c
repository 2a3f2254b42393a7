/* In the place of asl_main.c: runs a program many times, and prints each outcome that came, after a line that says how often: what each thread put
 * out and how it ended, and the heap that the globals reach, all without the numbers of objects. Before accesses that are asked for (`asl c
 * --check`) threads pause by chance, so that others come between. Status 1 where something other than a fault ended a thread.
 * Run by tests/parallel.
 * usage: PROGRAM forest|words THREADS RUNS SEED AT_ONCE */
#define _POSIX_C_SOURCE 200809L
#include "inside.h"
#include <sched.h>
#include <stdio.h>
#include <stdlib.h>
#include <string.h>
#include <time.h>

enum { MOST_THREADS = 64, MOST_OUTCOMES = 4096, MOST_OBJECTS = 65536 };

static void fail(const char *why) {
  fprintf(stderr, "many_runs: %s\n", why);
  exit(1);
}

/* ---- what threads do by chance */

static FILE *said[MOST_THREADS];
static uint64_t chance[MOST_THREADS];

static unsigned draw(uint32_t thread) {
  chance[thread] = chance[thread] * 6364136223846793005u + 1442695040888963407u;
  return (unsigned)(chance[thread] >> 40);
}

static void pause_sometimes(aslr_thread *t) {
  unsigned roll = draw(t->number) % 64;
  if (roll == 0) nanosleep(&(struct timespec){0, 100000}, NULL);
  if (roll < 24) sched_yield();
}

/* ---- what is told */

static void tell_value(FILE *to, aslr_value v) {
  if (aslr_is_int(v))
    fprintf(to, "int %d\n", aslr_int_of(v));
  else if (v == ASLR_NULL)
    fprintf(to, "null\n");
  else
    fprintf(to, "addr %u.%u\n", aslr_object_of(v)->klass, aslr_offset_of(v));
}

void aslr_out(aslr_thread *t, aslr_value a) {
  fprintf(said[t->number], "%u out ", t->number);
  tell_value(said[t->number], a);
}

static void tell_end(aslr_thread *t, aslr_value done) {
  FILE *to = said[t->number];
  if (t->frames == 0) {
    fprintf(to, "%u done ", t->number);
    tell_value(to, done);
  } else if (t->status != ASLR_OK) {
    fprintf(to, "%u status %u\n", t->number, t->status);
  } else {
    fprintf(to, "%u fault %s\n", t->number, aslr_fault_name(t->ended_by));
  }
}

static const aslr_object *seen[MOST_OBJECTS];
static unsigned seen_count;

static unsigned place_of(const aslr_object *object) {
  unsigned i = 0;
  while (i < seen_count && seen[i] != object) i++;
  if (i == seen_count) seen[seen_count++] = object;
  return i;
}

static void tell_heap(const aslr_runtime *runtime, FILE *to) {
  seen_count = 0;
  for (uint32_t g = 0; g < runtime->program->globals; g++) place_of(aslr_object_of(aslr_global(runtime, g)));
  for (unsigned i = 0; i < seen_count; i++)
    for (unsigned c = 0; c < seen[i]->size; c++) {
      aslr_value v = aslr_read(&seen[i]->cells[c]);
      fprintf(to, "cell %u.%u ", i, c);
      if (aslr_is_address(v))
        fprintf(to, "addr %u.%u\n", place_of(aslr_object_of(v)), aslr_offset_of(v));
      else
        tell_value(to, v);
    }
}

/* ---- a run */

static pthread_barrier_t all_there;
static uint32_t count;

static void *run(void *given) {
  aslr_thread *t = given;
  aslr_value *done = calloc(1, sizeof *done);
  if (!done) fail("no memory");
  pthread_barrier_wait(&all_there);
  if (!setjmp(t->failed)) {
    *done = t->runtime->program->entry(t, aslr_int((int32_t)t->number));
    if (t->depth > 0) aslr_fault(t, ASLR_FAULT_OPEN);
    t->frames = 0;
  }
  tell_end(t, *done);
  free(done);
  return NULL;
}

static void run_threads(aslr_runtime *runtime, char **texts) {
  aslr_thread *threads[MOST_THREADS];
  pthread_t ids[MOST_THREADS];
  size_t lengths[MOST_THREADS];
  for (uint32_t t = 0; t < count; t++) {
    said[t] = open_memstream(&texts[t], &lengths[t]);
    if (!said[t] || aslr_thread_open(runtime, &threads[t]) != ASLR_OK) fail("no memory");
    threads[t]->number = t;
    threads[t]->before_access = pause_sometimes;
    if (pthread_create(&ids[t], NULL, run, threads[t])) fail("a thread does not start");
  }
  for (uint32_t t = 0; t < count; t++) {
    pthread_join(ids[t], NULL);
    fclose(said[t]);
    if (aslr_thread_close(threads[t]) != ASLR_OK) fail("a thread is still in a section");
  }
}

/* the outcome of a run, to be freed */
static char *run_once(const aslr_program *program, const aslr_options *options, aslr_counts *all) {
  aslr_runtime *runtime;
  if (aslr_open(program, options, &runtime) != ASLR_OK) fail("aslr_open");
  char *texts[MOST_THREADS], *outcome;
  run_threads(runtime, texts);
  size_t length;
  FILE *to = open_memstream(&outcome, &length);
  if (!to) fail("no memory");
  for (uint32_t t = 0; t < count; t++) {
    fputs(texts[t], to);
    free(texts[t]);
  }
  tell_heap(runtime, to);
  fclose(to);
  aslr_counts counts;
  aslr_counts_of(runtime, &counts);
  all->sections += counts.sections;
  all->refusals += counts.refusals;
  all->again += counts.again;
  all->sleeps += counts.sleeps;
  if (aslr_close(runtime) != ASLR_OK) fail("aslr_close");
  return outcome;
}

static struct {
  char *text;
  unsigned times;
} outcomes[MOST_OUTCOMES];
static unsigned outcome_count;

static void note(char *outcome) {
  unsigned i = 0;
  while (i < outcome_count && strcmp(outcomes[i].text, outcome) != 0) i++;
  if (i == MOST_OUTCOMES) fail("too many outcomes");
  if (i < outcome_count) free(outcome);
  else outcomes[outcome_count++].text = outcome;
  outcomes[i].times++;
}

int aslr_main(const aslr_program *program, int argc, char **argv) {
  if (argc != 6) fail("usage: PROGRAM forest|words THREADS RUNS SEED AT_ONCE");
  aslr_options options = {.engine = strcmp(argv[1], "words") == 0 ? ASLR_WORDS : ASLR_FOREST, .at_once = (uint32_t)atoi(argv[5])};
  count = (uint32_t)atoi(argv[2]);
  if (count < 1 || count > MOST_THREADS || pthread_barrier_init(&all_there, NULL, count)) fail("no such number of threads");
  aslr_counts all = {0};
  for (uint32_t t = 0; t < count; t++) chance[t] = strtoull(argv[4], NULL, 10) * 7919 + t;
  for (int runs = atoi(argv[3]); runs > 0; runs--) note(run_once(program, &options, &all));
  for (unsigned i = 0; i < outcome_count; i++) {
    printf("times %u\n%s", outcomes[i].times, outcomes[i].text);
    free(outcomes[i].text);
  }
  printf("counts %llu %llu %llu %llu\n", (unsigned long long)all.sections, (unsigned long long)all.refusals, (unsigned long long)all.again,
         (unsigned long long)all.sleeps);
  return 0;
}
