/* Code of one's own under inferred lists: what asl_program_compile finds for the sections of examples/bank.asl becomes the table that aslr_open
 * takes, and four threads do in C what the source says (docs/PARALLEL.md, "With code of your own"). In the top folder of the repository:
 *
 *   cc -O2 -pthread -I include -I runtime examples/c/own.c runtime/asl_*.c out/lib/libasl.a -o own && ./own < examples/bank.asl
 *
 * Each moves money from an account to the next, and now and then adds up all four: that sum stays.
 * usage: own < examples/bank.asl */
#include "asl_runtime.h"
#include <pthread.h>
#include <stdio.h>
#include <stdlib.h>

enum { OPEN, TRANSFER, TOTAL, SECTIONS }; /* as they stand in the source */
enum { ACCOUNTS = 4, THREADS = 4, ROUNDS = 5000, MOST_LOCKS = 256, MAX_SOURCE = 1 << 16 };
enum { ACCOUNT_CLASS = 1 };               /* of what `made = new 1` makes, as `asl map` says */

static void must(bool holds, const char *what) {
  if (holds) return;
  fprintf(stderr, "own: %s\n", what);
  exit(1);
}

/* ---- the lists */

static aslr_lock locks[SECTIONS][MOST_LOCKS + 1];
static const aslr_lock *lists[SECTIONS + 1]; /* NULL after the last */
static uint16_t class_of_global[ACCOUNTS];

/* a lock as the runtime has it */
static aslr_lock lock_of(const asl_lock *lock) {
  aslr_lock made = {.kind = lock->kind, .mode = lock->writes ? ASL_X : ASL_S, .base = lock->from_global ? ASLR_GLOBAL : ASLR_REGISTER};
  made.at = lock->kind == ASL_CLASS ? lock->klass : lock->base;
  made.path[0] = lock->operations;
  for (int i = 0; i < lock->operations; i++) made.path[1 + i] = lock->path[i] == ASL_FOLLOW ? ASLR_FOLLOW : (int16_t)lock->path[i];
  return made;
}

static void take_list(asl_program *program, uint32_t n) {
  asl_list list;
  asl_lock lock;
  must(asl_program_list(program, n, &list) == ASL_OK && list.locks <= MOST_LOCKS, "a list");
  for (uint32_t l = 0; l < list.locks; l++) {
    must(asl_program_lock(program, n, l, &lock) == ASL_OK, "a lock");
    locks[n][l] = lock_of(&lock);
  }
  locks[n][list.locks].kind = ASLR_END;
  lists[n] = locks[n];
}

/* The program of the source on standard input: of a source the list of section n is list n. */
static aslr_program read_program(void) {
  static uint8_t source[MAX_SOURCE];
  static asl_program program;
  asl_counts counts;
  must(asl_program_compile(source, fread(source, 1, sizeof source, stdin), 3, &program) == ASL_OK, "the source");
  must(asl_program_counts(&program, &counts) == ASL_OK && counts.globals == ACCOUNTS && counts.lists == SECTIONS, "the bank");
  for (uint32_t g = 0; g < ACCOUNTS; g++) must(asl_program_global(&program, g, &class_of_global[g]) == ASL_OK, "a global");
  for (uint32_t n = 0; n < SECTIONS; n++) take_list(&program, n);
  must(asl_program_close(&program) == ASL_OK, "closed");
  return (aslr_program){counts.classes, ACCOUNTS, class_of_global, lists, NULL};
}

/* ---- the sections: registers are numbered as in the source, first the parameters, and these lists name no others */

static void enter(aslr_thread *t, uint32_t section, const aslr_value *registers) {
  must(aslr_section_enter(t, section, registers) == ASLR_OK, "a section");
}

static void leave(aslr_thread *t) { must(aslr_section_leave(t) == ASLR_OK, "the end of a section"); }

static void open_account(aslr_thread *t, aslr_value place) {
  aslr_value made;
  enter(t, OPEN, &place);
  must(aslr_object_new(t, 1, ACCOUNT_CLASS, &made) == ASLR_OK, "an account");
  aslr_store(t, made, aslr_int(100));
  aslr_store(t, place, made);
  leave(t);
}

static void transfer(aslr_thread *t, aslr_value from, aslr_value to, int32_t amount) {
  enter(t, TRANSFER, (const aslr_value[]){from, to});
  aslr_value f = aslr_load(t, from), g = aslr_load(t, to), has = aslr_load(t, f);
  if (aslr_int_of(has) >= amount) {
    aslr_store(t, f, aslr_sub(t, has, aslr_int(amount)));
    aslr_store(t, g, aslr_add(t, aslr_load(t, g), aslr_int(amount)));
  }
  leave(t);
}

static int32_t total(aslr_thread *t) {
  aslr_value sum = aslr_int(0), registers[ACCOUNTS];
  for (uint32_t a = 0; a < ACCOUNTS; a++) registers[a] = aslr_global(t->runtime, a);
  enter(t, TOTAL, registers);
  for (uint32_t a = 0; a < ACCOUNTS; a++) sum = aslr_add(t, sum, aslr_load(t, aslr_load(t, registers[a])));
  leave(t);
  return aslr_int_of(sum);
}

/* ---- threads of the system, each with one of the runtime */

static aslr_thread *opened(aslr_runtime *runtime) {
  aslr_thread *t;
  must(aslr_thread_open(runtime, &t) == ASLR_OK, "a thread of the runtime");
  return t;
}

static void *move(void *given) {
  aslr_thread *t = given;
  const aslr_value from = aslr_global(t->runtime, t->number), to = aslr_global(t->runtime, (t->number + 1) % ACCOUNTS);
  if (setjmp(t->failed)) must(false, aslr_fault_name(t->ended_by));
  for (int round = 0; round < ROUNDS; round++) {
    transfer(t, from, to, 1);
    if (round % 100 == 0) must(total(t) == 100 * ACCOUNTS, "the sum is another while others move money");
  }
  must(aslr_thread_close(t) == ASLR_OK, "a thread of the runtime");
  return NULL;
}

int main(void) {
  aslr_program program = read_program();
  aslr_runtime *runtime;
  pthread_t ids[THREADS];
  must(aslr_open(&program, NULL, &runtime) == ASLR_OK, "a runtime");
  aslr_thread *t = opened(runtime);
  if (setjmp(t->failed)) must(false, aslr_fault_name(t->ended_by));
  for (uint32_t a = 0; a < ACCOUNTS; a++) open_account(t, aslr_global(runtime, a));
  for (uint32_t i = 0; i < THREADS; i++) {
    aslr_thread *own = opened(runtime);
    own->number = i;
    must(pthread_create(&ids[i], NULL, move, own) == 0, "a thread of the system");
  }
  for (uint32_t i = 0; i < THREADS; i++) pthread_join(ids[i], NULL);
  printf("total %d after %d transfers\n", total(t), THREADS * ROUNDS);
  must(aslr_thread_close(t) == ASLR_OK && aslr_close(runtime) == ASLR_OK, "the end");
  return 0;
}
