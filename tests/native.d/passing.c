/* Who may pass those who wait. Readers, of whom one is always in, keep no writer out, whatever they read and he writes. Under the engine `forest`,
 * too: a list that is held back at a cell which it reads is not passed by those who come later and lead that cell elsewhere, in whichever order its
 * paths stand; of those who stand behind the same one, who came first comes in first; and who gives back compares few requests for each of them,
 * and none twice. And who waits for a writer that is kept out comes in once that one is in, where the two do not clash.
 * Nothing here rests on time: who is sent is in its section, or sleeps before it, when the next step is made, and afterwards it is asked who was in
 * before whom. Link it with counted_engine.c and --wrap=pthread_cond_wait,--wrap=aslr_forest_engine. Run by tests/runtime. */
#define _POSIX_C_SOURCE 200809L
#include "asl_runtime.h"
#include <pthread.h>
#include <stdio.h>
#include <stdlib.h>
#include <time.h>

/* who waits while ENDLESS others go on waits for ever; no more than PASS may go before; FEW comparisons are few for one who waits; MANY hold at once */
enum { ENDLESS = 100, PASS = 10, CROWD = 200, READERS = 4, FEW = 20, MANY = 100 };

static atomic_int passed;

static void must(int line, bool holds) {
  if (!holds) {
    fprintf(stderr, "passing.c:%d\n", line);
    _Exit(1);
  }
  atomic_fetch_add(&passed, 1);
}
#define MUST(condition) must(__LINE__, condition)

/* ---- a program: four globals of class 0, and objects of class 1 */

#define END {ASLR_END, 0, 0, 0, {0}}
#define CELL(mode, r, ...) {ASL_LEAF, mode, ASLR_REGISTER, r, {__VA_ARGS__}}
#define ALL(kind, mode) {kind, mode, ASLR_REGISTER, 0, {0}}
static const aslr_lock reads[] = {CELL(ASL_S, 0, 0), END};
static const aslr_lock reads_class[] = {ALL(ASL_CLASS, ASL_S), END};
static const aslr_lock reads_all[] = {ALL(ASL_ROOT, ASL_S), END};
static const aslr_lock writes[] = {CELL(ASL_X, 0, 0), END};
static const aslr_lock mixed[] = {CELL(ASL_X, 0, 0), ALL(ASL_CLASS, ASL_S), END};
static const aslr_lock writes_class[] = {ALL(ASL_CLASS, ASL_X), END};
static const aslr_lock writes_all[] = {ALL(ASL_ROOT, ASL_X), END};
static const aslr_lock writes_two[] = {CELL(ASL_X, 0, 0), CELL(ASL_X, 1, 0), END};
static const aslr_lock longest_first[] = {
  CELL(ASL_X, 0, 2, ASLR_FOLLOW, ASLR_FOLLOW), CELL(ASL_S, 0, 1, ASLR_FOLLOW), CELL(ASL_S, 0, 0), END};
static const aslr_lock longest_last[] = {
  CELL(ASL_S, 0, 0), CELL(ASL_S, 0, 1, ASLR_FOLLOW), CELL(ASL_X, 0, 2, ASLR_FOLLOW, ASLR_FOLLOW), END};
static const aslr_lock behind[] = {CELL(ASL_S, 0, 0), CELL(ASL_S, 1, 0), CELL(ASL_X, 1, 1, ASLR_FOLLOW), END};
enum { READS, READS_CLASS, READS_ALL, WRITES, MIXED, WRITES_CLASS, WRITES_ALL, WRITES_TWO, LONGEST_FIRST, LONGEST_LAST, BEHIND, GLOBALS = 4 };
static const aslr_lock *const lists[] = {reads,      reads_class,   reads_all,    writes, mixed, writes_class, writes_all,
                                         writes_two, longest_first, longest_last, behind, NULL};
static const uint16_t classes[GLOBALS];
static const aslr_program program = {2, GLOBALS, classes, lists, NULL};

static aslr_runtime *runtime;

static void open_for(aslr_engine engine) { MUST(aslr_open(&program, &(aslr_options){.engine = engine}, &runtime) == ASLR_OK); }

static aslr_thread *new_thread(void) {
  aslr_thread *thread = NULL;
  MUST(aslr_thread_open(runtime, &thread) == ASLR_OK);
  return thread;
}

static aslr_value new_cell(aslr_thread *thread, uint16_t klass) {
  aslr_value made = ASLR_NULL;
  MUST(aslr_object_new(thread, 1, klass, &made) == ASLR_OK);
  return made;
}

/* ---- visitors: each comes in by a thread of the system of its own */

typedef struct {
  aslr_thread *thread;
  uint32_t list;
  aslr_value registers[2];
  bool stays;       /* in its section, until somebody leaves it */
  bool stores;      /* the second register into the cell of the first */
  pthread_t id;
  atomic_bool sleeps, is_in; /* each true from then on */
  unsigned before;  /* how many visitors were in before it */
} visitor;

static atomic_uint visits;
static _Thread_local visitor *self;

int __real_pthread_cond_wait(pthread_cond_t *condition, pthread_mutex_t *mutex);
int __wrap_pthread_cond_wait(pthread_cond_t *condition, pthread_mutex_t *mutex);
int __wrap_pthread_cond_wait(pthread_cond_t *condition, pthread_mutex_t *mutex) {
  if (self) atomic_store(&self->sleeps, true);
  return __real_pthread_cond_wait(condition, mutex);
}

static void *visit(void *given) {
  self = given;
  MUST(aslr_section_enter(self->thread, self->list, self->registers) == ASLR_OK);
  self->before = atomic_fetch_add(&visits, 1);
  atomic_store(&self->is_in, true);
  if (self->stores) aslr_store(self->thread, self->registers[0], self->registers[1]);
  if (!self->stays) MUST(aslr_section_leave(self->thread) == ASLR_OK);
  return NULL;
}

static bool is_in(visitor *v) { return atomic_load(&v->is_in); }

/* Sends a visitor, and goes on once it is in its section or sleeps before it. */
static void send(visitor *v) {
  atomic_store(&v->sleeps, false);
  atomic_store(&v->is_in, false);
  MUST(pthread_create(&v->id, NULL, visit, v) == 0);
  while (!is_in(v) && !atomic_load(&v->sleeps)) nanosleep(&(struct timespec){0, 20000}, NULL);
}

static void await(visitor *v) { MUST(pthread_join(v->id, NULL) == 0 && is_in(v)); }

static void enter(aslr_thread *thread, uint32_t list, const aslr_value *registers) {
  MUST(aslr_section_enter(thread, list, registers) == ASLR_OK);
}

static void leave(aslr_thread *thread) { MUST(aslr_section_leave(thread) == ASLR_OK); }

static void close_thread(aslr_thread *thread) { MUST(aslr_abandon(thread) == ASLR_OK && aslr_thread_close(thread) == ASLR_OK); }

static void close_runtime(void) { MUST(aslr_close(runtime) == ASLR_OK); }

/* ---- readers and a writer */

/* The second reader comes, then the first leaves, and so on by turns, until the writer has been in who came when the first was. */
static int reads_before(visitor readers[2], visitor *writer) {
  int count = 0;
  send(&readers[0]);
  await(&readers[0]);
  send(writer);
  MUST(!is_in(writer));
  for (; count < ENDLESS && !is_in(writer); count++) {
    visitor *last = &readers[count % 2], *next = &readers[(count + 1) % 2];
    send(next);
    leave(last->thread);
    await(next);
  }
  return count;
}

static void lets_a_writer_in(aslr_engine engine, uint32_t read, uint32_t write) {
  open_for(engine);
  const visitor reader = {.list = read, .registers = {aslr_global(runtime, 0)}, .stays = true};
  visitor readers[2] = {reader, reader}, writer = {.thread = new_thread(), .list = write, .registers = {aslr_global(runtime, 0)}};
  for (int i = 0; i < 2; i++) readers[i].thread = new_thread();
  MUST(reads_before(readers, &writer) <= PASS);
  await(&writer);
  for (int i = 0; i < 2; i++) close_thread(readers[i].thread);
  close_thread(writer.thread);
  close_runtime();
}

/* ---- a writer that is kept out */

/* A writer of a cell waits for a reader of the class, and with it a reader of another cell. The first one leaves, the writer comes in and stays, and
 * so the reader of the other cell comes in too. */
static void lets_in_beside_the_writer(aslr_engine engine) {
  open_for(engine);
  aslr_thread *holds_class = new_thread();
  visitor writer = {.thread = new_thread(), .list = WRITES, .registers = {aslr_global(runtime, 0)}, .stays = true};
  visitor reader = {.thread = new_thread(), .list = READS, .registers = {aslr_global(runtime, 1)}};
  enter(holds_class, READS_CLASS, writer.registers);
  send(&writer);
  send(&reader);
  MUST(!is_in(&writer));
  leave(holds_class);
  await(&writer);
  await(&reader);
  close_thread(holds_class);
  close_thread(writer.thread);
  close_thread(reader.thread);
  close_runtime();
}

/* ---- a list that is held back */

/* The list waits for the object that a global leads to, which is held. By turns the other object is held, somebody comes who leads the global there,
 * and the first one is given back. */
static void move_on(aslr_thread *const holders[2], const aslr_value objects[2], visitor *mover, visitor *waiting) {
  for (int turn = 0; turn < ENDLESS && !is_in(waiting); turn++) {
    int last = turn % 2, next = 1 - last;
    enter(holders[next], WRITES, &objects[next]);
    mover->registers[1] = objects[next];
    send(mover);
    leave(holders[last]);
    await(mover);
  }
}

static void lets_nobody_move_on(uint32_t list) {
  open_for(ASLR_FOREST);
  aslr_thread *const holders[2] = {new_thread(), new_thread()};
  const aslr_value objects[2] = {new_cell(holders[0], 1), new_cell(holders[1], 1)}, at = aslr_global(runtime, 0);
  visitor mover = {.thread = new_thread(), .list = WRITES, .registers = {at}, .stores = true};
  visitor waiting = {.thread = new_thread(), .list = list, .registers = {at}};
  aslr_store(holders[0], at, objects[0]);
  enter(holders[0], WRITES, &objects[0]);
  send(&waiting);
  MUST(!is_in(&waiting));
  atomic_store(&visits, 0);
  move_on(holders, objects, &mover, &waiting);
  for (int i = 0; i < 2; i++) close_thread(holders[i]);
  await(&waiting);
  MUST(waiting.before <= PASS);
  close_thread(mover.thread);
  close_thread(waiting.thread);
  close_runtime();
}

/* ---- who came first */

/* The first waits for two, and comes to stand behind the one for whom the second waits, too, once the other leaves. Then both want one cell. */
static void looks_first_come_first(void) {
  open_for(ASLR_FOREST);
  const aslr_value a = aslr_global(runtime, 0), b = aslr_global(runtime, 1), c = aslr_global(runtime, 2), d = aslr_global(runtime, 3);
  aslr_thread *holds_c = new_thread(), *holds_a_and_d = new_thread();
  visitor first = {.thread = new_thread(), .list = BEHIND, .registers = {c, a}};
  visitor second = {.thread = new_thread(), .list = WRITES_TWO, .registers = {b, d}};
  enter(holds_c, WRITES, &c);
  enter(holds_a_and_d, WRITES_TWO, (const aslr_value[]){a, d});
  send(&first);
  send(&second);
  MUST(!is_in(&first) && !is_in(&second));
  leave(holds_c);
  aslr_store(holds_a_and_d, a, b);
  leave(holds_a_and_d);
  await(&first);
  await(&second);
  MUST(first.before < second.before);
  close_thread(holds_c);
  close_thread(holds_a_and_d);
  close_thread(first.thread);
  close_thread(second.thread);
  close_runtime();
}

/* ---- how many are looked at */

atomic_ullong comparisons; /* of modes: counted_engine.c */

/* Each of a crowd wants to write a cell of its own, while somebody is in the way. */
static void send_crowd(visitor *crowd, int count, aslr_thread *maker, bool stays) {
  for (int i = 0; i < count; i++) {
    crowd[i] = (visitor){.thread = new_thread(), .list = WRITES, .registers = {new_cell(maker, 0)}, .stays = stays};
    send(&crowd[i]);
    MUST(!is_in(&crowd[i]));
  }
}

static void await_crowd(visitor *crowd, int count) {
  for (int i = 0; i < count; i++) await(&crowd[i]);
}

static void close_crowd(visitor *crowd, int count) {
  for (int i = 0; i < count; i++) close_thread(crowd[i].thread);
}

/* how many modes are compared while it leaves */
static unsigned long long compared_by(aslr_thread *thread) {
  unsigned long long before = atomic_load(&comparisons);
  leave(thread);
  return atomic_load(&comparisons) - before;
}

/* Readers of the class are in the way of a crowd: all stand behind the one who stands last among those who hold. He leaves; so all must stand behind
 * another one, time after time. */
static void compares_few(void) {
  static visitor crowd[CROWD];
  aslr_thread *readers[READERS];
  const aslr_value none = ASLR_NULL;
  open_for(ASLR_FOREST);
  for (int i = 0; i < READERS; i++) enter(readers[i] = new_thread(), READS_CLASS, &none);
  send_crowd(crowd, CROWD, readers[0], false);
  for (int left = READERS; left > 1; left--) MUST(compared_by(readers[left - 1]) <= FEW * CROWD);
  leave(readers[0]);
  await_crowd(crowd, CROWD);
  close_crowd(crowd, CROWD);
  for (int i = 0; i < READERS; i++) close_thread(readers[i]);
  close_runtime();
}

/* One who writes the class leaves, and all of a crowd go on and stay: each is compared with each who went on before it, at the root and the class. */
static void compares_each_once(void) {
  static visitor crowd[MANY];
  const aslr_value none = ASLR_NULL;
  open_for(ASLR_FOREST);
  aslr_thread *writer = new_thread();
  enter(writer, WRITES_CLASS, &none);
  send_crowd(crowd, MANY, writer, true);
  MUST(compared_by(writer) <= 2 * (MANY * (MANY - 1) / 2));
  await_crowd(crowd, MANY);
  close_crowd(crowd, MANY);
  close_thread(writer);
  close_runtime();
}

/* One whose list reads a cell waits behind a crowd that is in nobody's way. It goes on, and asks for the same: it is compared with each of them once, at
 * the root, and with the two who hold. */
static void compares_the_same_once(void) {
  static visitor crowd[CROWD];
  open_for(ASLR_FOREST);
  aslr_thread *reader = new_thread(), *writer = new_thread();
  const aslr_value objects[2] = {new_cell(reader, 1), new_cell(reader, 1)};
  visitor last = {.thread = new_thread(), .list = BEHIND, .registers = {objects[0], objects[1]}, .stays = true};
  aslr_store(reader, objects[1], new_cell(reader, 1));
  enter(reader, READS_CLASS, objects);
  enter(writer, WRITES, objects);
  send_crowd(crowd, CROWD, reader, false);
  send(&last);
  MUST(!is_in(&last));
  MUST(compared_by(writer) <= CROWD + FEW);
  await(&last);
  leave(reader);
  await_crowd(crowd, CROWD);
  close_crowd(crowd, CROWD);
  close_thread(last.thread);
  close_thread(reader);
  close_thread(writer);
  close_runtime();
}

int main(void) {
  for (uint32_t read = READS; read <= READS_ALL; read++)
    for (uint32_t write = WRITES; write <= WRITES_ALL; write++) {
      lets_a_writer_in(ASLR_FOREST, read, write);
      lets_a_writer_in(ASLR_WORDS, read, write);
    }
  lets_in_beside_the_writer(ASLR_FOREST);
  lets_in_beside_the_writer(ASLR_WORDS);
  lets_nobody_move_on(LONGEST_FIRST);
  lets_nobody_move_on(LONGEST_LAST);
  looks_first_come_first();
  compares_few();
  compares_each_once();
  compares_the_same_once();
  printf("passing: %d hold\n", passed);
}
