/* Who waits under the engine `forest`, modelled: the engine as it stands, with all its threads on one of the system. Each runs until it would sleep,
 * or a little of its section, and then another is drawn; so a seed tells the whole run. Who sleeps is woken where the engine signals, and now and
 * then where it does not. They enter sections of lists that are drawn, over cells that lead to each other and objects that share numbers; change
 * what those lists read; and are refused memory at requests that are drawn. Looked at after each step:
 *   - the queue rises by turns, its links agree, and who stands in it asks for something, holds nothing, and does not go on;
 *   - each who waits stands behind one who is in its way, and holds or came before, unless all numbers are lent;
 *   - who stands behind another is one of its followers, which stand by their turns, and `placed` is one of them;
 *   - the tallies are what a recount of those who wait gives;
 *   - those who hold go together, and none of them has passed one who waits and whose list reads no cell;
 *   - who came in holds what its list asks for, until it changes that itself;
 *   - who was let on does not sleep, and one who has not ended can go on; when all have, nobody waits or holds, and nothing is tallied.
 * Link it as refusing.h says, with --wrap=pthread_cond_wait,--wrap=pthread_cond_signal,--wrap=aslr_forest_engine besides: the engine is in here.
 * AddressSanitizer warns of other stacks, and finds nothing; ThreadSanitizer does not know them, and there is one thread anyway.
 * Run by tests/runtime.
 * usage: modelled SEED THREADS AT_ONCE TURNS GLOBALS mixed|cells [refuses] */
#define _XOPEN_SOURCE 700
#define aslr_forest_engine __wrap_aslr_forest_engine
#include "asl_forest_engine.c"
#include "refusing.h"
#include <stdio.h>
#include <string.h>
#include <ucontext.h>

enum { MOST_THREADS = 400, MOST_GLOBALS = 64, MOST_WANTS = 64, STACK = 1 << 17, NUMBERS = 1 << 16, FEW_NUMBERS = 12 };

/* ---- what is drawn, and what fails */

static char **words;
static int word_count;
static unsigned long steps;
static uint64_t drawn;

static unsigned draw(unsigned below) {
  drawn = drawn * 6364136223846793005u + 1442695040888963407u;
  return (unsigned)(drawn >> 33) % below;
}

static bool one_in(unsigned times) { return draw(times) == 0; }

static void must(bool holds, const char *invariant) {
  if (holds) return;
  fprintf(stderr, "modelled");
  for (int i = 1; i < word_count; i++) fprintf(stderr, " %s", words[i]);
  fprintf(stderr, ": seed %s, step %lu: it does not hold that %s\n", words[1], steps, invariant);
  _Exit(1);
}

/* ---- a program: globals of class 0, and objects of the classes 0 to 2 of at most three cells */

#define END {ASLR_END, 0, 0, 0, {0}}
#define CELL(mode, r, ...) {ASL_LEAF, mode, ASLR_REGISTER, r, {__VA_ARGS__}}
#define ALL(kind, mode, klass) {kind, mode, ASLR_REGISTER, klass, {0}}
#define BEHIND 1, ASLR_FOLLOW
#define ONE_ON 2, ASLR_FOLLOW, 1
#define TWICE_ON 4, ASLR_FOLLOW, 1, ASLR_FOLLOW, 1
static const aslr_lock reads[] = {CELL(ASL_S, 0, 0), END};
static const aslr_lock writes[] = {CELL(ASL_X, 0, 0), END};
static const aslr_lock writes_two[] = {CELL(ASL_X, 0, 0), CELL(ASL_X, 1, 0), END};
static const aslr_lock behind[] = {CELL(ASL_S, 0, 0), CELL(ASL_X, 0, BEHIND), END};
static const aslr_lock longest_last[] = {CELL(ASL_S, 0, 0), CELL(ASL_S, 0, ONE_ON), CELL(ASL_X, 0, TWICE_ON), END};
static const aslr_lock longest_first[] = {CELL(ASL_X, 0, TWICE_ON), CELL(ASL_S, 0, ONE_ON), CELL(ASL_S, 0, 0), END};
static const aslr_lock reads_class[] = {ALL(ASL_CLASS, ASL_S, 0), END};
static const aslr_lock writes_class[] = {ALL(ASL_CLASS, ASL_X, 1), CELL(ASL_S, 0, 0), END};
static const aslr_lock reads_all[] = {ALL(ASL_ROOT, ASL_S, 0), END};
static const aslr_lock writes_all[] = {ALL(ASL_ROOT, ASL_X, 0), END};
static const aslr_lock crossed[] = {CELL(ASL_X, 0, 0), CELL(ASL_S, 0, BEHIND), CELL(ASL_S, 1, 0), CELL(ASL_X, 1, BEHIND), END};
static const aslr_lock unguarded[] = {CELL(ASL_X, 0, BEHIND), END};
static const aslr_lock mixed[] = {CELL(ASL_X, 0, 0), ALL(ASL_CLASS, ASL_S, 0), END};
static const aslr_lock writes_far[] = {CELL(ASL_X, 0, 0), CELL(ASL_X, 0, BEHIND), CELL(ASL_X, 0, ONE_ON), END};
enum { READS, WRITES, WRITES_TWO, BEHIND_ONE, LONGEST_LAST, LONGEST_FIRST, READS_CLASS, WRITES_CLASS };
enum { READS_ALL = WRITES_CLASS + 1, WRITES_ALL, CROSSED, UNGUARDED, MIXED, WRITES_FAR, LISTS };
static const aslr_lock *const lists[] = {reads,        writes,    writes_two, behind,  longest_last, longest_first, reads_class,
                                         writes_class, reads_all, writes_all, crossed, unguarded,    mixed,         writes_far, NULL};
static const uint16_t classes[MOST_GLOBALS];
static aslr_program program = {3, 0, classes, lists, NULL};
static aslr_runtime *runtime;
static bool mostly_cells, refuses; /* as the words say */

static aslr_value draw_global(void) { return aslr_global(runtime, draw(program.globals)); }

/* mostly of the lists that name cells alone, where many can be in at once; and those for all seldom, since nobody is in with them */
static uint32_t draw_list(void) {
  static const uint32_t of_cells[] = {READS, WRITES, WRITES, BEHIND_ONE, BEHIND_ONE, LONGEST_LAST, WRITES_FAR, WRITES_TWO};
  if (mostly_cells && !one_in(40)) return of_cells[draw(sizeof of_cells / sizeof *of_cells)];
  uint32_t found = one_in(3) ? BEHIND_ONE + draw(2) : draw(LISTS);
  return (found == READS_ALL || found == WRITES_ALL) && !one_in(4) ? WRITES_FAR : found;
}

static void draw_registers(aslr_value registers[2]) {
  for (int i = 0; i < 2; i++) registers[i] = draw_global();
  if (one_in(20)) registers[0] = aslr_int(3);
  if (one_in(20)) registers[1] = ASLR_NULL;
}

/* ---- threads that take turns: each has a stack, and all have one thread of the system */

typedef struct {
  aslr_thread *thread;
  forest_thread *at;
  ucontext_t context;
  char *stack;
  bool has_ended;
  bool sleeps;   /* until it is signalled */
  uint64_t turn; /* of those who wait it would pass those with a lesser one, since they were there before it */
} visitor;

static visitor visitors[MOST_THREADS], *self;
static int visitor_count, turns;
static ucontext_t stepper;
static unsigned long sections, refused;

static void grant_all(void) { atomic_store(&granted, -1); }
static void refuse_soon(unsigned times, unsigned below) {
  if (refuses && one_in(times)) atomic_store(&granted, (long)draw(below));
}

static void let_others(unsigned times) {
  while (times-- > 0) swapcontext(&self->context, &stepper);
}

int __wrap_pthread_cond_wait(pthread_cond_t *condition, pthread_mutex_t *mutex);
int __wrap_pthread_cond_signal(pthread_cond_t *condition);
int __wrap_pthread_cond_wait(pthread_cond_t *condition, pthread_mutex_t *mutex) {
  must(condition == &self->at->wake, "who sleeps does so for its own wake");
  grant_all();
  self->sleeps = true;
  pthread_mutex_unlock(mutex);
  let_others(1);
  pthread_mutex_lock(mutex);
  self->sleeps = false;
  return 0;
}
int __wrap_pthread_cond_signal(pthread_cond_t *condition) {
  for (int i = 0; i < visitor_count; i++)
    if (condition == &visitors[i].at->wake) visitors[i].sleeps = false;
  return 0;
}

/* ---- a section */

/* What a list that names each cell which it reads came in with is what it asks for now: nobody else changes those cells. */
static void holds_what_it_asks(uint32_t of) {
  static want room[MOST_WANTS];
  if (of == UNGUARDED || !self->at->holds) return;
  forest_thread now = *self->at;
  now.asked.wants = room;
  evaluate(&now);
  must(!now.held_back, "nobody holds what the list of one who holds reads");
  must(same_request(&now.asked, &self->at->asked), "who is in holds what its list asks for");
}

static aslr_value draw_value(aslr_value at) {
  aslr_value made = ASLR_NULL;
  uint8_t size;
  uint16_t klass;
  switch (draw(6)) {
  case 0: return aslr_int(7);
  case 1: return ASLR_NULL;
  case 2: return draw_global();
  default:
    size = (uint8_t)(1 + draw(3));
    klass = (uint16_t)draw(3);
    must(aslr_object_new(self->thread, size, klass, &made) == ASLR_OK, "there is memory for an object");
    if (one_in(2)) aslr_write(&aslr_object_of(made)->cells[draw(size)], aslr_read(aslr_cell_of(at)));
    return made;
  }
}

/* Changes what it may of the first cells on the way from here. */
static void store_behind(aslr_value at) {
  for (int way = 0; way < 3 && aslr_is_address(at); way++) {
    if (aslr_may_access(self->thread, at, true) && one_in(2)) aslr_write(aslr_cell_of(at), draw_value(at));
    if (!aslr_may_access(self->thread, at, false)) return;
    at = aslr_read(aslr_cell_of(at));
    if (aslr_is_address(at) && one_in(2) && aslr_object_of(at)->size > 1) at = aslr_address(aslr_object_of(at)) | (aslr_value)1 << 56;
  }
}

static bool comes_in(uint32_t of, const aslr_value *registers) {
  self->turn = of_runtime(runtime)->turns + 1;
  refuse_soon(4, 6);
  uint32_t status = aslr_section_enter(self->thread, of, registers);
  grant_all();
  if (status == ASLR_OK) return true;
  must(status == ASLR_NO_MEMORY && refuses && self->thread->depth == 0, "who does not come in was refused memory, and is in no section");
  refused++;
  return false;
}

static void goes_out(void) {
  refuse_soon(3, 4);
  must(aslr_section_leave(self->thread) == ASLR_OK, "a section is left, whatever memory there is");
  grant_all();
}

static void visit_once(void) {
  aslr_value registers[2];
  uint32_t of = draw_list();
  draw_registers(registers);
  if (!comes_in(of, registers)) {
    let_others(1);
    return;
  }
  sections++;
  let_others(draw(4));
  holds_what_it_asks(of);
  for (int i = 0; i < 2; i++) store_behind(registers[i]);
  let_others(draw(3));
  goes_out();
  let_others(draw(2));
}

static void visit(void) {
  for (int i = 0; i < turns; i++) visit_once();
  self->has_ended = true;
  let_others(1);
}

/* ---- the invariants, each looked at between two steps */

static void queue_rises(const forest_engine *engine) {
  const forest_thread *last = NULL;
  uint32_t count = 0;
  for (const forest_thread *w = engine->first; w; last = w, w = w->next) {
    must(w->turn > (last ? last->turn : 0), "who waits stands in the queue by its turn");
    must(w->last == last, "the links of the queue agree");
    must(w->asked.count > 0, "who waits asks for something");
    must(!w->holds, "who waits holds nothing");
    must(atomic_load(&w->state) != GOES_ON, "who waits does not go on");
    count++;
  }
  must(engine->last == last, "the end of the queue is its last");
  must(engine->waiter_count == count, "so many wait as are counted");
}

static bool is_in_the_way(const forest_thread *other, const forest_thread *my) {
  return (other->holds || (other->turn && other->turn < my->turn)) && clash(&other->asked, &my->asked);
}

/* Where all numbers are lent, whoever gives one back has all looked at. */
static void stand_behind_who_is_in_the_way(const forest_engine *engine) {
  if (aslr_holding_is_full(&engine->held)) return;
  for (const forest_thread *w = engine->first; w; w = w->next)
    must(w->behind && is_in_the_way(w->behind, w), "who waits stands behind one who is in its way");
}

/* returns how many there are */
static int followers_rise(const forest_thread *other) {
  const forest_thread *last = NULL;
  bool found = !other->placed;
  int count = 0;
  for (const forest_thread *f = other->first_follower; f; last = f, f = f->next_behind) {
    must(f->behind == other && f->last_behind == last, "the links of those who stand behind another agree");
    must(f->turn > 0, "who stands behind another waits");
    must(!last || last->turn < f->turn, "who stand behind the same one stand by their turns");
    found = found || f == other->placed;
    count++;
  }
  must(other->last_follower == last, "the last of those who stand behind another is the end of them");
  must(found, "the one that was placed last is one of those who stand behind");
  return count;
}

static void followers_are_all(void) {
  int following = 0, standing = 0;
  for (int i = 0; i < visitor_count; i++) {
    following += followers_rise(visitors[i].at);
    standing += visitors[i].at->behind != NULL;
  }
  must(following == standing, "who stands behind another is one of those behind it");
}

static void tallies_are_counted(forest_engine *engine) {
  static tally counted[TALLIES];
  memset(counted, 0, sizeof counted);
  for (const forest_thread *w = engine->first; w; w = w->next)
    for (size_t i = 0; i < w->asked.count; i++) {
      tally *of = &counted[tally_of(engine, w->asked.wants[i]) - engine->tallies];
      for (unsigned bit = 0; bit < 4; bit++) of->with[bit] += mode_of(w->asked.wants[i]) >> bit & 1;
    }
  must(memcmp(counted, engine->tallies, sizeof counted) == 0, "the tallies are what those ask who wait");
}

static void holders_go_together(const forest_engine *engine) {
  for (uint32_t i = 0; i < engine->held.count; i++) {
    must(holder(engine, i)->holds, "who is among the holders holds");
    for (uint32_t j = 0; j < i; j++) must(!clash(&holder(engine, i)->asked, &holder(engine, j)->asked), "what two hold goes together");
  }
}

/* Where its list reads no cell, what one who waits asks for is what it asked as it came. */
static void nobody_is_passed(const forest_engine *engine) {
  for (int i = 0; i < visitor_count; i++) {
    const visitor *v = &visitors[i];
    if (!v->at->holds) continue;
    for (const forest_thread *w = engine->first; w; w = w->next)
      must(w->of->follows || w->turn >= v->turn || !clash(&w->asked, &v->at->asked), "nobody who holds has passed one who waits");
  }
}

static void who_goes_on_is_awake(void) {
  for (int i = 0; i < visitor_count; i++) {
    const visitor *v = &visitors[i];
    must(!v->sleeps || atomic_load(&v->at->state) == SLEEPS, "who was let on does not sleep");
    must(!v->sleeps || v->at->turn > 0, "who sleeps waits");
  }
}

static void all_hold(void) {
  forest_engine *engine = of_runtime(runtime);
  queue_rises(engine);
  followers_are_all();
  stand_behind_who_is_in_the_way(engine);
  tallies_are_counted(engine);
  holders_go_together(engine);
  nobody_is_passed(engine);
  who_goes_on_is_awake();
}

static void nothing_is_left(void) {
  static const tally none[TALLIES];
  const forest_engine *engine = of_runtime(runtime);
  must(!engine->first && engine->held.count == 0, "nobody waits or holds when all have ended");
  must(memcmp(none, engine->tallies, sizeof none) == 0, "no tallies are left when all have ended");
}

/* ---- a run */

static void open_visitor(visitor *v) {
  must(aslr_thread_open(runtime, &v->thread) == ASLR_OK, "a thread is opened");
  v->at = of_thread(v->thread)->at;
  v->stack = malloc(STACK);
  must(v->stack && getcontext(&v->context) == 0, "there is a stack");
  v->context.uc_stack.ss_sp = v->stack;
  v->context.uc_stack.ss_size = STACK;
  v->context.uc_link = &stepper;
  makecontext(&v->context, visit, 0);
}

static void open_all(uint32_t at_once) {
  const aslr_options options = {.engine = ASLR_FOREST, .at_once = at_once, .spin_ns = 1, .shares_numbers = true};
  must(aslr_open(&program, &options, &runtime) == ASLR_OK, "a runtime is opened");
  must(runtime->longest < MOST_WANTS, "there is room for what a list asks");
  for (int i = 0; i < visitor_count; i++) open_visitor(&visitors[i]);
}

static void close_all(void) {
  for (int i = 0; i < visitor_count; i++) {
    must(aslr_thread_close(visitors[i].thread) == ASLR_OK, "a thread is closed");
    free(visitors[i].stack);
  }
  must(aslr_close(runtime) == ASLR_OK, "a runtime is closed");
}

/* one who can go on, or now and then one who sleeps; NULL: all have ended */
static visitor *draw_visitor(void) {
  bool some = false, can_go_on = false;
  for (int i = 0; i < visitor_count; i++) {
    some = some || !visitors[i].has_ended;
    can_go_on = can_go_on || (!visitors[i].has_ended && !visitors[i].sleeps);
  }
  if (!some) return NULL;
  must(can_go_on, "one who has not ended can go on");
  for (;;) {
    visitor *v = &visitors[draw((unsigned)visitor_count)];
    if (!v->has_ended && (!v->sleeps || one_in(50))) return v;
  }
}

/* The numbers of objects begin again early: so they share them. */
static void keep_numbers_few(void) {
  if (atomic_load(&runtime->numbers_given) % NUMBERS > program.globals + FEW_NUMBERS) atomic_store(&runtime->numbers_given, NUMBERS);
}

int main(int count, char **given) {
  words = given;
  word_count = count;
  if (count < 7) return 2;
  drawn = strtoull(given[1], NULL, 10) * 7919 + 13;
  visitor_count = atoi(given[2]);
  turns = atoi(given[4]);
  program.globals = (uint32_t)atoi(given[5]);
  mostly_cells = strcmp(given[6], "cells") == 0;
  refuses = count > 7;
  if (visitor_count < 1 || visitor_count > MOST_THREADS || program.globals < 1 || program.globals > MOST_GLOBALS) return 2;
  open_all((uint32_t)atoi(given[3]));
  for (; (self = draw_visitor()); steps++) {
    swapcontext(&stepper, &self->context);
    keep_numbers_few();
    all_hold();
  }
  nothing_is_left();
  close_all();
  printf("modelled: the invariants hold after each of %lu steps of %lu sections, and %lu refused memory\n", steps, sections, refused);
}
