/* Sections under the lock forest and the queue of asl.h, which are proved, under one guard (asl_holding.h says when which).
 *
 * A list that reads cells is evaluated under the guard, and what it asks for is granted or refused before the guard is given up. Cells need not
 * be atomic for that: a cell that another thread covers for writing is not read, but refused at once (docs/RACES.md, "Tries").
 *
 * Who is refused waits in a queue, as docs/LOCKS.md, "The queue", says: nobody goes first who comes later and asks what clashes with what was asked
 * at the last look. Each who waits stands behind one who is in his way, and holds or waits before him. Who gives back looks at those who stand behind
 * him, first come first: each finds another who is in his way, or what his list asks for now is granted. So only those are woken who go on, and the
 * others cost nothing. They look a moment before they sleep. A thread has a number in the forest only while it holds something. */
#define _POSIX_C_SOURCE 200809L
#include "asl_holding.h"
#include <stdlib.h>

enum { MOST_WOKEN = 16, GUARD_SPIN_NS = 10000, TALLIES = 1 << 10 };

enum { WAITS, GOES_ON, SLEEPS }; /* what `state` is */

typedef struct forest_thread {
  aslr_hold hold;   /* first, so that who holds is found by it */
  request asked;    /* what the thread holds, or waits for */
  request before;   /* room: what it waited for at the last look */
  bool holds;
  bool held_back;   /* it waits for a cell that its list reads: what else it will ask for is not known yet */
  bool writes;
  struct forest_thread *next, *last; /* in the queue, while it waits */
  uint64_t turn;    /* while it waits: who came before has a lesser one; else 0 */
  struct forest_thread *behind; /* while it waits: one who is in its way; NULL: there was no number for it */
  struct forest_thread *next_behind, *last_behind; /* among those who stand behind the same one */
  struct forest_thread *first_follower, *last_follower; /* those who stand behind this one, by their turns */
  struct forest_thread *placed; /* of these the one that came there last before others; NULL: none */
  mine *self;
  const list *of;   /* while it waits */
  const aslr_value *registers;
  uint32_t status;  /* that it goes on with */
  atomic_int state;
  pthread_mutex_t mutex; /* for its sleep */
  pthread_cond_t wake;
} forest_thread;

/* how many of those who wait ask at some nodes for a mode with the 1, the 2, the 4 and the 8 */
typedef struct {
  uint32_t with[4];
} tally;

typedef struct {
  aslr_holding held;
  _Alignas(64) pthread_mutex_t guard; /* for all that follows, and what is held */
  atomic_bool busy;                   /* whether somebody has the guard: a hint for those who spin, on which nothing but time rests */
  uint32_t waiter_count;
  forest_thread *first, *last;        /* the queue */
  uint64_t turns;                     /* how often somebody began to wait */
  tally tallies[TALLIES];             /* each of the nodes of a hash */
  bool has_mutex;
} forest_engine;

static inline forest_engine *of_runtime(const aslr_runtime *runtime) { return runtime->engine_at; }

/* who holds something, at this place among them */
static inline forest_thread *holder(const forest_engine *engine, uint32_t place) { return (forest_thread *)engine->held.holds[place]; }

static bool try_guard(forest_engine *engine) {
  return !atomic_load_explicit(&engine->busy, memory_order_relaxed) && pthread_mutex_trylock(&engine->guard) == 0;
}

/* It is held for less time than it takes to sleep and to wake. */
static void take_guard(forest_engine *engine) {
  if (!try_guard(engine)) {
    spin s = spin_for(GUARD_SPIN_NS);
    bool has = false;
    while (!has && spins(&s)) has = try_guard(engine);
    if (!has) pthread_mutex_lock(&engine->guard);
  }
  atomic_store_explicit(&engine->busy, true, memory_order_relaxed);
}

static void give_guard(forest_engine *engine) {
  atomic_store_explicit(&engine->busy, false, memory_order_relaxed);
  pthread_mutex_unlock(&engine->guard);
}

/* ---- nodes as numbers that rise, and back */

static inline uint64_t root_node(void) { return 0; }
static inline uint64_t class_node(uint16_t klass) { return UINT64_C(1) << 40 | (uint64_t)klass << 24; }
static inline uint64_t leaf_node(aslr_value at) {
  const aslr_object *object = aslr_object_of(at);
  return UINT64_C(2) << 40 | (uint64_t)object->klass << 24 | (uint64_t)object->number << 8 | aslr_offset_of(at);
}

static inline asl_ask as_ask(want one) {
  uint64_t node = node_of(one);
  return (asl_ask){(uint8_t)(node >> 40), mode_of(one), (uint8_t)node, (uint16_t)(node >> 24), (uint16_t)(node >> 8)};
}

static bool clash(const request *a, const request *b) {
  for (size_t i = 0, j = 0; i < a->count && j < b->count;) {
    uint64_t here = node_of(a->wants[i]), there = node_of(b->wants[j]);
    if (here == there && modes_clash(mode_of(a->wants[i]), mode_of(b->wants[j]))) return true;
    i += here <= there;
    j += there <= here;
  }
  return false;
}

/* ---- what a list asks for now */

static bool covers_for_writing(const request *held, aslr_value at) {
  uint64_t leaf = leaf_node(at), klass = class_node(aslr_object_of(at)->klass);
  for (size_t i = 0; i < held->count; i++) {
    uint64_t node = node_of(held->wants[i]);
    if (mode_of(held->wants[i]) == ASL_X && (node == root_node() || node == klass || node == leaf)) return true;
  }
  return false;
}

/* whether no other thread covers the cell for writing */
static bool may_read(mine *self, aslr_value at) {
#ifdef ASLR_TEST_READS_ALL /* for a test, which must then fail */
  return true;
#endif
  const forest_engine *engine = of_runtime(self->thread.runtime);
  for (uint32_t h = 0; h < engine->held.count; h++) {
    const forest_thread *other = holder(engine, h);
    if (other->self != self && other->writes && covers_for_writing(&other->asked, at)) return false;
  }
  return true;
}

/* Whatever is asked, the root is asked too, and stands first. */
static inline void ask_root(request *all, uint8_t mode) { ask_above(all, 0, root_node(), mode); }

static inline void ask_class(request *all, uint16_t klass, uint8_t mode) { ask_above(all, 1, class_node(klass), mode); }

static inline void ask_cell(request *all, aslr_value at, uint8_t mode, uint8_t above) {
  ask_root(all, above);
  ask_class(all, aslr_object_of(at)->klass, above);
  ask(all, leaf_node(at), mode);
}

static void ask_lock(forest_thread *my, const aslr_lock *lock) {
  uint8_t above = lock->mode == ASL_X ? ASL_IX : ASL_IS;
  aslr_value at;
  if (lock->kind == ASL_ROOT) {
    ask_root(&my->asked, lock->mode);
  } else if (lock->kind == ASL_CLASS) {
    ask_root(&my->asked, above);
    ask_class(&my->asked, lock->at, lock->mode);
  } else {
    switch (locate(my->self->thread.runtime, lock, my->registers, may_read, my->self, &at)) {
    case A_CELL: ask_cell(&my->asked, at, lock->mode, above); break;
    case HELD_BACK:
      my->held_back = true;
      ask_cell(&my->asked, at, ASL_S, ASL_IS);
      break;
    case NO_CELL: break;
    }
  }
  my->writes = my->writes || lock->mode == ASL_X;
}

/* Also behind a cell that is held back: whoever comes later and clashes with what is known of the list does not go first. */
static void evaluate(forest_thread *my) {
  my->asked.count = 0;
  my->held_back = my->writes = false;
  for (uint32_t i = 0; i < my->of->count; i++) ask_lock(my, &my->of->locks[i]);
}

/* ---- under the guard: the queue, and grants */

static tally *tally_of(forest_engine *engine, want one) { return &engine->tallies[node_of(one) * UINT64_C(0x9e3779b97f4a7c15) >> 54]; }

static void count_in(forest_engine *engine, const request *all) {
  for (size_t i = 0; i < all->count; i++)
    for (unsigned bit = 0; bit < 4; bit++) tally_of(engine, all->wants[i])->with[bit] += mode_of(all->wants[i]) >> bit & 1;
}

static void count_out(forest_engine *engine, const request *all) {
  for (size_t i = 0; i < all->count; i++)
    for (unsigned bit = 0; bit < 4; bit++) tally_of(engine, all->wants[i])->with[bit] -= mode_of(all->wants[i]) >> bit & 1;
}

/* whether somebody may wait who asks for what clashes: else nobody does */
static bool may_clash(forest_engine *engine, const request *all) {
  for (size_t i = 0; i < all->count && engine->first; i++) {
    const uint32_t *with = tally_of(engine, all->wants[i])->with;
    uint8_t joined = (uint8_t)((with[0] > 0) | (with[1] > 0) << 1 | (with[2] > 0) << 2 | (with[3] > 0) << 3);
    if (modes_clash(mode_of(all->wants[i]), joined)) return true;
  }
  return false;
}

/* One who waits, and came before, and asks for what clashes. It is looked for from both ends: writers stand first where others read, and those who
 * came last where all write. */
static forest_thread *waits_before(const forest_engine *engine, const forest_thread *my) {
  forest_thread *w = engine->first, *v = my->turn ? my->last : engine->last;
  for (; v && w->turn <= v->turn; w = w->next, v = v->last) {
    if (clash(&v->asked, &my->asked)) return v;
    if (clash(&w->asked, &my->asked)) return w;
  }
  return NULL;
}

/* One who holds what clashes. Those to whom it was granted last stand last, and are looked at first: they have taken what others waited for. */
static forest_thread *holds_before(const forest_engine *engine, const forest_thread *my) {
  for (uint32_t h = engine->held.count; h-- > 0;)
    if (clash(&holder(engine, h)->asked, &my->asked)) return holder(engine, h);
  return NULL;
}

/* No more behind the one it stood behind. */
static void step_out(forest_thread *my) {
  forest_thread *other = my->behind;
  if (!other) return;
  if (other->placed == my) other->placed = my->last_behind;
  *(my->last_behind ? &my->last_behind->next_behind : &other->first_follower) = my->next_behind;
  *(my->next_behind ? &my->next_behind->last_behind : &other->last_follower) = my->last_behind;
  my->behind = NULL;
}

/* The last of those who stand behind this one whose turn is before that one. Those who come there one after the other, as when the one before whom they
 * stood gives back, come by their turns: so it is looked for from where the last of them was placed. */
static forest_thread *follower_before(const forest_thread *other, uint64_t turn) {
  forest_thread *last = other->last_follower;
  if (!last || last->turn < turn) return last;
  if (other->placed) last = other->placed;
  while (last && last->turn > turn) last = last->last_behind;
  for (forest_thread *next = last ? last->next_behind : other->first_follower; next && next->turn < turn; next = next->next_behind) last = next;
  return last;
}

/* Behind another than before, among those there by their turns; `other` may be NULL. */
static void stand_behind(forest_thread *my, forest_thread *other) {
  step_out(my);
  if (!other) return;
  forest_thread *last = follower_before(other, my->turn);
  my->behind = other;
  my->last_behind = last;
  my->next_behind = last ? last->next_behind : other->first_follower;
  if (my->next_behind) other->placed = my;
  *(last ? &last->next_behind : &other->first_follower) = my;
  *(my->next_behind ? &my->next_behind->last_behind : &other->last_follower) = my;
}

static void begin_to_wait(forest_engine *engine, forest_thread *my) {
  my->next = NULL;
  my->last = engine->last;
  *(engine->last ? &engine->last->next : &engine->first) = my;
  engine->last = my;
  my->turn = ++engine->turns;
  count_in(engine, &my->asked);
  engine->waiter_count++;
}

static void end_to_wait(forest_engine *engine, forest_thread *my) {
  *(my->last ? &my->last->next : &engine->first) = my->next;
  *(my->next ? &my->next->last : &engine->last) = my->last;
  my->turn = 0;
  count_out(engine, &my->asked);
  stand_behind(my, NULL);
  engine->waiter_count--;
}

/* Grants what is asked where nobody is in the way; `before`: one who waits and is. Returns ASLR_OK, ASL_IN_THE_WAY or ASLR_NO_MEMORY. */
static uint32_t grant(forest_engine *engine, forest_thread *my, const forest_thread *before) {
  if (my->asked.count == 0) return ASLR_OK;
  if (my->held_back || aslr_holding_is_full(&engine->held) || before) return ASL_IN_THE_WAY;
  my->hold.count = my->asked.count;
  for (size_t i = 0; i < my->asked.count; i++) my->hold.asks[i] = as_ask(my->asked.wants[i]);
  uint32_t status = aslr_holding_grant(&engine->held, &my->hold);
  my->holds = status == ASLR_OK;
  return status;
}

static void give_back(forest_engine *engine, forest_thread *my) {
  aslr_holding_give_back(&engine->held, &my->hold);
  my->holds = false;
}

/* Who waits is looked at again, where nobody holds, or waits before, who asks for what clashes with what he asked: where he asks for the same, that is
 * not compared again. Returns whether he goes on. `other` becomes true where he is no more in the way of those behind him for what he asked before. */
static bool look_again(forest_engine *engine, forest_thread *my, bool *other) {
  request waited = my->asked;
#ifdef ASLR_TEST_ONE_EVALUATION /* for a test, which must then fail */
  if (my->held_back) {
#else
  if (my->of->follows) {
#endif
    my->asked = my->before;
    my->before = waited;
    evaluate(my);
    my->self->thread.counts.again++;
    count_out(engine, &waited);
    count_in(engine, &my->asked);
  }
  bool asks_the_same = same_request(&waited, &my->asked);
  forest_thread *before = asks_the_same ? NULL : waits_before(engine, my);
  uint32_t status = grant(engine, my, before);
  if (status == ASLR_NO_MEMORY || !asks_the_same) *other = true;
  if (status == ASL_IN_THE_WAY) {
    stand_behind(my, before ? before : holds_before(engine, my));
    return false;
  }
  end_to_wait(engine, my);
  my->status = status;
  return true;
}

/* Who is in the way of one who waits, for what he asked: the one he stands behind, if that one still is; another who holds, of whom there are few, and
 * who may just have gone on; or one who waits before. NULL: he must be looked at. */
static forest_thread *still_before(const forest_engine *engine, const forest_thread *my) {
  forest_thread *other = my->behind;
  if (other && (other->holds || (other->turn && other->turn < my->turn)) && clash(&other->asked, &my->asked)) return other;
  forest_thread *holding = holds_before(engine, my);
  return holding ? holding : waits_before(engine, my);
}

static void look_at(forest_engine *engine, forest_thread *my, forest_thread **go, bool *other) {
  forest_thread *before = still_before(engine, my);
  if (before) {
    if (before != my->behind) stand_behind(my, before);
  } else if (look_again(engine, my, other)) {
    my->next = *go;
    *go = my;
  }
}

/* Grants all who wait and now can go on, after `gone` has given back, and returns them as a list by `next`. Who does not stand behind `gone` has
 * another in his way; `all`: or nobody, since there was no number. Where what somebody asks for has changed, all are looked at too. */
static forest_thread *find_all(forest_engine *engine, const forest_thread *gone, bool all) {
  forest_thread *go = NULL;
  for (forest_thread *next, *w = gone->first_follower; w && !aslr_holding_is_full(&engine->held) && !all; w = next) {
    next = w->next_behind;
    look_at(engine, w, &go, &all);
  }
  for (forest_thread *next, *w = engine->first; w && !aslr_holding_is_full(&engine->held) && all; w = next) {
    next = w->next;
    look_at(engine, w, &go, &all);
  }
  return go;
}

/* ---- waking */

typedef struct {
  size_t count;
  forest_thread *threads[MOST_WOKEN];
} sleepers;

static void wake(forest_thread *my) {
  pthread_mutex_lock(&my->mutex);
  pthread_cond_signal(&my->wake);
  pthread_mutex_unlock(&my->mutex);
}

/* Lets them go on, from this moment. Those who sleep must be woken, the first of them after the guard is given up. */
static void let_all_on(forest_thread *go, sleepers *asleep) {
  asleep->count = 0;
  for (forest_thread *next; go; go = next) {
    next = go->next;
    if (atomic_exchange_explicit(&go->state, GOES_ON, memory_order_acq_rel) != SLEEPS) continue;
    if (asleep->count < MOST_WOKEN)
      asleep->threads[asleep->count++] = go;
    else
      wake(go);
  }
}

/* ---- waiting, without the guard */

static bool goes_on(forest_thread *my) { return atomic_load_explicit(&my->state, memory_order_acquire) == GOES_ON; }

static void wait_for_turn(forest_thread *my, uint32_t spin_ns) {
  for (spin s = spin_for(spin_ns); !goes_on(my) && spins(&s);) continue;
  if (goes_on(my)) return;
  int waits = WAITS;
  pthread_mutex_lock(&my->mutex);
  if (atomic_compare_exchange_strong_explicit(&my->state, &waits, SLEEPS, memory_order_acq_rel, memory_order_acquire)) {
    my->self->thread.counts.sleeps++;
    while (!goes_on(my)) sleep_on(&my->wake, &my->mutex);
  }
  pthread_mutex_unlock(&my->mutex);
}

/* ---- the engine */

static uint32_t acquire(mine *self, const list *of, const aslr_value *registers) {
  forest_engine *engine = of_runtime(self->thread.runtime);
  forest_thread *my = self->at;
  my->of = of;
  my->registers = registers;
  if (!of->follows) {
    evaluate(my);
    if (my->asked.count == 0) return ASLR_OK;
  }
  take_guard(engine);
  if (of->follows) evaluate(my);
  bool is_full = aslr_holding_is_full(&engine->held);
  forest_thread *before = !is_full && may_clash(engine, &my->asked) ? waits_before(engine, my) : NULL;
  uint32_t status = grant(engine, my, before);
  if (status != ASL_IN_THE_WAY) {
    give_guard(engine);
    return status;
  }
  self->thread.counts.refusals++;
  atomic_store_explicit(&my->state, WAITS, memory_order_relaxed);
  begin_to_wait(engine, my);
  stand_behind(my, before || is_full ? before : holds_before(engine, my));
  bool crowded = engine->held.count + engine->waiter_count > self->thread.runtime->processors;
  give_guard(engine);
  wait_for_turn(my, crowded ? 1 : self->thread.runtime->spin_ns);
  return my->status;
}

static void release(mine *self) {
  forest_engine *engine = of_runtime(self->thread.runtime);
  forest_thread *my = self->at;
  sleepers asleep;
  if (!my->holds) return;
  take_guard(engine);
  bool was_full = aslr_holding_is_full(&engine->held);
  give_back(engine, my);
  let_all_on(find_all(engine, my, was_full), &asleep);
  give_guard(engine);
  for (size_t i = 0; i < asleep.count; i++) wake(asleep.threads[i]);
}

static bool covers(mine *self, aslr_value at, bool writes) {
  forest_engine *engine = of_runtime(self->thread.runtime);
  const forest_thread *my = self->at;
  if (!my->holds) return false;
  const aslr_object *object = aslr_object_of(at);
  const asl_ask cell = {ASL_LEAF, 0, aslr_offset_of(at), object->klass, object->number};
  take_guard(engine);
  bool found = aslr_holding_covers(&engine->held, &my->hold, &cell, writes);
  give_guard(engine);
  return found;
}

static uint32_t thread_open(mine *self) {
  forest_thread *my = self->at;
  size_t room = self->thread.runtime->longest + 1;
  my->self = self;
  my->asked.wants = calloc(room, sizeof(want));
  my->before.wants = calloc(room, sizeof(want));
  my->hold.asks = calloc(room, sizeof(asl_ask));
  bool whole = my->asked.wants && my->before.wants && my->hold.asks && pthread_mutex_init(&my->mutex, NULL) == 0;
  if (whole && pthread_cond_init(&my->wake, NULL) == 0) return ASLR_OK;
  if (whole) pthread_mutex_destroy(&my->mutex);
  free(my->asked.wants);
  free(my->before.wants);
  free(my->hold.asks);
  return ASLR_NO_MEMORY;
}

static void thread_close(mine *self) {
  forest_thread *my = self->at;
  pthread_cond_destroy(&my->wake);
  pthread_mutex_destroy(&my->mutex);
  free(my->asked.wants);
  free(my->before.wants);
  free(my->hold.asks);
}

static void close_engine(aslr_runtime *runtime) {
  forest_engine *engine = of_runtime(runtime);
  aslr_holding_close(&engine->held);
  if (engine->has_mutex) pthread_mutex_destroy(&engine->guard);
  free(engine);
  runtime->engine_at = NULL;
}

static uint32_t open_engine(aslr_runtime *runtime, const aslr_options *options) {
  forest_engine *engine = aligned_alloc(64, (sizeof *engine + 63) & ~(size_t)63);
  if (!engine) return ASLR_NO_MEMORY;
  *engine = (forest_engine){0};
  runtime->engine_at = engine;
  engine->has_mutex = pthread_mutex_init(&engine->guard, NULL) == 0;
  if (!engine->has_mutex) return ASLR_NO_MEMORY;
  return aslr_holding_open(&engine->held, runtime->program->classes, options->at_once ? options->at_once : MOST_AT_ONCE, runtime->longest);
}

const engine aslr_forest_engine = {open_engine, close_engine, sizeof(forest_thread), thread_open, thread_close, acquire, release, covers};
