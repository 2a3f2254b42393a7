/* A runtime for programs with atomic sections, whose locks are inferred: threads of the system run at once, and at each entry of a section
 * the list of the section is evaluated, and what it asks for is granted as a whole (docs/PARALLEL.md). `asl c` prints programs over it.
 *
 * C11 and POSIX threads over the library for C (asl.h). Nothing here is proved: the lists, the lock forest and the text of an emitted program
 * are. Two engines keep sections apart: `forest` asks the proved lock forest, `words` has an atomic word for each node in its stead.
 *
 * What C owes:
 *  - A thread is used by one thread of the system at a time, also while it waits in aslr_section_enter, and no more once it is closed.
 *  - A program, its lists and its runtime outlive what uses them. While a runtime is closed nobody else uses it.
 *  - Values are integers, null, and addresses that this runtime has given; so are the registers that a list names.
 *  - Who ends in a section leaves it first, also by a cleanup handler where it is cancelled: what it holds is held for ever else. No function
 *    here is a cancellation point but aslr_out and aslr_main, and nobody is cancelled asynchronously.
 *  - A signal handler calls nothing of this header, and does not jump out of it. A signal that is handled disturbs nothing.
 *  - After a fork the child uses those runtimes alone that no other thread of the system was using.
 *  - Who leaves an entry otherwise than by its return goes by aslr_fault or aslr_stop.
 *  - Who calls an entry, or a function of the part "what an emitted program does", has called setjmp(t->failed) before, in a function that has
 *    not returned yet.
 *  - A thread of C's own that calls entries has a stack for 256 frames of the text's largest function. By clang, and by gcc from -O2 on, a frame has
 *    8 bytes x (registers + 1) for each aslr_enter in its function, which has so many values in its braces, and 1 KB or so besides. Of 1,024 sections
 *    and 64 registers, the most that a text has, 256 frames take 130 MB, and under sanitizers up to three times as much. aslr_main sees to it itself.
 *  - Who waits in a section, for a section of another runtime or for a lock of C's own, sees to it that nobody waits in a circle. */
#ifndef ASL_RUNTIME_H
#define ASL_RUNTIME_H

#if defined __cplusplus || !defined __STDC_VERSION__ || __STDC_VERSION__ < 201112L
#error "asl_runtime.h wants C11 or later: -std=c11 or -std=gnu11 (C++ takes asl.h alone)"
#endif

#include "asl.h"
#include <setjmp.h>
#include <stdatomic.h>
#include <stdbool.h>
#include <stddef.h>
#include <stdint.h>

#ifdef ASLR_EMITTED
/* An emitted text has a label for each instruction, and functions that nobody may call; a recursion ends in the fault Stack. */
#pragma GCC diagnostic ignored "-Wunused-label"
#pragma GCC diagnostic ignored "-Wunused-function"
#ifdef __clang__
#pragma GCC diagnostic ignored "-Wself-assign"
#endif
#if defined __clang__ || __GNUC__ >= 12
#pragma GCC diagnostic ignored "-Winfinite-recursion"
#endif
#endif

/* ---- values and objects */

/* An integer n is n << 32, null is 1, an address is that of its object, with 2 in the last bits and the offset of the cell in the first byte. */
typedef uint64_t aslr_value;
enum { ASLR_NULL = 1, ASLR_ADDRESS = 2 };

/* Cells are atomic, since the engine `words` evaluates lists while others store. In sections a relaxed load is enough, and costs nothing; a
 * store releases, so that who comes to an object by it finds the object whole. With ASLR_PLAIN, for program and runtime alike, they are plain:
 * the engine `forest` needs no more (docs/RACES.md). */
#ifdef ASLR_PLAIN
typedef aslr_value aslr_cell;
#define ASLR_CELLS_ARE_ATOMIC 0
#define aslr_read(cell) (*(cell))
#define aslr_read_shared(cell) (*(cell))
#define aslr_write(cell, value) ((void)(*(cell) = (value)))
#else
typedef _Atomic aslr_value aslr_cell;
#define ASLR_CELLS_ARE_ATOMIC 1
#define aslr_read(cell) atomic_load_explicit(cell, memory_order_relaxed)
#define aslr_read_shared(cell) atomic_load_explicit(cell, memory_order_acquire)
#define aslr_write(cell, value) atomic_store_explicit(cell, value, memory_order_release)
#endif

/* Objects with one number and class share their locks; the first 65,536 have numbers of their own. */
typedef struct aslr_object {
  uint64_t made_in; /* the section of a thread that made it, or 0: see aslr_check */
  uint16_t klass;
  uint16_t number;
  uint8_t size; /* cells */
  aslr_cell cells[];
} aslr_object;

static inline aslr_value aslr_int(int32_t n) { return (aslr_value)(uint32_t)n << 32; }
static inline int32_t aslr_int_of(aslr_value v) { return (int32_t)(v >> 32); }
static inline bool aslr_is_int(aslr_value v) { return (v & 3) == 0; }
static inline bool aslr_is_address(aslr_value v) { return (v & ASLR_ADDRESS) != 0; }
static inline aslr_value aslr_address(const aslr_object *object) { return (aslr_value)(uintptr_t)object | ASLR_ADDRESS; }
static inline aslr_object *aslr_object_of(aslr_value v) { return (aslr_object *)(uintptr_t)(v & UINT64_C(0x00fffffffffffff8)); }
static inline uint8_t aslr_offset_of(aslr_value v) { return (uint8_t)(v >> 56); }
static inline aslr_cell *aslr_cell_of(aslr_value v) { return &aslr_object_of(v)->cells[aslr_offset_of(v)]; }

/* ---- programs */

enum { ASLR_END = 3, ASLR_REGISTER = 0, ASLR_GLOBAL = 1, ASLR_FOLLOW = -1, ASLR_LONGEST_PATH = 8 };

/* A lock of a list. Its path says how many operations follow, each ASLR_FOLLOW or so many cells on. */
typedef struct aslr_lock {
  uint8_t kind;  /* ASL_ROOT, ASL_CLASS, ASL_LEAF of an expression, or ASLR_END after the last lock of a list */
  uint8_t mode;  /* ASL_S to read, ASL_X to write */
  uint8_t base;  /* of an expression: ASLR_REGISTER or ASLR_GLOBAL */
  uint16_t at;   /* of an expression: which register or global; of a class lock: the class */
  int16_t path[1 + ASLR_LONGEST_PATH];
} aslr_lock;

struct aslr_thread;

typedef struct aslr_program {
  uint32_t classes;
  uint32_t globals;
  const uint16_t *class_of_global;
  const aslr_lock *const *lists; /* NULL after the last */
  aslr_value (*entry)(struct aslr_thread *t, aslr_value r0); /* NULL where nothing calls aslr_main */
} aslr_program;

/* ---- a runtime and its threads */

/* The statuses of this header: those of asl.h that these names stand for, and others. Unless it is ASLR_OK, nothing has changed. */
enum {
  ASLR_OK = ASL_OK,
  ASLR_NO_MEMORY = ASL_NO_MEMORY,
  ASLR_BAD_COUNT = ASL_BAD_COUNT,     /* threads: `at_once` is 1 to 128; a program has at most 65,536 classes and globals */
  ASLR_BAD_PROGRAM = ASL_NO_PROGRAM,  /* a list names what is not there, or is longer than 256 locks, or there are more than 65,536 lists */
  ASLR_NULL_POINTER = ASL_NULL_POINTER,
  ASLR_BAD_ENGINE = 32, /* no such engine, or `words` over plain cells */
  ASLR_IN_USE = 33,     /* threads are open, or the thread is in a section */
  ASLR_BAD_SECTION = 34, /* the program has no such list */
  ASLR_TOO_DEEP = 35,   /* 255 sections in each other */
  ASLR_NO_SECTION = 36, /* the thread is in none */
  ASLR_FULL = 37,       /* 65,536 objects, and numbers are not shared */
  ASLR_BAD_SIZE = 38    /* an object has 1 to 255 cells, and a class of the program */
};

typedef enum { ASLR_FOREST, ASLR_WORDS } aslr_engine;

/* {0} asks for what stands first. */
typedef struct aslr_options {
  aslr_engine engine;   /* forest */
  uint32_t at_once;     /* how many threads may be in sections at one time, 1 to 128; 0: 128. Only `forest` asks */
  uint32_t spin_ns;     /* how long who waits looks before it sleeps, where there are processors enough; 0: 50 microseconds */
  bool shares_numbers;  /* no: object 65,537 is refused. yes: numbers begin again, and objects of a class and a number share their locks */
} aslr_options;

typedef struct aslr_counts {
  uint64_t sections; /* outermost ones that were entered */
  uint64_t refusals; /* tries after which the thread waited */
  uint64_t again;    /* evaluations after the first of an entry */
  uint64_t sleeps;   /* waits that slept */
} aslr_counts;

typedef struct aslr_runtime aslr_runtime;

/* The faults of the machine (docs/INSTRUCTIONS.md). */
typedef enum {
  ASLR_FAULT_TYPE, ASLR_FAULT_NULL, ASLR_FAULT_BOUNDS, ASLR_FAULT_UNPROTECTED, ASLR_FAULT_FULL, ASLR_FAULT_STACK, ASLR_FAULT_OPEN,
  ASLR_FAULT_DEEP, ASLR_FAULT_NO_SECTION
} aslr_fault_kind;

/* The names that printed programs have for faults, such as "Unprotected", and for statuses of this header, such as "OutOfMemory". */
const char *aslr_fault_name(aslr_fault_kind fault);
const char *aslr_status_name(uint32_t status);

/* Of a thread C may read what stands here; it writes `number`, `failed` and `before_access` alone. */
typedef struct aslr_thread {
  aslr_runtime *runtime;
  uint32_t depth;          /* of sections */
  uint32_t frames;
  uint32_t number;         /* that aslr_out prints: aslr_main numbers its threads, from 0 on */
  uint64_t section;        /* names this section among those of all threads; 0: the thread is in none */
  const aslr_value *globals;
  aslr_counts counts;
  jmp_buf failed;          /* C sets it: an emitted function that fails goes on there. Where nobody has, it says so, and the process is aborted */
  uint32_t status;         /* then: ASLR_OK, and the fault, or why it could not go on, such as ASLR_NO_MEMORY */
  aslr_fault_kind ended_by;
  aslr_value fault_at;     /* of Unprotected: the cell, and whether it was to be written */
  bool fault_writes;
  void (*before_access)(struct aslr_thread *t); /* of `--check`: NULL, or what is called before each access */
} aslr_thread;

/* Makes the runtime of a program, with its globals, each an object of one cell with the integer 0. Returns 0, 2, 11, 12, 16 or 32. */
uint32_t aslr_open(const aslr_program *program, const aslr_options *options, aslr_runtime **runtime);

/* Frees the runtime and all its objects. Returns 0, 16 or 33. */
uint32_t aslr_close(aslr_runtime *runtime);

/* Makes a thread, in no section and with nothing that C has set: there may be any number. Returns 0, 2, 11 (the engine `words`: 16,383 are
 * open) or 16. */
uint32_t aslr_thread_open(aslr_runtime *runtime, aslr_thread **thread);

/* Frees a thread that is in no section; its counts are added to those of the runtime. Returns 0, 16 or 33. */
uint32_t aslr_thread_close(aslr_thread *thread);

/* Enters the section of a list, over the registers that the list names, by their numbers; waits until all of it is granted. Of sections in
 * each other the outermost alone asks. Returns 0, 2, 16, 34 or 35. The registers may go when it has returned. */
uint32_t aslr_section_enter(aslr_thread *thread, uint32_t list, const aslr_value *registers);

/* Leaves a section; the outermost gives everything back. Returns 0, 16 or 36. */
uint32_t aslr_section_leave(aslr_thread *thread);

/* Leaves all sections that the thread is in, as a fault does. Returns 0 or 16. */
uint32_t aslr_abandon(aslr_thread *thread);

/* Makes an object of so many cells, each the integer 0. In a section it needs no lock until the section ends. Returns 0, 2, 16, 37 or 38. */
uint32_t aslr_object_new(aslr_thread *thread, uint8_t cells, uint16_t klass, aslr_value *made);

/* The address of the cell of a global that is there. */
aslr_value aslr_global(const aslr_runtime *runtime, uint32_t global);

/* Whether the thread may read, or write, the cell of an address now: its section covers it, or has made the object. False of what is no
 * address. */
bool aslr_may_access(aslr_thread *thread, aslr_value at, bool writes);

/* The counts of all threads that were closed. */
void aslr_counts_of(aslr_runtime *runtime, aslr_counts *counts);

/* ---- what an emitted program does: a function for each instruction (docs/INSTRUCTIONS.md), which fails as it does */

/* Ends the thread by a fault: it loses all that it holds, and goes on at `failed`. */
_Noreturn void aslr_fault(aslr_thread *t, aslr_fault_kind fault);
/* The same by a status, such as ASLR_NO_MEMORY, which is no fault of the program. */
_Noreturn void aslr_stop(aslr_thread *t, uint32_t status);
void aslr_out(aslr_thread *t, aslr_value a);
aslr_value aslr_new(aslr_thread *t, uint8_t s, uint16_t k);
/* Fails with Unprotected where the access is neither covered nor fresh. */
void aslr_check(aslr_thread *t, aslr_value at, bool writes);

/* `asl c --check` defines ASLR_CHECKS: then each access is asked for. */
#ifdef ASLR_CHECKS
#define ASLR_CHECK(t, at, writes) aslr_check(t, at, writes)
#else
#define ASLR_CHECK(t, at, writes) ((void)0)
#endif

static inline aslr_value aslr_add(aslr_thread *t, aslr_value b, aslr_value c) {
  if (!aslr_is_int(b | c)) aslr_fault(t, ASLR_FAULT_TYPE);
  return b + c;
}
static inline aslr_value aslr_sub(aslr_thread *t, aslr_value b, aslr_value c) {
  if (!aslr_is_int(b | c)) aslr_fault(t, ASLR_FAULT_TYPE);
  return b - c;
}
static inline aslr_value aslr_lt(aslr_thread *t, aslr_value b, aslr_value c) {
  if (!aslr_is_int(b | c)) aslr_fault(t, ASLR_FAULT_TYPE);
  return aslr_int((int64_t)b < (int64_t)c);
}
static inline aslr_value aslr_eq(aslr_thread *t, aslr_value b, aslr_value c) {
  (void)t;
  return aslr_int(b == c);
}
static inline aslr_value aslr_glob(aslr_thread *t, uint32_t g) { return t->globals[g]; }
static inline void aslr_must_be_address(aslr_thread *t, aslr_value b) {
  if (!aslr_is_address(b)) aslr_fault(t, b == ASLR_NULL ? ASLR_FAULT_NULL : ASLR_FAULT_TYPE);
}
static inline aslr_value aslr_field(aslr_thread *t, aslr_value b, uint32_t i) {
  aslr_must_be_address(t, b);
  if ((uint64_t)aslr_offset_of(b) + i >= aslr_object_of(b)->size) aslr_fault(t, ASLR_FAULT_BOUNDS); /* C may ask for any i */
  return b + ((aslr_value)i << 56);
}
static inline aslr_value aslr_load(aslr_thread *t, aslr_value b) {
  aslr_must_be_address(t, b);
  ASLR_CHECK(t, b, false);
  return aslr_read(aslr_cell_of(b));
}
static inline void aslr_store(aslr_thread *t, aslr_value a, aslr_value b) {
  aslr_must_be_address(t, a);
  ASLR_CHECK(t, a, true);
  aslr_write(aslr_cell_of(a), b);
}
static inline bool aslr_jz(aslr_value a) { return a <= ASLR_NULL; }
static inline void aslr_call(aslr_thread *t) {
  if (t->frames == 256) aslr_fault(t, ASLR_FAULT_STACK);
  t->frames++;
}
static inline void aslr_return(aslr_thread *t) { t->frames--; }
/* `acq` and `rel`: what aslr_section_enter and aslr_section_leave refuse is a fault, or stops the thread. */
void aslr_outermost(aslr_thread *t, uint32_t list, const aslr_value *registers);
void aslr_outermost_end(aslr_thread *t);
static inline void aslr_enter(aslr_thread *t, uint32_t list, const aslr_value *registers) {
  if (t->depth == 255) aslr_fault(t, ASLR_FAULT_DEEP);
  if (t->depth == 0) aslr_outermost(t, list, registers);
  else t->depth++;
}
static inline void aslr_leave(aslr_thread *t) {
  if (t->depth == 0) aslr_fault(t, ASLR_FAULT_NO_SECTION);
  if (t->depth == 1) aslr_outermost_end(t);
  else t->depth--;
}

/* With ASLR_NO_MAIN a printed text has no `main`, and this is its program: for C that opens a runtime itself, and calls the entries. */
extern const aslr_program *const aslr_printed;

/* `main` of an emitted program. usage: PROGRAM [--engine forest|words] [--counts] [--share-numbers] [THREADS]
 * THREADS, 1 to 10,000, is how many threads run its entry, each with its number, from 0; left out, as many as there are processors. It prints
 * `T out V`, `T done V` and `T fault F`, then `global G V` for each global. Returns 0 where all threads are done, 1 where memory, the start
 * of a thread or the output is refused, with one line on standard error, 2 for other words, 3 where a thread failed. One call at a time. */
int aslr_main(const aslr_program *program, int argc, char **argv);

#endif
