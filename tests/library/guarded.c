/* Programs as data, requests of lists and the queue, called at random in guarded memory (guarded.h): each buffer has just the size that is
 * told, beside a page that nobody may touch, and what is to be read may not be written.
 *
 * Each round opens one source, image or text, mostly damaged: whether it is one is what the command says. It does so again with memory refused at
 * one request, in a place that is shut afterwards. Then it reads by right and wrong numbers, and holds what it reads together; it evaluates
 * lists over registers, objects and cells at random against an evaluation of its own, and takes what they ask for in a queue. Each status is
 * that of the header's order; what is refused has written nothing; readers and evaluations ask for no memory; all memory comes back.
 *
 * Run by tests/by-hand/fuzz-library.
 * usage: guarded MILLISECONDS SEED FILE..      (round n from 0 on has the seed SEED + n, so `guarded 0 SEED + n FILE..` makes it again) */
#include "asl.h"
#include "guarded.h"
#include <stdio.h>
#include <stdlib.h>
#include <time.h>

enum { FILES = 64, MOST_INPUT = 1 << 16, MOST_TEXT = 1 << 20, MOST_LOCKS = 256, MOST_ASKS = 3 * MOST_LOCKS + 8, MOST_CELLS = 8 * MOST_LOCKS + 8, THREADS = 4 };

typedef struct bytes {
  uint8_t at[MOST_INPUT];
  size_t length;
} bytes;

static bytes files[FILES], input;
static size_t file_count;
static uint64_t first_seed, rounds, state;
static long opened, reads, requests, needed, queue_calls, refusals_of_memory, of_status[32];

static void must(bool holds, const char *what) {
  if (holds) return;
  fprintf(stderr, "guarded: %s; seed %llu, and the input is in guarded.input\n", what, (unsigned long long)(first_seed + rounds));
  FILE *file = fopen("guarded.input", "wb");
  if (file && fwrite(input.at, 1, input.length, file) == input.length) fclose(file);
  exit(1);
}

static uint32_t below(uint32_t limit) {
  state ^= state << 13;
  state ^= state >> 7;
  state ^= state << 17;
  return (uint32_t)(state >> 20) % limit;
}

static bool one_in(uint32_t n) { return below(n) == 0; }

/* what was answered is what must be, and is counted */
static void answers(uint32_t status, uint32_t wanted, const char *what) {
  must(status == wanted, what);
  of_status[status % 32]++;
}

/* a number below the count, or one that is none */
static uint32_t some_number(uint32_t count) {
  static const uint32_t wrong[] = {0, 1, 255, 256, 1024, 65535, 65536, 70000, INT32_MAX, UINT32_MAX};
  if (count && !one_in(4)) return below(count);
  uint32_t number = count + wrong[below(sizeof wrong / sizeof *wrong)];
  return one_in(2) ? number : wrong[below(sizeof wrong / sizeof *wrong)];
}

/* ---- rooms of each kind, and calls in them */

static room handle_room, bytes_room, entry_room, name_room, length_room, registers_room, objects_room, cells_room, asks_room, request_room, named_room;

static void make_rooms(void) {
  room *const small[] = {&handle_room, &entry_room, &name_room, &length_room, &registers_room, &request_room, &named_room};
  for (size_t i = 0; i < sizeof small / sizeof *small; i++) *small[i] = new_room(2 * PAGE);
  bytes_room = new_room(MOST_INPUT);
  objects_room = new_room(64 * PAGE);
  cells_room = new_room(MOST_CELLS * sizeof(asl_cell));
  asks_room = new_room(MOST_ASKS * sizeof(asl_ask));
}

static void *some_room(room *it, size_t size) { return take_room(it, size, !one_in(4)); }

static void *filled(room *it, const void *from, size_t size) {
  void *at = some_room(it, size);
  if (size) memcpy(at, from, size);
  seal(it);
  return at;
}

/* ---- the input: a source, an image or a text, mostly damaged */

static void insert(size_t at, const void *what, size_t length) {
  if (at > input.length || input.length + length > MOST_INPUT) return;
  memmove(input.at + at + length, input.at + at, input.length - at);
  memcpy(input.at + at, what, length);
  input.length += length;
}

static void cut(size_t at, size_t length) {
  if (at + length > input.length) return;
  memmove(input.at + at, input.at + at + length, input.length - at - length);
  input.length -= length;
}

static size_t line_before(size_t at) {
  while (at > 0 && input.at[at - 1] != '\n') at--;
  return at;
}

static void change_number(size_t at) {
  static const char *const numbers[] = {"0", "1", "2", "3", "7", "8", "63", "64", "255", "256", "1023", "1024", "65535", "65536"};
  size_t end = at;
  while (at < input.length && (input.at[at] < '0' || input.at[at] > '9')) at++;
  for (end = at; end < input.length && input.at[end] >= '0' && input.at[end] <= '9';) end++;
  if (at == input.length) return;
  cut(at, end - at);
  const char *number = numbers[below(sizeof numbers / sizeof *numbers)];
  insert(at, number, strlen(number));
}

static void change_line(size_t at) {
  static const char *const lines[] = {"expr r0 * .1 * read\n", "expr r1 .0 * * write\n", "expr g0 write\n", "expr g0 * * * * * * * * read\n", "class 0 write\n",
                                      "class 1 read\n", "root read\n", "root write\n", "list\n", "acq 0\n", "rel\n", "  x = *x;\n", "  atomic { x = *x; *x = x; }\n"};
  const char *line = lines[below(sizeof lines / sizeof *lines)];
  size_t from = line_before(at), end = from;
  while (end < input.length && input.at[end++] != '\n') {}
  if (one_in(3)) cut(from, end - from);
  else insert(from, line, strlen(line));
}

static void damage(void) {
  static const char *const words[] = {" *", " .1", " .0", " read", " write", ";", "}", "{"};
  const char *word = words[below(sizeof words / sizeof *words)];
  uint8_t pair[2] = {0, (uint8_t)below(one_in(2) ? 4 : 256)};
  size_t at = input.length ? below((uint32_t)input.length) : 0, many = 1 + below(16);
  switch (below(8)) {
  case 0: if (input.length) input.at[at] = (uint8_t)below(256); break;
  case 1: if (input.length) input.at[at] ^= (uint8_t)(1u << below(8)); break;
  case 2: if (one_in(4)) input.length = at; break;
  case 3: cut(at, many); break;
  case 4: if (at + 2 <= input.length) memcpy(input.at + at, pair, 2); break;
  case 5: change_number(at); break;
  case 6: change_line(at); break;
  default: insert(at, word, strlen(word));
  }
}

/* what the command makes of the input: its status; with `keeps` its output is the input then */
static uint32_t command(const char *words, bool keeps) {
  static uint8_t output[MOST_TEXT], errors[256];
  asl_answer answer;
  asl_call((const uint8_t *)words, strlen(words), input.at, input.length, output, sizeof output, errors, sizeof errors, &answer);
  must(live_blocks == 0, "a command gives all memory back");
  if (keeps && answer.status == ASL_DONE && answer.output_length <= MOST_INPUT) {
    memcpy(input.at, output, answer.output_length);
    input.length = answer.output_length;
  }
  return answer.status;
}

/* whether the input is to be a source; else it is an image or a text, made of the source where it was one */
static bool some_input(void) {
  char words[64];
  input = files[below((uint32_t)file_count)];
  bool is_source = one_in(2);
  for (uint32_t times = one_in(3) ? 1 + below(3) : 0; times > 0; times--) damage();
  snprintf(words, sizeof words, "compile\n--k\n%u%s", below(9), one_in(2) ? "" : "\n--text");
  if (!is_source && command(words, true) != ASL_DONE && one_in(2)) command(one_in(2) ? "asm" : "dis", true);
  for (uint32_t times = one_in(4) ? 0 : below(5); times > 0; times--) damage();
  return is_source;
}

/* ---- opening */

static uint32_t k;

static uint32_t open_as(bool is_source, const uint8_t *at, size_t length, asl_program *program) {
  return is_source ? asl_program_compile(at, length, k, program) : asl_program_open(at, length, program);
}

/* what the command says of the input */
static uint32_t wanted_status(bool is_source) {
  char words[32];
  if (is_source && k > 8) return ASL_BAD_LENGTH;
  snprintf(words, sizeof words, "compile\n--k\n%u", k);
  bool is_image = input.length >= 4 && !memcmp(input.at, "ASLM", 4);
  uint32_t status = command(is_source ? words : is_image ? "dis" : "asm", false);
  must(status == ASL_DONE || status == ASL_REFUSED, "a command is done or refused");
  return status == ASL_DONE ? ASL_OK : is_source ? ASL_NO_SOURCE : ASL_NO_PROGRAM;
}

static asl_program *closed_place(void) {
  asl_program *place = (asl_program *)some_room(&handle_room, sizeof *place);
  memset(place, 0, sizeof *place);
  return place;
}

static void close_program(asl_program *program) {
  answers(asl_program_close(program), ASL_OK, "a program is closed");
  must(!program->live && live_blocks == 0, "a closed program has given all memory back");
  answers(asl_program_close(program), ASL_BAD_HANDLE, "a program is closed once");
  must(is_untouched(&handle_room, sizeof *program), "a place is written within its bounds");
}

/* the input in a room of its own, NULL where it has no byte */
static const uint8_t *shown_input(void) {
  const uint8_t *at = (const uint8_t *)filled(&bytes_room, input.at, input.length);
  return input.length || one_in(2) ? at : NULL;
}

/* with memory refused at one request: want of memory, or the same answer */
static void open_refused(bool is_source, uint32_t ample, long most) {
  asl_program *program = closed_place();
  const uint8_t *at = shown_input();
  long before = denied;
  granted = most > 0 ? below((uint32_t)most) : 0;
  uint32_t status = open_as(is_source, at, input.length, program);
  granted = -1;
  shut(&bytes_room);
  must(status == ample || (status == ASL_NO_MEMORY && denied > before), "refused memory gives the same answer, or that there is none");
  of_status[status % 32]++;
  refusals_of_memory += status == ASL_NO_MEMORY;
  must(program->live == (status == ASL_OK), "a place has a program exactly where it was opened");
  if (status == ASL_OK) close_program(program);
  must(live_blocks == 0 && is_untouched(&handle_room, sizeof *program), "a refused program leaves nothing");
}

/* the program of the input, or NULL where there is none */
static asl_program *open_input(bool is_source) {
  k = one_in(16) ? some_number(9) : below(9);
  uint32_t wanted = wanted_status(is_source);
  asl_program *program = closed_place();
  long before = asked;
  answers(open_as(is_source, shown_input(), input.length, program), wanted, "opening answers what the command says");
  long most = asked - before;
  shut(&bytes_room); /* the bytes need not stay */
  must(is_untouched(&handle_room, sizeof *program) && program->live == (wanted == ASL_OK), "a place is written where a program is opened");
  if (wanted != ASL_OK) must(live_blocks == 0 && !program->at, "a refused program leaves nothing");
  else close_program(program);
  if (one_in(2)) open_refused(is_source, wanted, most);
  if (wanted != ASL_OK) return NULL;
  program = closed_place();
  answers(open_as(is_source, shown_input(), input.length, program), ASL_OK, "the same answer again");
  shut(&bytes_room);
  opened++;
  return program;
}

static void wrong_openings(asl_program *program) {
  static const uint8_t byte = 0;
  asl_program *place = program;
  answers(asl_program_open(&byte, 1, place), ASL_BAD_HANDLE, "there is a program already");
  answers(asl_program_compile(NULL, 7, 9, place), ASL_BAD_HANDLE, "there is a program already");
  answers(asl_program_open(&byte, 1, NULL), ASL_BAD_HANDLE, "no place");
  static asl_program none;
  answers(asl_program_open(NULL, 1 + below(9), &none), ASL_NULL_POINTER, "NULL for bytes");
  answers(asl_program_compile(NULL, 1 + below(9), 9, &none), ASL_NULL_POINTER, "NULL for a source");
  must(!none.live && program->live, "a refused opening changes nothing");
}

/* ---- reading */

static asl_counts counts;

/* an entry of so many bytes, where a reader writes */
static void *some_entry(size_t size) { return some_room(&entry_room, size); }

/* the answer of a reader: 24 where there is nothing of the number, and then nothing is written */
static bool read_as(uint32_t status, bool is_there, size_t size) {
  answers(status, is_there ? ASL_OK : ASL_NO_SUCH_NUMBER, "a reader answers whether there is something of the number");
  must(is_untouched(&entry_room, is_there ? size : 0), "a reader writes its entry and no more");
  reads++;
  return is_there;
}

static void read_class(asl_program *program, uint32_t n) {
  bool *named = (bool *)some_entry(sizeof *named);
  if (read_as(asl_program_class(program, n, named), n < counts.classes, sizeof *named)) must(*(uint8_t *)named <= 1, "a class is named or not");
}

static void read_global(asl_program *program, uint32_t n) {
  uint16_t *klass = (uint16_t *)some_entry(sizeof *klass);
  if (read_as(asl_program_global(program, n, klass), n < counts.globals, sizeof *klass)) must(*klass < counts.classes, "the class of a global");
}

static void read_function(asl_program *program, uint32_t n) {
  asl_function *entry = (asl_function *)some_entry(sizeof *entry);
  if (!read_as(asl_program_function(program, n, entry), n < counts.functions, sizeof *entry)) return;
  must(entry->parameters <= entry->registers && entry->registers <= 64 && entry->instructions >= 1, "a function");
  must(entry->first + entry->instructions <= counts.instructions, "a function lies in the code");
}

static void read_section(asl_program *program, uint32_t n) {
  asl_section *entry = (asl_section *)some_entry(sizeof *entry);
  if (!read_as(asl_program_section(program, n, entry), n < counts.sections, sizeof *entry)) return;
  asl_section section = *entry;
  must(section.function < counts.functions && section.list < counts.lists && section.place < counts.instructions, "a section");
  must(!counts.has_source || section.list == n, "of a source each section has the list of its number");
  asl_function *function = (asl_function *)some_entry(sizeof *function);
  must(read_as(asl_program_function(program, section.function, function), true, sizeof *function), "the function of a section");
  must(function->first <= section.place && section.place < function->first + function->instructions, "a section lies in its function");
}

static void check_lock(const asl_lock *lock) {
  must(lock->kind <= ASL_LEAF && lock->operations <= 8, "a lock");
  for (int at = 0; at < 8; at++) must(at < lock->operations ? lock->path[at] <= ASL_FOLLOW : lock->path[at] == 0, "a path");
  if (lock->kind != ASL_LEAF) must(!lock->from_global && !lock->operations && !lock->base, "a lock that is no expression has no path");
  if (lock->kind == ASL_ROOT) must(lock->klass == ASL_NO_CLASS, "the root has no class");
  if (lock->kind == ASL_CLASS) must(lock->klass < counts.classes, "the class of a class lock");
  if (lock->kind == ASL_LEAF) must(lock->klass == ASL_NO_CLASS || (counts.has_source && lock->klass < counts.classes), "the class of a cell");
  if (lock->from_global) must(lock->base < counts.globals, "the global of an expression");
}

/* the locks of a list, of which there are so many */
static asl_lock locks[MOST_LOCKS];

static size_t read_list(asl_program *program, uint32_t n) {
  asl_list *entry = (asl_list *)some_entry(sizeof *entry);
  if (!read_as(asl_program_list(program, n, entry), n < counts.lists, sizeof *entry)) return 0;
  asl_list list = *entry;
  bool reads_cells = false, writes = false;
  must(list.locks <= MOST_LOCKS, "the locks of a list");
  for (uint32_t number = 0; number < list.locks; number++) {
    asl_lock *lock = (asl_lock *)some_entry(sizeof *lock);
    must(read_as(asl_program_lock(program, n, number, lock), true, sizeof *lock), "a lock is there");
    check_lock(lock);
    locks[number] = *lock;
    writes |= lock->writes;
    for (int at = 0; at < lock->operations; at++) reads_cells |= lock->path[at] == ASL_FOLLOW;
  }
  must(list.reads_cells == reads_cells && list.writes == writes, "what a list tells of its locks");
  asl_lock *lock = (asl_lock *)some_entry(sizeof *lock);
  uint32_t wrong = (uint32_t)list.locks + some_number(0) % 70000;
  read_as(asl_program_lock(program, n, wrong, lock), false, sizeof *lock);
  return list.locks;
}

typedef uint32_t names(asl_program *, uint32_t, uint8_t *, size_t, size_t *);
static uint32_t named_function;

static uint32_t register_name(asl_program *program, uint32_t number, uint8_t *name, size_t size, size_t *length) {
  return asl_program_register_name(program, named_function, number, name, size, length);
}

/* whether there is a name of this number; where `may_lack` there may be none though it is a number */
static void read_name(asl_program *program, names *name, uint32_t number, bool is_there, bool may_lack) {
  size_t size = below(one_in(2) ? 4 : 80), *length = (size_t *)some_room(&length_room, sizeof *length);
  uint8_t *text = (uint8_t *)some_room(&name_room, size);
  uint32_t status = name(program, number, size || one_in(2) ? text : NULL, size, length), wanted = is_there ? ASL_OK : ASL_NO_SUCH_NUMBER;
  if (is_there && may_lack && status == ASL_NO_SUCH_NUMBER) wanted = status;
  answers(status, counts.has_source ? wanted : ASL_NO_NAMES, "a name");
  reads++;
  if (status != ASL_OK) {
    must(is_untouched(&name_room, 0) && is_untouched(&length_room, 0), "of no name nothing is written");
    return;
  }
  must(*length >= 1 && *length <= 64 && is_untouched(&length_room, sizeof *length), "the length of a name");
  must(is_untouched(&name_room, *length < size ? *length : size), "a name is written within its bounds");
  for (size_t i = 0; i < size && i < *length; i++) must(text[i] > ' ' && text[i] < 127, "a name is one of the source");
}

static void read_names(asl_program *program) {
  uint32_t n = some_number(counts.functions), global = some_number(counts.globals), registers = 0;
  asl_function entry;
  if (asl_program_function(program, n, &entry) == ASL_OK) registers = entry.registers;
  read_name(program, asl_program_function_name, n, n < counts.functions, false);
  read_name(program, asl_program_global_name, global, global < counts.globals, false);
  named_function = n;
  uint32_t number = some_number(registers);
  read_name(program, register_name, number, number < registers, true);
}

/* what the counts and the classes tell of all lists is so */
static void read_nodes(asl_program *program) {
  static bool is_named[1 << 16];
  bool root = false;
  memset(is_named, 0, sizeof is_named);
  for (uint32_t n = 0; n < counts.lists; n++) {
    size_t count = read_list(program, n);
    for (size_t i = 0; i < count; i++) {
      root |= locks[i].kind == ASL_ROOT;
      if (locks[i].kind == ASL_CLASS) is_named[locks[i].klass] = true;
    }
  }
  must(counts.names_root == root, "whether some list names the root");
  for (uint32_t n = 0; n < counts.classes; n++) {
    bool named = false;
    must(asl_program_class(program, n, &named) == ASL_OK && named == is_named[n], "whether some list names a class");
  }
}

static void read_null(asl_program *program) {
  size_t length;
  uint32_t n = some_number(1);
  static asl_program none;
  answers(asl_program_counts(program, NULL), ASL_NULL_POINTER, "NULL for counts");
  answers(asl_program_class(program, n, NULL), ASL_NULL_POINTER, "NULL for a class");
  answers(asl_program_global(program, n, NULL), ASL_NULL_POINTER, "NULL for a global");
  answers(asl_program_function(program, n, NULL), ASL_NULL_POINTER, "NULL for a function");
  answers(asl_program_section(program, n, NULL), ASL_NULL_POINTER, "NULL for a section");
  answers(asl_program_list(program, n, NULL), ASL_NULL_POINTER, "NULL for a list");
  answers(asl_program_lock(program, n, n, NULL), ASL_NULL_POINTER, "NULL for a lock");
  answers(asl_program_function_name(program, n, NULL, 1, &length), ASL_NULL_POINTER, "NULL for a name");
  answers(asl_program_global_name(program, n, NULL, 0, NULL), ASL_NULL_POINTER, "NULL for a length");
  answers(asl_program_register_name(program, n, n, NULL, 1, &length), ASL_NULL_POINTER, "NULL for a name");
  answers(asl_program_lock(one_in(2) ? &none : NULL, n, n, NULL), ASL_BAD_HANDLE, "no program");
  answers(asl_program_register_name(one_in(2) ? &none : NULL, n, n, NULL, 1, NULL), ASL_BAD_HANDLE, "no program");
}

static void read_all(asl_program *program) {
  asl_counts *entry = (asl_counts *)some_entry(sizeof *entry);
  answers(asl_program_counts(program, entry), ASL_OK, "counts");
  must(is_untouched(&entry_room, sizeof *entry), "counts are written within their bounds");
  counts = *entry;
  must(counts.version - 1 < 2 && counts.classes <= 1024 && counts.globals <= 1024 && counts.functions <= 256 && counts.lists <= 1024, "counts");
  must(counts.start < counts.functions && counts.instructions <= 65535 && counts.sections <= counts.instructions, "counts");
  if (one_in(4)) read_nodes(program);
  if (one_in(4)) read_null(program);
  for (int times = 0; times < 8; times++) {
    read_class(program, some_number(counts.classes));
    read_global(program, some_number(counts.globals));
    read_function(program, some_number(counts.functions));
    read_section(program, some_number(counts.sections));
    read_list(program, some_number(counts.lists));
    read_names(program);
  }
}

/* ---- evaluation: the test's own, lock by lock */

enum { NOWHERE, THERE, UNTOLD };

typedef struct place {
  uint16_t object;
  uint8_t offset;
} place;

static int to_value(asl_value value, place *at) {
  if (value.kind != ASL_ADDRESS) return NOWHERE;
  at->object = value.object;
  at->offset = value.offset;
  return THERE;
}

static int one_step(const asl_view *view, uint16_t step, place *at) {
  if (at->object >= view->objects_count) return NOWHERE;
  unsigned offset = at->offset + (step == ASL_FOLLOW ? 0u : step);
  if (offset >= view->objects[at->object].size) return NOWHERE;
  if (step != ASL_FOLLOW) return at->offset = (uint8_t)offset, THERE;
  for (size_t i = 0; i < view->cells_count; i++)
    if (view->cells[i].object == at->object && view->cells[i].offset == at->offset) return to_value(view->cells[i].value, at);
  return UNTOLD;
}

/* where the lock's expression leads; UNTOLD: to a cell that must be told */
static int leads(const asl_view *view, const asl_lock *lock, place *at) {
  int found = THERE;
  if (lock->from_global) at->object = lock->base, at->offset = 0;
  else found = lock->base < view->registers_count ? to_value(view->registers[lock->base], at) : NOWHERE;
  for (int n = 0; n < lock->operations && found == THERE; n++) found = one_step(view, lock->path[n], at);
  return found == THERE && at->object >= view->objects_count ? NOWHERE : found;
}

static asl_ask wanted[MOST_ASKS];
static size_t wanted_count;

static uint64_t rank(const asl_ask *a) {
  uint64_t klass = a->kind == ASL_ROOT ? 0 : a->klass, cell = a->kind == ASL_LEAF ? (uint64_t)a->object << 8 | a->offset : 0;
  return (uint64_t)a->kind << 60 | klass << 32 | cell;
}

/* joined with what is asked at the node, in its place */
static void want(asl_ask ask) {
  size_t at = 0;
  while (at < wanted_count && rank(&wanted[at]) < rank(&ask)) at++;
  if (at < wanted_count && rank(&wanted[at]) == rank(&ask)) {
    wanted[at].mode |= ask.mode;
    return;
  }
  memmove(wanted + at + 1, wanted + at, (wanted_count - at) * sizeof *wanted);
  wanted[at] = ask;
  wanted_count++;
}

static void want_lock(const asl_view *view, const asl_lock *lock, place at) {
  uint8_t own = lock->writes ? ASL_X : ASL_S, above = lock->writes ? ASL_IX : ASL_IS;
  const asl_object *object = lock->kind == ASL_LEAF ? &view->objects[at.object] : NULL;
  uint16_t klass = object ? object->klass : lock->klass;
  want((asl_ask){ASL_ROOT, lock->kind == ASL_ROOT ? own : above, 0, 0, 0});
  if (lock->kind != ASL_ROOT) want((asl_ask){ASL_CLASS, object ? above : own, 0, klass, 0});
  if (object) want((asl_ask){ASL_LEAF, own, at.offset, klass, object->number});
}

/* what so many locks ask for is in `wanted`; or false, where a cell must be told. `cell` is told whether it is one of those. */
static bool evaluate(const asl_view *view, size_t count, place cell, bool *is_needed) {
  bool is_known = true;
  wanted_count = 0;
  *is_needed = false;
  for (size_t i = 0; i < count; i++) {
    place at = {0, 0};
    int found = locks[i].kind == ASL_LEAF ? leads(view, &locks[i], &at) : THERE;
    if (found == THERE && is_known) want_lock(view, &locks[i], at);
    if (found != UNTOLD) continue;
    is_known = false;
    *is_needed |= at.object == cell.object && at.offset == cell.offset;
  }
  return is_known;
}

/* ---- requests */

static asl_value registers[80];
static asl_object objects[80];
static asl_cell cells[MOST_CELLS];

static asl_value some_value(size_t objects_count) {
  asl_value value = {ASL_ADDRESS, (uint8_t)below(one_in(8) ? 256 : 3), (uint16_t)below((uint32_t)objects_count + 1)};
  if (one_in(8)) value.kind = (uint8_t)below(one_in(2) ? 2 : 256);
  if (one_in(32)) value.object = (uint16_t)below(65536);
  return value;
}

static asl_view some_view(asl_program *program) {
  asl_view view = {registers, one_in(4) ? below(80) : 16, objects, below(one_in(2) ? 80 : 12), cells, below(one_in(2) ? 1 : 8)};
  if (!one_in(8) && view.objects_count < counts.globals && counts.globals < 80) view.objects_count = counts.globals;
  for (size_t i = 0; i < view.objects_count; i++) {
    asl_object object = {(uint16_t)below(one_in(16) ? 65536 : counts.classes + 1), (uint16_t)below(one_in(8) ? 65536 : 16), (uint8_t)below(one_in(8) ? 256 : 5)};
    objects[i] = object;
    if (i < counts.globals && !one_in(16)) must(asl_program_global(program, (uint32_t)i, &objects[i].klass) == ASL_OK, "a global");
  }
  for (size_t i = 0; i < view.registers_count; i++) registers[i] = some_value(view.objects_count);
  for (size_t i = 0; i < view.cells_count; i++) {
    asl_cell cell = {(uint16_t)below((uint32_t)view.objects_count + 1), (uint8_t)below(3), some_value(view.objects_count)};
    cells[i] = cell;
  }
  return view;
}

/* the view in rooms that can only be read; NULL where a table has nothing */
static asl_view guarded_view(const asl_view *view) {
  asl_view shown = *view;
  shown.registers = (const asl_value *)filled(&registers_room, view->registers, view->registers_count * sizeof *registers);
  shown.objects = (const asl_object *)filled(&objects_room, view->objects, view->objects_count * sizeof *objects);
  shown.cells = (const asl_cell *)filled(&cells_room, view->cells, view->cells_count * sizeof *cells);
  if (!view->registers_count && one_in(2)) shown.registers = NULL;
  if (!view->objects_count && one_in(2)) shown.objects = NULL;
  if (!view->cells_count && one_in(2)) shown.cells = NULL;
  return shown;
}

static void must_be_wanted(const asl_ask *asks, size_t count) {
  must(count == wanted_count, "a request has as many nodes as it must");
  for (size_t i = 0; i < count; i++)
    must(asks[i].kind == wanted[i].kind && asks[i].mode == wanted[i].mode && rank(&asks[i]) == rank(&wanted[i]), "a request is what the locks ask for");
}

/* One call, with room for so many asks: its status, which must be the one that the test's own evaluation gives. */
static uint32_t one_call(asl_program *program, uint32_t list, const asl_view *view, size_t count, size_t size, asl_request *told) {
  asl_view shown = guarded_view(view);
  asl_ask *asks = (asl_ask *)some_room(&asks_room, size * sizeof *asks);
  asl_request *request = (asl_request *)some_room(&request_room, sizeof *request);
  uint32_t status = asl_list_request(program, list, &shown, size || one_in(2) ? asks : NULL, size, request);
  requests++;
  must(is_untouched(&asks_room, size * sizeof *asks), "asks are written within their bounds");
  if (list >= counts.lists || size < 3 * count) {
    answers(status, list >= counts.lists ? ASL_NO_SUCH_NUMBER : ASL_NO_ROOM, "no such list, or no room");
    must(is_untouched(&asks_room, 0) && is_untouched(&request_room, 0), "a refused request writes nothing");
    return status;
  }
  bool is_needed;
  must(is_untouched(&request_room, sizeof *request), "a request is written within its bounds");
  *told = *request;
  bool is_known = evaluate(view, count, (place){told->object, told->offset}, &is_needed);
  answers(status, is_known ? ASL_OK : ASL_NEEDS_CELL, "a request is known, or a cell is needed");
  if (!is_known) {
    must(is_needed, "a cell that is asked for is needed");
    needed++;
    return status;
  }
  must(told->count <= size && is_untouched(&asks_room, told->count * sizeof *asks), "asks behind the request stay");
  must_be_wanted(asks, told->count);
  return status;
}

static void wrong_requests(asl_program *program, const asl_view *view) {
  static asl_program none;
  asl_view no_registers = {NULL, 1, NULL, 0, NULL, 0}, no_objects = {NULL, 0, NULL, 1, NULL, 0}, no_cells = {NULL, 0, NULL, 0, NULL, 1};
  asl_ask ask;
  asl_request request;
  uint32_t list = some_number(counts.lists);
  answers(asl_list_request(one_in(2) ? NULL : &none, list, NULL, NULL, 1, NULL), ASL_BAD_HANDLE, "no program");
  answers(asl_list_request(program, list, NULL, &ask, 1, &request), ASL_NULL_POINTER, "no view");
  answers(asl_list_request(program, list, view, NULL, 1, &request), ASL_NULL_POINTER, "no asks");
  answers(asl_list_request(program, list, view, &ask, 1, NULL), ASL_NULL_POINTER, "no request");
  answers(asl_list_request(program, list, &no_registers, &ask, 1, &request), ASL_NULL_POINTER, "no registers");
  answers(asl_list_request(program, list, &no_objects, &ask, 1, &request), ASL_NULL_POINTER, "no objects");
  answers(asl_list_request(program, list, &no_cells, &ask, 1, &request), ASL_NULL_POINTER, "no cells");
}

/* mostly one whose evaluation reads cells, where there are such lists */
static uint32_t some_list(asl_program *program) {
  uint32_t number = some_number(counts.lists);
  asl_list list;
  for (int times = 0; times < 4 && asl_program_list(program, number, &list) == ASL_OK && !list.reads_cells; times++) number = some_number(counts.lists);
  return number;
}

/* cells are told until the request of some list is known: how many nodes are in `wanted` then */
static size_t one_request(asl_program *program) {
  uint32_t list = some_list(program);
  size_t count = list < counts.lists ? read_list(program, list) : 0, told = 0;
  size_t size = one_in(8) ? below((uint32_t)(3 * count + 4)) : 3 * count;
  asl_view view = some_view(program);
  asl_request request;
  long before = asked;
  if (one_in(16)) wrong_requests(program, &view);
  wanted_count = 0;
  while (one_call(program, list, &view, count, size, &request) == ASL_NEEDS_CELL) {
    must(++told <= 8 * count, "at most eight cells are asked for each lock");
    cells[view.cells_count++] = (asl_cell){request.object, request.offset, some_value(view.objects_count)};
  }
  must(asked == before, "an evaluation asks for no memory");
  return size >= 3 * count ? wanted_count : 0;
}

/* ---- the queue */

static asl_queue *queue;
static bool holds[THREADS], waits[THREADS];
static uint32_t threads;
static size_t reserved;

static bool is_mode(uint8_t mode) { return mode == ASL_IS || mode == ASL_IX || mode == ASL_S || mode == ASL_SIX || mode == ASL_X; }

static bool has_parent(const asl_ask *asks, size_t count, const asl_ask *ask) {
  uint8_t need = ask->mode == ASL_IS || ask->mode == ASL_S ? 1 : 2, kind = (uint8_t)(ask->kind - 1);
  if (ask->kind == ASL_ROOT) return true;
  for (size_t i = 0; i < count; i++)
    if (asks[i].kind == kind && (kind == ASL_ROOT || asks[i].klass == ask->klass)) return asks[i].mode & need;
  return false;
}

/* the first that applies of 4, 5, 6, 7, 20, 9, 10 and 21, or 0 */
static uint32_t fault_of(uint32_t thread, const asl_ask *asks, size_t count) {
  size_t i;
  if (thread >= threads) return ASL_BAD_THREAD;
  for (i = 0; i < count; i++)
    if (asks[i].kind > ASL_LEAF) return ASL_BAD_KIND;
  for (i = 0; i < count; i++)
    if (asks[i].kind != ASL_ROOT && asks[i].klass >= counts.classes) return ASL_BAD_CLASS;
  for (i = 0; i < count; i++)
    if (!is_mode(asks[i].mode)) return ASL_BAD_MODE;
  for (i = 1; i < count; i++)
    if (rank(&asks[i - 1]) >= rank(&asks[i])) return ASL_NOT_RISING;
  for (i = 0; i < count; i++)
    if (!has_parent(asks, count, &asks[i])) return ASL_NO_PARENT;
  return holds[thread] ? ASL_HOLDS : waits[thread] ? ASL_WAITS : ASL_OK;
}

/* the request that is wanted, or as it falls */
static void acquire(size_t count) {
  uint32_t thread = some_number(threads);
  if (one_in(8)) count = below(12);
  if (one_in(8))
    for (size_t i = 0; i < count * sizeof *wanted; i++) ((uint8_t *)wanted)[i] = (uint8_t)below(one_in(4) ? 256 : 4);
  else if (count && one_in(8))
    wanted[below((uint32_t)count)] = (asl_ask){(uint8_t)below(4), (uint8_t)below(17), (uint8_t)below(3), (uint16_t)below(4), (uint16_t)below(4)};
  uint32_t fault = fault_of(thread, wanted, count);
  const asl_ask *asks = (const asl_ask *)filled(&asks_room, wanted, count * sizeof *wanted);
  long before = asked, refused = denied;
  if (one_in(4)) granted = 0;
  uint32_t status = asl_queue_acquire(queue, thread, count || one_in(2) ? asks : NULL, count);
  granted = -1;
  must(count > reserved || asked == before, "within the room no memory is asked for");
  if (fault != ASL_OK) answers(status, fault, "a wrong request is answered by what is wrong first");
  else must(status <= ASL_IN_THE_WAY || (status == ASL_NO_MEMORY && denied > refused && count > reserved), "a right request");
  of_status[status % 32]++;
  if (fault == ASL_OK && status == ASL_OK) holds[thread] = count > 0;
  if (fault == ASL_OK && status == ASL_IN_THE_WAY) waits[thread] = true;
}

static void release(void) {
  uint32_t thread = some_number(threads);
  size_t size = one_in(4) ? below(THREADS + 2) : threads, *count = (size_t *)some_room(&length_room, sizeof *count);
  uint32_t *named = (uint32_t *)some_room(&named_room, size * sizeof *named);
  long before = asked;
  uint32_t status = asl_queue_release(queue, thread, size || one_in(2) ? named : NULL, size, count);
  answers(status, thread >= threads ? ASL_BAD_THREAD : size < threads ? ASL_BAD_COUNT : ASL_OK, "a release");
  must(asked == before, "a release asks for no memory");
  if (status != ASL_OK) {
    must(is_untouched(&named_room, 0) && is_untouched(&length_room, 0), "a refused release writes nothing");
    return;
  }
  must(*count <= threads && is_untouched(&named_room, *count * sizeof *named) && is_untouched(&length_room, sizeof *count), "names are written within their bounds");
  holds[thread] = waits[thread] = false;
  for (size_t i = 0; i < *count; i++) {
    must(named[i] < threads && waits[named[i]], "who is named has waited");
    holds[named[i]] = true;
    waits[named[i]] = false;
  }
}

static void look(void) {
  uint32_t thread = some_number(threads);
  asl_ask at = {(uint8_t)below(4), (uint8_t)below(256), (uint8_t)below(3), (uint16_t)(counts.classes ? some_number(counts.classes) : below(3)), (uint16_t)below(16)};
  const asl_ask *shown = (const asl_ask *)filled(&asks_room, &at, sizeof at);
  bool no_class = at.klass >= counts.classes;
  uint32_t fault = thread >= threads ? ASL_BAD_THREAD : at.kind > ASL_LEAF ? ASL_BAD_KIND : at.kind != ASL_ROOT && no_class ? ASL_BAD_CLASS : ASL_OK;
  uint8_t *mode = (uint8_t *)some_entry(sizeof *mode);
  answers(asl_queue_mode(queue, thread, shown, mode), fault, "a mode");
  must(is_untouched(&entry_room, fault == ASL_OK ? sizeof *mode : 0), "a mode is written within its bounds");
  if (fault == ASL_OK) must(*mode == ASL_NL || (is_mode(*mode) && holds[thread]), "a mode that is held");
  bool *covers = (bool *)some_entry(sizeof *covers);
  fault = thread >= threads ? ASL_BAD_THREAD : no_class ? ASL_BAD_CLASS : ASL_OK;
  answers(asl_queue_covers(queue, thread, shown, one_in(2), covers), fault, "whether a cell is covered");
  must(is_untouched(&entry_room, fault == ASL_OK ? sizeof *covers : 0), "what is covered is written within its bounds");
  if (fault == ASL_OK) must(*(uint8_t *)covers <= (holds[thread] ? 1 : 0), "a cell that is covered");
}

/* room for more nodes, or that there is no memory */
static void reserve(void) {
  size_t nodes = below(one_in(2) ? 8 : MOST_ASKS);
  long refused = denied;
  granted = one_in(2) ? (long)below(4) : -1;
  uint32_t status = asl_queue_reserve(queue, nodes);
  granted = -1;
  must(status == ASL_OK || (status == ASL_NO_MEMORY && denied > refused && nodes > reserved), "room for a request");
  of_status[status % 32]++;
  if (status == ASL_OK && nodes > reserved) reserved = nodes;
}

/* a queue for the classes of the program, in a place of its own */
static void open_queue(asl_queue *place) {
  threads = 1 + below(THREADS);
  uint32_t status = ASL_NO_MEMORY, wrong = one_in(2) ? 0 : 129 + below(9);
  queue = place;
  answers(asl_queue_new(counts.classes, wrong, queue), ASL_BAD_COUNT, "no threads, or too many");
  for (granted = below(4); status == ASL_NO_MEMORY; granted = -1) {
    long refused = denied;
    status = asl_queue_new(counts.classes, threads, queue);
    must(status == ASL_OK || (status == ASL_NO_MEMORY && denied > refused && !queue->live), "a new queue");
  }
  granted = -1;
  answers(asl_queue_new(counts.classes, threads, queue), ASL_BAD_HANDLE, "there is a queue already");
  memset(holds, 0, sizeof holds);
  memset(waits, 0, sizeof waits);
  reserved = 0;
}

static void try_queue(asl_program *program) {
  static asl_queue place;
  open_queue(&place);
  for (int times = 0; times < 30; times++) {
    if (one_in(8)) reserve();
    if (one_in(3)) release();
    look();
    acquire(one_request(program));
    queue_calls += 4;
  }
  answers(asl_queue_free(queue), ASL_OK, "a queue is freed");
  answers(asl_queue_free(queue), ASL_BAD_HANDLE, "a queue is freed once");
}

/* ---- rounds */

#ifdef __SANITIZE_ADDRESS__
void __asan_set_death_callback(void (*callback)(void));

/* at a byte too far, of which the sanitizer tells */
static void tell_seed(void) { fprintf(stderr, "guarded: seed %llu\n", (unsigned long long)(first_seed + rounds)); }
#endif

static void one_round(void) {
  state = (first_seed + rounds) * 0x9e3779b97f4a7c15u + 1;
  is_paged = one_in(8);
  bool is_source = some_input();
  asl_program *program = open_input(is_source);
  if (!program) return;
  long before = asked, blocks = live_blocks;
  granted = 0; /* readers want no memory */
  if (one_in(4)) wrong_openings(program);
  read_all(program);
  must(asked == before, "readers ask for no memory");
  granted = -1;
  try_queue(program);
  must(live_blocks == blocks, "a queue gives all memory back");
  close_program(program);
}

static void read_file(const char *path) {
  FILE *file = fopen(path, "rb");
  must(file && file_count < FILES, path);
  files[file_count].length = fread(files[file_count].at, 1, MOST_INPUT / 2, file);
  file_count++;
  fclose(file);
}

int main(int count, char **word) {
  must(count > 3, "usage: guarded MILLISECONDS SEED FILE..");
#ifdef __SANITIZE_ADDRESS__
  __asan_set_death_callback(tell_seed);
#endif
  make_rooms();
  for (int i = 3; i < count; i++) read_file(word[i]);
  first_seed = strtoull(word[2], NULL, 10);
  long most = strtol(word[1], NULL, 10);
  struct timespec from, now;
  timespec_get(&from, TIME_UTC);
  do {
    one_round();
    rounds++;
    timespec_get(&now, TIME_UTC);
  } while ((now.tv_sec - from.tv_sec) * 1000 + (now.tv_nsec - from.tv_nsec) / 1000000 < most);
  printf("guarded: %llu inputs, %ld programs opened, %ld without memory; %ld reads; %ld requests, %ld cells needed; %ld calls on queues\n",
         (unsigned long long)rounds, opened, refusals_of_memory, reads, requests, needed, queue_calls);
  printf("guarded: %ld requests of memory, %ld refused, %ld in pages of their own; statuses:", asked, denied, paged);
  for (int i = 0; i < 32; i++)
    if (of_status[i]) printf(" %d: %ld", i, of_status[i]);
  printf("\n");
}
