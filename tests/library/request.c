/* Requests of lists: runs a program by a schedule from a seed. At each position it evaluates the list of each thread that stands at its
 * outermost `acq`, over the registers and the objects that the session tells, and compares the request with `asl_session_asks`. It tells a
 * cell only when it is asked for it. Objects get other numbers than the session's, and the registers of each frame are told in an array of just
 * their length. Then each refusal: NULL, a handle that is closed, a list that there is not, too little room; and words at random.
 * usage: request IMAGE THREADS SEED STEPS ; link it with --wrap=malloc and --wrap=realloc. Run by tests/programs. */
#include "asl.h"
#include "refuse.h"
#include <stdio.h>
#include <stdlib.h>
#include <string.h>

enum { ROOM = 1 << 20, MOST = 4096, UNTOUCHED = 0xa5 };

static uint8_t image[ROOM];
static char view_text[ROOM], asks_text[ROOM], stack_text[ROOM], objects_text[ROOM];
static uint64_t state;

static void must(bool holds, const char *what) {
  if (holds) return;
  fprintf(stderr, "request: %s\n", what);
  exit(1);
}

static uint32_t random_below(uint32_t count) {
  state ^= state << 13;
  state ^= state >> 7;
  state ^= state << 17;
  return (uint32_t)(state >> 20) % count;
}

/* ---- what the session tells */

typedef uint32_t tells(asl_session *, uint8_t *, size_t, size_t *);

static void tell(asl_session *session, tells *page, char *text) {
  size_t length;
  must(page(session, (uint8_t *)text, ROOM - 1, &length) == ASL_OK && length < ROOM, "a page");
  text[length] = 0;
}

/* the line after this one, or NULL */
static const char *next_line(const char *line) {
  const char *end = strchr(line, '\n');
  return end && end[1] ? end + 1 : NULL;
}

/* the value that the words say, its object being the object's number in the session */
static asl_value value_of(const char *words) {
  unsigned object, offset;
  asl_value none = {ASL_NO_ADDRESS, 0, 0};
  if (sscanf(words, "addr %u.%u", &object, &offset) != 2) return none;
  asl_value address = {ASL_ADDRESS, (uint8_t)offset, (uint16_t)object};
  return address;
}

static asl_object objects[MOST];
static size_t objects_count;

/* The objects, of which object n has the number 3 n + 1: so leaves rise in the same order. */
static void read_objects(void) {
  unsigned number, klass, size;
  objects_count = 0;
  for (const char *line = objects_text; line; line = next_line(line)) {
    if (sscanf(line, "object %u %u %u", &number, &klass, &size) != 3) continue;
    must(number == objects_count && number < MOST, "objects in order");
    asl_object one = {(uint16_t)klass, (uint16_t)(3 * number + 1), (uint8_t)size};
    objects[objects_count++] = one;
  }
}

/* The registers of the thread's top frame, in memory of just their length; the place of its next instruction. */
static asl_value *read_registers(unsigned thread, size_t *count, unsigned *pc) {
  unsigned t, frame, function, number, at;
  int begin;
  asl_value read[256];
  bool there = false;
  *count = 0;
  for (const char *line = stack_text; line; line = next_line(line)) {
    if (sscanf(line, "frame %u %u fn %u pc %u", &t, &frame, &function, &at) == 4 && t == thread && frame == 0) *pc = at, there = true;
    if (sscanf(line, "local %u %u %u %n", &t, &frame, &number, &begin) == 3 && t == thread && frame == 0) {
      must(number == *count && number < 256, "registers in order");
      read[(*count)++] = value_of(line + begin);
    }
  }
  must(there, "a frame");
  asl_value *registers = (asl_value *)malloc(*count * sizeof *registers + 1);
  must(registers != NULL, "memory");
  memcpy(registers, read, *count * sizeof *registers);
  return registers;
}

/* what the cell holds */
static asl_value read_cell(unsigned object, unsigned offset) {
  unsigned o, f;
  int begin;
  for (const char *line = view_text; line; line = next_line(line))
    if (sscanf(line, "cell %u.%u %n", &o, &f, &begin) == 2 && o == object && f == offset) return value_of(line + begin);
  must(false, "a cell that is asked for is there");
  return value_of("");
}

/* ---- what must come */

static asl_ask wanted[MOST];
static size_t wanted_count;

static uint8_t mode_of(const char *name) {
  const char *names[] = {"IS", "IX", "SIX", "S", "X"};
  const uint8_t modes[] = {ASL_IS, ASL_IX, ASL_SIX, ASL_S, ASL_X};
  for (int i = 0; i < 5; i++)
    if (!strcmp(names[i], name)) return modes[i];
  must(false, "a mode");
  return ASL_NL;
}

static void want(uint8_t kind, const char *mode, unsigned klass, unsigned object, unsigned offset) {
  asl_ask one = {kind, mode_of(mode), (uint8_t)offset, (uint16_t)klass, (uint16_t)object};
  wanted[wanted_count++] = one;
}

/* whether the thread asks; the nodes for which it does */
static bool read_asks(unsigned thread) {
  unsigned t, klass, object, offset;
  char mode[8];
  bool asks = false;
  wanted_count = 0;
  for (const char *line = asks_text; line; line = next_line(line)) {
    if (sscanf(line, "asks %u", &t) != 1 || t != thread) continue;
    asks = true;
    if (sscanf(line, "asks %u root %3[A-Z]", &t, mode) == 2) want(ASL_ROOT, mode, 0, 0, 0);
    if (sscanf(line, "asks %u class %u %3[A-Z]", &t, &klass, mode) == 3) want(ASL_CLASS, mode, klass, 0, 0);
    if (sscanf(line, "asks %u leaf %u.%u %3[A-Z]", &t, &object, &offset, mode) == 4)
      want(ASL_LEAF, mode, objects[object].klass, 3 * object + 1, offset);
  }
  return asks;
}

static bool same_node(const asl_ask *a, const asl_ask *b) {
  if (a->kind != b->kind || (a->kind != ASL_ROOT && a->klass != b->klass)) return false;
  return a->kind != ASL_LEAF || (a->object == b->object && a->offset == b->offset);
}

/* the asks are those that must come, and rise */
static void compare(const asl_ask *asks, size_t count) {
  must(count == wanted_count, "as many nodes");
  for (size_t i = 0; i < count; i++) {
    size_t found = 0;
    while (found < count && !same_node(&asks[i], &wanted[found])) found++;
    must(found < count && asks[i].mode == wanted[found].mode, "a node, and its mode");
    if (i == 0) continue;
    const asl_ask *a = &asks[i - 1], *b = &asks[i];
    uint64_t before = (uint64_t)a->kind << 40 | (uint64_t)a->klass << 24 | (uint64_t)a->object << 8 | a->offset;
    must(before < ((uint64_t)b->kind << 40 | (uint64_t)b->klass << 24 | (uint64_t)b->object << 8 | b->offset), "nodes rise");
  }
}

/* ---- evaluation */

static asl_queue queue;
static size_t evaluated, told;

/* The request of the list: cells are told one at a time. Asks have room for just what the list needs. */
static void evaluate(asl_program *program, uint32_t number, asl_view view) {
  asl_list list;
  asl_request request, before;
  must(asl_program_list(program, number, &list) == ASL_OK, "a list");
  size_t room = 3 * list.locks;
  asl_ask *asks = (asl_ask *)malloc(room * sizeof *asks + 1);
  asl_cell *cells = (asl_cell *)malloc(MOST * sizeof *cells);
  must(asks && cells, "memory");
  memset(asks, UNTOUCHED, room * sizeof *asks + 1);
  memset(&request, UNTOUCHED, sizeof request);
  before = request;
  view.cells = cells;
  view.cells_count = 0;
  if (room) {
    must(asl_list_request(program, number, &view, asks, room - 1, &request) == ASL_NO_ROOM, "too little room");
    must(((uint8_t *)asks)[0] == UNTOUCHED && !memcmp(&before, &request, sizeof request), "nothing is written");
  }
  granted = 0; /* it wants no memory */
  uint32_t status;
  while ((status = asl_list_request(program, number, &view, asks, room, &request)) == ASL_NEEDS_CELL) {
    must(list.reads_cells, "a list that reads no cell needs none");
    for (size_t i = 0; i < view.cells_count; i++)
      must(cells[i].object != request.object || cells[i].offset != request.offset, "a cell is needed once");
    must(view.cells_count < MOST, "cells");
    asl_cell one = {request.object, request.offset, read_cell(request.object, request.offset)};
    cells[view.cells_count++] = one;
    told++;
  }
  must(status == ASL_OK && request.count <= room, "a request");
  granted = -1;
  must(((uint8_t *)asks)[room * sizeof *asks] == UNTOUCHED, "nothing past the asks");
  compare(asks, request.count);
  if (request.count) {
    must(asl_queue_acquire(&queue, 0, asks, request.count) == ASL_OK, "the queue takes it");
    uint32_t named[1];
    size_t count;
    must(asl_queue_release(&queue, 0, named, 1, &count) == ASL_OK, "and gives it back");
  }
  evaluated++;
  free(cells);
  free(asks);
}

/* the list of the section that is entered at this place */
static uint32_t list_at(asl_program *program, unsigned place) {
  asl_section section;
  for (uint32_t n = 0; asl_program_section(program, n, &section) == ASL_OK; n++)
    if (section.place == place) return section.list;
  must(false, "a section");
  return 0;
}

static void position(asl_program *program, asl_session *session, unsigned threads) {
  tell(session, asl_session_view, view_text);
  tell(session, asl_session_asks, asks_text);
  tell(session, asl_session_stack, stack_text);
  tell(session, asl_session_objects, objects_text);
  read_objects();
  for (unsigned thread = 0; thread < threads; thread++) {
    if (!read_asks(thread)) continue;
    size_t count;
    unsigned pc;
    asl_value *registers = read_registers(thread, &count, &pc);
    asl_view view = {registers, count, objects, objects_count, NULL, 0};
    evaluate(program, list_at(program, pc), view);
    free(registers);
  }
}

/* ---- refusals, and words at random */

static void refused(asl_program *program) {
  static asl_program closed;
  asl_view view = {NULL, 0, NULL, 0, NULL, 0}, no_registers = view, no_objects = view, no_cells = view;
  asl_ask asks[3];
  asl_request request;
  no_registers.registers_count = no_objects.objects_count = no_cells.cells_count = 1;
  must(asl_list_request(NULL, 0, &view, asks, 3, &request) == ASL_BAD_HANDLE, "no program");
  must(asl_list_request(&closed, 0, NULL, NULL, 3, NULL) == ASL_BAD_HANDLE, "a closed program");
  must(asl_list_request(program, 0, NULL, asks, 3, &request) == ASL_NULL_POINTER, "no view");
  must(asl_list_request(program, 0, &view, NULL, 3, &request) == ASL_NULL_POINTER, "no asks");
  must(asl_list_request(program, 0, &view, asks, 3, NULL) == ASL_NULL_POINTER, "no request");
  must(asl_list_request(program, 0, &no_registers, asks, 3, &request) == ASL_NULL_POINTER, "no registers");
  must(asl_list_request(program, 0, &no_objects, asks, 3, &request) == ASL_NULL_POINTER, "no objects");
  must(asl_list_request(program, 0, &no_cells, asks, 3, &request) == ASL_NULL_POINTER, "no cells");
  must(asl_list_request(program, 70000, &view, NULL, 0, &request) == ASL_NO_SUCH_NUMBER, "no list");
  must(asl_list_request(program, UINT32_MAX, &view, asks, 3, &request) == ASL_NO_SUCH_NUMBER, "no list");
}

/* any bytes are shown: a request comes, or a cell that was not told and is one of an object that is shown */
static void at_random(asl_program *program, uint32_t lists) {
  static asl_ask asks[MOST];
  for (int round = 0; round < 300; round++) {
    asl_value registers[9];
    asl_object shown[5];
    asl_cell cells[6];
    for (size_t i = 0; i < sizeof registers; i++) ((uint8_t *)registers)[i] = (uint8_t)random_below(5);
    for (size_t i = 0; i < sizeof shown; i++) ((uint8_t *)shown)[i] = (uint8_t)random_below(round % 2 ? 4 : 256);
    for (size_t i = 0; i < sizeof cells; i++) ((uint8_t *)cells)[i] = (uint8_t)random_below(3);
    asl_view view = {registers, random_below(10), shown, random_below(6), cells, random_below(7)};
    asl_request request;
    uint32_t status = asl_list_request(program, random_below(lists), &view, asks, MOST, &request);
    must(status == ASL_OK || status == ASL_NEEDS_CELL, "words at random");
    if (status == ASL_OK) continue;
    must(request.object < view.objects_count && request.offset < shown[request.object].size, "a cell that is there");
    for (size_t i = 0; i < view.cells_count; i++)
      must(cells[i].object != request.object || cells[i].offset != request.offset, "a cell that is not told");
  }
}

int main(int count, char **words) {
  static asl_program program;
  static asl_session session;
  asl_counts counts;
  must(count == 5, "usage: request IMAGE THREADS SEED STEPS");
  FILE *from = fopen(words[1], "rb");
  must(from != NULL, "the image");
  size_t length = fread(image, 1, ROOM, from);
  fclose(from);
  unsigned threads = (unsigned)atoi(words[2]), steps = (unsigned)atoi(words[4]);
  state = (uint64_t)atoi(words[3]) * 2654435761u + 1;
  must(asl_program_open(image, length, &program) == ASL_OK && asl_program_counts(&program, &counts) == ASL_OK, "the program");
  must(asl_session_open(image, length, threads, &session) == ASL_OK, "the session");
  must(asl_queue_new(counts.classes, 1, &queue) == ASL_OK, "the queue");
  for (unsigned step = 0; step < steps; step++) {
    position(&program, &session, threads);
    must(asl_session_step(&session, random_below(threads)) == ASL_OK, "a step");
  }
  refused(&program);
  if (counts.lists) at_random(&program, counts.lists);
  must(asl_queue_free(&queue) == ASL_OK && asl_session_close(&session) == ASL_OK && asl_program_close(&program) == ASL_OK, "closed");
  printf("%zu %zu\n", evaluated, told);
  return 0;
}
