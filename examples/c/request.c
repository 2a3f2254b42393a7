/* The request of a section: a runtime evaluates the list of `transfer` of examples/bank.asl over its own heap, and takes what it asks for in a
 * queue.
 *
 * The bank has four globals, each with the address of an account. Accounts are found only as the evaluation comes to them: each is shown
 * as one object more. It prints what the section asks for, first where nothing is in its way, then where another thread holds a cell that
 * it would have to read.
 *
 * usage: request < examples/bank.asl */
#include "asl.h"
#include <stdio.h>
#include <stdlib.h>

enum { GLOBALS = 4, ACCOUNTS = 4, MOST = 16, MOST_REGISTERS = 64, MAX_SOURCE = 1 << 16 };

static void must(bool holds, const char *what) {
  if (holds) return;
  fprintf(stderr, "request: %s\n", what);
  exit(1);
}

/* ---- the bank's heap: the account to which global n points, and its number among all objects */

static unsigned account_of[GLOBALS] = {2, 0, 3, 1};
static const uint16_t account_class = 1;

static uint16_t number_of_account(unsigned account) { return (uint16_t)(GLOBALS + account); }

/* ---- one evaluation: the objects and the cells that were told */

static asl_object objects[MOST];
static asl_cell cells[MOST];
static asl_ask asks[3 * MOST];
static asl_queue queue;

/* shows the account, and tells that the cell has its address */
static void tell(asl_view *view, const asl_request *cell) {
  must(cell->object < GLOBALS && view->objects_count < MOST && view->cells_count < MOST, "an account holds no address");
  asl_object account = {account_class, number_of_account(account_of[cell->object]), 1};
  asl_cell one = {cell->object, cell->offset, {ASL_ADDRESS, 0, (uint16_t)view->objects_count}};
  objects[view->objects_count++] = account;
  cells[view->cells_count++] = one;
}

/* whether another thread may be writing the cell of the global */
static bool is_being_written(uint32_t thread, uint32_t threads, uint16_t global) {
  asl_ask cell = {ASL_LEAF, ASL_NL, 0, objects[global].klass, objects[global].number};
  for (uint32_t other = 0; other < threads; other++) {
    bool covers = false;
    must(asl_queue_covers(&queue, other, &cell, true, &covers) == ASL_OK, "a cell");
    if (other != thread && covers) return true;
  }
  return false;
}

/* The request of the section's list for a transfer between two globals: how many nodes, or 0 where a cell may not be read now. All registers of
 * the function are shown: one that is not would hold no address, and nothing would be asked for it. */
static size_t evaluate(asl_program *program, const asl_section *section, uint32_t thread, unsigned from, unsigned to) {
  asl_value registers[MOST_REGISTERS] = {{ASL_ADDRESS, 0, (uint16_t)from}, {ASL_ADDRESS, 0, (uint16_t)to}};
  asl_function function;
  must(asl_program_function(program, section->function, &function) == ASL_OK, "a function");
  asl_view view = {registers, function.registers, objects, GLOBALS, cells, 0};
  asl_request request;
  uint32_t status;
  while ((status = asl_list_request(program, section->list, &view, asks, 3 * MOST, &request)) == ASL_NEEDS_CELL) {
    printf("reads the cell of global %u\n", request.object);
    if (is_being_written(thread, 2, request.object)) return 0;
    tell(&view, &request);
  }
  must(status == ASL_OK, "a request");
  return request.count;
}

static void print_asks(size_t count) {
  for (size_t i = 0; i < count; i++) {
    static const char *const modes[] = {[ASL_IS] = "IS", [ASL_IX] = "IX", [ASL_S] = "S", [ASL_SIX] = "SIX", [ASL_X] = "X"};
    if (asks[i].kind == ASL_ROOT) printf("root %s\n", modes[asks[i].mode]);
    if (asks[i].kind == ASL_CLASS) printf("class %u %s\n", asks[i].klass, modes[asks[i].mode]);
    if (asks[i].kind == ASL_LEAF) printf("leaf %u.%u %s\n", asks[i].object, asks[i].offset, modes[asks[i].mode]);
  }
}

int main(void) {
  static uint8_t source[MAX_SOURCE];
  static asl_program program;
  asl_counts counts;
  asl_section transfer;
  uint32_t named[2];
  size_t length = fread(source, 1, sizeof source, stdin), count;
  must(asl_program_compile(source, length, 3, &program) == ASL_OK, "the source");
  must(asl_program_counts(&program, &counts) == ASL_OK && counts.globals == GLOBALS, "four globals");
  must(asl_program_section(&program, 1, &transfer) == ASL_OK, "the section of transfer");
  must(asl_queue_new(counts.classes, 2, &queue) == ASL_OK && asl_queue_reserve(&queue, 3 * MOST) == ASL_OK, "the queue");
  for (uint32_t n = 0; n < GLOBALS; n++) {
    objects[n].number = (uint16_t)n;
    objects[n].size = 1;
    must(asl_program_global(&program, n, &objects[n].klass) == ASL_OK, "a global");
  }

  puts("thread 0, from ann to bob:");
  count = evaluate(&program, &transfer, 0, 0, 1);
  print_asks(count);
  must(asl_queue_acquire(&queue, 0, asks, count) == ASL_OK, "it is granted");
  must(asl_queue_release(&queue, 0, named, 2, &count) == ASL_OK && count == 0, "nobody waits");

  puts("thread 1 writes bob; thread 0, from ann to bob:");
  asl_ask writes[3] = {{ASL_ROOT, ASL_IX, 0, 0, 0}, {ASL_CLASS, ASL_IX, 0, objects[1].klass, 0}, {ASL_LEAF, ASL_X, 0, objects[1].klass, 1}};
  must(asl_queue_acquire(&queue, 1, writes, 3) == ASL_OK, "it is granted");
  if (evaluate(&program, &transfer, 0, 0, 1) == 0) puts("is refused before it reads");
  must(asl_queue_free(&queue) == ASL_OK && asl_program_close(&program) == ASL_OK, "closed");
  return 0;
}
