/* Programs as data: opens a program with memory refused at each request in turn, and prints all that can be read of it, a line an entry.
 * Then each refusal: NULL, a handle that is closed or has a program, numbers that are none, bytes that are damaged or cut.
 * usage: program FILE [K] ; FILE is an image or a text, or with K a source; link it with --wrap=malloc and --wrap=realloc.
 * Run by tests/programs. */
#include "asl.h"
#include "refuse.h"
#include <stdio.h>
#include <stdlib.h>
#include <string.h>

enum { ROOM = 1 << 20, UNTOUCHED = 0xa5, MANY = 100000 };

static uint8_t file[ROOM];

static void must(bool holds, const char *what) {
  if (holds) return;
  fprintf(stderr, "program: %s\n", what);
  exit(1);
}

/* the file is a source, and its program is made with paths of at most k operations */
static bool is_source;
static uint32_t k;

static uint32_t opened(const uint8_t *bytes, size_t length, asl_program *program) {
  return is_source ? asl_program_compile(bytes, length, k, program) : asl_program_open(bytes, length, program);
}

/* the status once all memory is granted that is asked for; each time before, one request later is refused, and nothing is left */
static uint32_t opened_in_turn(size_t length, asl_program *program) {
  uint32_t status;
  long most = 0;
  do {
    granted = most++;
    status = opened(file, length, program);
    must(status == ASL_OK || !program->live, "a refused program is closed");
  } while (status == ASL_NO_MEMORY && most < MANY);
  granted = -1;
  return status;
}

typedef uint32_t names(asl_program *, uint32_t, uint8_t *, size_t, size_t *);

static uint32_t function_of_registers;

static uint32_t register_name(asl_program *program, uint32_t number, uint8_t *name, size_t room, size_t *length) {
  return asl_program_register_name(program, function_of_registers, number, name, room, length);
}

/* a blank and the name, where there is one: whole, and by halves */
static void print_name(asl_program *program, names *name, uint32_t number) {
  uint8_t whole[80], part[80];
  size_t length = 7, again = 7;
  memset(whole, UNTOUCHED, sizeof whole);
  memset(part, UNTOUCHED, sizeof part);
  uint32_t status = name(program, number, whole, sizeof whole, &length);
  if (status != ASL_OK) {
    must(status == ASL_NO_NAMES || status == ASL_NO_SUCH_NUMBER, "a name's status");
    must(length == 7 && whole[0] == UNTOUCHED, "nothing is written of no name");
    return;
  }
  must(length > 0 && length <= 64 && whole[length] == UNTOUCHED, "a name");
  must(name(program, number, NULL, 0, &again) == ASL_OK && again == length, "the length without room");
  must(name(program, number, part, length / 2, &again) == ASL_OK && again == length, "the length with too little room");
  must(!memcmp(part, whole, length / 2) && part[length / 2] == UNTOUCHED, "the first half");
  printf(" %.*s", (int)length, (const char *)whole);
}

static void print_lock(asl_program *program, uint32_t list, uint32_t number) {
  asl_lock lock;
  must(asl_program_lock(program, list, number, &lock) == ASL_OK, "a lock");
  printf("lock %u %u ", list, number);
  if (lock.kind == ASL_ROOT) printf("root");
  if (lock.kind == ASL_CLASS) printf("class %u", lock.klass);
  if (lock.kind == ASL_LEAF) printf("expr %c%u", lock.from_global ? 'g' : 'r', lock.base);
  for (int at = 0; at < 8; at++) {
    if (at >= lock.operations) must(lock.path[at] == 0, "0 behind the end of a path");
    else if (lock.path[at] == ASL_FOLLOW) printf(" *");
    else printf(" .%u", lock.path[at]);
  }
  printf(" %s of", lock.writes ? "write" : "read");
  if (lock.klass == ASL_NO_CLASS) puts(" none");
  else printf(" %u\n", lock.klass);
}

static void print_functions(asl_program *program, const asl_counts *counts) {
  for (uint32_t n = 0; n < counts->functions; n++) {
    asl_function entry;
    must(asl_program_function(program, n, &entry) == ASL_OK, "a function");
    printf("function %u %u %u %u %u", n, entry.parameters, entry.registers, entry.first, entry.instructions);
    print_name(program, asl_program_function_name, n);
    puts("");
    function_of_registers = n;
    for (uint32_t number = 0; number < entry.registers; number++) {
      printf("register %u %u", n, number);
      print_name(program, register_name, number);
      puts("");
    }
  }
}

static void print_lists(asl_program *program, const asl_counts *counts) {
  for (uint32_t n = 0; n < counts->sections; n++) {
    asl_section entry;
    must(asl_program_section(program, n, &entry) == ASL_OK, "a section");
    printf("section %u %u %u %u\n", n, entry.function, entry.place, entry.list);
  }
  for (uint32_t n = 0; n < counts->lists; n++) {
    asl_list entry;
    must(asl_program_list(program, n, &entry) == ASL_OK, "a list");
    printf("list %u %zu %d %d\n", n, entry.locks, entry.reads_cells, entry.writes);
    for (uint32_t number = 0; number < entry.locks; number++) print_lock(program, n, number);
  }
}

static void print_all(asl_program *program) {
  asl_counts counts;
  must(asl_program_counts(program, &counts) == ASL_OK, "counts");
  printf("counts %u %u %u %u %u %u %u %u %d %d\n", counts.version, counts.classes, counts.globals, counts.functions, counts.start,
         counts.instructions, counts.sections, counts.lists, counts.names_root, counts.has_source);
  for (uint32_t n = 0; n < counts.classes; n++) {
    bool named;
    must(asl_program_class(program, n, &named) == ASL_OK, "a class");
    printf("class %u %d\n", n, named);
  }
  for (uint32_t n = 0; n < counts.globals; n++) {
    uint16_t klass;
    must(asl_program_global(program, n, &klass) == ASL_OK, "a global");
    printf("global %u %u", n, klass);
    print_name(program, asl_program_global_name, n);
    puts("");
  }
  print_functions(program, &counts);
  print_lists(program, &counts);
}

/* each reader with what it must refuse: its status, and nothing is written */
static void refused(asl_program *program, uint32_t wanted, uint32_t number) {
  asl_counts counts, counts_before;
  asl_function function, function_before;
  asl_section section, section_before;
  asl_list list, list_before;
  asl_lock lock, lock_before;
  uint16_t klass = 77;
  uint8_t named = UNTOUCHED, name[4] = {UNTOUCHED, UNTOUCHED, UNTOUCHED, UNTOUCHED};
  size_t length = 7;
  memset(&counts, UNTOUCHED, sizeof counts);
  memset(&function, UNTOUCHED, sizeof function);
  memset(&section, UNTOUCHED, sizeof section);
  memset(&list, UNTOUCHED, sizeof list);
  memset(&lock, UNTOUCHED, sizeof lock);
  memcpy(&counts_before, &counts, sizeof counts);
  memcpy(&function_before, &function, sizeof function);
  memcpy(&section_before, &section, sizeof section);
  memcpy(&list_before, &list, sizeof list);
  memcpy(&lock_before, &lock, sizeof lock);
  if (wanted == ASL_BAD_HANDLE) must(asl_program_counts(program, &counts) == wanted, "counts refused");
  must(asl_program_class(program, number, (bool *)&named) == wanted, "a class refused");
  must(asl_program_global(program, number, &klass) == wanted, "a global refused");
  must(asl_program_function(program, number, &function) == wanted, "a function refused");
  must(asl_program_section(program, number, &section) == wanted, "a section refused");
  must(asl_program_list(program, number, &list) == wanted, "a list refused");
  must(asl_program_lock(program, number, 0, &lock) == wanted && asl_program_lock(program, 0, number, &lock) == wanted, "a lock refused");
  if (wanted == ASL_NO_SUCH_NUMBER && !is_source) wanted = ASL_NO_NAMES;
  must(asl_program_function_name(program, number, name, sizeof name, &length) == wanted, "a function's name refused");
  must(asl_program_global_name(program, number, name, sizeof name, &length) == wanted, "a global's name refused");
  must(asl_program_register_name(program, number, 0, name, sizeof name, &length) == wanted, "a register's name refused");
  must(asl_program_register_name(program, 0, number, name, sizeof name, &length) == wanted, "a register's name refused");
  must(!memcmp(&counts, &counts_before, sizeof counts) && !memcmp(&function, &function_before, sizeof function), "nothing is written");
  must(!memcmp(&section, &section_before, sizeof section) && !memcmp(&list, &list_before, sizeof list), "nothing is written");
  must(!memcmp(&lock, &lock_before, sizeof lock) && klass == 77 && named == UNTOUCHED, "nothing is written");
  must(length == 7 && name[0] == UNTOUCHED && name[3] == UNTOUCHED, "nothing is written");
}

static void null_refused(asl_program *program) {
  size_t length;
  uint8_t name[4];
  must(asl_program_counts(program, NULL) == ASL_NULL_POINTER && asl_program_class(program, 0, NULL) == ASL_NULL_POINTER, "NULL");
  must(asl_program_global(program, 0, NULL) == ASL_NULL_POINTER && asl_program_function(program, 0, NULL) == ASL_NULL_POINTER, "NULL");
  must(asl_program_section(program, 0, NULL) == ASL_NULL_POINTER && asl_program_list(program, 0, NULL) == ASL_NULL_POINTER, "NULL");
  must(asl_program_lock(program, 0, 0, NULL) == ASL_NULL_POINTER, "NULL");
  must(asl_program_function_name(program, 0, name, 4, NULL) == ASL_NULL_POINTER, "NULL");
  must(asl_program_global_name(program, 0, NULL, 4, &length) == ASL_NULL_POINTER, "NULL");
  must(asl_program_register_name(program, 0, 0, NULL, 4, &length) == ASL_NULL_POINTER, "NULL");
}

/* bytes that are damaged or cut, at some 150 places, open a program, or nothing */
static void damaged(size_t length) {
  static asl_program program;
  for (size_t at = 0; at < length; at += 1 + length / 150) {
    uint8_t was = file[at];
    file[at] = (uint8_t)(was ^ (1u << at % 8));
    uint32_t status = opened(file, length, &program);
    must(status == ASL_OK || status == ASL_NO_PROGRAM || status == ASL_NO_SOURCE, "a damaged program's status");
    must(asl_program_close(&program) == (status == ASL_OK ? ASL_OK : ASL_BAD_HANDLE), "a damaged program is closed");
    file[at] = was;
    status = opened(file, at, &program);
    must(status == ASL_OK || status == ASL_NO_PROGRAM || status == ASL_NO_SOURCE, "a cut program's status");
    must(asl_program_close(&program) == (status == ASL_OK ? ASL_OK : ASL_BAD_HANDLE), "a cut program is closed");
  }
}

int main(int count, char **words) {
  static asl_program program;
  must(count == 2 || count == 3, "usage: program FILE [K]");
  FILE *from = fopen(words[1], "rb");
  must(from != NULL, "the file");
  size_t length = fread(file, 1, ROOM, from);
  fclose(from);
  is_source = count == 3;
  if (is_source) k = (uint32_t)atoi(words[2]);

  refused(&program, ASL_BAD_HANDLE, 0);
  refused(NULL, ASL_BAD_HANDLE, 0);
  must(asl_program_close(&program) == ASL_BAD_HANDLE && asl_program_close(NULL) == ASL_BAD_HANDLE, "closed already");
  must(asl_program_open(file, length, NULL) == ASL_BAD_HANDLE && asl_program_compile(file, length, 3, NULL) == ASL_BAD_HANDLE, "no place");
  must(asl_program_open(NULL, 1, &program) == ASL_NULL_POINTER && asl_program_open(NULL, 0, &program) == ASL_NO_PROGRAM, "NULL bytes");
  must(asl_program_compile(NULL, 1, 9, &program) == ASL_NULL_POINTER, "a NULL source");
  must(asl_program_compile(NULL, 0, 8, &program) == ASL_NO_SOURCE, "an empty source");
  must(asl_program_compile(file, length, 9, &program) == ASL_BAD_LENGTH, "paths that are too long");
  must(!program.live, "closed still");

  must(opened_in_turn(length, &program) == ASL_OK, "the program");
  must(asl_program_open(file, length, &program) == ASL_BAD_HANDLE, "there is a program already");
  must(asl_program_compile(file, length, 3, &program) == ASL_BAD_HANDLE, "there is a program already");
  granted = 0; /* readers want no memory */
  print_all(&program);
  granted = -1;
  refused(&program, ASL_NO_SUCH_NUMBER, 70000);
  refused(&program, ASL_NO_SUCH_NUMBER, UINT32_MAX);
  null_refused(&program);
  must(asl_program_close(&program) == ASL_OK && !program.live, "closed");
  must(asl_program_close(&program) == ASL_BAD_HANDLE, "closed twice");
  damaged(length);
  return 0;
}
