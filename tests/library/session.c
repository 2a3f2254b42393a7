/* Sessions: steps a program by a schedule with memory refused at each request in turn, and prints for each position what
 * `asl debug goto K view asks stack objects` prints, and then the lines of the events, as `asl log` does. It writes the run file into
 * FILE, and into HALF that of the first half of the events.
 * usage: session PROGRAM FILE HALF THREADS T.. ; link it with --wrap=malloc and --wrap=realloc. Run by tests/sessions. */
#include "asl.h"
#include "refuse.h"
#include <stdio.h>
#include <stdlib.h>
#include <string.h>

enum { ROOM = 1 << 20, UNTOUCHED = 0xa5 };

static uint8_t program[ROOM], text[ROOM], part[ROOM];

static void must(bool holds, const char *what) {
  if (holds) return;
  fprintf(stderr, "session: %s\n", what);
  exit(1);
}

/* the call's status once all memory is granted that it asks for; each time before, one request later is refused */
#define REFUSED_IN_TURN(status, call)                       \
  do {                                                      \
    long most = 0;                                          \
    do {                                                    \
      granted = most++;                                     \
      (status) = (call);                                    \
    } while ((status) == ASL_NO_MEMORY && most < 100000);   \
    granted = -1;                                           \
  } while (0)

typedef uint32_t tells(asl_session *, uint8_t *, size_t, size_t *);

/* puts what the call tells into `text`, and answers its length */
static size_t told(asl_session *session, tells *page) {
  size_t length = 0, again = 0;
  uint32_t status;
  memset(text, UNTOUCHED, ROOM);
  REFUSED_IN_TURN(status, page(session, text, ROOM, &length));
  must(status == ASL_OK && length <= ROOM, "a page");
  must(length == ROOM || text[length] == UNTOUCHED, "nothing past the text");
  must(page(session, NULL, 0, &again) == ASL_OK && again == length, "the length without room");
  memset(part, UNTOUCHED, ROOM);
  must(page(session, part, length / 2, &again) == ASL_OK && again == length, "the length with too little room");
  must(!memcmp(part, text, length / 2) && part[length / 2] == UNTOUCHED, "the first part where there is too little room");
  return length;
}

static void print_page(asl_session *session, tells *page) { fwrite(text, 1, told(session, page), stdout); }

static void write_run_file(asl_session *session, const char *name) {
  size_t length = told(session, asl_session_run_file);
  FILE *file = fopen(name, "wb");
  must(file && fwrite(text, 1, length, file) == length && !fclose(file), "a run file");
}

static void print_position(asl_session *session, uint32_t k) {
  uint32_t status;
  REFUSED_IN_TURN(status, asl_session_go(session, k));
  must(status == ASL_OK, "go");
  printf("at %u\n", (unsigned)k);
  print_page(session, asl_session_view);
  print_page(session, asl_session_asks);
  print_page(session, asl_session_stack);
  print_page(session, asl_session_objects);
}

static void step_all(asl_session *session, char **schedule, int from, int count) {
  for (int i = from; i < count; i++) {
    uint32_t status;
    REFUSED_IN_TURN(status, asl_session_step(session, (uint32_t)atoi(schedule[i])));
    must(status == ASL_OK, "step");
  }
}

/* each call on a handle that has no session: nothing is written */
static void without_session(void) {
  static asl_session none;
  asl_place place = {9, 9};
  size_t length = 7;
  memset(part, UNTOUCHED, ROOM);
  must(asl_session_step(&none, 0) == ASL_BAD_HANDLE, "no session to step");
  must(asl_session_go(&none, 0) == ASL_BAD_HANDLE, "no session to go through");
  must(asl_session_cut(&none, 0) == ASL_BAD_HANDLE, "no session to cut");
  must(asl_session_close(&none) == ASL_BAD_HANDLE, "no session to close");
  must(asl_session_place(&none, &place) == ASL_BAD_HANDLE && place.position == 9 && place.events == 9, "no place");
  must(asl_session_view(&none, part, ROOM, &length) == ASL_BAD_HANDLE, "no view");
  must(asl_session_asks(&none, part, ROOM, &length) == ASL_BAD_HANDLE, "no asks");
  must(asl_session_stack(&none, part, ROOM, &length) == ASL_BAD_HANDLE, "no stack");
  must(asl_session_objects(&none, part, ROOM, &length) == ASL_BAD_HANDLE, "no objects");
  must(asl_session_log(&none, 0, part, ROOM, &length) == ASL_BAD_HANDLE, "no log");
  must(asl_session_run_file(&none, part, ROOM, &length) == ASL_BAD_HANDLE, "no run file");
  must(length == 7 && part[0] == UNTOUCHED, "nothing written of no session");
  must(asl_session_open((const uint8_t *)"x", 1, 1, &none) == ASL_NO_PROGRAM, "no text of a program");
  must(asl_session_open((const uint8_t *)"ASLM", 4, 1, &none) == ASL_NO_PROGRAM, "no image of a program");
  must(asl_session_open(NULL, 0, 1, &none) == ASL_NO_PROGRAM, "no bytes");
  must(asl_session_close(&none) == ASL_BAD_HANDLE, "nothing opened");
}

/* each call with NULL where something is to stand: nothing is written, and the session stays as it is */
static void with_null(asl_session *session) {
  static asl_session none;
  asl_place place = {9, 9};
  size_t length = 7;
  must(asl_session_open(program, 1, 1, NULL) == ASL_BAD_HANDLE && asl_session_close(NULL) == ASL_BAD_HANDLE, "NULL to open or close");
  must(asl_session_step(NULL, 0) == ASL_BAD_HANDLE && asl_session_go(NULL, 0) == ASL_BAD_HANDLE, "NULL to step or go through");
  must(asl_session_cut(NULL, 0) == ASL_BAD_HANDLE && asl_session_place(NULL, &place) == ASL_BAD_HANDLE, "NULL to cut or to tell of");
  must(asl_session_view(NULL, part, ROOM, &length) == ASL_BAD_HANDLE && asl_session_asks(NULL, part, ROOM, &length) == ASL_BAD_HANDLE, "NULL to view");
  must(asl_session_stack(NULL, part, ROOM, &length) == ASL_BAD_HANDLE && asl_session_objects(NULL, part, ROOM, &length) == ASL_BAD_HANDLE, "NULL to show");
  must(asl_session_log(NULL, 0, part, ROOM, &length) == ASL_BAD_HANDLE, "NULL to log");
  must(asl_session_run_file(NULL, part, ROOM, &length) == ASL_BAD_HANDLE, "NULL to write down");
  must(asl_session_open(NULL, 1, 1, &none) == ASL_NULL_POINTER && asl_session_open(NULL, 1, 1, session) == ASL_BAD_HANDLE, "no program");
  must(asl_session_place(session, NULL) == ASL_NULL_POINTER && asl_session_place(&none, NULL) == ASL_BAD_HANDLE, "no place");
  must(asl_session_view(session, NULL, 1, &length) == ASL_NULL_POINTER && asl_session_view(session, part, ROOM, NULL) == ASL_NULL_POINTER, "no view");
  must(asl_session_asks(session, NULL, 1, &length) == ASL_NULL_POINTER && asl_session_asks(session, part, ROOM, NULL) == ASL_NULL_POINTER, "no asks");
  must(asl_session_stack(session, NULL, 1, &length) == ASL_NULL_POINTER && asl_session_stack(session, part, ROOM, NULL) == ASL_NULL_POINTER, "no stack");
  must(asl_session_objects(session, NULL, 1, &length) == ASL_NULL_POINTER && asl_session_objects(session, part, ROOM, NULL) == ASL_NULL_POINTER, "no objects");
  must(asl_session_log(session, 0, NULL, 1, &length) == ASL_NULL_POINTER && asl_session_log(session, 0, part, ROOM, NULL) == ASL_NULL_POINTER, "no log");
  must(asl_session_run_file(session, NULL, 1, &length) == ASL_NULL_POINTER && asl_session_run_file(session, part, ROOM, NULL) == ASL_NULL_POINTER, "no run file");
  must(place.position == 9 && length == 7, "nothing written with NULL");
}

/* the refusals of a session at the end of its events, which stays as it is */
static void refusals(asl_session *session, uint32_t threads, uint32_t events) {
  asl_place place = {9, 9};
  size_t length = 7;
  must(asl_session_open(program, 1, 1, session) == ASL_BAD_HANDLE, "a session already");
  must(asl_session_step(session, threads) == ASL_BAD_THREAD, "a thread past the last");
  must(asl_session_step(session, UINT32_MAX) == ASL_BAD_THREAD, "a thread far past the last");
  must(asl_session_go(session, events + 1) == ASL_NO_SUCH_STEP, "a position past the end");
  must(asl_session_go(session, UINT32_MAX) == ASL_NO_SUCH_STEP, "a position far past the end");
  must(asl_session_cut(session, events + 1) == ASL_NO_SUCH_STEP, "a cut past the end");
  must(asl_session_log(session, UINT32_MAX, part, ROOM, &length) == ASL_OK && length == 0, "no lines past the end");
  must(asl_session_place(session, &place) == ASL_OK && place.position == events && place.events == events, "the place");
  if (events == 0) return;
  must(asl_session_go(session, events - 1) == ASL_OK && asl_session_step(session, threads) == ASL_NOT_AT_END, "a step in the midst");
  must(asl_session_place(session, &place) == ASL_OK && place.position == events - 1 && place.events == events, "the place before");
  must(asl_session_go(session, events) == ASL_OK, "back at the end");
}

int main(int count, char **words) {
  enum { FIRST = 5 };
  if (count < FIRST) return 2;
  FILE *file = fopen(words[1], "rb");
  if (!file) return 2;
  size_t size = fread(program, 1, ROOM, file), length = 0;
  fclose(file);
  uint32_t threads = (uint32_t)atoi(words[4]), events = (uint32_t)(count - FIRST), status;
  static asl_session session;
  without_session();
  must(asl_session_open(program, size, 0, &session) == ASL_BAD_COUNT, "no threads");
  must(asl_session_open(program, size, 129, &session) == ASL_BAD_COUNT, "too many threads");
  REFUSED_IN_TURN(status, asl_session_open(program, size, threads, &session));
  must(status == ASL_OK, "open");
  step_all(&session, words, FIRST, count);
  with_null(&session);
  refusals(&session, threads, events);
  for (uint32_t k = events; k-- > 0;) {
    REFUSED_IN_TURN(status, asl_session_cut(&session, k));
    must(status == ASL_OK, "cut");
    step_all(&session, words, FIRST + (int)k, count);
  }
  for (uint32_t k = 0; k <= events; k++) print_position(&session, k);
  REFUSED_IN_TURN(status, asl_session_log(&session, 0, text, ROOM, &length));
  must(status == ASL_OK && length <= ROOM, "log");
  fwrite(text, 1, length, stdout);
  must(asl_session_go(&session, events / 3) == ASL_OK, "back");
  write_run_file(&session, words[2]); /* of all events, though it is after the first third */
  must(asl_session_cut(&session, events / 2) == ASL_OK, "cut in the middle");
  write_run_file(&session, words[3]);
  must(asl_session_close(&session) == ASL_OK && asl_session_close(&session) == ASL_BAD_HANDLE, "close");
  return 0;
}
