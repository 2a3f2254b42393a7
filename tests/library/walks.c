/* A session that is stepped, gone through to and fro, and cut at random: what it shows after each move is what a new session shows
 * that is only stepped. Most moves go back by one event, so that they begin at the copies that the ones before left.
 *
 * Run by tests/sessions.
 * usage: walks THREADS MOVES SEED <PROGRAM      the number of positions that were compared, and of events where most were there */
#include "asl.h"
#include <stdio.h>
#include <stdlib.h>
#include <string.h>

enum { ROOM = 1 << 20, MOST = 1 << 16 };

static uint8_t program[ROOM], shown[ROOM], wanted[ROOM];
static uint32_t schedule[MOST];
static uint32_t position, events, most, threads;
static size_t length;
static uint64_t state;

static uint32_t below(uint32_t bound) {
  state = state * 6364136223846793005u + 1442695040888963407u;
  return (uint32_t)(state >> 33) % bound;
}

static void must(int holds, const char *what) {
  if (holds) return;
  fprintf(stderr, "walks: %s at position %u of %u\n", what, position, events);
  exit(1);
}

static void go(asl_session *session, uint32_t k) {
  must(asl_session_go(session, k) == ASL_OK, "go is refused");
  position = k;
}

/* Steps random threads, so many times, at the end of the journal. */
static void step(asl_session *session, uint32_t times) {
  for (go(session, events); times > 0 && events < MOST; times--) {
    schedule[events] = below(threads);
    must(asl_session_step(session, schedule[events]) == ASL_OK, "step is refused");
    position = ++events;
  }
  if (events > most) most = events;
}

/* Makes a random move, or many back by one event. */
static void move(asl_session *session) {
  uint32_t kind = below(12), times = below(60);
  if (kind < 3) {
    step(session, times);
  } else if (kind < 9) {
    for (; times > 0 && position > 0; times--) go(session, position - 1);
  } else if (kind < 10) {
    go(session, below(events + 1));
  } else if (kind < 11) {
    go(session, position + times < events ? position + times : events);
  } else {
    uint32_t k = times < events ? events - times : 0;
    must(asl_session_cut(session, k) == ASL_OK, "cut is refused");
    position = events = k;
  }
}

/* What the session shows is what a new one shows that makes the steps up to the position. */
static void compare(asl_session *session) {
  asl_session other;
  asl_place place;
  size_t size, other_size;
  memset(&other, 0, sizeof other);
  must(asl_session_place(session, &place) == ASL_OK && place.position == position && place.events == events, "another place");
  must(asl_session_view(session, shown, ROOM, &size) == ASL_OK && size <= ROOM, "view is refused");
  must(asl_session_open(program, length, threads, &other) == ASL_OK, "open is refused");
  for (uint32_t k = 0; k < position; k++) must(asl_session_step(&other, schedule[k]) == ASL_OK, "step is refused");
  must(asl_session_view(&other, wanted, ROOM, &other_size) == ASL_OK, "view is refused");
  must(size == other_size && memcmp(shown, wanted, size) == 0, "another view");
  asl_session_close(&other);
}

int main(int argc, char **argv) {
  static asl_session session;
  if (argc != 4) return 2;
  threads = (uint32_t)atoi(argv[1]);
  state = (uint64_t)atoi(argv[3]);
  length = fread(program, 1, ROOM, stdin);
  must(asl_session_open(program, length, threads, &session) == ASL_OK, "open is refused");
  for (int moves = atoi(argv[2]); moves > 0; moves--) {
    move(&session);
    compare(&session);
  }
  asl_session_close(&session);
  printf("%s positions, %u events\n", argv[2], most);
  return 0;
}
