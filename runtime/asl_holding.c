/* What threads hold: in a proved queue while they are few, in a proved forest while they are many (asl_holding.h). */
#define _POSIX_C_SOURCE 200809L
#include "asl_holding.h"
#include <stdio.h>
#include <stdlib.h>

/* So many hold something in the queue at the most; with so many in the forest all go back to the queue. They lie apart, so that not each entry moves all. */
enum { FEW = 16, FEW_AGAIN = 4 };

static _Noreturn void broken(const char *what, uint32_t status) {
  fprintf(stderr, "asl: %s: status %u\n", what, status);
  abort();
}

static void must(const char *what, uint32_t status) {
  if (status != ASL_OK) broken(what, status);
}

/* All numbers of the one that is in use are free, the least of them next. */
static void free_all(aslr_holding *all) {
  all->free_count = all->is_many || all->at_once < FEW ? all->at_once : FEW;
  for (uint32_t n = 0; n < all->free_count; n++) all->free[n] = (uint8_t)(all->free_count - 1 - n);
}

/* ---- the queue and the forest by one name */

static void release_in(aslr_holding *all, bool many, uint32_t number) {
  uint32_t named[MOST_AT_ONCE];
  size_t count;
  must("a release is refused", many ? asl_forest_release(&all->many, number) : asl_queue_release(&all->few, number, named, MOST_AT_ONCE, &count));
}

/* Whoever is refused by the queue would wait in it: he is taken out at once. */
static uint32_t acquire_in(aslr_holding *all, bool many, uint32_t number, const aslr_hold *one) {
  uint32_t status = many ? asl_forest_try_acquire(&all->many, number, one->asks, one->count) : asl_queue_acquire(&all->few, number, one->asks, one->count);
  if (status == ASL_IN_THE_WAY && !many) release_in(all, many, number);
  if (status != ASL_IN_THE_WAY && status != ASL_NO_MEMORY) must("a request is refused", status);
  return status;
}

/* Moves what is held to the other one of the two. Where memory for that is refused, all stays as it is. */
static uint32_t move(aslr_holding *all) {
  bool to_many = !all->is_many;
  for (uint32_t h = 0; h < all->count; h++) {
    uint32_t status = acquire_in(all, to_many, h, all->holds[h]);
    if (status == ASL_NO_MEMORY) {
      while (h > 0) release_in(all, to_many, --h);
      return status;
    }
    must("what is held is refused", status);
  }
  for (uint32_t h = 0; h < all->count; h++) {
    release_in(all, all->is_many, all->holds[h]->number);
    all->holds[h]->number = h;
  }
  all->is_many = to_many;
  free_all(all);
  all->free_count -= all->count;
  return ASL_OK;
}

/* ---- what engines call */

uint32_t aslr_holding_open(aslr_holding *all, uint32_t classes, uint32_t at_once, uint32_t longest) {
  all->at_once = at_once;
  free_all(all);
  uint32_t status = asl_queue_new(classes, all->free_count, &all->few);
  if (status == ASL_OK) status = asl_queue_reserve(&all->few, longest + 1);
  if (status == ASL_OK && at_once > FEW) status = asl_forest_new(classes, at_once, &all->many);
  return status;
}

void aslr_holding_close(aslr_holding *all) {
  if (all->few.live) asl_queue_free(&all->few);
  if (all->many.live) asl_forest_free(&all->many);
}

uint32_t aslr_holding_grant(aslr_holding *all, aslr_hold *one) {
  if (all->free_count == 0) {
    uint32_t status = move(all);
    if (status != ASL_OK) return status;
  }
  uint32_t number = all->free[all->free_count - 1];
  uint32_t status = acquire_in(all, all->is_many, number, one);
  if (status != ASL_OK) return status;
  all->free_count--;
  one->number = number;
  one->place = all->count;
  all->holds[all->count++] = one;
  return ASLR_OK;
}

void aslr_holding_give_back(aslr_holding *all, aslr_hold *one) {
  release_in(all, all->is_many, one->number);
  all->free[all->free_count++] = (uint8_t)one->number;
  aslr_hold *last = all->holds[--all->count];
  all->holds[one->place] = last;
  last->place = one->place;
  if (all->is_many && all->count == FEW_AGAIN) must("the queue has room for all", move(all));
}

bool aslr_holding_covers(aslr_holding *all, const aslr_hold *one, const asl_ask *cell, bool writes) {
  bool found = false;
  must("a question is refused", all->is_many ? asl_forest_covers(&all->many, one->number, cell, writes, &found)
                                             : asl_queue_covers(&all->few, one->number, cell, writes, &found));
  return found;
}
