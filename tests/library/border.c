/* Each status of each function of the C library, once at least; which comes first where several apply; and memory refused at each
 * request in turn. Link it with --wrap=malloc and --wrap=realloc. Run by tests/c. */
#include "asl.h"
#include "refuse.h"
#include <stdio.h>
#include <stdlib.h>

static void must(uint32_t got, uint32_t wanted, const char *what) {
  if (got == wanted) return;
  fprintf(stderr, "border: %s: %u, expected %u\n", what, got, wanted);
  exit(1);
}

static asl_ask node(uint8_t kind, uint8_t mode, uint16_t klass, uint16_t object, uint8_t offset) {
  return (asl_ask){kind, mode, offset, klass, object};
}

static void refusals_of_requests(asl_forest *forest) {
  asl_ask root = node(ASL_ROOT, ASL_X, 0, 0, 0);
  must(asl_forest_try_acquire(forest, 128, &root, 1), ASL_BAD_THREAD, "a thread past the last");
  asl_ask class_two[] = {root, node(ASL_CLASS, ASL_X, 2, 0, 0)};
  must(asl_forest_try_acquire(forest, 0, class_two, 2), ASL_BAD_CLASS, "a class past the last");
  asl_ask no_mode = node(ASL_ROOT, 2, 0, 0, 0), nothing = node(ASL_ROOT, ASL_NL, 0, 0, 0);
  must(asl_forest_try_acquire(forest, 0, &no_mode, 1), ASL_BAD_MODE, "mode 2");
  must(asl_forest_try_acquire(forest, 0, &nothing, 1), ASL_BAD_MODE, "NL in a request");
  asl_ask no_kind = node(3, ASL_X, 0, 0, 0), twice[] = {root, root};
  must(asl_forest_try_acquire(forest, 0, &no_kind, 1), ASL_BAD_KIND, "kind 3");
  must(asl_forest_try_acquire(forest, 0, twice, 2), ASL_NODE_TWICE, "the root twice");
  asl_ask orphan = node(ASL_CLASS, ASL_X, 1, 0, 0), weak[] = {node(ASL_ROOT, ASL_IS, 0, 0, 0), orphan};
  must(asl_forest_try_acquire(forest, 0, &orphan, 1), ASL_NO_PARENT, "a class without the root");
  must(asl_forest_try_acquire(forest, 0, weak, 2), ASL_NO_PARENT, "X below IS");
}

/* each request has the faults of the one before but the first */
static void first_faults(asl_forest *forest) {
  asl_ask all[] = {node(7, 2, 9, 0, 0), node(ASL_CLASS, ASL_X, 9, 0, 0), node(ASL_CLASS, ASL_X, 9, 0, 0)};
  must(asl_forest_try_acquire(forest, 128, all, 3), ASL_BAD_THREAD, "the thread first");
  must(asl_forest_try_acquire(forest, 0, all, 3), ASL_BAD_KIND, "then the kind");
  all[0].kind = ASL_CLASS;
  must(asl_forest_try_acquire(forest, 0, all, 3), ASL_BAD_CLASS, "then the class");
  all[0].klass = all[1].klass = all[2].klass = 1;
  must(asl_forest_try_acquire(forest, 0, all, 3), ASL_BAD_MODE, "then the mode");
  all[0].mode = ASL_X;
  must(asl_forest_try_acquire(forest, 0, all, 3), ASL_NODE_TWICE, "then the node that is named twice");
  must(asl_forest_try_acquire(forest, 0, all, 1), ASL_NO_PARENT, "then the parent");
}

static void grants(asl_forest *forest) {
  asl_ask root = node(ASL_ROOT, ASL_X, 0, 0, 0);
  asl_ask leaf[] = {node(ASL_ROOT, ASL_IX, 0, 0, 0), node(ASL_CLASS, ASL_IX, 1, 0, 0), node(ASL_LEAF, ASL_X, 1, 500, 3)};
  must(asl_forest_try_acquire(forest, 0, NULL, 0), ASL_OK, "the empty request");
  must(asl_forest_try_acquire(forest, 0, leaf, 3), ASL_OK, "a leaf");
  must(asl_forest_try_acquire(forest, 0, &root, 1), ASL_HOLDS, "a second request");
  must(asl_forest_try_acquire(forest, 0, &leaf[2], 1), ASL_NO_PARENT, "the parent before what is held");
  must(asl_forest_try_acquire(forest, 1, &root, 1), ASL_IN_THE_WAY, "the root beside a leaf");
  uint8_t mode;
  must(asl_forest_mode(forest, 0, &root, &mode), ASL_OK, "the root's mode");
  must(mode, ASL_IX, "IX at the root");
  must(asl_forest_mode(forest, 0, &leaf[2], &mode), ASL_OK, "the leaf's mode");
  must(mode, ASL_X, "X at the leaf");
}

/* long requests, whose nodes rise, fall, or come twice */
static void long_requests(asl_forest *forest) {
  enum { NODES = 203, FIRST = 3 };
  asl_ask all[NODES] = {node(ASL_ROOT, ASL_IX, 0, 0, 0), node(ASL_CLASS, ASL_IX, 0, 0, 0), node(ASL_CLASS, ASL_IS, 1, 0, 0)};
  for (int i = FIRST; i < NODES; i++) all[i] = node(ASL_LEAF, i < 100 ? ASL_X : ASL_S, i < 100 ? 0 : 1, (uint16_t)i, (uint8_t)(i % 3));
  must(asl_forest_try_acquire(forest, 0, all, NODES), ASL_OK, "200 leaves that rise");
  must(asl_forest_release(forest, 0), ASL_OK, "and are given back");
  all[NODES - 1] = all[NODES - 2];
  must(asl_forest_try_acquire(forest, 0, all, NODES), ASL_NODE_TWICE, "the last leaf twice");
  all[NODES - 1] = all[FIRST];
  must(asl_forest_try_acquire(forest, 0, all, NODES), ASL_NODE_TWICE, "the first leaf again at the end");
  all[NODES - 1] = node(ASL_LEAF, ASL_X, 1, 9999, 0);
  must(asl_forest_try_acquire(forest, 0, all, NODES), ASL_NO_PARENT, "a last leaf in X below IS");
  all[NODES - 1] = node(ASL_LEAF, ASL_S, 0, 1, 0);
  must(asl_forest_try_acquire(forest, 0, all, NODES), ASL_OK, "a last leaf that does not rise");
  must(asl_forest_release(forest, 0), ASL_OK, "and is given back");
  all[2] = all[1];
  all[1] = node(ASL_CLASS, ASL_IX, 1, 0, 0);
  must(asl_forest_try_acquire(forest, 0, all, NODES), ASL_OK, "classes that fall");
  must(asl_forest_release(forest, 0), ASL_OK, "and are given back");
}

static void readers(asl_forest *forest) {
  uint8_t mode = 99;
  bool covers = false;
  asl_ask other = node(9, 0, 1, 500, 3), far_class = node(ASL_CLASS, 0, 7, 0, 0), cell = node(0, 0, 1, 500, 3);
  must(asl_forest_mode(forest, 0, &other, &mode), ASL_BAD_KIND, "a mode at kind 9");
  must(asl_forest_mode(forest, 0, &far_class, &mode), ASL_BAD_CLASS, "a mode at class 7");
  must(asl_forest_mode(forest, 200, &cell, &mode), ASL_BAD_THREAD, "a mode of thread 200");
  must(mode, 99, "a refused call writes no mode");
  must(asl_forest_covers(forest, 0, &cell, true, &covers), ASL_OK, "covers");
  must(covers, true, "the cell is covered for writing");
  cell.offset = 4;
  must(asl_forest_covers(forest, 0, &cell, false, &covers), ASL_OK, "covers");
  must(covers, false, "the next cell is not covered");
  must(asl_forest_covers(forest, 0, &far_class, true, &covers), ASL_BAD_CLASS, "covers at class 7");
  must(asl_forest_covers(forest, 200, &cell, true, &covers), ASL_BAD_THREAD, "covers of thread 200");
}

static void forest(void) {
  asl_forest forest = {0};
  asl_ask root = node(ASL_ROOT, ASL_X, 0, 0, 0);
  uint8_t mode;
  bool covers;
  must(asl_forest_free(&forest), ASL_BAD_HANDLE, "free of none");
  must(asl_forest_release(&forest, 0), ASL_BAD_HANDLE, "release of none");
  must(asl_forest_try_acquire(&forest, 0, &root, 1), ASL_BAD_HANDLE, "acquire of none");
  must(asl_forest_mode(&forest, 0, &root, &mode), ASL_BAD_HANDLE, "mode of none");
  must(asl_forest_covers(&forest, 0, &root, true, &covers), ASL_BAD_HANDLE, "covers of none");
  must(asl_forest_new(2, 0, &forest), ASL_BAD_COUNT, "no threads");
  must(asl_forest_new(2, 129, &forest), ASL_BAD_COUNT, "129 threads");
  must(asl_forest_new(2, 128, &forest), ASL_OK, "128 threads");
  must(asl_forest_new(2, 128, &forest), ASL_BAD_HANDLE, "a second forest");
  refusals_of_requests(&forest);
  first_faults(&forest);
  long_requests(&forest);
  grants(&forest);
  readers(&forest);
  must(asl_forest_release(&forest, 200), ASL_BAD_THREAD, "release of thread 200");
  must(asl_forest_release(&forest, 0), ASL_OK, "release");
  must(asl_forest_try_acquire(&forest, 1, &root, 1), ASL_OK, "the root after the release");
  must(asl_forest_free(&forest), ASL_OK, "free");
  must(asl_forest_free(&forest), ASL_BAD_HANDLE, "free twice");
}

/* memory is refused at each request in turn: nothing changes, and no other status is hidden */
static void memory(void) {
  asl_forest forest = {0};
  uint32_t status = ASL_NO_MEMORY;
  for (long grants = 0; status != ASL_OK; grants++) {
    granted = grants;
    status = asl_forest_new(2, 3, &forest);
    granted = -1;
    if (status != ASL_OK) must(status, ASL_NO_MEMORY, "a new forest without memory"), must(forest.live, false, "no forest then");
  }
  asl_ask leaf[] = {node(ASL_ROOT, ASL_IX, 0, 0, 0), node(ASL_CLASS, ASL_IX, 1, 0, 0), node(ASL_LEAF, ASL_X, 1, 500, 3)};
  uint8_t mode = 99;
  granted = 0;
  must(asl_forest_try_acquire(&forest, 0, &leaf[1], 1), ASL_NO_PARENT, "a bad request without memory");
  must(asl_forest_try_acquire(&forest, 0, NULL, 0), ASL_OK, "the empty request without memory");
  must(asl_forest_release(&forest, 0), ASL_OK, "a release without memory");
  status = ASL_NO_MEMORY;
  for (long grants = 0; status != ASL_OK; grants++) {
    granted = grants;
    status = asl_forest_try_acquire(&forest, 0, leaf, 3);
    granted = -1;
    if (status == ASL_OK) break;
    must(status, ASL_NO_MEMORY, "a request without memory");
    must(asl_forest_mode(&forest, 0, leaf, &mode), ASL_OK, "the mode then");
    must(mode, ASL_NL, "nothing is held then");
  }
  asl_ask root = node(ASL_ROOT, ASL_X, 0, 0, 0);
  granted = 0;
  must(asl_forest_try_acquire(&forest, 1, &root, 1), ASL_IN_THE_WAY, "in the way without memory");
  must(asl_forest_free(&forest), ASL_OK, "free without memory");
}

int main(void) {
  forest();
  memory();
}
