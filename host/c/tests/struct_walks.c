/* vrf_struct_array: one window that moves all seven counters, each to a number of its own, through tables of which every row and every
 * name is needed. All lengths of the call differ, and each is just enough: a length or a slice in another's place is noticed. */
#include "check.h"
#include "window.h"

#include <string.h>

/* Level 1 is the root: handle 2 is an array of level 2. Level 0 has no rows. */
static const uint32_t rows[] = {
    1, 0, 2, 2, 0,  /* level 1: handle 2 is an array of level 2 */
    1, 1, 2, 0, 5,  /* and is called Inner */
    1, 1, 5, 10, 4, /* level 1: handle 5 is called Five */
    2, 1, 7, 5, 5,  /* level 2: handle 7 is called Seven */
};
static const uint8_t names[] = {'I', 'n', 'n', 'e', 'r', 'S', 'e', 'v', 'e', 'n', 'F', 'i', 'v', 'e'};
enum { LEVELS = 3, ROOT = 1, ROWS = 20, NAMES = 14 };

/* Handle 0 has no name, 1 is Kills, 2 would be Never: an array doesn't take a declared name. */
static const uint32_t declared[] = {VRF_NONE, 0, 5, 5, 0, 5};
static const uint8_t pool[] = {'N', 'e', 'v', 'e', 'r', 'K', 'i', 'l', 'l', 's'};
enum { DECLARED = 6, POOL = 10 };

enum { LEAVES = 5, PATHS = 56, PAYLOADS = 7, LEAF_WORDS = LEAVES * VRF_LEAF_WORDS };

static const uint32_t expected_leaves[LEAF_WORDS] = {
    0,  9,  1,        3,  0, 32,  /* path start, path length, handle, bits, payload start, window start */
    9,  8,  5,        12, 1, 51,  /* */
    17, 7,  9,        8,  3, 79,  /* */
    24, 18, 7,        9,  4, 255, /* 144 bits into an array that starts at 111 */
    42, 14, VRF_NONE, 5,  6, 548, /* a kept tail, behind the 16 bits of a count that starts at 532 */
};
static const char expected_paths[] = "[0].Kills[0].Five[0]._h9[0].Inner[3].Seven[1].Inner._raw";
static const uint8_t expected_payloads[PAYLOADS] = {0x05, 0xbc, 0x0a, 0x5d, 0x33, 0x01, 0x19};

/* Elements 6, leaves 5, truncations 2, errors 3, nested bits 11, root bits 13, implicit terminations 4; 8 padded numbers: the indices of
 * four elements, and four counts. */
static void write_window(Window *w) {
  Window four_elements, left_over, cut, count_too_large;
  window_clear(&four_elements);
  put_packed(&four_elements, 4);
  for (uint32_t index = 0; index < 4; index++) {
    put_padded(&four_elements, index + 1, 3);
    if (index == 3) {
      put_number(&four_elements, 7, 0x133, 9);
    }
    put_packed(&four_elements, 0);
  }
  put_packed(&four_elements, 0);

  window_clear(&left_over);
  put_packed(&left_over, 0);
  put_packed(&left_over, 0);
  put_bits(&left_over, 0x7ff, 11);

  window_clear(&cut);
  put_padded(&cut, 1, 2);

  window_clear(&count_too_large);
  put_packed(&count_too_large, 4097);

  window_clear(w);
  put_packed(w, 2);
  put_packed(w, 1);
  put_number(w, 1, 0x5, 3);
  put_number(w, 5, 0xabc, 12);
  put_number(w, 9, 0x5d, 8);
  put_window(w, 2, &four_elements);
  put_packed(w, 0);
  put_packed(w, 2);
  for (int i = 0; i < 3; i++) {
    put_number(w, 2, 0, 4); /* too short for a count */
  }
  for (int i = 0; i < 4; i++) {
    put_window(w, 2, &cut);
  }
  put_window(w, 2, &count_too_large);
  put_bits(&count_too_large, 0x19, 5);
  put_window(w, 2, &count_too_large);
  put_window(w, 2, &left_over);
  put_packed(w, 0);
  put_packed(w, 0);
  put_bits(w, 0, 13);
}

typedef struct Lent {
  uint32_t leaves[LEAF_WORDS + 6];
  uint8_t paths[PATHS + 9];
  uint8_t payloads[PAYLOADS + 4];
} Lent;

static VrfWalk walk(const Window *w, Lent *lent, size_t leaves, size_t paths, size_t payloads) {
  lay_out(lent, sizeof *lent);
  return vrf_struct_array(w->bytes, window_bytes(w), w->bits, rows, ROWS, LEVELS, ROOT, names, NAMES, declared, DECLARED, pool, POOL,
                          lent->leaves, leaves, lent->paths, paths, lent->payloads, payloads);
}

static void accepted(const Window *w, size_t leaves, size_t paths, size_t payloads) {
  Lent lent;
  const VrfWalk a = walk(w, &lent, leaves, paths, payloads);
  SAME(a.refusal, 0);
  SAME(a.leaves, LEAVES);
  SAME(a.path_bytes, PATHS);
  SAME(a.payload_bytes, PAYLOADS);
  SAME_COUNTERS(a.counters, 6, 5, 2, 3, 11, 13, 4);
  SAME(a.verdict, VRF_PARTIAL);
  SAME(a.padded, 8);
  SAME_BYTES(lent.leaves, expected_leaves, sizeof expected_leaves);
  SAME_BYTES(lent.paths, expected_paths, PATHS);
  SAME_BYTES(lent.payloads, expected_payloads, PAYLOADS);
  SAME_UNTOUCHED(lent.leaves + LEAF_WORDS, sizeof lent.leaves - sizeof expected_leaves);
  SAME_UNTOUCHED(lent.paths + PATHS, sizeof lent.paths - PATHS);
  SAME_UNTOUCHED(lent.payloads + PAYLOADS, sizeof lent.payloads - PAYLOADS);
}

static void too_short(const Window *w, size_t leaves, size_t paths, size_t payloads) {
  Lent lent;
  const VrfWalk a = walk(w, &lent, leaves, paths, payloads);
  SAME(a.refusal, 3);
  SAME(a.leaves, LEAVES);
  SAME(a.path_bytes, PATHS);
  SAME(a.payload_bytes, PAYLOADS);
  NO_COUNTERS(a.counters);
  SAME(a.verdict, 0);
  SAME(a.padded, 0);
  SAME_UNTOUCHED(&lent, sizeof lent);
}

static void nothing_named(VrfWalk a, uint32_t refusal, const Lent *lent) {
  SAME(a.refusal, refusal);
  SAME(a.leaves, 0);
  SAME(a.path_bytes, 0);
  SAME(a.payload_bytes, 0);
  NO_COUNTERS(a.counters);
  SAME(a.verdict, 0);
  SAME(a.padded, 0);
  SAME_UNTOUCHED(lent, sizeof *lent);
}

/* The same window with other tables, and nothing lent: a refusal of the tables comes before 3. */
static VrfWalk over(const Window *w, uint32_t bits, const uint32_t *r, size_t r_len, uint32_t levels, uint32_t root, size_t n_len,
                    const uint32_t *d, size_t d_len, size_t p_len) {
  return vrf_struct_array(w->bytes, window_bytes(w), bits, r, r_len, levels, root, names, n_len, d, d_len, pool, p_len, NULL, 0, NULL, 0,
                          NULL, 0);
}

static void broken_tables(const Window *w) {
  static const uint32_t no_kind[] = {1, 2, 2, 2, 0}, no_child[] = {1, 0, 2, 3, 0}, a_b[] = {1, 0, 2, 2, 1}, no_level[] = {3, 0, 2, 2, 0};
  static const uint32_t outside[] = {VRF_NONE, 0, 6, 5, 0, 5}, none_with_length[] = {VRF_NONE, 1};
  SAME(over(w, w->bits, rows, ROWS, LEVELS, ROOT, NAMES, declared, DECLARED, POOL).refusal, 3);
  SAME(over(w, w->bits, rows, ROWS - 1, LEVELS, ROOT, NAMES, declared, DECLARED, POOL).refusal, 2);
  SAME(over(w, w->bits, rows, ROWS, 2, ROOT, NAMES, declared, DECLARED, POOL).refusal, 2);
  SAME(over(w, w->bits, rows, ROWS, 65, ROOT, NAMES, declared, DECLARED, POOL).refusal, 2);
  SAME(over(w, w->bits, rows, ROWS, LEVELS, LEVELS, NAMES, declared, DECLARED, POOL).refusal, 2);
  SAME(over(w, w->bits, rows, ROWS, LEVELS, ROOT, NAMES - 1, declared, DECLARED, POOL).refusal, 2);
  SAME(over(w, w->bits, no_kind, 5, LEVELS, ROOT, NAMES, declared, DECLARED, POOL).refusal, 2);
  SAME(over(w, w->bits, no_child, 5, LEVELS, ROOT, NAMES, declared, DECLARED, POOL).refusal, 2);
  SAME(over(w, w->bits, a_b, 5, LEVELS, ROOT, NAMES, declared, DECLARED, POOL).refusal, 2);
  SAME(over(w, w->bits, no_level, 5, LEVELS, ROOT, NAMES, declared, DECLARED, POOL).refusal, 2);
  SAME(over(w, w->bits, rows, ROWS, LEVELS, ROOT, NAMES, declared, DECLARED - 1, POOL).refusal, 2);
  SAME(over(w, w->bits, rows, ROWS, LEVELS, ROOT, NAMES, declared, DECLARED, POOL - 1).refusal, 2);
  SAME(over(w, w->bits, rows, ROWS, LEVELS, ROOT, NAMES, outside, DECLARED, POOL).refusal, 2);
  SAME(over(w, w->bits, rows, ROWS, LEVELS, ROOT, NAMES, none_with_length, 2, POOL).refusal, 2);
  SAME(over(w, w->bits, rows, ROWS, LEVELS, VRF_NONE, NAMES, declared, DECLARED, POOL).refusal, 3);
}

/* The rules' first case: clean, and a bit count or bytes that are too few. */
static void without_tables(void) {
  static const uint8_t a[] = {0x02, 0x02, 0x04, 0x10, 0xab, 0x00, 0x00};
  Lent lent;
  lay_out(&lent, sizeof lent);
  VrfWalk v = vrf_struct_array(a, 7, 56, NULL, 0, 0, VRF_NONE, NULL, 0, NULL, 0, NULL, 0, lent.leaves, 6, lent.paths, 7, lent.payloads, 1);
  SAME(v.refusal, 0);
  SAME(v.leaves, 1);
  SAME(v.path_bytes, 7);
  SAME(v.payload_bytes, 1);
  SAME_COUNTERS(v.counters, 1, 1, 0, 0, 0, 0, 0);
  SAME(v.verdict, VRF_CLEAN);
  SAME(v.padded, 0);
  SAME_BYTES(lent.paths, "[0]._h1", 7);
  SAME(lent.leaves[5], 32);
  v = vrf_struct_array(a, 7, 48, NULL, 0, 0, VRF_NONE, NULL, 0, NULL, 0, NULL, 0, lent.leaves, 6, lent.paths, 7, lent.payloads, 1);
  SAME_COUNTERS(v.counters, 1, 1, 0, 0, 0, 0, 1);
  SAME(v.verdict, VRF_PARTIAL);
  v = vrf_struct_array(a, 6, 56, NULL, 0, 0, VRF_NONE, NULL, 0, NULL, 0, NULL, 0, NULL, 0, NULL, 0, NULL, 0);
  SAME(v.refusal, 0);
  SAME_COUNTERS(v.counters, 0, 0, 0, 1, 0, 0, 0);
  SAME(v.verdict, VRF_PARTIAL);
}

/* No bits: nothing was sent, whatever bytes and tables there are. An array of no elements was sent, and is clean. */
static void of_no_bits(const Window *w) {
  static const uint8_t no_elements[] = {0x00, 0x00};
  Lent lent;
  lay_out(&lent, sizeof lent);
  VrfWalk v = vrf_struct_array(w->bytes, window_bytes(w), 0, rows, ROWS, LEVELS, ROOT, names, NAMES, declared, DECLARED, pool, POOL,
                               lent.leaves, LEAF_WORDS, lent.paths, PATHS, lent.payloads, PAYLOADS);
  SAME(v.refusal, 0);
  SAME(v.leaves, 0);
  SAME(v.path_bytes, 0);
  SAME(v.payload_bytes, 0);
  SAME_COUNTERS(v.counters, 0, 0, 0, 0, 0, 0, 0);
  SAME(v.verdict, VRF_EMPTY);
  SAME(v.padded, 0);
  SAME_UNTOUCHED(&lent, sizeof lent);
  SAME(vrf_verdict(v.counters), VRF_CLEAN); /* of counters alone: they don't tell that there were no bits */
  v = vrf_struct_array(NULL, 0, 0, NULL, 0, 0, VRF_NONE, NULL, 0, NULL, 0, NULL, 0, NULL, 0, NULL, 0, NULL, 0);
  SAME(v.refusal, 0);
  SAME(v.verdict, VRF_EMPTY);
  v = over(w, 0, rows, ROWS - 1, LEVELS, ROOT, NAMES, declared, DECLARED, POOL);
  SAME(v.refusal, 2);
  SAME(v.verdict, 0);
  v = vrf_struct_array(NULL, 0, 1, NULL, 0, 0, VRF_NONE, NULL, 0, NULL, 0, NULL, 0, NULL, 0, NULL, 0, NULL, 0);
  SAME_COUNTERS(v.counters, 0, 0, 0, 1, 0, 0, 0);
  SAME(v.verdict, VRF_PARTIAL);
  v = vrf_struct_array(no_elements, 2, 16, NULL, 0, 0, VRF_NONE, NULL, 0, NULL, 0, NULL, 0, NULL, 0, NULL, 0, NULL, 0);
  SAME_COUNTERS(v.counters, 0, 0, 0, 0, 0, 0, 0);
  SAME(v.verdict, VRF_CLEAN);
}

/* Twelve levels of the element 4095 and a name of 64 bytes: 852 bytes of path, of a leaf and of an array that is too deep. Lent one
 * byte less, the walk says how many it needs. */
static void longest_path(uint32_t handle, uint64_t truncations, uint32_t verdict) {
  static const uint32_t chain[] = {0, 0, 0, 0, 0, 0, 1, 0, 0, 64}; /* handle 0 is an array of its own level, and has a name */
  static const uint32_t named[] = {VRF_NONE, 0, 0, 64};             /* so has handle 1 */
  uint8_t name[64], path[VRF_LONGEST_PATH], paths[VRF_LONGEST_PATH + 1], payload[1];
  uint32_t leaf[VRF_LEAF_WORDS];
  Window w, inner;
  window_clear(&w);
  memset(name, 'W', sizeof name);
  for (int level = 0; level < 12; level++) {
    inner = w;
    window_clear(&w);
    put_packed(&w, 4096);
    put_packed(&w, 4096);
    if (level == 0) {
      put_number(&w, handle, 0xab, 8);
    } else {
      put_window(&w, 0, &inner);
    }
    put_packed(&w, 0);
    put_packed(&w, 0);
    memcpy(path + 71 * level, "[4095].", 7);
    memcpy(path + 71 * level + 7, name, sizeof name);
  }
  for (size_t lent = VRF_LONGEST_PATH - 1; lent <= sizeof paths; lent++) {
    lay_out(paths, sizeof paths);
    const VrfWalk v = vrf_struct_array(w.bytes, window_bytes(&w), w.bits, chain, 10, 1, 0, name, 64, named, 4, name, 64, leaf,
                                       VRF_LEAF_WORDS, paths, lent, payload, 1);
    SAME(v.refusal, lent < VRF_LONGEST_PATH ? VRF_REFUSED_SHORT_BUFFER : 0);
    SAME(v.leaves, 1);
    SAME(v.path_bytes, VRF_LONGEST_PATH);
    if (v.refusal == 0) {
      SAME_COUNTERS(v.counters, 12, 1, truncations, 0, 0, 0, 0);
      SAME(v.verdict, verdict);
      SAME(leaf[1], VRF_LONGEST_PATH);
      SAME(leaf[2], handle);
      SAME(leaf[5], 656); /* ten levels of 56 bits in front of their array, whose width takes two bytes; one of 48; and the field's 48 */
      SAME(payload[0], 0xab);
      SAME_BYTES(paths, path, sizeof path);
      SAME_UNTOUCHED(paths + VRF_LONGEST_PATH, 1);
    } else {
      SAME_UNTOUCHED(paths, sizeof paths);
    }
  }
}

static void longest_paths(void) {
  longest_path(1, 0, VRF_CLEAN);
  longest_path(0, 1, VRF_PARTIAL);
}

void struct_walks(void) {
  Window w;
  Lent lent;
  write_window(&w);
  accepted(&w, LEAF_WORDS, PATHS, PAYLOADS);
  accepted(&w, LEAF_WORDS + 6, PATHS + 9, PAYLOADS + 4);
  too_short(&w, LEAF_WORDS - 1, PATHS, PAYLOADS);
  too_short(&w, LEAF_WORDS, PATHS - 1, PAYLOADS);
  too_short(&w, LEAF_WORDS, PATHS, PAYLOADS - 1);
  too_short(&w, 0, 0, 0);

  lay_out(&lent, sizeof lent);
  nothing_named(vrf_struct_array(w.bytes, window_bytes(&w), VRF_LONGEST_WINDOW + 1, rows, ROWS, LEVELS, LEVELS, names, NAMES, declared,
                                 DECLARED, pool, POOL, lent.leaves, LEAF_WORDS, lent.paths, PATHS, lent.payloads, PAYLOADS),
                1, &lent); /* before 2 */
  nothing_named(vrf_struct_array(w.bytes, window_bytes(&w), w.bits, rows, ROWS, LEVELS, LEVELS, names, NAMES, declared, DECLARED, pool,
                                 POOL, lent.leaves, LEAF_WORDS, lent.paths, PATHS, lent.payloads, PAYLOADS),
                2, &lent);
  broken_tables(&w);
  without_tables();
  of_no_bits(&w);
  longest_paths();
}
