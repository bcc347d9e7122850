/* Where each leaf's payload starts in the walked window: in arrays inside one another that begin between bytes, of no bits, kept tails of
 * the root and of an array in it, and the last bit that there is. The numbers are added up by hand from the windows' parts. */
#include "check.h"
#include "window.h"

#include <string.h>

/* A level whose handle 0 is an array of the same level. */
static const uint32_t arrays_of_arrays[] = {0, 0, 0, 0, 0};

enum { MOST_LEAVES = 130, MOST_PATHS = 2048, MOST_PAYLOADS = VRF_LONGEST_WINDOW / 8 };
static uint32_t given[MOST_LEAVES * VRF_LEAF_WORDS];
static uint8_t given_paths[MOST_PATHS], given_payloads[MOST_PAYLOADS];

/* A leaf by its path, which tells whose it is, and by the numbers that don't follow from the leaves before it. */
typedef struct Standing {
  const char *path;
  uint32_t handle, bits, start;
} Standing;

static Standing standing(const char *path, uint32_t handle, uint32_t bits, uint32_t start) {
  Standing s;
  s.path = path;
  s.handle = handle;
  s.bits = bits;
  s.start = start;
  return s;
}

/* Before a walk, so that nothing is left there of the one before it. */
static void lay_out_given(void) {
  lay_out(given, sizeof given);
  lay_out(given_paths, sizeof given_paths);
  lay_out(given_payloads, sizeof given_payloads);
}

/* The leaves of a walk, one by one, paths and payloads one behind the other: and at each start stand the bits that are its payload. */
static void hold_starts(VrfWalk a, const uint8_t *bytes, size_t size, uint32_t bits, const Standing *want, size_t leaves) {
  static uint8_t there[MOST_PAYLOADS];
  SAME(a.refusal, 0);
  SAME(a.leaves, leaves);
  size_t path_at = 0, payload_at = 0;
  for (size_t i = 0; i < leaves; i++) {
    const uint32_t *leaf = given + VRF_LEAF_WORDS * i;
    const size_t path_bytes = strlen(want[i].path), payload_bytes = ((size_t)want[i].bits + 7) / 8;
    SAME(leaf[0], path_at);
    SAME(leaf[1], path_bytes);
    SAME(leaf[2], want[i].handle);
    SAME(leaf[3], want[i].bits);
    SAME(leaf[4], payload_at);
    SAME(leaf[5], want[i].start);
    SAME_BYTES(given_paths + path_at, want[i].path, path_bytes);
    SAME(vrf_copy_bits(bytes, size, cursor_at(0, leaf[5], bits), want[i].bits, there, sizeof there).refusal, 0);
    SAME_BYTES(there, given_payloads + payload_at, payload_bytes);
    path_at += path_bytes;
    payload_at += payload_bytes;
  }
}

static void starts_in(const uint8_t *bytes, size_t size, uint32_t bits, const Standing *want, size_t leaves) {
  lay_out_given();
  hold_starts(vrf_struct_array(bytes, size, bits, arrays_of_arrays, 5, 1, 0, NULL, 0, NULL, 0, NULL, 0, given,
                               MOST_LEAVES * VRF_LEAF_WORDS, given_paths, MOST_PATHS, given_payloads, MOST_PAYLOADS),
              bytes, size, bits, want, leaves);
}

static void exact_starts_in(const uint8_t *bytes, size_t size, uint32_t bits, const Standing *want, size_t leaves) {
  lay_out_given();
  hold_starts(vrf_struct_array_exact(bytes, size, bits, NULL, 0, NULL, 0, given, MOST_LEAVES * VRF_LEAF_WORDS, given_paths, MOST_PATHS,
                                     given_payloads, MOST_PAYLOADS),
              bytes, size, bits, want, leaves);
}

/* Three arrays inside one another, a leaf of no bits in two of them, and leaves behind them. */
static void arrays_between_bytes(void) {
  Window w, child, grandchild;
  window_clear(&grandchild); /* 49 bits */
  put_packed(&grandchild, 1);
  put_packed(&grandchild, 1);
  put_number(&grandchild, 5, 1, 1);
  put_packed(&grandchild, 0);
  put_packed(&grandchild, 0);

  window_clear(&child); /* 142 bits, so its width takes two bytes */
  put_padded(&child, 2, 2);
  put_packed(&child, 2);
  put_field(&child, 3, 0);
  put_number(&child, 4, 0x15, 5);
  put_window(&child, 0, &grandchild);
  put_packed(&child, 0);
  put_packed(&child, 0);

  window_clear(&w);
  put_packed(&w, 1);
  put_packed(&w, 1);
  put_number(&w, 1, 5, 3);
  put_field(&w, 2, 0);
  put_window(&w, 0, &child);
  put_number(&w, 6, 3, 2);
  put_field(&w, 0, 0); /* an array of no bits gives nothing */
  put_number(&w, 7, 1, 1);
  put_packed(&w, 0);
  put_packed(&w, 0);
  static const Standing in_arrays[] = {
      {"[0]._h1", 1, 3, 32},                         /* behind four bytes */
      {"[0]._h2", 2, 0, 51},                         /* behind its width, which ends at 35 + 16 */
      {"[0]._h0[1]._h3", 3, 0, 75 + 40},             /* the child starts at 51 + 24 */
      {"[0]._h0[1]._h4", 4, 5, 75 + 56},             /* behind 16 bits more */
      {"[0]._h0[1]._h0[0]._h5", 5, 1, 75 + 77 + 32}, /* the grandchild at 77 of the child */
      {"[0]._h6", 6, 2, 217 + 16},                   /* the child ends at 75 + 142 */
      {"[0]._h7", 7, 1, 251 + 16},                   /* behind the empty array, at 251 */
  };
  starts_in(w.bytes, window_bytes(&w), w.bits, in_arrays, 7);

  /* The exact walk knows no arrays: what were its own are leaves. */
  static const Standing as_sent[] = {
      {"[0]._h1", 1, 3, 32},  {"[0]._h2", 2, 0, 51},  {"[0]._h0", 0, 142, 75},
      {"[0]._h6", 6, 2, 233}, {"[0]._h0", 0, 0, 251}, {"[0]._h7", 7, 1, 267},
  };
  exact_starts_in(w.bytes, window_bytes(&w), w.bits, as_sent, 6);
}

/* A window as the array of a field, behind a field of three bits: it starts at 43 and the bits of its width. */
static void put_in_an_array(Window *w, const Window *child) {
  window_clear(w);
  put_packed(w, 1);
  put_packed(w, 1);
  put_number(w, 1, 5, 3);
  put_window(w, 0, child);
}

/* A count above 4,096 is read for good: the tail begins behind it. */
static void tail_behind_a_count(void) {
  Window w, in_an_array;
  window_clear(&w);
  put_padded(&w, 4097, 3);
  put_bits(&w, 0x15, 5);
  static const Standing root[] = {{"._raw", VRF_NONE, 5, 24}};
  static const Standing child[] = {{"[0]._h1", 1, 3, 32}, {"[0]._h0._raw", VRF_NONE, 5, 51 + 24}};
  starts_in(w.bytes, window_bytes(&w), w.bits, root, 1);
  exact_starts_in(w.bytes, window_bytes(&w), w.bits, root, 1);
  put_in_an_array(&in_an_array, &w);
  starts_in(in_an_array.bytes, window_bytes(&in_an_array), in_an_array.bits, child, 2);
}

/* A number behind 128 fields is put back: the tail begins with it. */
static void tail_behind_fields(void) {
  enum { FIELDS = 128, BEHIND = 16 + 16 * FIELDS, CHILD = 43 + 16 };
  Window w, in_an_array;
  Standing root[FIELDS + 1], child[1 + FIELDS + 1] = {{"[0]._h1", 1, 3, 32}};
  window_clear(&w);
  put_packed(&w, 1);
  put_packed(&w, 1);
  for (uint32_t i = 0; i < FIELDS; i++) {
    put_field(&w, 9, 0);
    root[i] = standing("[0]._h9", 9, 0, 32 + 16 * i);
    child[1 + i] = standing("[0]._h0[0]._h9", 9, 0, CHILD + 32 + 16 * i);
  }
  put_padded(&w, 1, 2);
  put_bits(&w, 5, 3);
  root[FIELDS] = standing("[0]._raw", VRF_NONE, 19, BEHIND);
  child[1 + FIELDS] = standing("[0]._h0[0]._raw", VRF_NONE, 19, CHILD + BEHIND);
  starts_in(w.bytes, window_bytes(&w), w.bits, root, FIELDS + 1);
  exact_starts_in(w.bytes, window_bytes(&w), w.bits, root, FIELDS + 1);
  put_in_an_array(&in_an_array, &w);
  starts_in(in_an_array.bytes, window_bytes(&in_an_array), in_an_array.bits, child, 1 + FIELDS + 1);
}

/* The same behind 4,096 elements, which have no fields. */
static void tail_behind_elements(void) {
  enum { FRONT = 2 + 2 * 4096, SIZE = FRONT + 2, CHILD = 6 };
  static uint8_t many[CHILD + SIZE] = {0x02, 0x02, 0x02, 0x41, 0x01, 0x08}; /* count, index, handle 0, 65,568 bits */
  uint8_t *array = many + CHILD;
  array[0] = 0x01; /* the count, 4096 */
  array[1] = 0x40;
  for (size_t i = 2; i < FRONT; i += 2) {
    array[i] = 0x02;
    array[i + 1] = 0x00;
  }
  array[FRONT] = 0x03; /* one more, in two bytes */
  array[FRONT + 1] = 0x00;
  static const Standing root[] = {{"._raw", VRF_NONE, 16, 65552}}, child[] = {{"[0]._h0._raw", VRF_NONE, 16, 48 + 65552}};
  starts_in(array, SIZE, 8 * SIZE, root, 1);
  exact_starts_in(array, SIZE, 8 * SIZE, root, 1);
  starts_in(many, sizeof many, 8 * sizeof many, child, 1);
}

/* The longest window: a leaf of no bits behind its last one. */
static void the_last_start(void) {
  static uint8_t longest[VRF_LONGEST_WINDOW / 8] = {0x02, 0x02, 0x04, 0x81, 0xff, 0x3e}; /* count, index, handle 1, 524,224 bits */
  memset(longest + 6, 0xcd, sizeof longest - 8);
  longest[sizeof longest - 2] = 0x06; /* handle 2 */
  longest[sizeof longest - 1] = 0x00;
  static const Standing last[] = {{"[0]._h1", 1, 524224, 48}, {"[0]._h2", 2, 0, VRF_LONGEST_WINDOW}};
  starts_in(longest, sizeof longest, VRF_LONGEST_WINDOW, last, 2);
  exact_starts_in(longest, sizeof longest, VRF_LONGEST_WINDOW, last, 2);
}

void window_starts(void) {
  arrays_between_bytes();
  tail_behind_a_count();
  tail_behind_fields();
  tail_behind_elements();
  the_last_start();
}
