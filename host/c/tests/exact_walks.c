/* vrf_struct_array_exact: no schema, and the zero byte behind the array stays as eight root bits. All lengths differ and are needed. */
#include "check.h"
#include "window.h"

/* Handle 3 is called Deaths, handle 0 the empty name. */
static const uint32_t names_of_handles[] = {6, 0, VRF_NONE, 0, VRF_NONE, 0, 0, 6};
static const uint8_t deaths[] = {'D', 'e', 'a', 't', 'h', 's'};
enum { NUMBERS = 8, DEATHS = 6 };

enum { LEAVES_EXACT = 3, PATHS_EXACT = 23, PAYLOADS_EXACT = 4, WORDS_EXACT = LEAVES_EXACT * VRF_LEAF_WORDS };
static const uint32_t leaves_expected[WORDS_EXACT] = {
    0,  4,  0,   1,  0, 120, /* path start, path length, handle, bits, payload start, window start */
    4,  10, 3,   16, 1, 137, /* */
    14, 9,  199, 2,  3, 209, /* its handle takes two bytes */
};
static const char paths_expected[] = "[1].[1].Deaths[2]._h199";
static const uint8_t payloads_expected[PAYLOADS_EXACT] = {0x01, 0xcd, 0xab, 0x02};

/* Five numbers are padded: the count, three indices and a closing zero. */
static void write_exact_window(Window *w) {
  window_clear(w);
  put_padded(w, 4, 5);
  put_padded(w, 1, 2);
  put_padded(w, 0, 2);
  put_padded(w, 2, 4);
  put_number(w, 0, 1, 1);
  put_number(w, 3, 0xabcd, 16);
  put_packed(w, 0);
  put_padded(w, 3, 3);
  put_number(w, 199, 2, 2);
  put_packed(w, 0);
  put_packed(w, 4);
  put_packed(w, 0);
  put_packed(w, 0);
  put_bits(w, 0, 8); /* the trailer that only the other walk takes */
}

typedef struct LentExact {
  uint32_t leaves[WORDS_EXACT + 3];
  uint8_t paths[PATHS_EXACT + 2];
  uint8_t payloads[PAYLOADS_EXACT + 5];
} LentExact;

static VrfWalk walk_exactly(const Window *w, LentExact *lent, size_t leaves, size_t paths, size_t payloads) {
  lay_out(lent, sizeof *lent);
  return vrf_struct_array_exact(w->bytes, window_bytes(w), w->bits, names_of_handles, NUMBERS, deaths, DEATHS, lent->leaves, leaves,
                                lent->paths, paths, lent->payloads, payloads);
}

static void accepted_exactly(const Window *w, size_t leaves, size_t paths, size_t payloads) {
  LentExact lent;
  const VrfWalk a = walk_exactly(w, &lent, leaves, paths, payloads);
  SAME(a.refusal, 0);
  SAME(a.leaves, LEAVES_EXACT);
  SAME(a.path_bytes, PATHS_EXACT);
  SAME(a.payload_bytes, PAYLOADS_EXACT);
  SAME_COUNTERS(a.counters, 4, 3, 0, 0, 0, 8, 0);
  SAME(a.verdict, VRF_PARTIAL);
  SAME(a.padded, 5);
  SAME_BYTES(lent.leaves, leaves_expected, sizeof leaves_expected);
  SAME_BYTES(lent.paths, paths_expected, PATHS_EXACT);
  SAME_BYTES(lent.payloads, payloads_expected, PAYLOADS_EXACT);
  SAME_UNTOUCHED(lent.leaves + WORDS_EXACT, sizeof lent.leaves - sizeof leaves_expected);
  SAME_UNTOUCHED(lent.paths + PATHS_EXACT, sizeof lent.paths - PATHS_EXACT);
  SAME_UNTOUCHED(lent.payloads + PAYLOADS_EXACT, sizeof lent.payloads - PAYLOADS_EXACT);
}

static void refused_exactly(VrfWalk a, uint32_t refusal, uint32_t leaves, uint32_t paths, uint32_t payloads, const LentExact *lent) {
  SAME(a.refusal, refusal);
  SAME(a.leaves, leaves);
  SAME(a.path_bytes, paths);
  SAME(a.payload_bytes, payloads);
  NO_COUNTERS(a.counters);
  SAME(a.verdict, 0);
  SAME(a.padded, 0);
  SAME_UNTOUCHED(lent, sizeof *lent);
}

static void short_exactly(const Window *w, size_t leaves, size_t paths, size_t payloads) {
  LentExact lent;
  const VrfWalk a = walk_exactly(w, &lent, leaves, paths, payloads);
  refused_exactly(a, 3, LEAVES_EXACT, PATHS_EXACT, PAYLOADS_EXACT, &lent);
}

void exact_walks(void) {
  Window w;
  LentExact lent;
  write_exact_window(&w);
  accepted_exactly(&w, WORDS_EXACT, PATHS_EXACT, PAYLOADS_EXACT);
  accepted_exactly(&w, WORDS_EXACT + 3, PATHS_EXACT + 2, PAYLOADS_EXACT + 5);
  short_exactly(&w, WORDS_EXACT - 1, PATHS_EXACT, PAYLOADS_EXACT);
  short_exactly(&w, WORDS_EXACT, PATHS_EXACT - 1, PAYLOADS_EXACT);
  short_exactly(&w, WORDS_EXACT, PATHS_EXACT, PAYLOADS_EXACT - 1);

  /* Without the byte behind it the array is clean; where a zero is cut off it isn't. */
  w.bits -= 8;
  VrfWalk a = walk_exactly(&w, &lent, WORDS_EXACT, PATHS_EXACT, PAYLOADS_EXACT);
  SAME_COUNTERS(a.counters, 4, 3, 0, 0, 0, 0, 0);
  SAME(a.verdict, VRF_CLEAN);
  SAME(a.padded, 5);
  w.bits -= 8;
  a = walk_exactly(&w, &lent, WORDS_EXACT, PATHS_EXACT, PAYLOADS_EXACT);
  SAME_COUNTERS(a.counters, 4, 3, 0, 0, 0, 0, 1);
  SAME(a.verdict, VRF_PARTIAL);
  w.bits += 16;

  /* Of no bits nothing was sent; of an array of no elements something was. */
  static const uint8_t no_elements[] = {0x00, 0x00};
  lay_out(&lent, sizeof lent);
  a = vrf_struct_array_exact(w.bytes, window_bytes(&w), 0, names_of_handles, NUMBERS, deaths, DEATHS, lent.leaves, WORDS_EXACT, lent.paths,
                             PATHS_EXACT, lent.payloads, PAYLOADS_EXACT);
  SAME(a.refusal, 0);
  SAME(a.leaves, 0);
  SAME_COUNTERS(a.counters, 0, 0, 0, 0, 0, 0, 0);
  SAME(a.verdict, VRF_EMPTY);
  SAME_UNTOUCHED(&lent, sizeof lent);
  a = vrf_struct_array_exact(w.bytes, window_bytes(&w), 0, names_of_handles, NUMBERS - 1, deaths, DEATHS, NULL, 0, NULL, 0, NULL, 0);
  SAME(a.refusal, 2);
  SAME(a.verdict, 0);
  a = vrf_struct_array_exact(no_elements, 2, 16, NULL, 0, NULL, 0, NULL, 0, NULL, 0, NULL, 0);
  SAME_COUNTERS(a.counters, 0, 0, 0, 0, 0, 0, 0);
  SAME(a.verdict, VRF_CLEAN);

  lay_out(&lent, sizeof lent);
  a = vrf_struct_array_exact(w.bytes, window_bytes(&w), VRF_LONGEST_WINDOW + 1, names_of_handles, NUMBERS - 1, deaths, DEATHS, lent.leaves,
                             WORDS_EXACT, lent.paths, PATHS_EXACT, lent.payloads, PAYLOADS_EXACT);
  refused_exactly(a, 1, 0, 0, 0, &lent); /* before 2 */
  a = vrf_struct_array_exact(w.bytes, window_bytes(&w), w.bits, names_of_handles, NUMBERS - 1, deaths, DEATHS, NULL, 0, NULL, 0, NULL, 0);
  refused_exactly(a, 2, 0, 0, 0, &lent); /* before 3 */
  a = vrf_struct_array_exact(w.bytes, window_bytes(&w), w.bits, names_of_handles, NUMBERS, deaths, DEATHS - 1, lent.leaves, WORDS_EXACT,
                             lent.paths, PATHS_EXACT, lent.payloads, PAYLOADS_EXACT);
  refused_exactly(a, 2, 0, 0, 0, &lent);
}
