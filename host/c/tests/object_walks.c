/* vrf_object_array: pairs of index and object. */
#include "check.h"
#include "window.h"

enum { PAIRS = 3, PAIR_NUMBERS = PAIRS * VRF_PAIR_WORDS };
static const uint32_t expected_pairs[PAIR_NUMBERS] = {1, 7, 2, 300, 5, 0};

/* Elements 7, pairs 3, errors 2, nested bits 19, root bits 21; 6 padded numbers, of which two are objects. */
static void write_objects(Window *w) {
  window_clear(w);
  put_padded(w, 8, 2);
  put_padded(w, 1, 2); /* index 0: no field */
  put_packed(w, 0);
  put_packed(w, 2); /* index 1: an empty field, then object 7, then 19 bits that are stepped past */
  put_number(w, 0, 0, 0);
  put_number(w, 1, 14, 8);
  put_number(w, 2, 0, 19);
  put_packed(w, 0);
  put_packed(w, 3); /* index 2: object 300, in three bytes */
  put_field(w, 6, 24);
  put_padded(w, 300, 3);
  put_packed(w, 0);
  put_packed(w, 4); /* index 3: not a packed number */
  put_number(w, 0, 0, 7);
  put_packed(w, 0);
  put_packed(w, 5); /* index 4: a packed number that doesn't fill its payload */
  put_field(w, 0, 17);
  put_padded(w, 0, 2);
  put_bits(w, 0, 1);
  put_packed(w, 0);
  put_packed(w, 6); /* index 5: object 0 */
  put_number(w, 0, 0, 8);
  put_packed(w, 0);
  put_packed(w, 7); /* index 6: no field */
  put_padded(w, 0, 3);
  put_padded(w, 0, 4);
  put_bits(w, 0, 21);
}

typedef struct LentPairs {
  uint32_t pairs[PAIR_NUMBERS + 4];
} LentPairs;

static void accepted_objects(const Window *w, size_t pairs) {
  LentPairs lent;
  lay_out(&lent, sizeof lent);
  const VrfObjects a = vrf_object_array(w->bytes, window_bytes(w), w->bits, lent.pairs, pairs);
  SAME(a.refusal, 0);
  SAME(a.pairs, PAIRS);
  SAME_COUNTERS(a.counters, 7, 3, 0, 2, 19, 21, 0);
  SAME(a.verdict, VRF_PARTIAL);
  SAME(a.padded, 6);
  SAME_BYTES(lent.pairs, expected_pairs, sizeof expected_pairs);
  SAME_UNTOUCHED(lent.pairs + PAIR_NUMBERS, sizeof lent.pairs - sizeof expected_pairs);
}

static void refused_objects(const Window *w, uint32_t bits, size_t pairs, uint32_t refusal, uint32_t need) {
  LentPairs lent;
  lay_out(&lent, sizeof lent);
  const VrfObjects a = vrf_object_array(w->bytes, window_bytes(w), bits, lent.pairs, pairs);
  SAME(a.refusal, refusal);
  SAME(a.pairs, need);
  NO_COUNTERS(a.counters);
  SAME(a.verdict, 0);
  SAME(a.padded, 0);
  SAME_UNTOUCHED(&lent, sizeof lent);
}

void object_walks(void) {
  Window w;
  write_objects(&w);
  accepted_objects(&w, PAIR_NUMBERS);
  accepted_objects(&w, PAIR_NUMBERS + 4);
  refused_objects(&w, w.bits, PAIR_NUMBERS - 1, 3, PAIRS);
  refused_objects(&w, w.bits, 0, 3, PAIRS);
  refused_objects(&w, VRF_LONGEST_WINDOW + 1, 0, 1, 0);

  /* A whole array; one that ends inside its second element; a count that is too large; no window at all. */
  static const uint8_t seven[] = {0x04, 0x02, 0x04, 0x10, 0x0e, 0x00, 0x04, 0x00, 0x00};
  uint32_t pairs[2];
  VrfObjects a = vrf_object_array(seven, 9, 72, pairs, 2);
  SAME_COUNTERS(a.counters, 2, 1, 0, 0, 0, 0, 0);
  SAME(a.verdict, VRF_CLEAN);
  SAME(pairs[0], 0);
  SAME(pairs[1], 7);
  a = vrf_object_array(seven, 9, 56, pairs, 2);
  SAME_COUNTERS(a.counters, 2, 1, 0, 0, 0, 0, 1);
  SAME(a.verdict, VRF_PARTIAL);
  static const uint8_t many[] = {0x03, 0x40, 0xab};
  a = vrf_object_array(many, 3, 24, pairs, 2);
  SAME_COUNTERS(a.counters, 0, 0, 1, 0, 0, 0, 0);
  a = vrf_object_array(NULL, 0, 0, NULL, 0);
  SAME(a.refusal, 0);
  SAME(a.pairs, 0);
  SAME_COUNTERS(a.counters, 0, 0, 0, 1, 0, 0, 0);
  SAME(a.verdict, VRF_PARTIAL);
  SAME(a.padded, 0);
}
