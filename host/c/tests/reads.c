/* vrf_read_bits, vrf_read_packed and vrf_read_serialized: a cursor whose three numbers differ, and every value of a refusal. */
#include "check.h"
#include "window.h"

static const uint8_t five[] = {0xab, 0xcd, 0xef, 0x01, 0x23};

static void bits_at_a_time(void) {
  /* Bits 9 to 21 of the five bytes: the window starts at 4, the cursor stands at 5. */
  VrfRead r = vrf_read_bits(five, 5, cursor_at(4, 5, 36), 13);
  ACCEPTED(r, 18);
  SAME(r.value, 0x17e6);
  r = vrf_read_bits(five, 5, cursor_at(0, 0, 40), 40);
  ACCEPTED(r, 40);
  SAME(r.value, UINT64_C(0x2301efcdab));
  r = vrf_read_bits(five, 5, cursor_at(4, 5, 36), 32);
  REFUSED(r, 7, 5, 36, 32, 5);
  SAME(r.value, 0);
  r = vrf_read_bits(five, 5, cursor_at(4, 5, 36), 65);
  REFUSED(r, 13, 0, 0, 0, 5);
  r = vrf_read_bits(five, 4, cursor_at(4, 5, 36), 65); /* 14 before 13 */
  REFUSED(r, 14, 36, 32, 0, 5);
  r = vrf_read_bits(five, 5, cursor_at(5, 4, 36), 1); /* the window ends behind the bytes */
  REFUSED(r, 14, 36, 40, 0, 4);
  r = vrf_read_bits(five, 5, cursor_at(1, 34, 33), 0); /* the cursor stands behind its window */
  REFUSED(r, 14, 33, 40, 0, 34);
}

/* The number that was read, its bytes, and whether it could have fewer; of a refusal all are 0. */
static void number_read(VrfPacked r, uint32_t value, uint32_t bytes, bool is_padded) {
  SAME(r.value, value);
  SAME(r.bytes, bytes);
  SAME(r.padded, is_padded);
}

static void packed_numbers(void) {
  Window w;
  window_clear(&w);
  put_bits(&w, 0x3f, 6);
  put_packed(&w, 1000);
  put_packed(&w, UINT32_MAX);
  VrfPacked r = vrf_read_packed(w.bytes, window_bytes(&w), cursor_at(2, 4, 60));
  ACCEPTED(r, 20);
  number_read(r, 1000, 2, false);
  r = vrf_read_packed(w.bytes, window_bytes(&w), cursor_at(2, r.position, 60));
  ACCEPTED(r, 60);
  number_read(r, UINT32_MAX, 5, false);
  r = vrf_read_packed(w.bytes, window_bytes(&w), cursor_at(2, 4, 19));
  REFUSED(r, 7, 12, 19, 8, 12); /* behind its first byte */
  number_read(r, 0, 0, false);
  r = vrf_read_packed(w.bytes, 7, cursor_at(2, 4, 60));
  REFUSED(r, 14, 60, 56, 0, 4);
  number_read(r, 0, 0, false);

  static const uint8_t endless[] = {0xff, 0xff, 0xff, 0xff, 0xff, 0xff};
  r = vrf_read_packed(endless, 6, cursor_at(1, 3, 45));
  REFUSED(r, 8, 3, 0, 0, 43);
  number_read(r, 0, 0, false);

  Window high; /* its fifth byte holds 16 */
  window_clear(&high);
  put_bits(&high, 0, 5);
  for (int i = 0; i < 4; i++) {
    put_bits(&high, 0x01, 8);
  }
  put_bits(&high, 0x20, 8);
  r = vrf_read_packed(high.bytes, window_bytes(&high), cursor_at(3, 2, 42));
  REFUSED(r, 9, 2, 0, 0, 42);
  number_read(r, 0, 0, false);
}

/* Values on the edges of lengths, with the bytes that they need, in every length from there on. */
static void padded_and_not(void) {
  static const uint32_t values[][2] = {{0, 1},       {1, 1},       {127, 1},     {128, 2},       {16383, 2},     {16384, 3},
                                       {2097151, 3}, {2097152, 4}, {268435455, 4}, {268435456, 5}, {UINT32_MAX, 5}};
  for (size_t i = 0; i < sizeof values / sizeof values[0]; i++) {
    for (uint32_t size = values[i][1]; size <= 5; size++) {
      Window w;
      window_clear(&w);
      put_bits(&w, 0x1f, 5);
      put_padded(&w, values[i][0], size);
      put_bits(&w, 0x3, 2);
      const VrfPacked r = vrf_read_packed(w.bytes, window_bytes(&w), cursor_at(3, 2, w.bits - 3));
      ACCEPTED(r, 2 + 8 * size);
      number_read(r, values[i][0], size, size > values[i][1]);
    }
  }
  /* The same edges as bytes: zero in two, 2^28 - 1 in five, of which the last adds nothing, and 2^28, of which it is all. */
  static const uint8_t zero[] = {0x01, 0x00}, below[] = {0xff, 0xff, 0xff, 0xff, 0x00}, edge[] = {0x01, 0x01, 0x01, 0x01, 0x02};
  number_read(vrf_read_packed(zero, 2, cursor_at(0, 0, 16)), 0, 2, true);
  number_read(vrf_read_packed(below, 5, cursor_at(0, 0, 40)), 268435455, 5, true);
  number_read(vrf_read_packed(edge, 5, cursor_at(0, 0, 40)), 268435456, 5, false);
}

static void serialized_integers(void) {
  /* Below 11 in three bits and perhaps a fourth: 9 has low bits 1 and the fourth set; 6 takes three bits, since 14 is not below 11. */
  Window w;
  window_clear(&w);
  put_bits(&w, 0x7f, 7);
  put_bits(&w, 9, 4);
  put_bits(&w, 6, 3);
  put_bits(&w, 3, 2);
  VrfRead r = vrf_read_serialized(w.bytes, 2, cursor_at(3, 4, 13), 11);
  ACCEPTED(r, 8);
  SAME(r.value, 9);
  r = vrf_read_serialized(w.bytes, 2, cursor_at(3, 8, 13), 11);
  ACCEPTED(r, 11);
  SAME(r.value, 6);
  r = vrf_read_serialized(w.bytes, 2, cursor_at(3, 5, 13), 1);
  ACCEPTED(r, 5);
  SAME(r.value, 0);
  r = vrf_read_serialized(w.bytes, 2, cursor_at(3, 11, 13), 11);
  REFUSED(r, 7, 11, 13, 3, 11);
  SAME(r.value, 0);
  r = vrf_read_serialized(w.bytes, 2, cursor_at(3, 4, 7), 11);
  REFUSED(r, 7, 7, 7, 1, 7); /* the fourth bit lacks */
  r = vrf_read_serialized(w.bytes, 2, cursor_at(3, 4, 13), 0);
  REFUSED(r, 10, 0, 0, 0, 4);
  r = vrf_read_serialized(w.bytes, 1, cursor_at(3, 4, 13), 0); /* 14 before 10 */
  REFUSED(r, 14, 13, 8, 0, 4);
}

void reads(void) {
  bits_at_a_time();
  packed_numbers();
  padded_and_not();
  serialized_integers();
}
