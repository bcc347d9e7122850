/* vrf_vector and vrf_normal. */
#include "check.h"
#include "window.h"

static void same_xyz(VrfXyz v, double x, double y, double z) {
  SAME_DOUBLE(v.x, x);
  SAME_DOUBLE(v.y, y);
  SAME_DOUBLE(v.z, z);
}

static void quantized(void) {
  Window w;
  window_clear(&w);
  put_bits(&w, 1, 5);
  put_vector(&w, 12, 1, -125, 7, 2047); /* 43 bits */
  put_vector(&w, 12, 0, -125, 7, 2047);
  put_vector(&w, 30, 1, -400000000, 3, 500000000); /* 97 bits, read one by one */
  VrfVector v = vrf_vector(w.bytes, window_bytes(&w), cursor_at(3, 2, 185), 100);
  ACCEPTED(v, 45);
  same_xyz(v.value, -1.25, 0.07, 20.47);
  v = vrf_vector(w.bytes, window_bytes(&w), cursor_at(3, v.position, 185), 100);
  ACCEPTED(v, 88);
  same_xyz(v.value, -125, 7, 2047);
  v = vrf_vector(w.bytes, window_bytes(&w), cursor_at(3, v.position, 185), 8);
  ACCEPTED(v, 185);
  same_xyz(v.value, -50000000, 0.375, 62500000);

  v = vrf_vector(w.bytes, window_bytes(&w), cursor_at(3, 2, 44), 100);
  REFUSED(v, 7, 9, 44, 36, 9);
  same_xyz(v.value, 0, 0, 0);
  v = vrf_vector(w.bytes, window_bytes(&w), cursor_at(3, 2, 185), 0);
  REFUSED(v, 11, 0, 0, 0, 2);
  v = vrf_vector(w.bytes, 23, cursor_at(3, 2, 185), 0); /* 14 before 11 */
  REFUSED(v, 14, 185, 184, 0, 2);
}

static void floats(void) {
  Window w;
  window_clear(&w);
  put_bits(&w, 0, 7);
  put_bits(&w, 0x3fc00000, 32); /* 1.5 */
  put_bits(&w, 0x80000000, 32); /* -0 */
  put_bits(&w, 0x00000001, 32); /* the least number above 0 */
  put_bits(&w, 64, 7);
  put_bits(&w, UINT64_C(0x4004000000000000), 64); /* 2.5 */
  put_bits(&w, UINT64_C(0xc059000000000000), 64); /* -100 */
  put_bits(&w, UINT64_C(0x000fffffffffffff), 64);
  VrfVector v = vrf_vector(w.bytes, window_bytes(&w), cursor_at(0, 0, w.bits), 100);
  ACCEPTED(v, 103);
  same_xyz(v.value, 1.5, -0.0, 0x1p-149);
  v = vrf_vector(w.bytes, window_bytes(&w), cursor_at(0, 103, w.bits), 100);
  ACCEPTED(v, 302);
  same_xyz(v.value, 2.5, -100, 0x0.fffffffffffffp-1022);

  window_clear(&w);
  put_bits(&w, 1, 3);
  put_bits(&w, 0, 7);
  put_bits(&w, 0, 32);
  put_bits(&w, 0x7f800000, 32); /* infinite */
  put_bits(&w, 0, 32);
  v = vrf_vector(w.bytes, window_bytes(&w), cursor_at(2, 1, 104), 100);
  REFUSED(v, 12, 0, 0, 0, 104);
  same_xyz(v.value, 0, 0, 0);
}

static void normals(void) {
  Window w;
  window_clear(&w);
  put_bits(&w, 0, 3);
  put_bits(&w, 65535, 16);
  put_bits(&w, 32769, 16);
  put_bits(&w, 1, 16);
  put_bits(&w, 0, 2);
  VrfVector v = vrf_normal(w.bytes, window_bytes(&w), cursor_at(1, 2, 50));
  ACCEPTED(v, 50);
  same_xyz(v.value, 1.0, 0x1.0002000400080p-15, -1.0);
  v = vrf_normal(w.bytes, window_bytes(&w), cursor_at(1, 2, 49));
  REFUSED(v, 7, 34, 49, 16, 34); /* the last axis lacks its top bit */
  same_xyz(v.value, 0, 0, 0);
  v = vrf_normal(w.bytes, 6, cursor_at(1, 2, 50));
  REFUSED(v, 14, 50, 48, 0, 2);
}

void vectors(void) {
  quantized();
  floats();
  normals();
}
