/* vrf_rotation, of 8 and of 16 bits, and vrf_byte_angle_steps. */
#include "check.h"
#include "window.h"

static void same_angles(VrfAngles a, float pitch, float yaw, float roll) {
  SAME_FLOAT(a.pitch, pitch);
  SAME_FLOAT(a.yaw, yaw);
  SAME_FLOAT(a.roll, roll);
}

/* Every byte's whole number, and that the three angles of a rotation of that byte are it over 32. */
static void byte_angles(void) {
  for (uint32_t k = 0; k < 256; k++) {
    uint32_t steps = vrf_byte_angle_steps(k);
    SAME(steps, 45 * k);
    Window w;
    window_clear(&w);
    put_axis(&w, 8, k);
    put_axis(&w, 8, k);
    put_axis(&w, 8, k);
    VrfRotation r = vrf_rotation(w.bytes, window_bytes(&w), cursor_at(0, 0, 27), 8);
    ACCEPTED(r, 27);
    float angle = (float)steps / 32.0f;
    same_angles(r.value, angle, angle, angle);
    SAME_FLOAT(r.value.pitch * 32.0f, (float)(45 * k));
  }
  static const uint32_t no_bytes[] = {256, 257, 300, 511, 512, 65535, 65536, 0x7fffffff, 0x80000000, 0xffffff00, 0xfffffffe, UINT32_MAX};
  for (size_t i = 0; i < sizeof no_bytes / sizeof no_bytes[0]; i++) {
    SAME(vrf_byte_angle_steps(no_bytes[i]), VRF_NONE);
  }
}

void rotations(void) {
  byte_angles();
  Window w;
  window_clear(&w);
  put_bits(&w, 0, 6);
  put_axis(&w, 8, 1);
  put_axis(&w, 8, 64);
  put_axis(&w, 8, 255);
  put_axis(&w, 16, 1);
  put_no_axis(&w);
  put_axis(&w, 16, 65535);
  VrfRotation r = vrf_rotation(w.bytes, window_bytes(&w), cursor_at(4, 2, 64), 8);
  ACCEPTED(r, 29);
  same_angles(r.value, 1.40625f, 90.0f, 358.59375f);
  r = vrf_rotation(w.bytes, window_bytes(&w), cursor_at(4, r.position, 64), 16);
  ACCEPTED(r, 64);
  same_angles(r.value, 0.0054931640625f, 0.0f, 359.9945068359375f);

  r = vrf_rotation(w.bytes, window_bytes(&w), cursor_at(4, 2, 27), 8);
  REFUSED(r, 7, 21, 27, 8, 21);
  same_angles(r.value, 0, 0, 0);
  r = vrf_rotation(w.bytes, window_bytes(&w), cursor_at(4, 2, 64), 9);
  REFUSED(r, 13, 0, 0, 0, 2);
  r = vrf_rotation(w.bytes, 8, cursor_at(4, 2, 64), 9); /* 14 before 13 */
  REFUSED(r, 14, 64, 64, 0, 2);
  r = vrf_rotation(w.bytes, 7, cursor_at(4, 2, 60), 8);
  REFUSED(r, 14, 60, 56, 0, 2);
}
