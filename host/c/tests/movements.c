/* vrf_movement: everything sent, nothing sent, and each flag alone. Every number differs from every other. */
#include "check.h"
#include "window.h"

enum { SLEEP = 1, PHYSICS = 2, FRAME = 4, HANDLE = 8 };
/* The handle is padded, the frame is not. */
enum { HANDLE_BYTES = 3, HANDLE_BITS = 8 * HANDLE_BYTES };

static void write_movement(Window *w, uint32_t flags, uint32_t width) {
  window_clear(w);
  put_bits(w, flags, 4);
  put_vector(w, 12, 1, -125, 7, 2047);
  put_axis(w, width, 1);
  put_axis(w, width, 5);
  put_axis(w, width, 3);
  put_vector(w, 12, 1, -2048, 11, 12);
  if (flags & PHYSICS) {
    put_vector(w, 12, 0, 13, 14, -15);
  }
  if (flags & FRAME) {
    put_packed(w, UINT32_MAX);
  }
  if (flags & HANDLE) {
    put_padded(w, 16, HANDLE_BYTES);
  }
}

static VrfMovement read_movement(const Window *w, uint64_t count, uint32_t rotation, uint32_t location) {
  return vrf_movement(w->bytes, window_bytes(w), count, rotation, location);
}

static void same_pose(VrfMovement m, double scale, float step) {
  SAME_DOUBLE(m.location.x, -125 / scale);
  SAME_DOUBLE(m.location.y, 7 / scale);
  SAME_DOUBLE(m.location.z, 2047 / scale);
  SAME_FLOAT(m.rotation.pitch, step);
  SAME_FLOAT(m.rotation.yaw, 5 * step);
  SAME_FLOAT(m.rotation.roll, 3 * step);
  SAME_DOUBLE(m.linear.x, -2048);
  SAME_DOUBLE(m.linear.y, 11);
  SAME_DOUBLE(m.linear.z, 12);
}

static void same_extras(VrfMovement m, uint32_t flags) {
  SAME(m.sleep, (flags & SLEEP) != 0);
  SAME(m.physics, (flags & PHYSICS) != 0);
  SAME(m.angular.present, (flags & PHYSICS) != 0);
  SAME_DOUBLE(m.angular.velocity.x, flags & PHYSICS ? 13 : 0);
  SAME_DOUBLE(m.angular.velocity.y, flags & PHYSICS ? 14 : 0);
  SAME_DOUBLE(m.angular.velocity.z, flags & PHYSICS ? -15 : 0);
  SAME(m.frame.present, (flags & FRAME) != 0);
  SAME(m.frame.value, flags & FRAME ? UINT32_MAX : 0);
  SAME(m.handle.present, (flags & HANDLE) != 0);
  SAME(m.handle.value, flags & HANDLE ? 16 : 0);
  SAME(m.padded, flags & HANDLE ? 1 : 0);
}

static void every_way_of_sending(void) {
  static const uint32_t widths[] = {VRF_ROTATION_8_BITS, VRF_ROTATION_16_BITS, 2};
  static const float steps[] = {360.0f / 256, 360.0f / 65536, 360.0f / 65536};
  static const uint32_t scales[] = {VRF_LOCATION_SCALE_1, VRF_LOCATION_SCALE_10, VRF_LOCATION_SCALE_100, 3};
  static const double divisors[] = {1, 10, 100, 100};
  for (size_t i = 0; i < 3; i++) {
    for (size_t j = 0; j < 4; j++) {
      Window w;
      write_movement(&w, SLEEP | PHYSICS | FRAME | HANDLE, widths[i] == VRF_ROTATION_8_BITS ? 8 : 16);
      const VrfMovement m = read_movement(&w, w.bits, widths[i], scales[j]);
      ACCEPTED(m, w.bits);
      same_pose(m, divisors[j], steps[i]);
      same_extras(m, SLEEP | PHYSICS | FRAME | HANDLE);
    }
  }
}

static void every_flag_alone(void) {
  static const uint32_t flags[] = {0, SLEEP, PHYSICS, FRAME, HANDLE, SLEEP | FRAME, PHYSICS | HANDLE};
  for (size_t i = 0; i < sizeof flags / sizeof flags[0]; i++) {
    Window w;
    write_movement(&w, flags[i], 8);
    const uint32_t used = w.bits;
    put_bits(&w, 0x1f, 5); /* left over */
    const VrfMovement m = read_movement(&w, w.bits, VRF_ROTATION_8_BITS, VRF_LOCATION_SCALE_10);
    ACCEPTED(m, used);
    same_pose(m, 10, 360.0f / 256);
    same_extras(m, flags[i]);
  }
}

static void nothing_read(VrfMovement m) {
  SAME_DOUBLE(m.location.x, 0);
  SAME_DOUBLE(m.location.y, 0);
  SAME_DOUBLE(m.location.z, 0);
  SAME_FLOAT(m.rotation.pitch, 0);
  SAME_FLOAT(m.rotation.yaw, 0);
  SAME_FLOAT(m.rotation.roll, 0);
  SAME_DOUBLE(m.linear.x, 0);
  SAME_DOUBLE(m.linear.y, 0);
  SAME_DOUBLE(m.linear.z, 0);
  same_extras(m, 0);
}

static void refusals(void) {
  Window w;
  write_movement(&w, SLEEP | PHYSICS | FRAME | HANDLE, 8);
  VrfMovement m = read_movement(&w, VRF_LONGEST_WINDOW + 1, VRF_ROTATION_8_BITS, VRF_LOCATION_SCALE_1);
  REFUSED(m, 1, 0, 0, 0, 0); /* before 14 */
  nothing_read(m);
  m = read_movement(&w, 8 * window_bytes(&w) + 1, VRF_ROTATION_8_BITS, VRF_LOCATION_SCALE_1);
  REFUSED(m, 14, 8 * window_bytes(&w) + 1, 8 * window_bytes(&w), 0, 0);
  nothing_read(m);
  m = read_movement(&w, 60, VRF_ROTATION_8_BITS, VRF_LOCATION_SCALE_1);
  REFUSED(m, 7, 57, 60, 8, 57); /* in the yaw */
  nothing_read(m);

  const uint32_t behind = w.bits - HANDLE_BITS; /* where the frame ends */
  const uint64_t packed = behind - 40;          /* where it starts */
  w.bytes[(behind - 8) / 8] |= (uint8_t)(1u << ((behind - 8) % 8)); /* its fifth byte says that another follows */
  m = read_movement(&w, w.bits, VRF_ROTATION_8_BITS, VRF_LOCATION_SCALE_1);
  REFUSED(m, 8, packed, 0, 0, packed + 40);
  nothing_read(m);
  w.bytes[(behind - 8) / 8] ^= (uint8_t)(1u << ((behind - 8) % 8)); /* no other follows, but it holds 16 more */
  w.bytes[(behind - 3) / 8] |= (uint8_t)(1u << ((behind - 3) % 8));
  m = read_movement(&w, w.bits, VRF_ROTATION_8_BITS, VRF_LOCATION_SCALE_1);
  REFUSED(m, 9, packed, 0, 0, packed + 40);
  nothing_read(m);

  window_clear(&w);
  put_bits(&w, 0, 4 + 7);
  put_bits(&w, UINT32_MAX, 32); /* a NaN */
  put_bits(&w, 0, 64);
  m = read_movement(&w, w.bits, VRF_ROTATION_8_BITS, VRF_LOCATION_SCALE_1);
  REFUSED(m, 12, 0, 0, 0, 107);
  nothing_read(m);
}

void movements(void) {
  every_way_of_sending();
  every_flag_alone();
  refusals();
}
