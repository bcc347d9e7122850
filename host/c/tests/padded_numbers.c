/* Padded numbers, which take more bytes than they need: each place where a walk, a fast array or a movement reads a number; what counts
 * though its value is turned away; what doesn't count. */
#include "check.h"
#include "window.h"

#include <string.h>

/* What each of the three walks is lent: more than these windows need. */
enum { ROOM_LEAVES = 140 * VRF_LEAF_WORDS, ROOM_PATHS = 4096, ROOM_PAYLOADS = 600 };

/* Which walks a window is for. */
enum { STRUCTS = 1, EXACTLY = 2, OBJECTS = 4, ALL = 7 };

/* A level whose handle 0 is an array of the same level. */
static const uint32_t own_child[] = {0, 0, 0, 0, 0};

static VrfWalk walk_structs(const uint8_t *bytes, size_t size, uint32_t bits) {
  static uint32_t leaves[ROOM_LEAVES];
  static uint8_t paths[ROOM_PATHS], payloads[ROOM_PAYLOADS];
  return vrf_struct_array(bytes, size, bits, own_child, 5, 1, 0, NULL, 0, NULL, 0, NULL, 0, leaves, ROOM_LEAVES, paths, ROOM_PATHS,
                          payloads, ROOM_PAYLOADS);
}

static VrfWalk walk_as_sent(const uint8_t *bytes, size_t size, uint32_t bits) {
  static uint32_t leaves[ROOM_LEAVES];
  static uint8_t paths[ROOM_PATHS], payloads[ROOM_PAYLOADS];
  return vrf_struct_array_exact(bytes, size, bits, NULL, 0, NULL, 0, leaves, ROOM_LEAVES, paths, ROOM_PATHS, payloads, ROOM_PAYLOADS);
}

static VrfObjects walk_objects(const uint8_t *bytes, size_t size, uint32_t bits) {
  static uint32_t pairs[VRF_PAIR_WORDS];
  return vrf_object_array(bytes, size, bits, pairs, VRF_PAIR_WORDS);
}

/* Each of these walks reads so many padded numbers, and counts so many truncations, errors and implicit terminations. */
static void counts(int walks, const uint8_t *bytes, size_t size, uint32_t bits, uint32_t want, uint64_t truncations, uint64_t errors,
                   uint64_t terminations) {
  if (walks & STRUCTS) {
    const VrfWalk a = walk_structs(bytes, size, bits);
    SAME(a.refusal, 0);
    SAME(a.padded, want);
    SAME(a.counters.truncations, truncations);
    SAME(a.counters.errors, errors);
    SAME(a.counters.implicit_terminations, terminations);
  }
  if (walks & EXACTLY) {
    const VrfWalk a = walk_as_sent(bytes, size, bits);
    SAME(a.refusal, 0);
    SAME(a.padded, want);
    SAME(a.counters.truncations, truncations);
    SAME(a.counters.errors, errors);
    SAME(a.counters.implicit_terminations, terminations);
  }
  if (walks & OBJECTS) {
    const VrfObjects a = walk_objects(bytes, size, bits);
    SAME(a.refusal, 0);
    SAME(a.padded, want);
    SAME(a.counters.truncations, truncations);
    SAME(a.counters.errors, errors);
    SAME(a.counters.implicit_terminations, terminations);
  }
}

static void counts_in(int walks, const Window *w, uint32_t want, uint64_t truncations, uint64_t errors, uint64_t terminations) {
  counts(walks, w->bytes, window_bytes(w), w->bits, want, truncations, errors, terminations);
}

/* How many bytes each number of an array of one element with one field takes. */
enum { COUNT, INDEX, HANDLE_NUMBER, WIDTH, CLOSE, END, PLACES };

/* Such an array, whose field holds object 7; up to the number at that place. */
static void write_places(Window *w, const uint32_t *sizes, int places) {
  static const uint32_t values[PLACES] = {1, 1, 2, 8, 0, 0};
  window_clear(w);
  for (int place = 0; place < places; place++) {
    if (place == CLOSE) {
      put_bits(w, 14, 8);
    }
    put_padded(w, values[place], sizes[place]);
  }
}

/* Every number alone in two to five bytes, then all of them. */
static void every_place(void) {
  Window w;
  for (uint32_t size = 2; size <= 5; size++) {
    for (int place = 0; place < PLACES; place++) {
      uint32_t sizes[PLACES] = {1, 1, 1, 1, 1, 1};
      sizes[place] = size;
      write_places(&w, sizes, PLACES);
      counts_in(ALL, &w, 1, 0, 0, 0);
    }
    const uint32_t all[PLACES] = {size, size, size, size, size, size};
    write_places(&w, all, PLACES);
    counts_in(ALL, &w, PLACES, 0, 0, 0);
    SAME(walk_structs(w.bytes, window_bytes(&w), w.bits).verdict, VRF_CLEAN);
    SAME(walk_as_sent(w.bytes, window_bytes(&w), w.bits).verdict, VRF_CLEAN);
    SAME(walk_objects(w.bytes, window_bytes(&w), w.bits).verdict, VRF_CLEAN);
  }
}

/* What stands in front of a number that can't be read counts, the number doesn't; nor does what stands behind an array's zero. */
static void failing_numbers(void) {
  static const uint32_t two[PLACES] = {2, 2, 2, 2, 2, 2};
  Window w;
  for (int place = 0; place < PLACES; place++) {
    write_places(&w, two, place);
    if (place == CLOSE) {
      put_bits(&w, 14, 8);
    }
    const Window front = w;
    put_bits(&w, 0x01, 8); /* cut behind its first byte */
    counts_in(ALL, &w, (uint32_t)place, 0, 1, 0);
    w = front;
    put_bits(&w, UINT64_C(0x0101010101), 40); /* a sixth byte would follow */
    counts_in(ALL, &w, (uint32_t)place, 0, 1, 0);
    w = front;
    put_bits(&w, UINT64_C(0x2001010101), 40); /* too large */
    counts_in(ALL, &w, (uint32_t)place, 0, 1, 0);
  }
  write_places(&w, two, PLACES);
  put_bits(&w, 0x0001, 16);
  counts_in(ALL, &w, PLACES, 0, 0, 0);
  SAME(walk_structs(w.bytes, window_bytes(&w), w.bits).counters.root_bits, 16);
}

/* The number is read, its value is turned away. */
static void turned_away(void) {
  Window w;
  window_clear(&w);
  put_padded(&w, 4097, 3);
  put_bits(&w, 0x1ff, 9);
  counts_in(ALL, &w, 1, 1, 0, 0); /* a count above 4,096 */

  window_clear(&w);
  put_packed(&w, 1);
  put_padded(&w, 2, 2);
  put_bits(&w, 0x1ff, 9);
  counts_in(ALL, &w, 1, 0, 1, 0); /* an index that isn't below the count */

  window_clear(&w);
  put_packed(&w, 1);
  put_packed(&w, 1);
  put_padded(&w, 2, 3);
  put_padded(&w, 10, 2);
  put_bits(&w, 0x1ff, 9);
  counts_in(ALL, &w, 2, 0, 1, 0); /* a width past the window, behind a handle */

  window_clear(&w);
  put_padded(&w, 1, 2);
  counts_in(ALL, &w, 1, 0, 0, 1); /* and the window's end */
}

/* Behind 128 fields only a zero is taken; any other number is put back. */
static void behind_the_last_field(void) {
  Window fields, w;
  window_clear(&fields);
  put_packed(&fields, 1);
  put_packed(&fields, 1);
  for (int i = 0; i < 128; i++) {
    put_packed(&fields, 2);
    put_packed(&fields, 0);
  }
  w = fields;
  put_padded(&w, 0, 2);
  counts_in(ALL, &w, 1, 0, 0, 1);
  put_padded(&w, 0, 3);
  counts_in(ALL, &w, 2, 0, 0, 0);
  w = fields;
  put_padded(&w, 1, 2);
  counts_in(ALL, &w, 0, 1, 0, 0);
  w = fields;
  put_bits(&w, UINT64_C(0x0101010101), 40);
  counts_in(ALL, &w, 0, 0, 1, 0);
}

/* The same behind 4,096 elements. */
static void behind_the_last_element(void) {
  enum { FRONT = 2 + 2 * 4096 };
  static uint8_t many[FRONT + 5];
  many[0] = 0x01; /* the count, 4096 */
  many[1] = 0x40;
  for (size_t i = 2; i < FRONT; i += 2) {
    many[i] = 0x02;
    many[i + 1] = 0x00;
  }
  many[FRONT] = 0x01;
  many[FRONT + 1] = 0x00;
  counts(ALL, many, FRONT + 2, 8 * (FRONT + 2), 1, 0, 0, 0);
  many[FRONT] = 0x03;
  counts(ALL, many, FRONT + 2, 8 * (FRONT + 2), 0, 1, 0, 0);
  memset(many + FRONT, 0x01, 5);
  counts(ALL, many, FRONT + 5, 8 * (FRONT + 5), 0, 0, 1, 0);
}

/* What an object's field holds; a field behind the first one with bits is not read. */
static void object_numbers(void) {
  Window w;
  for (uint32_t more = 0; more < 2; more++) {
    window_clear(&w);
    put_packed(&w, 1);
    put_packed(&w, 1);
    put_field(&w, 3, 24 + more);
    put_padded(&w, 7, 3);
    put_bits(&w, 0, more);
    put_field(&w, 4, 16);
    put_padded(&w, 7, 2);
    put_packed(&w, 0);
    put_packed(&w, 0);
    counts_in(OBJECTS, &w, 1, 0, more, 0);
    counts_in(STRUCTS | EXACTLY, &w, 0, 0, 0, 0);
  }
  window_clear(&w);
  put_packed(&w, 1);
  put_packed(&w, 1);
  put_number(&w, 3, 0x01, 15); /* cut off */
  put_packed(&w, 0);
  put_packed(&w, 0);
  counts_in(OBJECTS, &w, 0, 0, 1, 0);
}

/* An array in an array and so on, twelve levels deep: of each level all six numbers are padded. A thirteenth is not read. */
static void every_level(void) {
  Window w, inner;
  static const uint32_t two[PLACES] = {2, 2, 2, 2, 2, 2};
  write_places(&w, two, PLACES);
  for (uint32_t level = 1; level <= 13; level++) {
    counts_in(STRUCTS, &w, PLACES * (level < 12 ? level : 12), level > 12, 0, 0);
    counts_in(EXACTLY, &w, PLACES, 0, 0, 0);
    inner = w;
    window_clear(&w);
    put_padded(&w, 1, 2);
    put_padded(&w, 1, 2);
    put_padded(&w, 1, 2);
    put_padded(&w, inner.bits, 3);
    for (uint32_t i = 0; i < inner.bits; i++) {
      put_bits(&w, (uint64_t)inner.bytes[i / 8] >> (i % 8), 1);
    }
    put_padded(&w, 0, 2);
    put_padded(&w, 0, 2);
  }
}

/* What is refused, or never opened, has read nothing. */
static void nothing_counted(void) {
  static const uint32_t two[PLACES] = {2, 2, 2, 2, 2, 2}, broken[] = {1, 0, 0, 0, 0};
  Window w;
  write_places(&w, two, PLACES);
  VrfWalk a = vrf_struct_array(w.bytes, window_bytes(&w), w.bits, own_child, 5, 1, 0, NULL, 0, NULL, 0, NULL, 0, NULL, 0, NULL, 0, NULL, 0);
  SAME(a.refusal, 3);
  SAME(a.padded, 0);
  a = vrf_struct_array(w.bytes, window_bytes(&w), w.bits, broken, 5, 1, 0, NULL, 0, NULL, 0, NULL, 0, NULL, 0, NULL, 0, NULL, 0);
  SAME(a.refusal, 2);
  SAME(a.padded, 0);
  a = vrf_struct_array_exact(w.bytes, window_bytes(&w), VRF_LONGEST_WINDOW + 1, NULL, 0, NULL, 0, NULL, 0, NULL, 0, NULL, 0);
  SAME(a.refusal, 1);
  SAME(a.padded, 0);
  const VrfObjects o = vrf_object_array(w.bytes, window_bytes(&w), w.bits, NULL, 0);
  SAME(o.refusal, 3);
  SAME(o.padded, 0);
  counts(ALL, w.bytes, window_bytes(&w) - 1, w.bits, 0, 0, 1, 0); /* past its bytes */
  counts(STRUCTS | EXACTLY, w.bytes, window_bytes(&w), 0, 0, 0, 0, 0);
  counts(OBJECTS, w.bytes, window_bytes(&w), 0, 0, 0, 1, 0);
}

/* A fast array of two items; each number but one in so many bytes. */
static void in_a_fast_array(void) {
  for (uint32_t checksum = 0; checksum < 2; checksum++) {
    for (uint32_t size = 1; size <= 5; size++) {
      Window w;
      window_clear(&w);
      put_bits(&w, 1, 1);
      put_bits(&w, 9, 32);
      put_bits(&w, 8, 32);
      put_bits(&w, 0, 32);
      put_bits(&w, 2, 32);
      for (int item = 0; item < 2; item++) {
        put_bits(&w, 77, 32);
        put_bits(&w, 0, checksum);
        put_padded(&w, 5, size);
        put_padded(&w, 16, size);
        put_bits(&w, 0x0001, 16); /* a padded zero, which is payload */
        put_padded(&w, 0, item == 0 ? size : 1);
      }
      uint32_t items[2 * VRF_ITEM_WORDS], fields[2 * VRF_FIELD_WORDS];
      VrfFastArray a = vrf_fast_array(w.bytes, window_bytes(&w), w.bits, checksum, NULL, 0, items, 4, fields, 6);
      SAME(a.refusal, 0);
      SAME(a.padded, size > 1 ? 5 : 0);
      a = vrf_fast_array(w.bytes, window_bytes(&w), w.bits, checksum, NULL, 0, items, 4, fields, 5);
      SAME(a.refusal, 3);
      SAME(a.padded, 0);
      put_bits(&w, 0, 8); /* a rest: no fast array */
      a = vrf_fast_array(w.bytes, window_bytes(&w), w.bits, checksum, NULL, 0, items, 4, fields, 6);
      SAME(a.refusal, 6);
      SAME(a.padded, 0);
    }
  }
}

/* Frame and handle, each absent (0) or in so many bytes; the bits in front of them could be taken for a longer form. */
static void in_a_movement(void) {
  for (uint32_t frame = 0; frame <= 5; frame++) {
    for (uint32_t handle = 0; handle <= 5; handle++) {
      Window w;
      window_clear(&w);
      put_bits(&w, (frame ? 4u : 0u) | (handle ? 8u : 0u), 4);
      put_vector(&w, 8, 0, 1, 1, 1);
      put_no_axis(&w);
      put_no_axis(&w);
      put_no_axis(&w);
      put_vector(&w, 8, 0, 1, 1, 1);
      if (frame) {
        put_padded(&w, 0, frame);
      }
      if (handle) {
        put_padded(&w, 5, handle);
      }
      const uint32_t used = w.bits;
      VrfMovement m = vrf_movement(w.bytes, window_bytes(&w), w.bits, VRF_ROTATION_8_BITS, VRF_LOCATION_SCALE_1);
      SAME(m.refusal, 0);
      SAME(m.position, used);
      SAME(m.frame.present, frame > 0);
      SAME(m.handle.present, handle > 0);
      SAME(m.handle.value, handle > 0 ? 5 : 0);
      SAME(m.padded, (frame > 1 ? 1 : 0) + (handle > 1 ? 1 : 0));
      if (handle > 0) { /* cut off: then the frame doesn't count either */
        m = vrf_movement(w.bytes, window_bytes(&w), used - 1, VRF_ROTATION_8_BITS, VRF_LOCATION_SCALE_1);
        SAME(m.refusal, 7);
        SAME(m.padded, 0);
      }
    }
  }
}

void padded_numbers(void) {
  every_place();
  failing_numbers();
  turned_away();
  behind_the_last_field();
  behind_the_last_element();
  object_numbers();
  every_level();
  nothing_counted();
  in_a_fast_array();
  in_a_movement();
}
