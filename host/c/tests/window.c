#include "window.h"

#include <string.h>

size_t window_bytes(const Window *w) { return ((size_t)w->bits + 7) / 8; }

void window_clear(Window *w) { memset(w, 0, sizeof *w); }

void put_bits(Window *w, uint64_t value, uint32_t count) {
  for (uint32_t i = 0; i < count; i++) {
    w->bytes[w->bits / 8] = (uint8_t)(w->bytes[w->bits / 8] | (value >> i & 1) << (w->bits % 8));
    w->bits++;
  }
}

void put_packed(Window *w, uint32_t value) { put_padded(w, value, 1); }

void put_padded(Window *w, uint32_t value, uint32_t size) {
  for (uint32_t n = 1; value > 127 || n < size; n++) {
    put_bits(w, (uint64_t)(value & 127) << 1 | 1, 8);
    value >>= 7;
  }
  put_bits(w, (uint64_t)value << 1, 8);
}

void put_field(Window *w, uint32_t handle, uint32_t width) {
  put_packed(w, handle + 1);
  put_packed(w, width);
}

void put_number(Window *w, uint32_t handle, uint64_t value, uint32_t width) {
  put_field(w, handle, width);
  put_bits(w, value, width);
}

void put_window(Window *w, uint32_t handle, const Window *payload) {
  put_field(w, handle, payload->bits);
  for (uint32_t i = 0; i < payload->bits; i++) {
    put_bits(w, (uint64_t)payload->bytes[i / 8] >> (i % 8), 1);
  }
}

void put_vector(Window *w, uint32_t width, int scaled, int64_t x, int64_t y, int64_t z) {
  put_bits(w, (uint64_t)(width | (scaled ? 64u : 0u)), 7);
  put_bits(w, (uint64_t)x, width);
  put_bits(w, (uint64_t)y, width);
  put_bits(w, (uint64_t)z, width);
}

void put_axis(Window *w, uint32_t width, uint32_t number) {
  put_bits(w, 1, 1);
  put_bits(w, number, width);
}

void put_no_axis(Window *w) { put_bits(w, 0, 1); }
