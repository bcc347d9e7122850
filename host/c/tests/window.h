/* Windows that are written bit by bit, the first bit lowest. */
#ifndef WINDOW_H
#define WINDOW_H

#include <stddef.h>
#include <stdint.h>

typedef struct Window {
  uint8_t bytes[512];
  uint32_t bits;
} Window;

/* (bits + 7) / 8: so many bytes belong to the window. */
size_t window_bytes(const Window *w);

void window_clear(Window *w);
void put_bits(Window *w, uint64_t value, uint32_t count);
void put_packed(Window *w, uint32_t value);
/* The same in `size` bytes, at most five; in as many as it needs where these are more. */
void put_padded(Window *w, uint32_t value, uint32_t size);

/* A field's handle and width; its payload has to follow. */
void put_field(Window *w, uint32_t handle, uint32_t width);
/* A field whose payload is a number of `width` bits. */
void put_number(Window *w, uint32_t handle, uint64_t value, uint32_t width);
/* A field whose payload is a window. */
void put_window(Window *w, uint32_t handle, const Window *payload);

/* A quantized vector: the width of its integers, whether they are divided by the scale, and the integers. */
void put_vector(Window *w, uint32_t width, int scaled, int64_t x, int64_t y, int64_t z);
/* One axis of a rotation: sent, with this number of `width` bits, or not sent. */
void put_axis(Window *w, uint32_t width, uint32_t number);
void put_no_axis(Window *w);

#endif
