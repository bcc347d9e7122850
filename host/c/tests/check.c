/* The counting of checks, and the program that runs every test: a line for each, then the sum. */
#include "check.h"

#include <inttypes.h>
#include <stdio.h>
#include <string.h>

static unsigned checked, failed;

/* Counts a check; 1 if it failed. */
static int wrong(int ok, const char *file, int line, const char *what) {
  checked++;
  if (ok) {
    return 0;
  }
  failed++;
  printf("%s:%d: %s: ", file, line, what);
  return 1;
}

void same_number(const char *file, int line, const char *what, uint64_t got, uint64_t want) {
  if (wrong(got == want, file, line, what)) {
    printf("%" PRIu64 ", should be %" PRIu64 "\n", got, want);
  }
}

void same_double(const char *file, int line, const char *what, double got, double want) {
  if (wrong(memcmp(&got, &want, sizeof got) == 0, file, line, what)) {
    printf("%a, should be %a\n", got, want);
  }
}

void same_float(const char *file, int line, const char *what, float got, float want) {
  if (wrong(memcmp(&got, &want, sizeof got) == 0, file, line, what)) {
    printf("%a, should be %a\n", (double)got, (double)want);
  }
}

void same_bytes(const char *file, int line, const char *what, const void *got, const void *want, size_t size) {
  const uint8_t *g = (const uint8_t *)got, *w = (const uint8_t *)want;
  size_t i = 0;
  while (i < size && g[i] == w[i]) {
    i++;
  }
  if (wrong(i == size, file, line, what)) {
    printf("byte %zu is %02x, should be %02x\n", i, g[i], w[i]);
  }
}

void lay_out(void *buffer, size_t size) { memset(buffer, UNTOUCHED, size); }

void same_untouched(const char *file, int line, const char *what, const void *from, size_t size) {
  const uint8_t *p = (const uint8_t *)from;
  size_t i = 0;
  while (i < size && p[i] == UNTOUCHED) {
    i++;
  }
  if (wrong(i == size, file, line, what)) {
    printf("byte %zu was written\n", i);
  }
}

VrfCursor cursor_at(uint64_t start, uint64_t pos, uint64_t len) {
  VrfCursor c;
  c.start = start;
  c.pos = pos;
  c.len = len;
  return c;
}

static void run(const char *name, void (*test)(void)) {
  const unsigned checked_before = checked, failed_before = failed;
  test();
  printf("c: %s: %u checks, %u failed\n", name, checked - checked_before, failed - failed_before);
}

int main(void) {
  run("struct walks", struct_walks);
  run("exact walks", exact_walks);
  run("object walks", object_walks);
  run("counters", counters);
  run("levels", levels);
  run("fast arrays", fast_arrays);
  run("reads", reads);
  run("padded numbers", padded_numbers);
  run("window starts", window_starts);
  run("copies", copies);
  run("vectors", vectors);
  run("rotations", rotations);
  run("movements", movements);
  run("constants", constants);
  run("environment", environment);
  printf("c: %u checks, %u failed\n", checked, failed);
  return failed == 0 ? 0 : 1;
}
