/* Walks an array of combat rounds and prints what it holds.
 *
 *     tools/staticlib
 *     cc host/c/example.c -Ihost/c target/native/libexports.a -o target/example
 *     target/example                 a small window that stands below
 *     target/example FILE [BITS]     the first BITS bits of a file, or all of it
 *
 * tools/staticlib makes the library, for x86-64: it is what `rt lib` makes of crate exports_c. */
#include "vrf.h"

#include <errno.h>
#include <inttypes.h>
#include <stdio.h>
#include <stdlib.h>

/* One round with one report, whose field 1 holds the byte AB. */
static const uint8_t sample[] = {0x02, 0x02, 0x0a, 0x70, 0x02, 0x02, 0x04, 0x10, 0xab, 0x00, 0x00, 0x00, 0x00};

/* One byte more than the longest window has: a longer file is refused with 1 all the same. */
static uint8_t file[VRF_LONGEST_WINDOW / 8 + 1];

static const char *refusal_in_words(uint32_t number) {
  switch (number) {
  case VRF_REFUSED_TOO_LONG: return "a bit count over 524,288";
  case VRF_REFUSED_BROKEN_TABLES: return "a schema or the declared names aren't laid out as they have to be, or pass a size, or the root isn't one of the levels";
  case VRF_REFUSED_SHORT_BUFFER: return "a lent buffer is too short";
  default: return "a number that this call doesn't give";
  }
}

/* What a sheet does with each verdict: vrf.h. */
static const char *verdict_in_words(uint32_t verdict) {
  switch (verdict) {
  case VRF_CLEAN: return "clean";
  case VRF_EMPTY: return "empty, nothing was sent";
  default: return "partial, something is broken, cut off, over a limit or left unread";
  }
}

/* Room for n things, at least one byte; the program ends if there is none. */
static void *room(size_t n, size_t size) {
  void *p = calloc(n > 0 ? n : 1, size);
  if (p == NULL) {
    fputs("example: no memory\n", stderr);
    exit(1);
  }
  return p;
}

static void print_leaf(const uint32_t *leaf, const uint8_t *paths, const uint8_t *payloads) {
  const uint32_t path_start = leaf[0], path_length = leaf[1], handle = leaf[2], bits = leaf[3], payload_start = leaf[4],
                 window_start = leaf[5];
  fwrite(paths + path_start, 1, path_length, stdout);
  if (handle == VRF_NONE) {
    printf("  kept tail, %" PRIu32 " bits from bit %" PRIu32 " on:", bits, window_start);
  } else {
    printf("  handle %" PRIu32 ", %" PRIu32 " bits from bit %" PRIu32 " on:", handle, bits, window_start);
  }
  for (size_t i = 0; i < ((size_t)bits + 7) / 8; i++) {
    printf(" %02x", payloads[payload_start + i]);
  }
  putchar('\n');
}

static void print_counters(const VrfCounters *c) {
  printf("elements %" PRIu64 "\n", c->elements);
  printf("fields %" PRIu64 "\n", c->fields);
  printf("truncations %" PRIu64 "\n", c->truncations);
  printf("errors %" PRIu64 "\n", c->errors);
  printf("nested unconsumed bits %" PRIu64 "\n", c->nested_bits);
  printf("root unconsumed bits %" PRIu64 "\n", c->root_bits);
  printf("implicit terminations %" PRIu64 "\n", c->implicit_terminations);
}

/* Reads the file to its end or to where it is too long; the number of bytes, or -1. */
static long read_file(const char *name) {
  FILE *f = fopen(name, "rb");
  if (f == NULL) {
    return -1;
  }
  size_t n = fread(file, 1, sizeof file, f);
  int bad = ferror(f);
  fclose(f);
  return bad ? -1 : (long)n;
}

/* The bit count that a word says; 1 if it says one. */
static int read_count(const char *word, uint32_t *bits) {
  char *end;
  errno = 0;
  unsigned long n = strtoul(word, &end, 10);
  if (errno != 0 || end == word || *end != '\0' || word[0] == '-' || n > UINT32_MAX) {
    return 0;
  }
  *bits = (uint32_t)n;
  return 1;
}

static int walk(const uint8_t *bytes, size_t size, uint32_t bits) {
  uint32_t rows[VRF_SCHEMA_ROWS];
  uint8_t names[VRF_SCHEMA_NAMES];
  VrfSchema s = vrf_schema(rows, VRF_SCHEMA_ROWS, names, VRF_SCHEMA_NAMES);
  if (s.refusal != 0) {
    printf("the schema is refused with %" PRIu32 "\n", s.refusal);
    return 1;
  }

  /* Lent nothing, the walk says what it needs. */
  VrfWalk w = vrf_struct_array(bytes, size, bits, rows, s.rows, s.levels, VRF_COMBAT_ROUNDS, names, s.names,
                               NULL, 0, NULL, 0, NULL, 0, NULL, 0, NULL, 0);
  uint32_t *leaves = NULL;
  uint8_t *paths = NULL, *payloads = NULL;
  if (w.refusal == VRF_REFUSED_SHORT_BUFFER) {
    const size_t words = (size_t)w.leaves * VRF_LEAF_WORDS, path_bytes = w.path_bytes, payload_bytes = w.payload_bytes;
    printf("needed: leaves %" PRIu32 ", path bytes %zu, payload bytes %zu\n", w.leaves, path_bytes, payload_bytes);
    leaves = room(words, sizeof *leaves);
    paths = room(path_bytes, 1);
    payloads = room(payload_bytes, 1);
    w = vrf_struct_array(bytes, size, bits, rows, s.rows, s.levels, VRF_COMBAT_ROUNDS, names, s.names,
                         NULL, 0, NULL, 0, leaves, words, paths, path_bytes, payloads, payload_bytes);
  }
  if (w.refusal != 0) {
    printf("refused with %" PRIu32 ": %s\n", w.refusal, refusal_in_words(w.refusal));
  } else {
    for (size_t i = 0; i < w.leaves; i++) {
      print_leaf(leaves + VRF_LEAF_WORDS * i, paths, payloads);
    }
    print_counters(&w.counters);
    printf("padded numbers %" PRIu32 "\n", w.padded);
    printf("verdict: %s\n", verdict_in_words(w.verdict));
  }
  free(leaves);
  free(paths);
  free(payloads);
  return w.refusal == 0 ? 0 : 1;
}

int main(int argc, char **argv) {
  if (argc == 1) {
    return walk(sample, sizeof sample, 8 * sizeof sample);
  }
  if (argc > 3) {
    fputs("usage: example [FILE [BITS]]\n", stderr);
    return 2;
  }
  long size = read_file(argv[1]);
  if (size < 0) {
    fprintf(stderr, "example: can't read %s\n", argv[1]);
    return 2;
  }
  uint32_t bits = 8 * (uint32_t)size;
  if (argc == 3 && !read_count(argv[2], &bits)) {
    fprintf(stderr, "example: %s is no bit count\n", argv[2]);
    return 2;
  }
  return walk(file, (size_t)size, bits);
}
