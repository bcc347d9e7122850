/* Checks that count themselves. One that fails prints where it stands, what was looked at, what was there and what should be. */
#ifndef CHECK_H
#define CHECK_H

#include "vrf.h"

#include <stddef.h>
#include <stdint.h>

void same_number(const char *file, int line, const char *what, uint64_t got, uint64_t want);
void same_double(const char *file, int line, const char *what, double got, double want);
void same_float(const char *file, int line, const char *what, float got, float want);
void same_bytes(const char *file, int line, const char *what, const void *got, const void *want, size_t size);

#define SAME(got, want) same_number(__FILE__, __LINE__, #got, (uint64_t)(got), (uint64_t)(want))
/* Floats are the same if their bits are: -0 is not 0. */
#define SAME_DOUBLE(got, want) same_double(__FILE__, __LINE__, #got, (got), (want))
#define SAME_FLOAT(got, want) same_float(__FILE__, __LINE__, #got, (got), (want))
#define SAME_BYTES(got, want, size) same_bytes(__FILE__, __LINE__, #got, (got), (want), (size))

/* Seven counters in the header's order. They are named one by one: the order of the struct's fields is what is tested. */
#define SAME_COUNTERS(c, e, f, t, r, n, o, i) \
  do { \
    SAME((c).elements, e); \
    SAME((c).fields, f); \
    SAME((c).truncations, t); \
    SAME((c).errors, r); \
    SAME((c).nested_bits, n); \
    SAME((c).root_bits, o); \
    SAME((c).implicit_terminations, i); \
  } while (0)
#define NO_COUNTERS(c) SAME_COUNTERS(c, 0, 0, 0, 0, 0, 0, 0)

/* What a refused read names, and where it leaves the cursor. */
#define REFUSED(r, number, a, b, c, at) \
  do { \
    SAME((r).refusal, number); \
    SAME((r).first, a); \
    SAME((r).second, b); \
    SAME((r).third, c); \
    SAME((r).position, at); \
  } while (0)
#define ACCEPTED(r, at) REFUSED(r, 0, 0, 0, 0, at)

VrfCursor cursor_at(uint64_t start, uint64_t pos, uint64_t len);

/* What stands in lent buffers before a call, so that an untouched cell is known. */
enum { UNTOUCHED = 0xa5 };
#define UNTOUCHED_WORD UINT32_C(0xa5a5a5a5)
void lay_out(void *buffer, size_t size);
/* Whether `size` bytes from `from` on are as lay_out left them. */
void same_untouched(const char *file, int line, const char *what, const void *from, size_t size);
#define SAME_UNTOUCHED(from, size) same_untouched(__FILE__, __LINE__, #from, (from), (size))

/* The tests, one a file. */
void struct_walks(void);
void exact_walks(void);
void object_walks(void);
void counters(void);
void levels(void);
void fast_arrays(void);
void reads(void);
void padded_numbers(void);
void window_starts(void);
void copies(void);
void vectors(void);
void rotations(void);
void movements(void);
void constants(void);
void environment(void);

#endif
