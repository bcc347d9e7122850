/* The proved array walkers and bit reader, for C.
 *
 * libexports.a holds these functions, with the machine's own calling convention for C. Build it with tools/staticlib; see example.c
 * for a program that uses it. Each function is proved, whatever it is handed: it ends, it stays inside what is lent, and what it
 * answers and leaves in the lent buffers is what a definition makes of the inputs and of nothing else. The contracts stand in
 * crates/exports_c/src/lib.rt. There is no state: calls from several threads don't meet.
 *
 * What you hand in
 *   A slice is a pointer and a length. Lengths count elements of the pointer's type, not bytes: a buffer of 170 uint32_t has
 *   the length 170. A `const` slice is read; the others are lent for the time of the call and may be written.
 *   A bit count says how many bits of the bytes belong to the window. A byte holds eight, its lowest bit first.
 *
 * What you owe, since nothing here can check it
 *   - A length is real: so many elements stand behind the pointer, and all of them may be read (lent ones: written).
 *   - A pointer is aligned for its type, as every C array is.
 *   - A lent buffer overlaps no other argument of the call, lent or `const`. Two `const` slices may overlap.
 *   - No other thread writes to an argument while the call runs.
 *   - The floating-point environment is the default one, as a C program starts with: rounding to nearest, denormals not flushed to
 *     zero, exceptions masked. In another one the components of vectors, normals and movements come out otherwise, or the program
 *     is stopped by a signal; tests/environment.c shows it.
 *   A null pointer with the length 0 is fine.
 *   Everything else is checked: any bytes, any tables, any number gets an answer. Not proved: how long a call takes, and how much
 *   stack.
 *
 * What you get
 *   A struct by value; vrf_verdict and vrf_byte_angle_steps give a number. `refusal` is 0 if the call is accepted, else the number
 *   of a refusal. A refused call has written nothing.
 *   Behind it stand the values that the refusal names (below), then what only an accepted call gives. In a refused answer all that
 *   isn't named is 0, but for `position`; so a `verdict` of 0 says "clean" only where `refusal` is 0 too.
 *
 * What a sheet does with a walk's verdict
 *   VRF_CLEAN    its row stands: all of the window was read, as one whole array.
 *   VRF_PARTIAL  its row stands with what there is, and is marked: something is broken, cut off, over a limit or left unread.
 *   VRF_EMPTY    it gets no row: nothing was sent, which is something else than a round in which nothing happened. That one has bits, an
 *                array of no elements, and is clean. What the sheet had before stays, and is not taken for this round's.
 *
 * Refusals, and the values that come with them; below, VRF_REFUSED_TOO_LONG and so on are the numbers by name
 *    1  a bit count over 524,288                                               none
 *    2  a schema or the declared names aren't laid out as they have to be, or
 *       pass a size, or the root isn't one of the levels                       none
 *    3  a lent buffer is too short                                             what each of them needs: fields of the same name
 *    4  a sum of two counters is over 2^64 - 1                                 the left counters
 *    5  retired: no call gives it                                              none
 *    6  the bits aren't a fast-array body, or the bytes aren't as many as the
 *       bits take                                                              none
 *    7  a read asks more bits than the window has left                         first: position, second: window's length, third: bits asked
 *    8  a packed number's fifth byte says that another follows                 first: where it starts
 *    9  a packed number's fifth byte holds more than 15                        first: where it starts
 *   10  a serialized integer is asked with maximum 0                           none
 *   11  a vector is asked with scale 0                                         none
 *   12  a vector's component is a NaN or infinite                              none
 *   13  more than 64 bits are asked in one read, or a rotation's width is
 *       neither 8 nor 16                                                       none
 *   14  a reader or a movement has more bits than its bytes hold, a cursor
 *       passes its window or bytes, or a copy's target is too short            first: bits asked, second: bits there are
 *   docs/REFUSALS.md says what a person at a box does about each.
 *   A walk is refused with 1, 2 or 3 alone. One whose bits pass its bytes is accepted: it gives nothing, counts one error and is partial.
 */
#ifndef VRF_H
#define VRF_H

#include <stdbool.h>
#include <stddef.h>
#include <stdint.h>

#ifdef __cplusplus
extern "C" {
#endif

/* ---- refusals, by the names of docs/REFUSALS.md */

enum {
  VRF_REFUSED_TOO_LONG = 1,
  VRF_REFUSED_BROKEN_TABLES = 2,
  VRF_REFUSED_SHORT_BUFFER = 3,
  VRF_REFUSED_COUNTER_OVERFLOW = 4,
  /* 5 is retired */
  VRF_REFUSED_NOT_FAST_ARRAY = 6,
  VRF_REFUSED_TOO_FEW_BITS = 7,
  VRF_REFUSED_NUMBER_GOES_ON = 8,
  VRF_REFUSED_NUMBER_TOO_LARGE = 9,
  VRF_REFUSED_NO_MAXIMUM = 10,
  VRF_REFUSED_NO_SCALE = 11,
  VRF_REFUSED_NOT_FINITE = 12,
  VRF_REFUSED_NO_SUCH_WIDTH = 13,
  VRF_REFUSED_PAST_THE_END = 14
};

/* ---- walks */

enum {
  VRF_LONGEST_WINDOW = 524288, /* bits */
  VRF_LONGEST_PATH = 852,      /* bytes of a leaf's path, at most */
  VRF_LEAF_WORDS = 6,          /* uint32_t in a leaf */
  VRF_PAIR_WORDS = 2,          /* uint32_t in a pair */
  VRF_CLEAN = 0,               /* verdicts; a refused walk has none, and 0 in its place */
  VRF_PARTIAL = 1,
  VRF_EMPTY = 2
};

/* A root level that means no schema; a declared name's start, with length 0, that means none; the handle of a kept tail, `_raw`;
 * what vrf_byte_angle_steps gives for a number that is no byte. */
#define VRF_NONE UINT32_C(4294967295)

/* What a walk counted. Of a window with bits the verdict is clean if all but the first two are 0. */
typedef struct VrfCounters {
  uint64_t elements;              /* elements, of all levels */
  uint64_t fields;                /* leaves, kept tails among them; in an object walk pairs */
  uint64_t truncations;           /* more stood there than is allowed: elements, fields, levels */
  uint64_t errors;                /* what can't be read; the rest of that array, or that pair, is lost */
  uint64_t nested_bits;           /* bits inside payloads that were stepped past */
  uint64_t root_bits;             /* bits behind the root array */
  uint64_t implicit_terminations; /* times that a window ended where a closing zero was due */
} VrfCounters;

/* Padded numbers
 *   A packed number is padded if it takes more bytes than its value needs: 01 00 for zero. Every reading here accepts such a number and
 *   says so, of one number with `bytes` and `padded`, of a walk, a fast array or a movement with how many there were. For a box it means
 *   that the recorder which wrote the window uses long forms, and nothing else: nothing is damaged or missing, and no counter and no
 *   verdict asks whether a number is padded. A number counts once it is read, in every level, also where its value is then turned away:
 *   a count above 4,096, an index that isn't below the count, a width past the window, an object that doesn't fill its payload. One that
 *   can't be read doesn't count, nor does one that the walk puts back behind the last element or field that it takes.
 *   vrf_merge doesn't add these counts up: they are no counters. */

/* Accepted: how much of each buffer is filled. Refusal 3: how much of each is needed. */
typedef struct VrfWalk {
  uint32_t refusal; /* 1, 2, 3, tried in this order */
  uint32_t leaves;  /* leaves, of VRF_LEAF_WORDS each */
  uint32_t path_bytes;
  uint32_t payload_bytes;
  VrfCounters counters;
  uint32_t verdict; /* VRF_CLEAN, VRF_PARTIAL or, of no bits, VRF_EMPTY */
  uint32_t padded;  /* how many padded numbers were read, children's among them; whatever it is, the verdict doesn't depend on it */
} VrfWalk;

/* The array of structs in the first `bits` bits, taken apart into leaves.
 *
 * Tables. rows: the schema, five uint32_t a row (see vrf_schema, which fills one); levels: how many levels it has; root: the level
 * of the outermost elements, or VRF_NONE; names: the names that rows point into. declared: for each handle two uint32_t, the start
 * and the length of its name in declared_names. Without tables pass lengths 0, levels 0 and root VRF_NONE. rows_len has to be the
 * table's own length: what stands behind the table in a larger buffer is not a row.
 *
 * Outputs. A leaf is six uint32_t: path start, path length, handle, bits, payload start, window start. Path and payload start count
 * bytes of paths and of payloads; paths aren't ended by a zero. A payload takes (bits + 7) / 8 bytes, the first bit lowest, the last
 * byte's spare bits 0. The window start is the bit of the walked window where the payload starts, counted from the window's first bit
 * also for a leaf of an array in an array; tests/window_starts.c tries whether vrf_copy_bits finds the same payload there. A leaf of no
 * bits starts behind its width. A kept tail starts behind the count if that is above 4,096; behind 128 fields or 4,096 elements it starts
 * with the number that is one too many, which is part of the tail.
 *
 * How large to lend: call once with lengths 0. The answer is refusal 3 with leaves, path_bytes and payload_bytes; lend
 * VRF_LEAF_WORDS * leaves numbers and so many bytes, and call again. (A walk that gives nothing is accepted at once.) Paths never
 * need more than VRF_LONGEST_PATH bytes for each leaf. */
VrfWalk vrf_struct_array(const uint8_t *bytes, size_t bytes_len, uint32_t bits,
                         const uint32_t *rows, size_t rows_len, uint32_t levels, uint32_t root,
                         const uint8_t *names, size_t names_len,
                         const uint32_t *declared, size_t declared_len,
                         const uint8_t *declared_names, size_t declared_names_len,
                         uint32_t *leaves, size_t leaves_len,
                         uint8_t *paths, size_t paths_len,
                         uint8_t *payloads, size_t payloads_len);

/* The same with no schema, and with no zero byte accepted behind the array. */
VrfWalk vrf_struct_array_exact(const uint8_t *bytes, size_t bytes_len, uint32_t bits,
                               const uint32_t *declared, size_t declared_len,
                               const uint8_t *declared_names, size_t declared_names_len,
                               uint32_t *leaves, size_t leaves_len,
                               uint8_t *paths, size_t paths_len,
                               uint8_t *payloads, size_t payloads_len);

typedef struct VrfObjects {
  uint32_t refusal; /* 1, 3 */
  uint32_t pairs;   /* filled, or with refusal 3 needed */
  VrfCounters counters;
  uint32_t verdict; /* VRF_CLEAN or VRF_PARTIAL; of no bits it is partial, with one error */
  uint32_t padded;  /* how many padded numbers were read, the objects among them */
} VrfObjects;

/* The array of object references in the first `bits` bits. A pair is two uint32_t: index, object. How large to lend: call once
 * with length 0, then lend VRF_PAIR_WORDS * pairs numbers. */
VrfObjects vrf_object_array(const uint8_t *bytes, size_t bytes_len, uint32_t bits, uint32_t *pairs, size_t pairs_len);

typedef struct VrfMerge {
  uint32_t refusal; /* 4 */
  VrfCounters counters;
} VrfMerge;

/* The counters of two walks added up, counter by counter. Sets that are merged one after another into zero, or in any brackets, give
 * the same total in every order, or in every order one of the merges is refused, which is so exactly if some counter's total is over
 * 2^64 - 1. Which merge it is depends on the order: a total ends there, and the counters beside a refusal are no part of one. */
VrfMerge vrf_merge(VrfCounters left, VrfCounters right);

/* VRF_CLEAN or VRF_PARTIAL, of a set of counters: of one walk, or of several merged. It refuses nothing. Never VRF_EMPTY: the
 * rule on no bits is a window's, and counters don't tell how many bits were walked. Of a single window take the verdict that its walk
 * answered: the counters of an empty one are all 0, which this calls clean. */
uint32_t vrf_verdict(VrfCounters counters);

/* ---- the schema */

enum {
  VRF_SCHEMA_ROWS = 170,  /* uint32_t */
  VRF_SCHEMA_NAMES = 187, /* bytes */
  VRF_SCHEMA_LEVELS = 12
};

/* The levels; a walk may start at 1 to 6. */
enum {
  VRF_LEAVES = 0,
  VRF_COMBAT_ROUNDS = 1,
  VRF_ABILITY_CASTS = 2,
  VRF_ABILITY_EFFECTS = 3,
  VRF_LIFE_CHANGE_DAMAGE = 4,
  VRF_LIFE_CHANGE_SECTION = 5,
  VRF_LIFE_CHANGE_BY_SECTION = 6,
  VRF_DEALT_INTERACTION = 7,
  VRF_RECEIVED_INTERACTION = 8,
  VRF_PARTICIPANT = 9,
  VRF_CHARACTER_REPORT = 10,
  VRF_AFFECTED_TARGET = 11
};

typedef struct VrfSchema {
  uint32_t refusal; /* 3 */
  size_t rows;      /* uint32_t filled, or with refusal 3 needed */
  size_t names;     /* bytes filled, or with refusal 3 needed */
  uint32_t levels;  /* for the walk's parameter of that name */
} VrfSchema;

/* The twelve levels, to the front of both buffers. Lend VRF_SCHEMA_ROWS numbers and VRF_SCHEMA_NAMES bytes or more; hand the walk
 * the lengths that come back. */
VrfSchema vrf_schema(uint32_t *rows, size_t rows_len, uint8_t *names, size_t names_len);

/* ---- the fast array */

enum {
  VRF_ITEM_WORDS = 2, /* uint32_t in an item */
  VRF_FIELD_WORDS = 3 /* uint32_t in a field */
};

typedef struct VrfFastArray {
  uint32_t refusal; /* 1, 6, 3, tried in this order */
  uint32_t deletes; /* these three: filled, or with refusal 3 needed */
  uint32_t items;
  uint32_t fields;
  int32_t key;
  int32_t base;
  uint32_t used;   /* bits: all of them */
  uint32_t padded; /* how many of the handles, widths and closing zeros are padded */
} VrfFastArray;

/* The fast-array body that the first `bits` bits are; payload_len has to be (bits + 7) / 8. checksum: 0 if no flag bit stands behind
 * an item's id, any other number if one does. The bits can't tell which it is: the caller has to know.
 * A deleted id is one int32_t. An item is two numbers, the bits of its id and how many fields it has; its fields follow those of the items before it. A
 * field is its handle, the first bit of its payload and its width. How large to lend: call once with lengths 0, then lend deletes,
 * VRF_ITEM_WORDS * items and VRF_FIELD_WORDS * fields numbers. */
VrfFastArray vrf_fast_array(const uint8_t *payload, size_t payload_len, uint32_t bits, uint32_t checksum,
                            int32_t *deleted, size_t deleted_len,
                            uint32_t *items, size_t items_len,
                            uint32_t *fields, size_t fields_len);

/* ---- bit reads */

/* A window of some bytes, and a place in it. For the first n bits of some bytes: { 0, 0, n }. Every number is allowed: a cursor that
 * doesn't fit its bytes is refused with 14 before all else. */
typedef struct VrfCursor {
  uint64_t start; /* the window's first bit in the bytes */
  uint64_t pos;   /* the next bit to read, counted from the window's first */
  uint64_t len;   /* the window's length in bits */
} VrfCursor;

/* position: where the cursor stands afterwards, refused or not; put it into the cursor's pos to go on. */
typedef struct VrfRead {
  uint32_t refusal;
  uint64_t first, second, third;
  uint64_t value;
  uint64_t position;
} VrfRead;

/* The next `count` bits, at most 64, as one number, the first bit lowest. 14, 13, 7. */
VrfRead vrf_read_bits(const uint8_t *bytes, size_t bytes_len, VrfCursor cursor, uint64_t count);

/* What VrfRead has, at the same places, and the form of a packed number; where it is refused, 0 and false. */
typedef struct VrfPacked {
  uint32_t refusal;
  uint64_t first, second, third;
  uint64_t value;
  uint64_t position;
  uint32_t bytes; /* 1 to 5: how many it takes */
  bool padded;    /* it could be had in fewer */
} VrfPacked;

/* A packed number. 14, 7, 8, 9. */
VrfPacked vrf_read_packed(const uint8_t *bytes, size_t bytes_len, VrfCursor cursor);

/* An integer below maximum. 14, 10, 7. */
VrfRead vrf_read_serialized(const uint8_t *bytes, size_t bytes_len, VrfCursor cursor, uint32_t maximum);

/* The next `count` bits to the front of target, which needs (count + 7) / 8 bytes; the last byte's spare bits become 0. value is 0.
 * 14 for the cursor, 14 for the target, 7. */
VrfRead vrf_copy_bits(const uint8_t *bytes, size_t bytes_len, VrfCursor cursor, uint64_t count,
                      uint8_t *target, size_t target_len);

/* ---- vectors, rotations, movement */

typedef struct VrfXyz {
  double x, y, z;
} VrfXyz;

/* In degrees. */
typedef struct VrfAngles {
  float pitch, yaw, roll;
} VrfAngles;

typedef struct VrfVector {
  uint32_t refusal;
  uint64_t first, second, third;
  VrfXyz value;
  uint64_t position;
} VrfVector;

typedef struct VrfRotation {
  uint32_t refusal;
  uint64_t first, second, third;
  VrfAngles value;
  uint64_t position;
} VrfRotation;

/* A quantized vector. 14, 11, 7, 12. */
VrfVector vrf_vector(const uint8_t *bytes, size_t bytes_len, VrfCursor cursor, uint32_t scale);

/* A fixed-point normal. 14, 7. */
VrfVector vrf_normal(const uint8_t *bytes, size_t bytes_len, VrfCursor cursor);

/* A rotation of 8 or 16 bits an axis. 14, 13, 7. */
VrfRotation vrf_rotation(const uint8_t *bytes, size_t bytes_len, VrfCursor cursor, uint32_t width);

/* The angle of the byte k in whole thirty-seconds of a degree: 45 times k. In a rotation of 8 bits an axis each angle is such a
 * number divided by 32, and nothing is lost by that. A k above 255 is no byte: VRF_NONE. There is no refusal. */
uint32_t vrf_byte_angle_steps(uint32_t k);

/* Absent is not the same as zero: look at `present` first. */
typedef struct VrfSpin {
  bool present;
  VrfXyz velocity;
} VrfSpin;

typedef struct VrfNumber {
  bool present;
  uint32_t value;
} VrfNumber;

typedef struct VrfMovement {
  uint32_t refusal; /* 1, 14, then those of the parts: 7, 8, 9, 12 */
  uint64_t first, second, third;
  VrfXyz location;
  VrfAngles rotation;
  VrfXyz linear; /* velocity */
  VrfSpin angular;
  bool sleep;
  bool physics;
  VrfNumber frame;
  VrfNumber handle;
  uint64_t position; /* the bits used, or where a refused reading stopped */
  uint32_t padded;   /* how many of frame and handle are padded: 0, 1 or 2 */
} VrfMovement;

/* How a movement is sent. A number that isn't listed counts as the last of its list. */
enum { VRF_ROTATION_8_BITS = 0, VRF_ROTATION_16_BITS = 1 };
enum { VRF_LOCATION_SCALE_1 = 0, VRF_LOCATION_SCALE_10 = 1, VRF_LOCATION_SCALE_100 = 2 };

/* The movement record in the first `count` bits; bits may be left over. */
VrfMovement vrf_movement(const uint8_t *bytes, size_t bytes_len, uint64_t count, uint32_t rotation, uint32_t location);

#ifdef __cplusplus
}
#endif

#endif
