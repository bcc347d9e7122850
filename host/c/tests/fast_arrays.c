/* vrf_fast_array, with and without flag bits. Every length is needed and differs from the others. */
#include "check.h"
#include "window.h"

enum { DELETES = 4, ITEMS = 3, FIELDS = 5, PADDED = 6, ITEM_NUMBERS = ITEMS * VRF_ITEM_WORDS, FIELD_NUMBERS = FIELDS * VRF_FIELD_WORDS };
#define KEY INT32_C(100)
#define BASE INT32_C(-7)

static const int32_t ids[DELETES] = {11, -12, INT32_MIN, 14};
static const uint32_t items_expected[ITEM_NUMBERS] = {20, 3, 0xfffffff0, 2, 22, 0}; /* id and number of fields */

/* Writes the body; starts is where the payloads of its fields begin. The handles and widths of the first two fields are padded, and the
 * zeros of the first two items. */
static void write_body(Window *w, int flags, uint32_t *starts) {
  window_clear(w);
  put_bits(w, 1, 1);
  put_bits(w, (uint32_t)KEY, 32);
  put_bits(w, (uint32_t)BASE, 32);
  put_bits(w, DELETES, 32);
  put_bits(w, ITEMS, 32);
  for (int i = 0; i < DELETES; i++) {
    put_bits(w, (uint32_t)ids[i], 32);
  }
  for (uint32_t item = 0, field = 0; item < ITEMS; item++) {
    put_bits(w, items_expected[VRF_ITEM_WORDS * item], 32);
    put_bits(w, 1, flags ? 1 : 0);
    for (uint32_t n = 0; n < items_expected[VRF_ITEM_WORDS * item + 1]; n++, field++) {
      put_padded(w, 31 + field, field < 2 ? 2 : 1);
      put_padded(w, 2 * field + 1, field < 2 ? 5 : 1);
      starts[field] = w->bits;
      put_bits(w, UINT64_MAX, 2 * field + 1);
    }
    put_padded(w, 0, ITEMS - item);
  }
}

typedef struct LentBody {
  int32_t deleted[DELETES + 2];
  uint32_t items[ITEM_NUMBERS + 3];
  uint32_t fields[FIELD_NUMBERS + 4];
} LentBody;

static void hold_body(const LentBody *lent, const uint32_t *starts) {
  SAME_BYTES(lent->deleted, ids, sizeof ids);
  SAME_BYTES(lent->items, items_expected, sizeof items_expected);
  for (uint32_t field = 0; field < FIELDS; field++) {
    SAME(lent->fields[VRF_FIELD_WORDS * field], 30 + field);
    SAME(lent->fields[VRF_FIELD_WORDS * field + 1], starts[field]);
    SAME(lent->fields[VRF_FIELD_WORDS * field + 2], 2 * field + 1);
  }
  SAME_UNTOUCHED(lent->deleted + DELETES, sizeof lent->deleted - sizeof ids);
  SAME_UNTOUCHED(lent->items + ITEM_NUMBERS, sizeof lent->items - sizeof items_expected);
  SAME_UNTOUCHED(lent->fields + FIELD_NUMBERS, sizeof lent->fields - FIELD_NUMBERS * sizeof lent->fields[0]);
}

static void accepted_body(int flags, uint32_t checksum, size_t deleted, size_t items, size_t fields) {
  Window w;
  LentBody lent;
  uint32_t starts[FIELDS];
  write_body(&w, flags, starts);
  lay_out(&lent, sizeof lent);
  const VrfFastArray a =
      vrf_fast_array(w.bytes, window_bytes(&w), w.bits, checksum, lent.deleted, deleted, lent.items, items, lent.fields, fields);
  SAME(a.refusal, 0);
  SAME(a.deletes, DELETES);
  SAME(a.items, ITEMS);
  SAME(a.fields, FIELDS);
  SAME(a.key, KEY);
  SAME(a.base, BASE);
  SAME(a.used, w.bits);
  SAME(a.padded, PADDED);
  hold_body(&lent, starts);
}

static void refused_body(uint32_t refusal, const Window *w, size_t bytes, uint32_t bits, uint32_t checksum, size_t deleted, size_t items,
                         size_t fields) {
  LentBody lent;
  lay_out(&lent, sizeof lent);
  const VrfFastArray a = vrf_fast_array(w->bytes, bytes, bits, checksum, lent.deleted, deleted, lent.items, items, lent.fields, fields);
  SAME(a.refusal, refusal);
  SAME(a.deletes, refusal == 3 ? DELETES : 0);
  SAME(a.items, refusal == 3 ? ITEMS : 0);
  SAME(a.fields, refusal == 3 ? FIELDS : 0);
  SAME(a.key, 0);
  SAME(a.base, 0);
  SAME(a.used, 0);
  SAME(a.padded, 0);
  SAME_UNTOUCHED(&lent, sizeof lent);
}

void fast_arrays(void) {
  accepted_body(0, 0, DELETES, ITEM_NUMBERS, FIELD_NUMBERS);
  accepted_body(1, 1, DELETES, ITEM_NUMBERS, FIELD_NUMBERS);
  accepted_body(1, 9, DELETES + 2, ITEM_NUMBERS + 3, FIELD_NUMBERS + 4);

  Window w;
  uint32_t starts[FIELDS];
  write_body(&w, 0, starts);
  const size_t bytes = window_bytes(&w);
  refused_body(3, &w, bytes, w.bits, 0, DELETES - 1, ITEM_NUMBERS, FIELD_NUMBERS);
  refused_body(3, &w, bytes, w.bits, 0, DELETES, ITEM_NUMBERS - 1, FIELD_NUMBERS);
  refused_body(3, &w, bytes, w.bits, 0, DELETES, ITEM_NUMBERS, FIELD_NUMBERS - 1);
  refused_body(3, &w, bytes, w.bits, 0, 0, 0, 0);
  refused_body(6, &w, bytes, w.bits, 1, 0, 0, 0); /* read with flags that aren't there; before 3 */
  refused_body(6, &w, bytes + 1, w.bits, 0, DELETES, ITEM_NUMBERS, FIELD_NUMBERS);
  refused_body(6, &w, bytes - 1, w.bits, 0, DELETES, ITEM_NUMBERS, FIELD_NUMBERS);
  refused_body(6, &w, (w.bits + 6) / 8, w.bits - 1, 0, DELETES, ITEM_NUMBERS, FIELD_NUMBERS);
  refused_body(1, &w, bytes, VRF_LONGEST_WINDOW + 1, 0, DELETES, ITEM_NUMBERS, FIELD_NUMBERS); /* before 6 */
}
