/* vrf_copy_bits, into a target that is exactly full, longer, or one byte short. */
#include "check.h"

static const uint8_t source[] = {0x21, 0x43, 0x65, 0x87};
static const uint8_t copied[] = {0x0c, 0x95, 0x01}; /* bits 6 to 22, and spare bits that are 0 */

static VrfRead copy(uint8_t *target, size_t target_len, size_t bytes, VrfCursor cursor, uint64_t count) {
  lay_out(target, 8);
  return vrf_copy_bits(source, bytes, cursor, count, target, target_len);
}

static void refused_copy(size_t target_len, size_t bytes, VrfCursor cursor, uint64_t count, uint32_t refusal, uint64_t first,
                         uint64_t second, uint64_t third) {
  uint8_t target[8];
  const VrfRead r = copy(target, target_len, bytes, cursor, count);
  REFUSED(r, refusal, first, second, third, cursor.pos);
  SAME(r.value, 0);
  SAME_UNTOUCHED(target, 8);
}

void copies(void) {
  uint8_t target[8];
  for (size_t lent = 3; lent < 8; lent++) {
    const VrfRead r = copy(target, lent, 4, cursor_at(1, 5, 31), 17);
    ACCEPTED(r, 22);
    SAME(r.value, 0);
    SAME_BYTES(target, copied, sizeof copied);
    SAME_UNTOUCHED(target + 3, 5);
  }
  refused_copy(2, 4, cursor_at(1, 5, 31), 17, 14, 17, 16, 0);
  refused_copy(2, 4, cursor_at(1, 5, 31), 27, 14, 27, 16, 0); /* before 7 */
  refused_copy(4, 4, cursor_at(1, 5, 31), 27, 7, 5, 31, 27);
  refused_copy(0, 3, cursor_at(1, 5, 31), 17, 14, 31, 24, 0); /* the cursor's before the target's */
}
