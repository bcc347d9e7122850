/* vrf_merge and vrf_verdict, with a number of its own in every counter; totals of four sets. */
#include "check.h"

static VrfCounters counted(uint64_t e, uint64_t f, uint64_t t, uint64_t r, uint64_t n, uint64_t o, uint64_t i) {
  VrfCounters c;
  c.elements = e;
  c.fields = f;
  c.truncations = t;
  c.errors = r;
  c.nested_bits = n;
  c.root_bits = o;
  c.implicit_terminations = i;
  return c;
}

static VrfMerge total_of(VrfCounters set) {
  VrfMerge m;
  m.refusal = 0;
  m.counters = set;
  return m;
}

/* What two totals merged give; one that was refused stays so. */
static VrfMerge both(VrfMerge left, VrfMerge right) {
  if (left.refusal != 0) {
    return left;
  }
  return right.refusal != 0 ? right : vrf_merge(left.counters, right.counters);
}

/* Four sets in every order, one after another into zero and in two other bracketings: each gives `want`, of this verdict, or each is
 * refused with `refusal`. */
static void same_totals(const VrfCounters sets[4], uint32_t refusal, VrfCounters want, uint32_t verdict) {
  const VrfMerge zero = total_of(counted(0, 0, 0, 0, 0, 0, 0));
  for (int k = 0; k < 4 * 4 * 4; k++) {
    const int a = k % 4, b = k / 4 % 4, c = k / 16, d = 6 - a - b - c;
    if (a == b || b == c || a == c) {
      continue;
    }
    const VrfMerge m[4] = {total_of(sets[a]), total_of(sets[b]), total_of(sets[c]), total_of(sets[d])};
    const VrfMerge totals[3] = {both(both(both(both(zero, m[0]), m[1]), m[2]), m[3]), both(both(m[0], m[1]), both(m[2], m[3])),
                                both(m[0], both(m[1], both(m[2], both(m[3], zero))))};
    for (int i = 0; i < 3; i++) {
      SAME(totals[i].refusal, refusal);
      if (refusal == 0) {
        SAME_COUNTERS(totals[i].counters, want.elements, want.fields, want.truncations, want.errors, want.nested_bits, want.root_bits,
                      want.implicit_terminations);
        SAME(vrf_verdict(totals[i].counters), verdict);
      }
    }
  }
}

void counters(void) {
  const VrfCounters left = counted(1, 2, 3, 4, 5, 6, 7);
  VrfMerge m = vrf_merge(left, counted(10, 200, 3000, 40000, 500000, 6000000, 70000000));
  SAME(m.refusal, 0);
  SAME_COUNTERS(m.counters, 11, 202, 3003, 40004, 500005, 6000006, 70000007);

  /* The largest sum, and one more in each counter: refused, and the left set comes back. */
  m = vrf_merge(left, counted(UINT64_MAX - 1, UINT64_MAX - 2, UINT64_MAX - 3, UINT64_MAX - 4, UINT64_MAX - 5, UINT64_MAX - 6,
                              UINT64_MAX - 7));
  SAME(m.refusal, 0);
  SAME_COUNTERS(m.counters, UINT64_MAX, UINT64_MAX, UINT64_MAX, UINT64_MAX, UINT64_MAX, UINT64_MAX, UINT64_MAX);
  for (int k = 0; k < 7; k++) {
    VrfCounters right = counted(80, 81, 82, 83, 84, 85, 86);
    uint64_t *const each[] = {&right.elements,  &right.fields,    &right.truncations,          &right.errors, &right.nested_bits,
                              &right.root_bits, &right.implicit_terminations};
    *each[k] = UINT64_MAX - (uint64_t)k; /* one more than fits beside the left's k + 1 */
    m = vrf_merge(left, right);
    SAME(m.refusal, 4);
    SAME_COUNTERS(m.counters, 1, 2, 3, 4, 5, 6, 7);
    m = vrf_merge(right, left);
    SAME(m.refusal, 4);
    SAME_COUNTERS(m.counters, right.elements, right.fields, right.truncations, right.errors, right.nested_bits, right.root_bits,
                  right.implicit_terminations);
  }

  /* Four boxes, whose elements come to the largest total, then to one more; one of them isn't clean. Then all are, and the fields do. */
  VrfCounters sets[4] = {counted(UINT64_MAX - 60, 1, 0, 0, 0, 0, 0), counted(10, 20, 0, 0, 0, 0, 0), counted(20, 300, 0, 0, 0, 0, 3),
                         counted(30, 4000, 0, 0, 0, 0, 0)};
  same_totals(sets, 0, counted(UINT64_MAX, 4321, 0, 0, 0, 0, 3), VRF_PARTIAL);
  sets[1].elements++;
  same_totals(sets, 4, counted(0, 0, 0, 0, 0, 0, 0), 0);
  sets[1].elements--;
  sets[2].implicit_terminations = 0;
  sets[3].fields = UINT64_MAX - 321;
  same_totals(sets, 0, counted(UINT64_MAX, UINT64_MAX, 0, 0, 0, 0, 0), VRF_CLEAN);
  sets[0].fields++;
  same_totals(sets, 4, counted(0, 0, 0, 0, 0, 0, 0), 0);

  SAME(vrf_verdict(counted(0, 0, 0, 0, 0, 0, 0)), VRF_CLEAN);
  SAME(vrf_verdict(counted(9, 0, 0, 0, 0, 0, 0)), VRF_CLEAN);
  SAME(vrf_verdict(counted(0, 9, 0, 0, 0, 0, 0)), VRF_CLEAN);
  SAME(vrf_verdict(counted(0, 0, 1, 0, 0, 0, 0)), VRF_PARTIAL);
  SAME(vrf_verdict(counted(0, 0, 0, 1, 0, 0, 0)), VRF_PARTIAL);
  SAME(vrf_verdict(counted(0, 0, 0, 0, 1, 0, 0)), VRF_PARTIAL);
  SAME(vrf_verdict(counted(0, 0, 0, 0, 0, 1, 0)), VRF_PARTIAL);
  SAME(vrf_verdict(counted(0, 0, 0, 0, 0, 0, 1)), VRF_PARTIAL);
}
