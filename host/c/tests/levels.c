/* vrf_schema: the table it fills, held to the header's level constants row by row, and walks that start at each level. */
#include "check.h"
#include "window.h"

#include <string.h>

enum { ARRAY = 0, NAME = 1, ROW_WORDS = 5 };

/* A row: an array's level, handle and the level of its elements, or a name's level, handle and text. */
typedef struct Row {
  uint32_t level, kind, handle, child;
  const char *name;
} Row;

static const Row expected[] = {
    {VRF_COMBAT_ROUNDS, ARRAY, 4, VRF_CHARACTER_REPORT, NULL},
    {VRF_COMBAT_ROUNDS, NAME, 4, 0, "Reports"},
    {VRF_ABILITY_CASTS, ARRAY, 13, VRF_ABILITY_EFFECTS, NULL},
    {VRF_ABILITY_CASTS, NAME, 13, 0, "Effects"},
    {VRF_ABILITY_EFFECTS, ARRAY, 18, VRF_AFFECTED_TARGET, NULL},
    {VRF_ABILITY_EFFECTS, NAME, 14, 0, "Statistic"},
    {VRF_ABILITY_EFFECTS, NAME, 15, 0, "LocalizedStat"},
    {VRF_ABILITY_EFFECTS, NAME, 16, 0, "Value"},
    {VRF_ABILITY_EFFECTS, NAME, 17, 0, "Time"},
    {VRF_ABILITY_EFFECTS, NAME, 18, 0, "AffectedTargetsArray"},
    {VRF_LIFE_CHANGE_DAMAGE, NAME, 10, 0, "ChangedComponent"},
    {VRF_LIFE_CHANGE_DAMAGE, NAME, 11, 0, "LifeResult"},
    {VRF_LIFE_CHANGE_DAMAGE, NAME, 12, 0, "DeltaLife"},
    {VRF_LIFE_CHANGE_DAMAGE, NAME, 13, 0, "bAliveAfterChange"},
    {VRF_LIFE_CHANGE_SECTION, NAME, 1, 0, "ChangedComponent"},
    {VRF_LIFE_CHANGE_SECTION, NAME, 2, 0, "LifeResult"},
    {VRF_LIFE_CHANGE_SECTION, NAME, 3, 0, "DeltaLife"},
    {VRF_LIFE_CHANGE_SECTION, NAME, 4, 0, "bAliveAfterChange"},
    {VRF_LIFE_CHANGE_BY_SECTION, NAME, 2, 0, "ChangedComponent"},
    {VRF_LIFE_CHANGE_BY_SECTION, NAME, 3, 0, "LifeResult"},
    {VRF_LIFE_CHANGE_BY_SECTION, NAME, 4, 0, "DeltaLife"},
    {VRF_LIFE_CHANGE_BY_SECTION, NAME, 5, 0, "bAliveAfterChange"},
    {VRF_DEALT_INTERACTION, ARRAY, 44, VRF_LEAVES, NULL},
    {VRF_DEALT_INTERACTION, NAME, 44, 0, "Regions"},
    {VRF_RECEIVED_INTERACTION, ARRAY, 79, VRF_LEAVES, NULL},
    {VRF_RECEIVED_INTERACTION, NAME, 79, 0, "Regions"},
    {VRF_PARTICIPANT, ARRAY, 26, VRF_DEALT_INTERACTION, NULL},
    {VRF_PARTICIPANT, ARRAY, 61, VRF_RECEIVED_INTERACTION, NULL},
    {VRF_PARTICIPANT, NAME, 26, 0, "DealtInteractions"},
    {VRF_PARTICIPANT, NAME, 61, 0, "ReceivedInteractions"},
    {VRF_CHARACTER_REPORT, ARRAY, 10, VRF_PARTICIPANT, NULL},
    {VRF_CHARACTER_REPORT, NAME, 10, 0, "Interactions"},
    {VRF_AFFECTED_TARGET, NAME, 19, 0, "AffectedPlayer"},
    {VRF_AFFECTED_TARGET, NAME, 20, 0, "Value"},
};
enum { EXPECTED = sizeof expected / sizeof expected[0] };

typedef struct LentSchema {
  uint32_t rows[VRF_SCHEMA_ROWS + 3];
  uint8_t names[VRF_SCHEMA_NAMES + 2];
} LentSchema;

static void fill(LentSchema *s, size_t rows_len, size_t names_len) {
  lay_out(s, sizeof *s);
  const VrfSchema a = vrf_schema(s->rows, rows_len, s->names, names_len);
  SAME(a.refusal, 0);
  SAME(a.rows, VRF_SCHEMA_ROWS);
  SAME(a.names, VRF_SCHEMA_NAMES);
  SAME(a.levels, VRF_SCHEMA_LEVELS);
  SAME_UNTOUCHED(s->rows + VRF_SCHEMA_ROWS, sizeof s->rows - VRF_SCHEMA_ROWS * sizeof s->rows[0]);
  SAME_UNTOUCHED(s->names + VRF_SCHEMA_NAMES, sizeof s->names - VRF_SCHEMA_NAMES);
}

static void not_filled(size_t rows_len, size_t names_len) {
  LentSchema s;
  lay_out(&s, sizeof s);
  const VrfSchema a = vrf_schema(s.rows, rows_len, s.names, names_len);
  SAME(a.refusal, 3);
  SAME(a.rows, VRF_SCHEMA_ROWS);
  SAME(a.names, VRF_SCHEMA_NAMES);
  SAME(a.levels, 0);
  SAME_UNTOUCHED(&s, sizeof s);
}

/* Every row in its order; the names take up the pool's bytes to the last. */
static void hold_rows(const LentSchema *s) {
  uint32_t behind = 0;
  SAME(VRF_SCHEMA_ROWS, EXPECTED * ROW_WORDS);
  for (size_t i = 0; i < EXPECTED; i++) {
    const uint32_t *row = s->rows + i * ROW_WORDS;
    SAME(row[0], expected[i].level);
    SAME(row[1], expected[i].kind);
    SAME(row[2], expected[i].handle);
    if (expected[i].kind == ARRAY) {
      SAME(row[3], expected[i].child);
      SAME(row[4], 0);
    } else {
      SAME(row[4], strlen(expected[i].name));
      SAME_BYTES(s->names + row[3], expected[i].name, strlen(expected[i].name));
      behind = row[3] + row[4] > behind ? row[3] + row[4] : behind;
    }
  }
  SAME(behind, VRF_SCHEMA_NAMES);
}

/* Arrays inside one another, one element each, with a leaf of handle 200 in the innermost: the walk's only path, and where its bit is. */
static void hold_path(const LentSchema *s, uint32_t root, const uint32_t *handles, size_t depth, const char *path, uint32_t start) {
  Window w, inner;
  window_clear(&w);
  put_packed(&w, 1);
  put_packed(&w, 1);
  put_number(&w, 200, 1, 1);
  put_packed(&w, 0);
  put_packed(&w, 0);
  for (size_t i = depth; i-- > 0;) {
    inner = w;
    window_clear(&w);
    put_packed(&w, 1);
    put_packed(&w, 1);
    put_window(&w, handles[i], &inner);
    put_packed(&w, 0);
    put_packed(&w, 0);
  }
  uint32_t leaves[VRF_LEAF_WORDS];
  uint8_t paths[128], payloads[1];
  const VrfWalk a = vrf_struct_array(w.bytes, window_bytes(&w), w.bits, s->rows, VRF_SCHEMA_ROWS, VRF_SCHEMA_LEVELS, root, s->names,
                                     VRF_SCHEMA_NAMES, NULL, 0, NULL, 0, leaves, VRF_LEAF_WORDS, paths, sizeof paths, payloads, 1);
  SAME(a.refusal, 0);
  SAME(a.counters.elements, depth + 1);
  SAME(a.verdict, VRF_CLEAN);
  SAME(a.path_bytes, strlen(path));
  SAME_BYTES(paths, path, strlen(path));
  SAME(leaves[5], start);
}

void levels(void) {
  LentSchema s;
  not_filled(VRF_SCHEMA_ROWS - 1, VRF_SCHEMA_NAMES);
  not_filled(VRF_SCHEMA_ROWS, VRF_SCHEMA_NAMES - 1);
  not_filled(0, 0);
  fill(&s, VRF_SCHEMA_ROWS + 3, VRF_SCHEMA_NAMES + 2);
  hold_rows(&s);
  fill(&s, VRF_SCHEMA_ROWS, VRF_SCHEMA_NAMES);
  hold_rows(&s);

  static const uint32_t dealt[] = {4, 10, 26, 44}, received[] = {4, 10, 61, 79}, targets[] = {13, 18};
  hold_path(&s, VRF_COMBAT_ROUNDS, dealt, 4, "[0].Reports[0].Interactions[0].DealtInteractions[0].Regions[0]._h200", 184);
  hold_path(&s, VRF_CHARACTER_REPORT, dealt + 1, 3, "[0].Interactions[0].DealtInteractions[0].Regions[0]._h200", 144);
  hold_path(&s, VRF_PARTICIPANT, received + 2, 2, "[0].ReceivedInteractions[0].Regions[0]._h200", 104);
  hold_path(&s, VRF_DEALT_INTERACTION, dealt + 3, 1, "[0].Regions[0]._h200", 72);
  hold_path(&s, VRF_RECEIVED_INTERACTION, received + 3, 1, "[0].Regions[0]._h200", 72);
  hold_path(&s, VRF_ABILITY_CASTS, targets, 2, "[0].Effects[0].AffectedTargetsArray[0]._h200", 104);
  hold_path(&s, VRF_ABILITY_EFFECTS, targets + 1, 1, "[0].AffectedTargetsArray[0]._h200", 72);
  hold_path(&s, VRF_AFFECTED_TARGET, NULL, 0, "[0]._h200", 40);
  hold_path(&s, VRF_LEAVES, NULL, 0, "[0]._h200", 40);
}
