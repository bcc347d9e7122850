//! Which handles are arrays, and what handles are called, level by level.
//!
//! The twelve levels here are those of the proved table ([`crate::lent::schema`]); tests/schema.rs holds the two together. A walk that
//! starts at one of the six public ones uses the proved table.

/// One level: the fields that the elements of an array have.
///
/// A schema of your own may lead back to a level above it; the nesting limit ends such a walk. It may have 64 levels with 512 entries in
/// all, and names of 64 bytes; a larger one is refused with 2.
///
/// ```
/// use vrf_proved::{decode_struct_array, ArrayDecodeStats, ArrayFieldSchema};
///
/// // handle 0 is an array of the same kind again
/// static BOXES: ArrayFieldSchema = ArrayFieldSchema { sub_arrays: &[(0, &BOXES)], field_names: &[(0, "Inside"), (1, "Weight")] };
///
/// let one_box = [0x02, 0x02, 0x02, 0x70, 0x02, 0x02, 0x04, 0x10, 0xab, 0x00, 0x00, 0x00, 0x00];
/// let mut stats = ArrayDecodeStats::default();
/// let leaves = decode_struct_array(&one_box, 104, Some(&BOXES), &[], &mut stats);
/// assert_eq!(leaves[0].path, "[0].Inside[0].Weight");
/// assert!(stats.is_clean());
/// ```
#[derive(Debug, Clone)]
pub struct ArrayFieldSchema {
    /// Handles that are arrays themselves, each with the level of its elements. The first entry of a handle counts.
    pub sub_arrays: &'static [(u32, &'static ArrayFieldSchema)],
    /// Names of handles, arrays among them. The first entry of a handle counts.
    pub field_names: &'static [(u32, &'static str)],
}

const fn level(sub_arrays: &'static [(u32, &'static ArrayFieldSchema)], field_names: &'static [(u32, &'static str)]) -> ArrayFieldSchema {
    ArrayFieldSchema { sub_arrays, field_names }
}

static LEAVES: ArrayFieldSchema = level(&[], &[]);

/// Rounds of a combat report: reports, their interactions, those dealt and received, and the regions of each.
pub static COMBAT_ROUNDS_SCHEMA: ArrayFieldSchema = level(&[(4, &CHARACTER_REPORT)], &[(4, "Reports")]);

/// Ability casts of a round: the effects of each cast and the targets of each effect.
pub static ABILITY_CASTS_SCHEMA: ArrayFieldSchema = level(&[(13, &ABILITY_EFFECTS_SCHEMA)], &[(13, "Effects")]);

/// The effects of one cast, for a payload that holds them alone.
pub static ABILITY_EFFECTS_SCHEMA: ArrayFieldSchema = level(
    &[(18, &AFFECTED_TARGET)],
    &[
        (14, "Statistic"),
        (15, "LocalizedStat"),
        (16, "Value"),
        (17, "Time"),
        (18, "AffectedTargetsArray"),
    ],
);

/// Life changes as the damage calls send them.
pub static LIFE_CHANGE_DAMAGE_SCHEMA: ArrayFieldSchema = level(
    &[],
    &[
        (10, "ChangedComponent"),
        (11, "LifeResult"),
        (12, "DeltaLife"),
        (13, "bAliveAfterChange"),
    ],
);

/// Life changes as the section call sends them.
pub static LIFE_CHANGE_SECTION_SCHEMA: ArrayFieldSchema = level(
    &[],
    &[
        (1, "ChangedComponent"),
        (2, "LifeResult"),
        (3, "DeltaLife"),
        (4, "bAliveAfterChange"),
    ],
);

/// Life changes as the heal and overheal calls send them.
pub static LIFE_CHANGE_BY_SECTION_SCHEMA: ArrayFieldSchema = level(
    &[],
    &[
        (2, "ChangedComponent"),
        (3, "LifeResult"),
        (4, "DeltaLife"),
        (5, "bAliveAfterChange"),
    ],
);

static DEALT_INTERACTION: ArrayFieldSchema = level(&[(44, &LEAVES)], &[(44, "Regions")]);

static RECEIVED_INTERACTION: ArrayFieldSchema = level(&[(79, &LEAVES)], &[(79, "Regions")]);

static PARTICIPANT: ArrayFieldSchema = level(
    &[(26, &DEALT_INTERACTION), (61, &RECEIVED_INTERACTION)],
    &[(26, "DealtInteractions"), (61, "ReceivedInteractions")],
);

static CHARACTER_REPORT: ArrayFieldSchema = level(&[(10, &PARTICIPANT)], &[(10, "Interactions")]);

static AFFECTED_TARGET: ArrayFieldSchema = level(&[], &[(19, "AffectedPlayer"), (20, "Value")]);

/// The level in the proved table of a static that callers can name. Such a static is known by its address.
pub(crate) fn level_in_table(schema: &ArrayFieldSchema) -> Option<u32> {
    let named = [
        (&COMBAT_ROUNDS_SCHEMA, 1),
        (&ABILITY_CASTS_SCHEMA, 2),
        (&ABILITY_EFFECTS_SCHEMA, 3),
        (&LIFE_CHANGE_DAMAGE_SCHEMA, 4),
        (&LIFE_CHANGE_SECTION_SCHEMA, 5),
        (&LIFE_CHANGE_BY_SECTION_SCHEMA, 6),
    ];
    named
        .iter()
        .find(|(known, _)| std::ptr::eq(*known, schema))
        .map(|&(_, level)| level)
}
