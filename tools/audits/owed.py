"""Which theorems a call owes crate promises, and what of a call they speak of: its window, its cursor, its number of bits."""
import re

CURSORS = {"Cursor", "VrfCursor"}
COUNTS = {"bits", "count"}
# bytes that are no window: pools of names
POOLS = {"names", "declared_names"}

# calls that answer everything: they have no refusal to order
NEVER_REFUSE = {
    "bitio::new", "array::stats::is_clean", "array::stats::verdict", "exports::vrf_verdict", "schema::twelve::public_levels",
    "geometry::byte_angle_steps", "exports::vrf_byte_angle_steps",
}
NEVER_REFUSING = ("bits::decimal::", "bits::digits::", "schema::labels::", "schema::lookup::", "schema::spans::")
# the module of a crate that says what a refusal is: it is asked of an answer, and refuses nothing itself
SAYING = "said"
# walks
LEAFY = {"array::decode_struct_array", "array::decode_struct_array_exact", "exports::vrf_struct_array", "exports::vrf_struct_array_exact"}
OBJECTS = {"array::decode_object_ref_array", "exports::vrf_object_array"}
WALKS = LEAFY | OBJECTS
FAST = {"fastarray::decode_fast_array_delta", "exports::vrf_fast_array"}
# calls that add two sets of counters, and those that judge a set, in the same order: by an enum, and for C
MERGES = ("array::stats::merge_from", "exports::vrf_merge")
JUDGED_BY = ("array::stats::verdict", "exports::vrf_verdict")
# calls that answer a verdict, on a window or on counters
JUDGE = WALKS | set(JUDGED_BY)
# its window is all bits: none stands outside it
WHOLE = {"bitio::new"}
# calls at a cursor that step past nothing, and those that are read in parts: every other one that refuses leaves its cursor where it stood
STILL = {"bitio::position", "bitio::len_bits", "bitio::bits_remaining", "bitio::at_end"}
IN_PARTS = {
    "bitio::read_int_packed", "bitio::read_serialized_int", "exports::vrf_read_packed", "exports::vrf_read_serialized",
    "geometry::read_vector_net_quantize", "geometry::read_fixed_vector_normal", "geometry::read_rotation",
    "exports::vrf_vector", "exports::vrf_normal", "exports::vrf_rotation",
}
# answers that hold floats: the word of promises/specs/Finite that is said of one, and how many bits it says that an angle has: the definitions
# that tell it, outermost first, of a parameter
WIDTH_OF = ("geometry", "specs/Movements", "width_of")
ROTATION_KIND = ("exports", "specs/MoveResults", "rotation_kind_lem")
FINITE = {
    "Result<Read<Vector>, Refusal>": ("FiniteAnswer", None),
    "Result<Read<Rotation>, Refusal>": ("SoundRotationAnswer", ("width",)),
    "Result<Read<Movement>, Refusal>": ("SoundMovementAnswer", (WIDTH_OF, "rotation")),
    "VrfVector": ("FiniteInC", None),
    "VrfRotation": ("SoundRotationInC", ("width",)),
    "VrfMovement": ("SoundMovementInC", (WIDTH_OF, ROTATION_KIND, "rotation")),
}
# calls that read a packed number: the word of promises/specs/Padded that is said of the answer
PACKED = {"bitio::read_int_packed": "PaddedAnswer", "exports::vrf_read_packed": "PaddedInC"}
# calls whose answer counts padded numbers: the word of promises/specs/PaddedCounts that is said of it
COUNTING = {
    "array::decode_struct_array": "CountsTaken", "array::decode_struct_array_exact": "CountsTaken", "array::decode_object_ref_array": "CountsInPairs",
    "exports::vrf_struct_array": "CountsTakenInC", "exports::vrf_struct_array_exact": "CountsTakenInC", "exports::vrf_object_array": "CountsPairsInC",
    "fastarray::decode_fast_array_delta": "CountsInBody", "exports::vrf_fast_array": "CountsBodyInC",
}
# calls whose answer counts a movement's: the word of promises/specs/PaddedMovements, the same way
COUNTING_TWO = {"geometry::read_rep_movement": "CountsInMovement", "exports::vrf_movement": "CountsMovementInC"}


def refuses(call):
    return call.name not in NEVER_REFUSE and not call.name.startswith(NEVER_REFUSING) and call.node[1] != SAYING


def window_of(call):
    """The bytes that a call reads bits of."""
    return next((p.name for p in call.parameters if re.fullmatch(r"&(?:'\w+ )?\[u8\]", p.type) and p.name not in POOLS), None)


def cursor_of(call):
    return next((p.name for p in call.parameters if p.type in CURSORS), None)


def agreement_of(call):
    """What two lists have to agree in, however many bytes follow, that the call answers the same (promises/specs/Outside)."""
    if cursor_of(call) is not None:
        return "Inside"
    return "Alike" if call.name in WALKS else "AlikeBodies" if call.name in FAST else "Hold"


# each kind of theorem, and which calls owe one; shapes.py has what it is held to, under the same name
KINDS = {
    "one": lambda call: True,
    "refused": refuses,
    "kept": lambda call: any(p.lent for p in call.parameters),
    "outside": lambda call: window_of(call) is not None,
    "longer": lambda call: window_of(call) is not None and call.name not in WHOLE,
    "stays": lambda call: cursor_of(call) is not None and refuses(call) and call.name not in STILL | IN_PARTS,
    "finite": lambda call: call.returns in FINITE,
    "padded": lambda call: call.name in PACKED or call.name in COUNTING or call.name in COUNTING_TWO,
    "prefix": lambda call: call.name in WALKS,
    "clean": lambda call: call.name in WALKS,
    "judged": lambda call: call.name in JUDGE,
    "paths": lambda call: call.name in LEAFY,
    **{told: lambda call: call.name in LEAFY for told in ("placed", "ordered", "copied")},
    "accounted": lambda call: call.name in WALKS,
    "behind": lambda call: call.name in OBJECTS,
    **{law: lambda call: call.name in MERGES for law in ("commutes", "associates", "zero", "totals", "parts")},
}
