"""The words that the promises are stated with, as they have to stand, and where the words in them come from: an emptied one would empty every
theorem that uses it, and so would another one under its name. A file's `use` lines stand here as far as they bring such words."""
from textwrap import dedent

from .definitions import file_of, home_of, module_named, tokens_of

STATED = {
    ("promises", "specs/Determining"): """
        use Rattle.std.specs.Prelude.{◌≡◌}

        abbrev pub Determines : {A : Type 0} → (contract : A → Type 0) → Type 0
        Determines {A} contract = (r s : A) → contract r → contract s → r ≡ s

        abbrev pub DeterminesAll : {A B : Type 0} → (contract : A → B → Type 0) → Type 0
        DeterminesAll {A} {B} contract = (r s : A) (x y : B) → contract r x → contract s y → (r ≡ s) × (x ≡ y)
        """,
    ("promises", "specs/Outside"): """
        use Rattle.std.specs.Prelude.{ℕ, ◌+◌, ◌*◌, ◌≤◌, ◌<◌, ◌≡◌, true, List, length}
        use Rattle.bits.specs.Bits.{num, field}
        use Rattle.bits.specs.Runs.{bytes_for}
        use Rattle.bitio.specs.Cursors.{good}
        use Rattle.bitio.specs.declared.Cursor.{Cursor}

        abbrev pub SameBits : (s t : List ℕ) (start len : ℕ) → Type 0
        SameBits s t start len = (k : ℕ) → k < len → field (num s) (start + k) 1 ≡ field (num t) (start + k) 1

        pub record Agree (s t : List ℕ) (start len : ℕ) : Type 0 where
          pub as_many : length s ≡ length t
          pub same_bits : SameBits s t start len

        pub record Hold (s t : List ℕ) (len : ℕ) : Type 0 where
          pub first : len ≤ 8 * length s
          pub second : len ≤ 8 * length t
          pub same_bits : SameBits s t 0 len

        pub record Inside (s t : List ℕ) (c : Cursor) : Type 0 where
          pub first : good s c ≡ true
          pub second : good t c ≡ true
          pub same_bits : SameBits s t c.start c.len

        pub data Alike (s t : List ℕ) (len : ℕ) : Type 0 where
          both_hold : Hold s t len → Alike s t len
          both_fewer : 8 * length s < len → 8 * length t < len → Alike s t len

        pub data AlikeBodies (s t : List ℕ) (len : ℕ) : Type 0 where
          both_whole : length s ≡ bytes_for len → length t ≡ bytes_for len → SameBits s t 0 len → AlikeBodies s t len
          neither_whole : (length s ≡ bytes_for len → ⊥) → (length t ≡ bytes_for len → ⊥) → AlikeBodies s t len
        """,
    ("promises", "specs/Prefix"): """
        use Rattle.std.specs.Prelude.{ℕ, suc, ◌*◌, ◌≤◌, ◌<◌, ◌≡◌, true, List, length, take}
        use Rattle.framing.specs.Windows.{window_of}
        use Rattle.framing.specs.Events.{raw_handle}
        use Rattle.framing.specs.Sinks.{Walker, object, sink_of}
        use Rattle.framing.specs.Verdicts as F
        use Rattle.framing.specs.Records.{leaf_words, path_start_at, handle_at, payload_start_at, pair_words}
        use Rattle.framing.specs.Refusing.{Room, within}
        use Rattle.framing.specs.Demand.{LacksTrailer}
        use Rattle.outputs.specs.Records.{leaf_number}
        use Rattle.outputs.specs.Answers.{Call, Lent}
        use Rattle.exports.specs.WalkResults.{filled_in, verdict_number_lem}
        use Rattle.exports.specs.declared.VrfWalk.{VrfWalk}
        use Rattle.exports.specs.declared.VrfObjects.{VrfObjects}
        use Rattle.promises.specs.Outside.{SameBits}

        pub record FirstBits (longer shorter : List ℕ) (n m : ℕ) : Type 0 where
          pub fewer : m ≤ n
          pub inside_long : n ≤ 8 * length longer
          pub inside_short : m ≤ 8 * length shorter
          pub same_bits : SameBits shorter longer 0 m

        pub data BeforeTail (all : Room) (records : List ℕ) : (shared : Room) → Type 0 where
          all_shared : BeforeTail all records all
          tail_off : {n : Room} → suc n.leaves ≡ all.leaves → leaf_number records n.leaves handle_at ≡ raw_handle
              → leaf_number records n.leaves path_start_at ≡ n.path_bytes_lem → leaf_number records n.leaves payload_start_at ≡ n.payload_bytes_lem
              → BeforeTail all records n

        abbrev pub NotClean : {A : Type 0} → (form : F.Verdict → A) → Walker → (bytes : List ℕ) (n m : ℕ) → (long short : A) → Type 0
        NotClean form k bytes n m long short = long ≡ form F.clean → m < n → short ≡ form F.clean → LacksTrailer (sink_of k) (window_of bytes n) m

        pub record Begins {A : Type 0} (form : F.Verdict → A) (short long : Call) (v w : A) (e f : Room) (x y : Lent) : Type 0 where
          pub shared : Room
          pub before_tail : BeforeTail e x.leaves shared
          pub filled_too : within shared f ≡ true
          pub records : take (leaf_words * shared.leaves) x.leaves ≡ take (leaf_words * shared.leaves) y.leaves
          pub paths : take shared.path_bytes_lem x.paths ≡ take shared.path_bytes_lem y.paths
          pub payloads : take shared.payload_bytes_lem x.payloads ≡ take shared.payload_bytes_lem y.payloads
          pub not_clean : NotClean form long.how long.bytes long.bits short.bits w v

        pub record PairsBegin {A : Type 0} (form : F.Verdict → A) (longer : List ℕ) (n m : ℕ) (v w : A) (e f : ℕ) (x y : List ℕ) : Type 0 where
          pub filled_too : e ≤ f
          pub pairs : take (pair_words * e) x ≡ take (pair_words * e) y
          pub not_clean : NotClean form object longer n m w v

        abbrev pub BeginsInC : (short long : Call) (r q : VrfWalk) (x y : Lent) → Type 0
        BeginsInC short long r q x y =
            r.refusal ≡ 0 → q.refusal ≡ 0 → Begins verdict_number_lem short long r.verdict q.verdict (filled_in r) (filled_in q) x y

        abbrev pub PairsBeginInC : (longer : List ℕ) (n m : ℕ) (r q : VrfObjects) (x y : List ℕ) → Type 0
        PairsBeginInC longer n m r q x y =
            r.refusal ≡ 0 → q.refusal ≡ 0 → PairsBegin verdict_number_lem longer n m r.verdict q.verdict r.pairs q.pairs x y
        """,
    ("promises", "specs/Clean"): """
        use Rattle.std.specs.Prelude.{ℕ, ◌*◌, ◌≤◌, ◌≡◌, List, length}
        use Rattle.framing.specs.Windows.{window_of}
        use Rattle.framing.specs.Events.{Leaf}
        use Rattle.framing.specs.Counters.{Counters, counted}
        use Rattle.framing.specs.Sinks.{Walker, object}
        use Rattle.framing.specs.Verdicts as F
        use Rattle.framing.specs.Records.{path_bytes_lem, payload_bytes_lem, pair_records}
        use Rattle.framing.specs.Refusing.{Room}
        use Rattle.framing.specs.Demand.{Opens}
        use Rattle.framing.specs.InGrammar.{InGrammar, tree_leaves, tree_pairs, tree_elements}
        use Rattle.outputs.specs.Answers.{Call, Lent, Front}
        use Rattle.exports.specs.WalkResults.{filled_in, counters_in, verdict_number_lem}
        use Rattle.exports.specs.declared.VrfWalk.{VrfWalk}
        use Rattle.exports.specs.declared.VrfObjects.{VrfObjects}
        use Rattle.promises.specs.Verdicts.{Exactly}

        pub record ArrayIn (k : Walker) (bytes : List ℕ) (bits : ℕ) : Type 0 where
          pub inside : bits ≤ 8 * length bytes
          pub array : InGrammar k (window_of bytes bits)

        pub record Fills (l : List Leaf) (need : Room) (x : Lent) : Type 0 where
          pub leaves : need.leaves ≡ length l
          pub path_bytes : need.path_bytes_lem ≡ length (path_bytes_lem l)
          pub payload_bytes_law : need.payload_bytes_lem ≡ length (payload_bytes_lem l)
          pub front : Front l x

        pub record CleanLeaves {A : Type 0} (form : F.Verdict → A) (call : Call) (c : Counters) (v : A) (need : Room) (x : Lent) : Type 0 where
          pub clean : Exactly (v ≡ form F.clean) (ArrayIn call.how call.bytes call.bits)
          pub counts : (a : ArrayIn call.how call.bytes call.bits) →
              let w = window_of call.bytes call.bits in
              c ≡ counted (tree_elements call.how w a.array) (length (tree_leaves call.how w a.array)) 0 0 0 0 0
          pub records : (a : ArrayIn call.how call.bytes call.bits) → Fills (tree_leaves call.how (window_of call.bytes call.bits) a.array) need x

        pub record CleanPairs {A : Type 0} (form : F.Verdict → A) (bytes : List ℕ) (bits : ℕ) (c : Counters) (v : A) (n : ℕ) (x : List ℕ) : Type 0 where
          pub clean : Exactly (v ≡ form F.clean) (ArrayIn object bytes bits)
          pub counts : (a : ArrayIn object bytes bits) →
              let w = window_of bytes bits in
              c ≡ counted (tree_elements object w a.array) (length (tree_pairs object w a.array)) 0 0 0 0 0
          pub as_many : (a : ArrayIn object bytes bits) → n ≡ length (tree_pairs object (window_of bytes bits) a.array)
          pub front : (a : ArrayIn object bytes bits) → Opens (pair_records (tree_pairs object (window_of bytes bits) a.array)) x

        abbrev pub CleanInC : Call → VrfWalk → Lent → Type 0
        CleanInC call r x = r.refusal ≡ 0 → CleanLeaves verdict_number_lem call (counters_in r.counters) r.verdict (filled_in r) x

        abbrev pub CleanPairsInC : (bytes : List ℕ) (bits : ℕ) → VrfObjects → List ℕ → Type 0
        CleanPairsInC bytes bits r x = r.refusal ≡ 0 → CleanPairs verdict_number_lem bytes bits (counters_in r.counters) r.verdict r.pairs x
        """,
    ("outputs", "specs/Answers"): """
        use Rattle.std.specs.Prelude.{ℕ, true, List, length, leb}
        use Rattle.framing.specs.Events.{Leaf, leaves, pairs, Trace}
        use Rattle.framing.specs.Records.{pair_words, whole_records, path_bytes_lem, payload_bytes_lem, leaf_records, pair_records}
        use Rattle.framing.specs.Refusing.{Answer, decided}
        use Rattle.framing.specs.Demand.{Opens}

        abbrev pub pair_answer_of : Trace → (bits : ℕ) (lent : List ℕ) → Answer ℕ
        pair_answer_of t bits lent = decided bits true t 0 (length (pairs t)) (leb (length (pairs t)) (whole_records pair_words (length lent)))

        abbrev pub final_pairs_of : Trace → Answer ℕ → (lent : List ℕ) → List ℕ
        final_pairs_of t a lent = at_exit a (pair_records (pairs t)) lent

        pub record Front (l : List Leaf) (end : Lent) : Type 0 where
          pub leaves : Opens (leaf_records 0 0 l) end.leaves
          pub paths : Opens (path_bytes_lem l) end.paths
          pub payloads : Opens (payload_bytes_lem l) end.payloads
        """,
    ("promises", "specs/Stays"): """
        use Rattle.std.specs.Prelude.{ℕ, ◌^◌, ◌<◌, ◌≡◌}
        use Rattle.std.proofs.Math.Option.{Option, none, some}
        use Rattle.bitio.specs.Refusals.{stands_after_lem}
        use Rattle.bitio.specs.declared.Refusal.{Refusal}
        use Rattle.exports.specs.declared.VrfRead.{VrfRead}

        abbrev pub Stays : (at : ℕ) → Option Refusal → Type 0
        Stays at none = Unit
        Stays at (some r) = stands_after_lem at r ≡ at

        abbrev pub StaysInC : (at : ℕ) → VrfRead → Type 0
        StaysInC at r = at < 2 ^ 64 → (r.refusal ≡ 0 → ⊥) → r.position ≡ at
        """,
    ("promises", "specs/Finite"): """
        use Rattle.std.specs.Prelude.{ℕ, ◌≡◌, true, Result, Ok, Err}
        use Rattle.geometry.specs.Finite.{AllFinite, FiniteVector, AllExact, ExactRotation, SoundMovement}
        use Rattle.bitio.specs.declared.Read.{Read}
        use Rattle.geometry.specs.declared.Refusal.{Refusal}
        use Rattle.geometry.specs.declared.Vector.{Vector}
        use Rattle.geometry.specs.declared.Rotation.{Rotation}
        use Rattle.geometry.specs.declared.Movement.{Movement}
        use Rattle.exports.specs.declared.VrfXyz.{VrfXyz}
        use Rattle.exports.specs.declared.VrfAngles.{VrfAngles}
        use Rattle.exports.specs.declared.VrfVector.{VrfVector}
        use Rattle.exports.specs.declared.VrfRotation.{VrfRotation}
        use Rattle.exports.specs.declared.VrfMovement.{VrfMovement}

        abbrev pub FiniteAnswer : Result (Read Vector) Refusal → Type 0
        FiniteAnswer (Ok v) = FiniteVector v.value
        FiniteAnswer (Err r) = Unit {0}

        abbrev pub SoundRotationAnswer : (w : ℕ) → Result (Read Rotation) Refusal → Type 0
        SoundRotationAnswer w (Ok v) = ExactRotation w v.value
        SoundRotationAnswer w (Err r) = Unit {0}

        abbrev pub SoundMovementAnswer : (w : ℕ) → Result (Read Movement) Refusal → Type 0
        SoundMovementAnswer w (Ok m) = SoundMovement w m.value
        SoundMovementAnswer w (Err r) = Unit {0}

        abbrev pub FiniteXyz : VrfXyz → Type 0
        FiniteXyz v = AllFinite v.x v.y v.z

        abbrev pub ExactAngles : (w : ℕ) → VrfAngles → Type 0
        ExactAngles w v = AllExact w v.pitch v.yaw v.roll

        pub record SoundMovementFields (w : ℕ) (r : VrfMovement) : Type 0 where
          pub finite_location : FiniteXyz r.location
          pub exact_rotation : ExactAngles w r.rotation
          pub finite_linear : FiniteXyz r.linear
          pub finite_angular : r.angular.present ≡ true → FiniteXyz r.angular.velocity

        abbrev pub FiniteInC : VrfVector → Type 0
        FiniteInC r = r.refusal ≡ 0 → FiniteXyz r.value

        abbrev pub SoundRotationInC : (w : ℕ) → VrfRotation → Type 0
        SoundRotationInC w r = r.refusal ≡ 0 → ExactAngles w r.value

        abbrev pub SoundMovementInC : (w : ℕ) → VrfMovement → Type 0
        SoundMovementInC w r = r.refusal ≡ 0 → SoundMovementFields w r
        """,
    ("promises", "specs/Padded"): """
        use Rattle.std.specs.Prelude.{ℕ, ◌+◌, ◌*◌, ◌≡◌, Bool, true, false, Result, Ok, Err}
        use Rattle.bits.specs.Padded.{ShorterForm}
        use Rattle.bitio.specs.declared.PackedNumber.{PackedNumber}
        use Rattle.bitio.specs.declared.Read.{Read}
        use Rattle.bitio.specs.declared.Refusal.{Refusal}
        use Rattle.exports.specs.declared.VrfPacked.{VrfPacked}
        use Rattle.promises.specs.Verdicts.{Exactly}

        pub record Told (at value bytes next : ℕ) (padded : Bool) : Type 0 where
          pub took : next ≡ at + 8 * bytes
          pub shorter : Exactly (padded ≡ true) (ShorterForm value bytes)

        abbrev pub PaddedAnswer : (at : ℕ) → Result (Read PackedNumber) Refusal → Type 0
        PaddedAnswer at (Ok x) = Told at x.value.value x.value.bytes x.next x.value.padded
        PaddedAnswer at (Err r) = Unit {0}

        pub record PaddedInC (at : ℕ) (r : VrfPacked) : Type 0 where
          pub accepted : r.refusal ≡ 0 → Told at r.value r.bytes r.position r.padded
          pub refused_took : (r.refusal ≡ 0 → ⊥) → r.bytes ≡ 0
          pub refused_padded : (r.refusal ≡ 0 → ⊥) → r.padded ≡ false
        """,
    ("promises", "specs/PaddedCounts"): """
        use Rattle.std.specs.Prelude.{ℕ, ◌*◌, ◌≤◌, ◌≡◌, true, List, Some, Result, Ok, Err}
        use Rattle.bits.specs.Members.{All}
        use Rattle.bits.specs.Packed.{Number}
        use Rattle.bits.specs.Padded.{is_padded, padded_among, ShorterForm}
        use Rattle.framing.specs.Events.{taken}
        use Rattle.outputs.specs.Answers.{Call, trace_of, pair_trace}
        use Rattle.array.specs.Refusals.{StructArray, ObjectArray}
        use Rattle.fastarray.specs.Answers as F
        use Rattle.fastarray.specs.Body.{Body, numbers_of}
        use Rattle.fastarray.specs.declared.Delta.{Delta}
        use Rattle.fastarray.specs.declared.Refusal.{Refusal}
        use Rattle.exports.specs.declared.VrfWalk.{VrfWalk}
        use Rattle.exports.specs.declared.VrfObjects.{VrfObjects}
        use Rattle.exports.specs.declared.VrfFastArray.{VrfFastArray}
        use Rattle.promises.specs.Verdicts.{Exactly}

        pub record Counts (numbers : List Number) (bits n : ℕ) : Type 0 where
          pub counts : n ≡ padded_among numbers
          pub shorter : All (λ x. Exactly (is_padded x ≡ true) (ShorterForm x.value x.bytes)) numbers
          pub bounded : 16 * n ≤ bits

        abbrev pub CountsTaken : Call → StructArray → Type 0
        CountsTaken call (Ok w) = Counts (taken (trace_of call)) call.bits w.padded
        CountsTaken call (Err why) = Unit {0}

        abbrev pub CountsInPairs : (bytes : List ℕ) (bits : ℕ) → ObjectArray → Type 0
        CountsInPairs bytes bits (Ok w) = Counts (taken (pair_trace bytes bits)) bits w.padded
        CountsInPairs bytes bits (Err why) = Unit {0}

        pub record BodyCounts (call : F.Call) (n : ℕ) : Type 0 where
          pub body : Body
          pub holds : F.found call ≡ Some body
          pub counts : Counts (numbers_of (body).items) call.bits n

        abbrev pub CountsInBody : F.Call → Result Delta Refusal → Type 0
        CountsInBody call (Ok d) = BodyCounts call d.padded
        CountsInBody call (Err e) = Unit {0}

        pub record CountsTakenInC (call : Call) (r : VrfWalk) : Type 0 where
          pub accepted : r.refusal ≡ 0 → Counts (taken (trace_of call)) call.bits r.padded
          pub refused : (r.refusal ≡ 0 → ⊥) → r.padded ≡ 0

        pub record CountsPairsInC (bytes : List ℕ) (bits : ℕ) (r : VrfObjects) : Type 0 where
          pub accepted : r.refusal ≡ 0 → Counts (taken (pair_trace bytes bits)) bits r.padded
          pub refused : (r.refusal ≡ 0 → ⊥) → r.padded ≡ 0

        pub record CountsBodyInC (call : F.Call) (r : VrfFastArray) : Type 0 where
          pub accepted : r.refusal ≡ 0 → BodyCounts call r.padded
          pub refused : (r.refusal ≡ 0 → ⊥) → r.padded ≡ 0
        """,
    ("promises", "specs/PaddedMovements"): """
        use Rattle.std.specs.Prelude.{ℕ, ◌+◌, ◌≡◌, Bool, true, false, List, Option, None, Some, Result, Ok, Err}
        use Rattle.bits.specs.Packed.{whole, packed}
        use Rattle.bits.specs.Padded.{once}
        use Rattle.bitio.specs.Cursors.{window}
        use Rattle.bitio.specs.declared.Cursor.{Cursor}
        use Rattle.bitio.specs.declared.Read.{Read}
        use Rattle.geometry.specs.Parts.{at, up_to}
        use Rattle.geometry.specs.Movements.{flags_at, pose_at, spin_at}
        use Rattle.geometry.specs.declared.Movement.{Movement}
        use Rattle.geometry.specs.declared.Refusal.{Refusal}
        use Rattle.geometry.specs.declared.Vector.{Vector}
        use Rattle.geometry.specs.declared.RotatorQuantization.{RotatorQuantization}
        use Rattle.geometry.specs.declared.VectorQuantization.{VectorQuantization}
        use Rattle.geometry.specs.declared.movements.Flags.{Flags}
        use Rattle.geometry.specs.declared.movements.Pose.{Pose}
        use Rattle.exports.specs.MoveResults.{moved_result, rotation_kind_lem, location_kind_lem}
        use Rattle.exports.specs.declared.VrfMovement.{VrfMovement}
        use Rattle.promises.specs.Padded.{Told}

        pub record Stands (W len p value : ℕ) (padded : Bool) (q : ℕ) : Type 0 where
          pub bytes : ℕ
          pub reads : packed W len p ≡ whole value bytes
          pub told : Told p value bytes q padded

        abbrev pub MayStand : (W len p : ℕ) (flag : Bool) → Option ℕ → (padded : Bool) (q : ℕ) → Type 0
        MayStand W len p false None b q = (b ≡ false) × (q ≡ p)
        MayStand W len p false (Some v) b q = ⊥
        MayStand W len p true None b q = ⊥
        MayStand W len p true (Some v) b q = Stands W len p v b q

        pub record CountsTwo (s : List ℕ) (f : Flags) (c : Cursor) (angular : Option Vector) (frame handle : Option ℕ) (n next : ℕ) : Type 0 where
          pub behind_spin : ℕ
          pub spin_read : spin_at s f.physics c ≡ Ok (up_to angular behind_spin)
          pub frame_padded : Bool
          pub behind_frame : ℕ
          pub frame_stands : MayStand (window s c) c.len behind_spin f.frame frame frame_padded behind_frame
          pub handle_padded : Bool
          pub handle_stands : MayStand (window s c) c.len behind_frame f.handle handle handle_padded next
          pub counts : n ≡ once frame_padded + once handle_padded

        pub record CountsBehind (s : List ℕ) (rotation : RotatorQuantization) (location : VectorQuantization) (c : Cursor) (m : Movement) (next : ℕ) : Type 0 where
          pub flags : Flags
          pub behind_flags_lem : ℕ
          pub flags_read : flags_at s c ≡ Ok (up_to flags behind_flags_lem)
          pub pose : Pose
          pub behind_pose_lem : ℕ
          pub pose_read : pose_at s rotation location (at c behind_flags_lem) ≡ Ok (up_to pose behind_pose_lem)
          pub numbers : CountsTwo s flags (at c behind_pose_lem) m.angular m.frame m.handle m.padded next

        abbrev pub CountsAt : (s : List ℕ) (rotation : RotatorQuantization) (location : VectorQuantization) → Cursor → Result (Read Movement) Refusal → Type 0
        CountsAt s rotation location c (Ok m) = CountsBehind s rotation location c m.value m.next
        CountsAt s rotation location c (Err r) = Unit {0}

        abbrev pub first_bits : (bits : ℕ) → Cursor
        first_bits n = record { start = 0; pos = 0; len = n }

        abbrev pub CountsInMovement : (bytes : List ℕ) (bits : ℕ) (rotation : RotatorQuantization) (location : VectorQuantization) → Result (Read Movement) Refusal → Type 0
        CountsInMovement s n rotation location r = CountsAt s rotation location (first_bits n) r

        pub record MovementInC (bytes : List ℕ) (bits rotation location : ℕ) (r : VrfMovement) : Type 0 where
          pub read : Movement
          pub used : ℕ
          pub is : r ≡ moved_result read used
          pub counts : CountsBehind bytes (rotation_kind_lem rotation) (location_kind_lem location) (first_bits bits) read used

        pub record CountsMovementInC (bytes : List ℕ) (bits rotation location : ℕ) (r : VrfMovement) : Type 0 where
          pub accepted : r.refusal ≡ 0 → MovementInC bytes bits rotation location r
          pub refused : (r.refusal ≡ 0 → ⊥) → r.padded ≡ 0
        """,
    ("promises", "specs/Places"): """
        use Rattle.std.specs.Prelude.{ℕ, ◌+◌, ◌≤◌, ◌<◌, ◌≡◌, List, length, take, drop, Ok, Err}
        use Rattle.bits.specs.Members.{StandsAt}
        use Rattle.framing.specs.Windows.{window_of}
        use Rattle.framing.specs.Events.{Leaf, leaves}
        use Rattle.framing.specs.Places.{Placed}
        use Rattle.framing.specs.Records.{payload_of, path_start_at, path_length_at, handle_at, payload_bits_at, payload_start_at, window_start_at, path_bytes_lem, payload_bytes_lem}
        use Rattle.framing.specs.Refusing.{Room}
        use Rattle.outputs.specs.Records.{leaf_number}
        use Rattle.outputs.specs.Answers.{Call, Lent, trace_of}
        use Rattle.array.specs.Refusals.{StructArray, room_in}
        use Rattle.exports.specs.WalkResults.{filled_in}
        use Rattle.exports.specs.declared.VrfWalk.{VrfWalk}

        abbrev pub stretch : (buffer : List ℕ) (start bytes : ℕ) → List ℕ
        stretch buffer start bytes = take bytes (drop start buffer)

        pub record RecordOf (x : Lent) (i : ℕ) (before : List Leaf) (l : Leaf) : Type 0 where
          pub handle : leaf_number x.leaves i handle_at ≡ l.handle
          pub bits : leaf_number x.leaves i payload_bits_at ≡ l.width
          pub starts : leaf_number x.leaves i window_start_at ≡ l.start
          pub path_start_lem : leaf_number x.leaves i path_start_at ≡ length (path_bytes_lem before)
          pub path_length_lem : leaf_number x.leaves i path_length_at ≡ length l.path
          pub path : stretch x.paths (leaf_number x.leaves i path_start_at) (length l.path) ≡ l.path
          pub payload_start_lem : leaf_number x.leaves i payload_start_at ≡ length (payload_bytes_lem before)
          pub payload : stretch x.payloads (leaf_number x.leaves i payload_start_at) (length (payload_of l)) ≡ payload_of l

        pub record LeafFound (call : Call) (x : Lent) (i : ℕ) : Type 0 where
          pub leaf : Leaf
          pub stands : StandsAt leaf i (leaves (trace_of call))
          pub recorded : RecordOf x i stands.before leaf
          pub inside : leaf_number x.leaves i window_start_at + leaf_number x.leaves i payload_bits_at ≤ call.bits

        pub record LeavesFound (call : Call) (filled : Room) (x : Lent) : Type 0 where
          pub all : filled.leaves ≡ length (leaves (trace_of call))
          pub leaf : (i : ℕ) → i < filled.leaves → LeafFound call x i
          pub placed : Placed (window_of call.bytes call.bits) (trace_of call)

        abbrev pub PlacedLeaves : Call → StructArray → Lent → Type 0
        PlacedLeaves call (Ok w) x = LeavesFound call (room_in w.filled) x
        PlacedLeaves call (Err why) x = Unit {0}

        abbrev pub PlacedLeavesInC : Call → VrfWalk → Lent → Type 0
        PlacedLeavesInC call r x = r.refusal ≡ 0 → LeavesFound call (filled_in r) x
        """,
    ("framing", "specs/Places"): """
        use Rattle.std.specs.Prelude.{ℕ, suc, ◌+◌, ◌*◌, ◌≤◌, ◌<◌, ◌≡◌, List, ◌∷◌, ◌++◌}
        use Rattle.bits.specs.Members.{All, Any}
        use Rattle.bits.specs.Packed.{Number}
        use Rattle.bits.specs.Sizes.{max_elements}
        use Rattle.schema.specs.Labels.{at_index, dot, raw_label}
        use Rattle.framing.specs.Windows.{Window, got, reading}
        use Rattle.framing.specs.Events.{Leaf, Entered, raw_handle, Event, number, element, array, leaf, pair, truncation, error, implicit, nested, root, leaves, taken, arrays, Trace}

        abbrev pub root_array : (n : ℕ) → Entered
        root_array n = record { path = []; start = 0; width = n }

        pub record Range : Type 0 where
          pub start : ℕ
          pub width : ℕ

        abbrev pub range : (start width : ℕ) → Range
        range start width = record { start = start; width = width }

        abbrev pub ranges : Trace → List Range
        ranges [] = []
        ranges (number x ∷ t) = range x.start (8 * x.bytes) ∷ ranges t
        ranges (leaf x ∷ t) = range x.start x.width ∷ ranges t
        ranges (array a ∷ t) = range a.start a.width ∷ ranges t
        ranges (element p ∷ t) = ranges t
        ranges (pair x ∷ t) = ranges t
        ranges (truncation ∷ t) = ranges t
        ranges (error ∷ t) = ranges t
        ranges (implicit ∷ t) = ranges t
        ranges (nested n ∷ t) = ranges t
        ranges (root n ∷ t) = ranges t

        pub record Between (p q : ℕ) (r : Range) : Type 0 where
          pub starts : p ≤ r.start
          pub ends : r.start + r.width ≤ q

        abbrev pub Within : Entered → Range → Type 0
        Within a = Between a.start (a.start + a.width)

        pub record ReadUpTo (p q : ℕ) (t : Trace) : Type 0 where
          pub inside : All (Between p q) (ranges t)
          pub reached : Any (λ r. r.start + r.width ≡ q) (ranges t)

        pub record FieldIn (t : Trace) (e : Event) (handle start width : ℕ) : Type 0 where
          pub before : Trace
          pub handled : Number
          pub wide : Number
          pub between : Trace
          pub after : Trace
          pub whole : t ≡ before ++ (number handled ∷ number wide ∷ between ++ (e ∷ after))
          pub nothing_between : ranges between ≡ []
          pub says_handle : handled.value ≡ suc handle
          pub says_width : wide.value ≡ width
          pub behind_handle : wide.start ≡ handled.start + 8 * handled.bytes
          pub behind_width : start ≡ wide.start + 8 * wide.bytes

        pub data Since (whole : Entered) (t : Trace) : (a : Entered) (u : Trace) → Type 0 where
          whole_walk : {u : Trace} → t ≡ u → Since whole t whole u
          entered : (before : Trace) {u : Trace} {a : Entered} → t ≡ before ++ (array a ∷ u) → Since whole t a u

        pub data KeptUnder (path : List ℕ) (t : Trace) : (under : List ℕ) → Type 0 where
          array_itself : KeptUnder path t path
          in_element : {i : ℕ} → i < max_elements → Any (λ e. e ≡ element (at_index path i)) t → KeptUnder path t (at_index path i)

        pub record TailIn (whole : Entered) (t : Trace) (x : Leaf) : Type 0 where
          pub of : Entered
          pub read : Trace
          pub after : Trace
          pub since : Since whole t of (read ++ (leaf x ∷ after))
          pub starts : ReadUpTo of.start x.start read
          pub ends : x.start + x.width ≡ of.start + of.width
          pub some : 0 < x.width
          pub under : List ℕ
          pub kept_under : KeptUnder of.path read under
          pub named : x.path ≡ dot under raw_label

        pub record LeafPlaced (whole : Entered) (t : Trace) (x : Leaf) : Type 0 where
          pub tail : x.handle ≡ raw_handle → TailIn whole t x
          pub field : (x.handle ≡ raw_handle → ⊥) → FieldIn t (leaf x) x.handle x.start x.width

        pub record ArrayPlaced (t : Trace) (a : Entered) : Type 0 where
          pub handle : ℕ
          pub field : FieldIn t (array a) handle a.start a.width
          pub some : 0 < a.width

        abbrev pub NumberIn : Window → Number → Type 0
        NumberIn w x = reading w x.start ≡ got x.value x.bytes

        pub record Placed (w : Window) (t : Trace) : Type 0 where
          pub numbers : All (NumberIn w) (taken t)
          pub inside : All (Within (root_array w.size)) (ranges t)
          pub leaves : All (LeafPlaced (root_array w.size) t) (leaves t)
          pub arrays : All (ArrayPlaced t) (arrays t)
        """,
    ("promises", "specs/Accounts"): """
        use Rattle.std.specs.Prelude.{ℕ, zero, suc, ◌+◌, ◌≤◌, ◌<◌, ◌≡◌, List, Ok, Err}
        use Rattle.bits.specs.Bits.{Bytes}
        use Rattle.framing.specs.Events.{Trace, raw_handle}
        use Rattle.framing.specs.Counters.{Counters, number_bits}
        use Rattle.framing.specs.Records.{handle_at, payload_bits_at, payload_start_at, window_start_at}
        use Rattle.framing.specs.Sinks.{Walker, object}
        use Rattle.framing.specs.Verdicts as F
        use Rattle.framing.specs.Accounts.{Accounts}
        use Rattle.framing.specs.LeafOrder.{Follows}
        use Rattle.framing.specs.Copies.{Copied}
        use Rattle.outputs.specs.Records.{leaf_number}
        use Rattle.outputs.specs.Answers.{Call, Lent, trace_of, pair_trace}
        use Rattle.array.specs.Calls.{verdict_named}
        use Rattle.array.specs.Refusals.{StructArray, ObjectArray, counters_of_lem, room_in}
        use Rattle.exports.specs.WalkResults.{counters_in, verdict_number_lem}
        use Rattle.exports.specs.declared.VrfWalk.{VrfWalk}
        use Rattle.exports.specs.declared.VrfObjects.{VrfObjects}

        abbrev pub start_of : Lent → (i : ℕ) → ℕ
        start_of x i = leaf_number x.leaves i window_start_at

        abbrev pub bits_of : Lent → (i : ℕ) → ℕ
        bits_of x i = leaf_number x.leaves i payload_bits_at

        abbrev pub handle_of : Lent → (i : ℕ) → ℕ
        handle_of x i = leaf_number x.leaves i handle_at

        abbrev pub payload_start_of : Lent → (i : ℕ) → ℕ
        payload_start_of x i = leaf_number x.leaves i payload_start_at

        pub record RecordsInOrder (x : Lent) (many : ℕ) : Type 0 where
          pub follows : (i : ℕ) → suc i < many → Follows (start_of x i) (bits_of x i) (start_of x (suc i)) (handle_of x (suc i))
          pub apart : (i j : ℕ) → i < j → j < many → start_of x i + bits_of x i ≤ start_of x j

        pub record SharedStart (x : Lent) (i : ℕ) : Type 0 where
          pub no_bits : bits_of x i ≡ 0
          pub kept : handle_of x (suc i) ≡ raw_handle
          pub same_start : start_of x i ≡ start_of x (suc i)

        abbrev pub OrderedLeaves : Call → StructArray → Lent → Type 0
        OrderedLeaves call (Ok w) x = RecordsInOrder x (room_in w.filled).leaves
        OrderedLeaves call (Err why) x = Unit {0}

        abbrev pub OrderedLeavesInC : Call → VrfWalk → Lent → Type 0
        OrderedLeavesInC call r x = r.refusal ≡ 0 → RecordsInOrder x r.leaves

        abbrev pub RecordsCopied : Call → Lent → (many : ℕ) → Type 0
        RecordsCopied call x many =
            Bytes call.bytes → (i : ℕ) → i < many → Copied call.bytes (start_of x i) (bits_of x i) x.payloads (payload_start_of x i)

        abbrev pub CopiedLeaves : Call → StructArray → Lent → Type 0
        CopiedLeaves call (Ok w) x = RecordsCopied call x (room_in w.filled).leaves
        CopiedLeaves call (Err why) x = Unit {0}

        abbrev pub CopiedLeavesInC : Call → VrfWalk → Lent → Type 0
        CopiedLeavesInC call r x = r.refusal ≡ 0 → RecordsCopied call x r.leaves

        abbrev pub record_bits : Lent → (n : ℕ) → ℕ
        record_bits x zero = 0
        record_bits x (suc n) = record_bits x n + bits_of x n

        pub record BitsAccounted {A : Type 0} (form : F.Verdict → A) (how : Walker) (bits : ℕ) (t : Trace) (c : Counters) (v : A) (ofLeaves : ℕ) : Type 0 where
          pub accounts : Accounts how bits t c ofLeaves (number_bits t)
          pub clean : v ≡ form F.clean → ofLeaves + number_bits t ≡ bits

        abbrev pub LeafBitsAdd : {A : Type 0} → (form : F.Verdict → A) → Call → Counters → (v : A) → Lent → (many : ℕ) → Type 0
        LeafBitsAdd form call c v x many = BitsAccounted form call.how call.bits (trace_of call) c v (record_bits x many)

        abbrev pub PairBitsAdd : {A : Type 0} → (form : F.Verdict → A) → (bytes : List ℕ) (bits : ℕ) → Counters → (v : A) → Type 0
        PairBitsAdd form bytes bits c v = BitsAccounted form object bits (pair_trace bytes bits) c v 0

        abbrev pub AccountedLeaves : Call → StructArray → Lent → Type 0
        AccountedLeaves call (Ok w) x = LeafBitsAdd verdict_named call (counters_of_lem w.stats) w.verdict x (room_in w.filled).leaves
        AccountedLeaves call (Err why) x = Unit {0}

        abbrev pub AccountedLeavesInC : Call → VrfWalk → Lent → Type 0
        AccountedLeavesInC call r x = r.refusal ≡ 0 → LeafBitsAdd verdict_number_lem call (counters_in r.counters) r.verdict x r.leaves

        abbrev pub AccountedPairs : (bytes : List ℕ) (bits : ℕ) → ObjectArray → Type 0
        AccountedPairs bytes bits (Ok w) = PairBitsAdd verdict_named bytes bits (counters_of_lem w.stats) w.verdict
        AccountedPairs bytes bits (Err why) = Unit {0}

        abbrev pub AccountedPairsInC : (bytes : List ℕ) (bits : ℕ) → VrfObjects → Type 0
        AccountedPairsInC bytes bits r = r.refusal ≡ 0 → PairBitsAdd verdict_number_lem bytes bits (counters_in r.counters) r.verdict
        """,
    ("framing", "specs/Accounts"): """
        use Rattle.std.specs.Prelude.{ℕ, ◌+◌, ◌*◌, ◌≤◌, ◌≡◌, true, List, [], ◌∷◌}
        use Rattle.bits.specs.Members.{Any}
        use Rattle.bits.specs.Packed.{Number}
        use Rattle.framing.specs.Events.{Leaf, Entered, Pair, number, element, array, leaf, pair, truncation, error, implicit, nested, root, leaves, taken, arrays, Trace}
        use Rattle.framing.specs.Places.{Range, range}
        use Rattle.framing.specs.Counters.{Counters, is_clean}
        use Rattle.framing.specs.Sinks.{Walker, Leafy}

        pub data Divides (k : Walker) (End : ℕ → Type 0) : (p : ℕ) → Trace → (q : ℕ) → Type 0 where
          nothing_more : {p q : ℕ} → p ≡ q → Divides k End p [] q
          takes_number : {p q : ℕ} {x : Number} {t : Trace} → x.start ≡ p → Divides k End (p + 8 * x.bytes) t q → Divides k End p (number x ∷ t) q
          takes_leaf : {p q : ℕ} {x : Leaf} {t : Trace} → x.start ≡ p → Divides k End (p + x.width) t q → Divides k End p (leaf x ∷ t) q
          steps_past : {p q n : ℕ} {t : Trace} → Divides k End (p + n) t q → Divides k End p (nested n ∷ t) q
          left_at_root : {p q n : ℕ} {t : Trace} → Divides k End (p + n) t q → Divides k End p (root n ∷ t) q
          stops_at_error : {p q : ℕ} {t : Trace} (unread : ℕ) → End (p + unread) → Divides k End (p + unread) t q → Divides k End p (error ∷ t) q
          skips_tail : {p q : ℕ} {t : Trace} (unread : ℕ) → (Leafy k → ⊥) → End (p + unread) → Divides k End (p + unread) t q → Divides k End p (truncation ∷ t) q
          meets_limit : {p q : ℕ} {t : Trace} → Divides k End p t q → Divides k End p (truncation ∷ t) q
          ends_early : {p q : ℕ} {t : Trace} → Divides k End p t q → Divides k End p (implicit ∷ t) q
          enters_element : {p q : ℕ} {path : List ℕ} {t : Trace} → Divides k End p t q → Divides k End p (element path ∷ t) q
          enters_array : {p q : ℕ} {a : Entered} {t : Trace} → Divides k End p t q → Divides k End p (array a ∷ t) q
          gives_pair : {p q : ℕ} {x : Pair} {t : Trace} → Divides k End p t q → Divides k End p (pair x ∷ t) q

        pub data EndIn (k : Walker) (n : ℕ) (t : Trace) (e : ℕ) : Type 0 where
          of_window : e ≡ n → EndIn k n t e
          of_array : Any (λ (a : Entered). a.start + a.width ≡ e) (arrays t) → EndIn k n t e
          of_payload : (Leafy k → ⊥) → Any (λ (x : Number). x.start + 8 * x.bytes + x.value ≡ e) (taken t) → EndIn k n t e

        abbrev pub Divided : Walker → (n : ℕ) → Trace → Type 0
        Divided k n t = Divides k (EndIn k n t) 0 t n

        abbrev pub unread_in : {k : Walker} {End : ℕ → Type 0} {p q : ℕ} {t : Trace} → Divides k End p t q → ℕ
        unread_in (nothing_more e) = 0
        unread_in (takes_number e d) = unread_in d
        unread_in (takes_leaf e d) = unread_in d
        unread_in (steps_past d) = unread_in d
        unread_in (left_at_root d) = unread_in d
        unread_in (stops_at_error m end d) = m + unread_in d
        unread_in (skips_tail m leafless end d) = m + unread_in d
        unread_in (meets_limit d) = unread_in d
        unread_in (ends_early d) = unread_in d
        unread_in (enters_element d) = unread_in d
        unread_in (enters_array d) = unread_in d
        unread_in (gives_pair d) = unread_in d

        abbrev pub widths_among : List Leaf → ℕ
        widths_among [] = 0
        widths_among (x ∷ l) = x.width + widths_among l

        abbrev pub leaf_bits : Trace → ℕ
        leaf_bits t = widths_among (leaves t)

        abbrev pub stretches : Trace → List Range
        stretches [] = []
        stretches (number x ∷ t) = range x.start (8 * x.bytes) ∷ stretches t
        stretches (leaf x ∷ t) = range x.start x.width ∷ stretches t
        stretches (element p ∷ t) = stretches t
        stretches (array a ∷ t) = stretches t
        stretches (pair x ∷ t) = stretches t
        stretches (truncation ∷ t) = stretches t
        stretches (error ∷ t) = stretches t
        stretches (implicit ∷ t) = stretches t
        stretches (nested n ∷ t) = stretches t
        stretches (root n ∷ t) = stretches t

        abbrev pub InOrder : (p : ℕ) → List Range → (q : ℕ) → Type 0
        InOrder p [] q = p ≤ q
        InOrder p (r ∷ l) q = (p ≤ r.start) × InOrder (r.start + r.width) l q

        pub record Accounts (k : Walker) (n : ℕ) (t : Trace) (c : Counters) (ofLeaves ofNumbers : ℕ) : Type 0 where
          pub divided : Divided k n t
          pub in_order : InOrder 0 (stretches t) n
          pub at_most : ofLeaves + ofNumbers ≤ n
          pub sum : ofLeaves + ofNumbers + c.nested_bits_lem + c.root_bits_lem + unread_in divided ≡ n
          pub without_errors : Leafy k → c.errors ≡ 0 → unread_in divided ≡ 0
          pub without_errors_or_limits : c.errors ≡ 0 → c.truncations ≡ 0 → unread_in divided ≡ 0
          pub all_of_it : is_clean c ≡ true → ofLeaves + ofNumbers ≡ n
        """,
    ("framing", "specs/LeafOrder"): """
        use Rattle.std.specs.Prelude.{ℕ, suc, ◌+◌, ◌≤◌, ◌<◌, ◌≡◌, List}
        use Rattle.bits.specs.Members.{StandsAt}
        use Rattle.framing.specs.Events.{Leaf, raw_handle}

        pub record Follows (start width next nextHandle : ℕ) : Type 0 where
          pub behind : start + width ≤ next
          pub numbers_between : (nextHandle ≡ raw_handle → ⊥) → start + width + 16 ≤ next
          pub rises : ((nextHandle ≡ raw_handle) × (width ≡ 0) → ⊥) → start < next
          pub same_start : start ≡ next → (nextHandle ≡ raw_handle) × (width ≡ 0)

        pub record LeavesInOrder (l : List Leaf) : Type 0 where
          pub follows : (i : ℕ) (a b : Leaf) → StandsAt a i l → StandsAt b (suc i) l → Follows a.start a.width b.start b.handle
          pub apart : (i j : ℕ) (a b : Leaf) → i < j → StandsAt a i l → StandsAt b j l → a.start + a.width ≤ b.start

        pub record TailAtEmptyLeaf (l : List Leaf) : Type 0 where
          pub i : ℕ
          pub empty : Leaf
          pub tail : Leaf
          pub stands : StandsAt empty i l
          pub next : StandsAt tail (suc i) l
          pub no_bits : empty.width ≡ 0
          pub kept : tail.handle ≡ raw_handle
          pub same_start : empty.start ≡ tail.start
        """,
    ("framing", "specs/Copies"): """
        use Rattle.std.specs.Prelude.{ℕ, ◌+◌, ◌*◌, ◌/◌, ◌%◌, ◌^◌, ◌≤◌, ◌<◌, ◌≡◌, List, length, get_or}
        use Rattle.bits.specs.Runs.{bytes_for}
        use Rattle.framing.specs.Events.{Leaf}
        use Rattle.framing.specs.Records.{payload_of}

        abbrev pub bit_at : (bytes : List ℕ) (k : ℕ) → ℕ
        bit_at bytes k = (get_or bytes (k / 8) 0 / 2 ^ (k % 8)) % 2

        pub record Copied (bytes : List ℕ) (start width : ℕ) (buffer : List ℕ) (at : ℕ) : Type 0 where
          pub same : (j : ℕ) → j < width → bit_at buffer (8 * at + j) ≡ bit_at bytes (start + j)
          pub zeros : (j : ℕ) → width ≤ j → j < 8 * bytes_for width → bit_at buffer (8 * at + j) ≡ 0
          pub of_bytes : start + width ≤ 8 * length bytes
          pub in_buffer : 0 < width → at + bytes_for width ≤ length buffer

        abbrev pub LeafCopied : (bytes : List ℕ) → Leaf → Type 0
        LeafCopied bytes x = Copied bytes x.start x.width (payload_of x) 0
        """,
    ("framing", "specs/Counters"): """
        use Rattle.std.specs.Prelude.{ℕ, ◌+◌, Bool, eqb}
        use Rattle.bits.specs.Packed.{bits_among}
        use Rattle.framing.specs.Events.{Trace, taken}

        abbrev pub faults : Counters → ℕ
        faults c = c.truncations + c.errors + c.nested_bits_lem + c.root_bits_lem + c.implicits

        abbrev pub is_clean : Counters → Bool
        is_clean c = eqb (faults c) 0

        abbrev pub number_bits : Trace → ℕ
        number_bits t = bits_among (taken t)
        """,
    ("framing", "specs/Sinks"): """
        use Rattle.std.specs.Prelude.{◌≡◌, Bool, true, false}
        use Rattle.framing.specs.declared.Walk.{Walk}
        use Rattle.framing.specs.declared.Walk.TheVariants as how

        abbrev pub gives_leaves_lem : Walk → Bool
        gives_leaves_lem how.Struct = true
        gives_leaves_lem how.Exact = true
        gives_leaves_lem how.Object = false

        abbrev pub Leafy : Walker → Type 0
        Leafy (walker s t lvl) = gives_leaves_lem s ≡ true
        """,
    ("framing", "specs/PlacedCases"): """
        use Rattle.std.specs.Prelude.{List, [], ◌∷◌, ◌++◌, get_or}
        use Rattle.bits.specs.Sizes.{max_fields}
        use Rattle.schema.specs.TwelveLevels.{twelve_levels, combat_rounds}
        use Rattle.framing.specs.Events.{raw_handle}
        use Rattle.framing.specs.Sinks.{struct}
        use Rattle.framing.specs.Cases.{struct_walk, exact_walk}
        use Rattle.framing.specs.LongestCase.{long_names}

        abbrev pub placed_cases : List PlacedCase
        placed_cases =
            placed_row struct_walk (0x02 ∷ 0x02 ∷ 0x04 ∷ 0x06 ∷ 0x25 ∷ 0x80 ∷ 0x58 ∷ 0x05 ∷ 0x00 ∷ 0x00 ∷ []) 75 (leaf_spot 1 32 3 ∷ leaf_spot 1 51 8 ∷ []) [] ∷
            placed_row struct_walk (0x02 ∷ 0x02 ∷ 0x04 ∷ 0x00 ∷ []) 32 (leaf_spot 1 32 0 ∷ []) [] ∷
            placed_row exact_walk (0x02 ∷ 0x02 ∷ 0x04 ∷ 0x10 ∷ 0xAB ∷ 0x00 ∷ 0x00 ∷ 0x00 ∷ []) 64 (leaf_spot 1 32 8 ∷ []) [] ∷
            placed_row struct_walk (0x03 ∷ 0x40 ∷ 0xAB ∷ []) 20 (leaf_spot raw_handle 16 4 ∷ []) [] ∷
            placed_row struct_walk (0x02 ∷ 0x02 ∷ empty_fields max_fields ++ (0x04 ∷ [])) 2072 (empty_spots max_fields 32 ++ (leaf_spot raw_handle 2064 8 ∷ [])) [] ∷
            placed_row (struct twelve_levels combat_rounds)
            (0x02 ∷ 0x02 ∷ 0x0A ∷ 0x90 ∷ 0x02 ∷ 0x02 ∷ 0x04 ∷ 0x00 ∷ 0x04 ∷ 0x10 ∷ 0xAB ∷ 0x00 ∷ 0x00 ∷ 0x0A ∷ 0x30 ∷ 0x03 ∷ 0x40 ∷ 0xAB ∷ 0x00 ∷ 0x00 ∷ []) 160
            (leaf_spot 1 64 0 ∷ leaf_spot 1 80 8 ∷ leaf_spot raw_handle 136 8 ∷ []) (array_spot 32 72 ∷ array_spot 120 24 ∷ []) ∷
            placed_row (struct long_names 0)
            (0x02 ∷ 0x02 ∷ 0x04 ∷ 0x06 ∷ 0x15 ∷ 0x80 ∷ 0x16 ∷ 0x10 ∷ 0x10 ∷ 0x80 ∷ 0x13 ∷ 0x10 ∷ 0x20 ∷ 0x80 ∷ 0x58 ∷ 0x05 ∷ 0x00 ∷ 0x00 ∷ 0x00 ∷ 0x00 ∷ 0x00 ∷ 0x00 ∷ []) 171
            (leaf_spot 1 32 3 ∷ leaf_spot 1 115 8 ∷ []) (array_spot 51 104 ∷ array_spot 83 56 ∷ []) ∷
            placed_row (struct long_names 0) (0x02 ∷ 0x02 ∷ 0x02 ∷ 0x2A ∷ 0x00 ∷ 0x00 ∷ 0x80 ∷ 0x00 ∷ 0x62 ∷ 0x15 ∷ 0x00 ∷ 0x00 ∷ []) 93 (leaf_spot 1 69 8 ∷ []) (array_spot 32 21 ∷ []) ∷
            []

        abbrev pub tail_behind_fields : PlacedCase
        tail_behind_fields = get_or placed_cases 4 (placed_row struct_walk [] 0 [] [])
        """,
    ("framing", "specs/AccountCases"): """
        use Rattle.std.specs.Prelude.{ℕ, List, [], ◌∷◌}
        use Rattle.schema.specs.TwelveLevels.{twelve_levels, combat_rounds}
        use Rattle.framing.specs.Events.{Trace}
        use Rattle.framing.specs.Counters.{counters, number_bits}
        use Rattle.framing.specs.Sinks.{Walker, struct, object, walk}
        use Rattle.framing.specs.Accounts.{leaf_bits}
        use Rattle.framing.specs.Cases.{struct_walk, exact_walk}

        abbrev pub account_row : Walker → List ℕ → (bits leaves numbers past left : ℕ) → AccountCase
        account_row k bytes n l m p r = record { how = k; bytes = bytes; bits = n; parts = record { leaves = l; numbers = m; past = p; left = r } }

        abbrev pub parts_of : Trace → BitParts
        parts_of t = record { leaves = leaf_bits t; numbers = number_bits t; past = (counters t).nested_bits_lem; left = (counters t).root_bits_lem }

        abbrev pub account_found : AccountCase → BitParts
        account_found c = parts_of (walk c.how c.bytes c.bits)

        abbrev pub account_cases : List AccountCase
        account_cases =
            account_row struct_walk (0x02 ∷ 0x02 ∷ 0x04 ∷ 0x10 ∷ 0xAB ∷ 0x00 ∷ 0x00 ∷ 0x00 ∷ []) 64 8 56 0 0 ∷
            account_row struct_walk (0x02 ∷ 0x02 ∷ 0x04 ∷ 0x10 ∷ 0xAB ∷ 0x00 ∷ 0x00 ∷ []) 56 8 48 0 0 ∷
            account_row struct_walk (0x03 ∷ 0x00 ∷ 0x01 ∷ 0x00 ∷ []) 32 0 32 0 0 ∷
            account_row (struct twelve_levels combat_rounds) (0x02 ∷ 0x02 ∷ 0x0A ∷ 0x20 ∷ 0x00 ∷ 0x00 ∷ 0x00 ∷ 0x00 ∷ 0x00 ∷ []) 72 0 72 0 0 ∷
            account_row (struct twelve_levels combat_rounds) (0x02 ∷ 0x02 ∷ 0x0A ∷ 0x10 ∷ 0x00 ∷ 0x00 ∷ 0x00 ∷ 0x00 ∷ []) 64 0 64 0 0 ∷
            account_row exact_walk (0x02 ∷ 0x02 ∷ 0x04 ∷ 0x10 ∷ 0xAB ∷ 0x00 ∷ 0x00 ∷ 0x00 ∷ []) 64 8 48 0 8 ∷
            account_row struct_walk (0x00 ∷ 0x00 ∷ 0x02 ∷ []) 24 0 16 0 8 ∷
            account_row (struct twelve_levels combat_rounds) (0x02 ∷ 0x02 ∷ 0x0A ∷ 0x40 ∷ 0x00 ∷ 0x00 ∷ 0x01 ∷ 0x00 ∷ 0x00 ∷ 0x00 ∷ []) 80 0 64 16 0 ∷
            account_row struct_walk (0x00 ∷ 0x03 ∷ 0x00 ∷ []) 24 0 24 0 0 ∷
            account_row struct_walk (0x02 ∷ 0x02 ∷ 0x02 ∷ 0xFF ∷ 0x01 ∷ 0x00 ∷ []) 48 0 48 0 0 ∷
            account_row struct_walk (0x03 ∷ 0x41 ∷ 0x00 ∷ 0xAB ∷ []) 32 8 24 0 0 ∷
            account_row struct_walk (0x02 ∷ 0x02 ∷ 0x03 ∷ 0x00 ∷ 0x01 ∷ []) 40 0 32 0 0 ∷
            account_row struct_walk (0x02 ∷ 0x0F ∷ []) 12 0 8 0 0 ∷
            account_row struct_walk (0x02 ∷ []) 16 0 0 0 0 ∷
            account_row object (0x02 ∷ 0x02 ∷ 0x04 ∷ 0x10 ∷ 0x0E ∷ 0x00 ∷ 0x00 ∷ []) 56 0 56 0 0 ∷
            account_row object (0x02 ∷ 0x02 ∷ 0x04 ∷ 0x30 ∷ 0x01 ∷ 0x00 ∷ 0x00 ∷ 0x00 ∷ 0x00 ∷ []) 72 0 64 0 0 ∷
            account_row object (0x02 ∷ 0x02 ∷ 0x04 ∷ 0x10 ∷ 0x0E ∷ 0x04 ∷ 0x10 ∷ 0xAB ∷ 0x00 ∷ 0x00 ∷ []) 80 0 72 8 0 ∷
            account_row object (0x03 ∷ 0x41 ∷ 0x00 ∷ 0xAB ∷ []) 32 0 24 0 0 ∷
            []
        """,
    ("framing", "specs/Records"): """
        use Rattle.std.specs.Prelude.{ℕ, ◌+◌, ◌/◌, List, ◌∷◌, ◌++◌, length}
        use Rattle.bits.specs.Runs.{bytes_of, bytes_for}
        use Rattle.framing.specs.Events.{Leaf, Pair}

        abbrev pub payload_of : Leaf → List ℕ
        payload_of x = bytes_of (bytes_for x.width) x.payload

        abbrev pub whole_records : (words numbers : ℕ) → ℕ
        whole_records words numbers = numbers / words

        abbrev pub leaf_words : ℕ
        leaf_words = 6

        abbrev pub leaf_numbers : (pathStart pathLength handle payloadBits payloadStart windowStart : ℕ) → List ℕ
        leaf_numbers pathStart pathLength handle payloadBits payloadStart windowStart =
            pathStart ∷ pathLength ∷ handle ∷ payloadBits ∷ payloadStart ∷ windowStart ∷ []

        abbrev pub path_start_at : ℕ
        path_start_at = 0

        abbrev pub path_length_at : ℕ
        path_length_at = 1

        abbrev pub handle_at : ℕ
        handle_at = 2

        abbrev pub payload_bits_at : ℕ
        payload_bits_at = 3

        abbrev pub payload_start_at : ℕ
        payload_start_at = 4

        abbrev pub window_start_at : ℕ
        window_start_at = 5

        abbrev pub leaf_record : (pathStart payloadStart : ℕ) → Leaf → List ℕ
        leaf_record pathStart payloadStart x = leaf_numbers pathStart (length x.path) x.handle x.width payloadStart x.start

        abbrev pub pair_words : ℕ
        pair_words = 2

        abbrev pub pair_numbers : (index guid : ℕ) → List ℕ
        pair_numbers index guid = index ∷ guid ∷ []

        abbrev pub index_at : ℕ
        index_at = 0

        abbrev pub guid_at : ℕ
        guid_at = 1

        abbrev pub pair_record : Pair → List ℕ
        pair_record x = pair_numbers x.index x.guid

        unfoldable pub path_bytes_lem : List Leaf → List ℕ
        path_bytes_lem [] = []
        path_bytes_lem (x ∷ l) = x.path ++ path_bytes_lem l

        unfoldable pub payload_bytes_lem : List Leaf → List ℕ
        payload_bytes_lem [] = []
        payload_bytes_lem (x ∷ l) = payload_of x ++ payload_bytes_lem l

        unfoldable pub leaf_records : (pathAt payloadAt : ℕ) → List Leaf → List ℕ
        leaf_records a b [] = []
        leaf_records a b (x ∷ l) = leaf_record a b x ++ leaf_records (a + length x.path) (b + length (payload_of x)) l

        unfoldable pub pair_records : List Pair → List ℕ
        pair_records [] = []
        pair_records (x ∷ l) = pair_record x ++ pair_records l
        """,
    ("outputs", "specs/Records"): """
        use Rattle.std.specs.Prelude.{ℕ, ◌+◌, ◌*◌, List, get_or}
        use Rattle.framing.specs.Records.{leaf_words, path_start_at, path_length_at, handle_at, payload_bits_at, payload_start_at, window_start_at, pair_words, index_at, guid_at}
        use Rattle.outputs.specs.declared.LeafRecord.{LeafRecord}
        use Rattle.outputs.specs.declared.PairRecord.{PairRecord}

        abbrev pub leaf_number : (leaves : List ℕ) (i place : ℕ) → ℕ
        leaf_number leaves i place = get_or leaves (leaf_words * i + place) 0

        abbrev pub leaf_at_lem : (leaves : List ℕ) (i : ℕ) → LeafRecord
        leaf_at_lem leaves i =
            record {
              path_start = leaf_number leaves i path_start_at;
              path_length = leaf_number leaves i path_length_at;
              handle = leaf_number leaves i handle_at;
              payload_bits = leaf_number leaves i payload_bits_at;
              payload_start = leaf_number leaves i payload_start_at;
              window_start = leaf_number leaves i window_start_at;
            }

        abbrev pub pair_number : (pairs : List ℕ) (i place : ℕ) → ℕ
        pair_number pairs i place = get_or pairs (pair_words * i + place) 0

        abbrev pub pair_at : (pairs : List ℕ) (i : ℕ) → PairRecord
        pair_at pairs i = record { index = pair_number pairs i index_at; guid = pair_number pairs i guid_at }
        """,
    ("framing", "specs/Events"): """
        use Rattle.std.specs.Prelude.{ℕ, List, ◌∷◌}
        use Rattle.bits.specs.Packed.{Number}

        pub record Leaf : Type 0 where
          pub path : List ℕ
          pub handle : ℕ
          pub start : ℕ
          pub width : ℕ
          pub payload : ℕ

        pub record Entered : Type 0 where
          pub path : List ℕ
          pub start : ℕ
          pub width : ℕ

        pub record Pair : Type 0 where
          pub index : ℕ
          pub guid : ℕ

        pub data Event : Type 0 where
          number : Number → Event
          element : (path : List ℕ) → Event
          array : Entered → Event
          leaf : Leaf → Event
          pair : Pair → Event
          truncation : Event
          error : Event
          implicit : Event
          nested : (bits : ℕ) → Event
          root : (bits : ℕ) → Event

        abbrev pub Trace : Type 0
        Trace = List Event

        abbrev pub raw_handle : ℕ
        raw_handle = 4294967295

        abbrev pub numbers : List Number → Trace
        numbers [] = []
        numbers (x ∷ xs) = number x ∷ numbers xs

        abbrev pub leaves : Trace → List Leaf
        leaves [] = []
        leaves (leaf x ∷ t) = x ∷ leaves t
        leaves (number x ∷ t) = leaves t
        leaves (element p ∷ t) = leaves t
        leaves (array a ∷ t) = leaves t
        leaves (pair x ∷ t) = leaves t
        leaves (truncation ∷ t) = leaves t
        leaves (error ∷ t) = leaves t
        leaves (implicit ∷ t) = leaves t
        leaves (nested n ∷ t) = leaves t
        leaves (root n ∷ t) = leaves t

        abbrev pub pairs : Trace → List Pair
        pairs [] = []
        pairs (pair x ∷ t) = x ∷ pairs t
        pairs (number x ∷ t) = pairs t
        pairs (element p ∷ t) = pairs t
        pairs (array a ∷ t) = pairs t
        pairs (leaf x ∷ t) = pairs t
        pairs (truncation ∷ t) = pairs t
        pairs (error ∷ t) = pairs t
        pairs (implicit ∷ t) = pairs t
        pairs (nested n ∷ t) = pairs t
        pairs (root n ∷ t) = pairs t

        abbrev pub taken : Trace → List Number
        taken [] = []
        taken (number x ∷ t) = x ∷ taken t
        taken (element p ∷ t) = taken t
        taken (array a ∷ t) = taken t
        taken (leaf x ∷ t) = taken t
        taken (pair x ∷ t) = taken t
        taken (truncation ∷ t) = taken t
        taken (error ∷ t) = taken t
        taken (implicit ∷ t) = taken t
        taken (nested n ∷ t) = taken t
        taken (root n ∷ t) = taken t

        abbrev pub arrays : Trace → List Entered
        arrays [] = []
        arrays (array a ∷ t) = a ∷ arrays t
        arrays (number x ∷ t) = arrays t
        arrays (element p ∷ t) = arrays t
        arrays (leaf x ∷ t) = arrays t
        arrays (pair x ∷ t) = arrays t
        arrays (truncation ∷ t) = arrays t
        arrays (error ∷ t) = arrays t
        arrays (implicit ∷ t) = arrays t
        arrays (nested n ∷ t) = arrays t
        arrays (root n ∷ t) = arrays t
        """,
    ("fastarray", "specs/Body"): """
        use Rattle.std.specs.Prelude.{List, ◌∷◌, ◌++◌}
        use Rattle.bits.specs.Packed.{Number}

        unfoldable pub numbers_of : List Item → List Number
        numbers_of [] = []
        numbers_of (x ∷ l) = x.numbers ++ numbers_of l
        """,
    ("bits", "specs/Packed"): """
        use Rattle.std.specs.Prelude.{ℕ, ◌+◌, ◌*◌, List, [], ◌∷◌, Result, Ok}
        use Rattle.bits.specs.declared.Broken.{Broken}

        pub record Whole : Type 0 where
          pub value : ℕ
          pub bytes : ℕ

        abbrev pub Packed : Type 0
        Packed = Result Whole Broken

        abbrev pub whole : (value bytes : ℕ) → Packed
        whole v n = Ok (record { value = v; bytes = n })

        pub record Number : Type 0 where
          pub start : ℕ
          pub bytes : ℕ
          pub value : ℕ

        abbrev pub bits_among : List Number → ℕ
        bits_among [] = 0
        bits_among (x ∷ l) = 8 * x.bytes + bits_among l
        """,
    ("bits", "specs/Bits"): """
        use Rattle.std.specs.Prelude.{ℕ, ◌^◌, ◌<◌, List, get_or}

        abbrev pub Bytes : List ℕ → Type 0
        Bytes s = (i : ℕ) → get_or s i 0 < 2 ^ 8
        """,
    ("bits", "specs/Runs"): """
        use Rattle.std.specs.Prelude.{ℕ, ◌+◌, ◌/◌}

        abbrev pub bytes_for : ℕ → ℕ
        bytes_for n = (n + 7) / 8
        """,
    ("bits", "specs/Padded"): """
        use Rattle.std.specs.Prelude.{ℕ, ◌+◌, ◌-◌, ◌*◌, ◌^◌, ◌<◌, ◌≡◌, Bool, ◌&&◌, List, ◌∷◌, ltb}
        use Rattle.std.specs.Prelude.{if◌then◌else◌}
        use Rattle.bits.specs.Packed.{whole, packed, Number}

        unfoldable pub padded : (value bytes : ℕ) → Bool
        padded v n = ltb 1 n && ltb v (2 ^ (7 * (n - 1)))

        abbrev pub is_padded : Number → Bool
        is_padded x = padded x.value x.bytes

        abbrev pub once : Bool → ℕ
        once b = if b then 1 else 0

        unfoldable pub padded_among : List Number → ℕ
        padded_among [] = 0
        padded_among (x ∷ l) = once (is_padded x) + padded_among l

        pub record ShorterForm (value bytes : ℕ) : Type 0 where
          pub window : ℕ
          pub size : ℕ
          pub place : ℕ
          pub fewer : ℕ
          pub reads : packed window size place ≡ whole value fewer
          pub less : fewer < bytes
        """,
    ("geometry", "specs/Finite"): """
        use Rattle.std.specs.Prelude.{ℕ, ◌^◌, ◌<◌, ◌≡◌, true, Float, Option, None, Some}
        use Rattle.std.specs.Float.Ieee.Scale.{finite}
        use Rattle.floats.specs.Numbers.{Angle}
        use Rattle.geometry.specs.declared.Vector.{Vector}
        use Rattle.geometry.specs.declared.Rotation.{Rotation}
        use Rattle.geometry.specs.declared.Movement.{Movement}

        pub record AllFinite (x y z : Float) : Type 0 where
          pub finite_x : finite x ≡ true
          pub finite_y : finite y ≡ true
          pub finite_z : finite z ≡ true

        abbrev pub FiniteVector : Vector → Type 0
        FiniteVector v = AllFinite v.x v.y v.z

        pub record Exact (w : ℕ) (r : Float) : Type 0 where
          pub steps : ℕ
          pub few : steps < 2 ^ w
          pub angle_of : Angle w steps r

        pub record AllExact (w : ℕ) (pitch yaw roll : Float) : Type 0 where
          pub exact_pitch : Exact w pitch
          pub exact_yaw : Exact w yaw
          pub exact_roll : Exact w roll

        abbrev pub ExactRotation : (w : ℕ) → Rotation → Type 0
        ExactRotation w v = AllExact w v.pitch v.yaw v.roll

        abbrev pub FiniteSpin : Option Vector → Type 0
        FiniteSpin None = Unit {0}
        FiniteSpin (Some v) = FiniteVector v

        pub record SoundMovement (w : ℕ) (m : Movement) : Type 0 where
          pub finite_location : FiniteVector m.location
          pub exact_rotation : ExactRotation w m.rotation
          pub finite_linear : FiniteVector m.linear
          pub finite_angular : FiniteSpin m.angular
        """,
    ("promises", "specs/PairsBehind"): """
        use Rattle.std.specs.Prelude.{ℕ, ◌≡◌, List}
        use Rattle.framing.specs.PairsBehind.{walk_behind}
        use Rattle.framing.specs.Refusing.{Answer}
        use Rattle.outputs.specs.Answers.{pair_answer_of, final_pairs_of}
        use Rattle.array.specs.Calls.{PairsJudged}
        use Rattle.array.specs.Refusals.{ObjectArray, pairs_of}
        use Rattle.exports.specs.WalkResults.{objects_result}
        use Rattle.exports.specs.declared.VrfObjects.{VrfObjects}

        abbrev pub answer_behind : (bytes : List ℕ) (bits : ℕ) (lent : List ℕ) → Answer ℕ
        answer_behind bytes bits lent = pair_answer_of (walk_behind bytes bits) bits lent

        pub record GivenBehind (bytes : List ℕ) (bits : ℕ) (lent : List ℕ) (r : ObjectArray) (end : List ℕ) : Type 0 where
          pub says : pairs_of r ≡ answer_behind bytes bits lent
          pub judged : PairsJudged bits r
          pub buffer : end ≡ final_pairs_of (walk_behind bytes bits) (answer_behind bytes bits lent) lent

        pub record GivenBehindInC (bytes : List ℕ) (bits : ℕ) (lent : List ℕ) (r : VrfObjects) (end : List ℕ) : Type 0 where
          pub says : r ≡ objects_result bits (answer_behind bytes bits lent)
          pub buffer : end ≡ final_pairs_of (walk_behind bytes bits) (answer_behind bytes bits lent) lent
        """,
    ("framing", "specs/PairsBehind"): """
        use Rattle.std.specs.Prelude.{ℕ, zero, suc, ◌*◌, ◌≡◌, true, List, ◌∷◌, ◌++◌, length, ltb}
        use Rattle.std.specs.Prelude.{if◌then◌else◌}
        use Rattle.bits.specs.Sizes.{max_elements, max_fields}
        use Rattle.framing.specs.Windows.{Window, window_of, Reading, got, failed, reading}
        use Rattle.framing.specs.Events.{Pair, number, element, array, leaf, pair, truncation, error, implicit, nested, root, leaves, pairs, taken, Trace}
        use Rattle.framing.specs.Counters.{counters}
        use Rattle.framing.specs.Walk.{number_at, Lead, ends, fails, closes, opens, lead, tail, Run, done, stopped, fields, closing, behind, beyond, on_last_index, too_many}
        use Rattle.framing.specs.Sinks.{object_sink}

        abbrev pub others : Trace → Trace
        others [] = []
        others (pair x ∷ t) = others t
        others (number x ∷ t) = number x ∷ others t
        others (element p ∷ t) = element p ∷ others t
        others (array a ∷ t) = array a ∷ others t
        others (leaf x ∷ t) = leaf x ∷ others t
        others (truncation ∷ t) = truncation ∷ others t
        others (error ∷ t) = error ∷ others t
        others (implicit ∷ t) = implicit ∷ others t
        others (nested n ∷ t) = nested n ∷ others t
        others (root n ∷ t) = root n ∷ others t

        abbrev pub as_events : List Pair → Trace
        as_events [] = []
        as_events (x ∷ l) = pair x ∷ as_events l

        abbrev pub late : Trace → Trace
        late t = others t ++ as_events (pairs t)

        abbrev pub late_run : Run → Run
        late_run (done t q) = done (late t) q
        late_run (stopped t) = stopped (late t)

        abbrev pub on_index_behind : Window → (count : ℕ) → (ℕ → Trace) → Lead → Trace
        on_index_behind w count more ends = implicit ∷ []
        on_index_behind w count more fails = error ∷ []
        on_index_behind w count more (closes e q) = number e ∷ closing object_sink w q
        on_index_behind w count more (opens e i q) =
            if beyond count i then number e ∷ error ∷ [] else
            number e ∷ element [] ∷ behind more (late_run (fields object_sink w i [] max_fields q true))

        unfoldable pub elements_behind : Window → (count left p : ℕ) → Trace
        elements_behind w count zero p = on_last_index object_sink w [] p (lead w p)
        elements_behind w count (suc left) p = on_index_behind w count (λ q. elements_behind w count left q) (lead w p)

        abbrev pub on_count_behind : Window → Reading → Trace
        on_count_behind w failed = error ∷ []
        on_count_behind w (got count b) =
            if too_many count then number (number_at w 0 b count) ∷ truncation ∷ tail object_sink w [] (8 * b) else
            number (number_at w 0 b count) ∷ elements_behind w count max_elements (8 * b)

        unfoldable pub walk_behind : (bytes : List ℕ) (n : ℕ) → Trace
        walk_behind bytes n =
            if ltb (8 * length bytes) n then error ∷ [] else on_count_behind (window_of bytes n) (reading (window_of bytes n) 0)

        pub record NotToldApart (t u : Trace) : Type 0 where
          pub same_leaves : leaves t ≡ leaves u
          pub same_pairs : pairs t ≡ pairs u
          pub same_counters : counters t ≡ counters u
          pub same_numbers : taken t ≡ taken u
        """,
    ("floats", "specs/Numbers"): """
        use Rattle.std.specs.Prelude.{◌≡◌, ℕ, ◌-◌, ◌*◌, ◌^◌, false, Float}
        use Rattle.std.specs.Float.Ieee.Exact.{HasValue}

        pub record Angle (w k : ℕ) (r : Float) : Type 0 where
          pub value : r ≡ angle w k
          pub exact : HasValue r false (45 * k) (2 ^ (w - 3))
        """,
    ("framing", "specs/Demand"): """
        use Rattle.std.specs.Prelude.{ℕ, ◌+◌, ◌≡◌, true, List, ◌++◌}
        use Rattle.bits.specs.Bits.{field}
        use Rattle.bits.specs.Sizes.{trailer_bits}
        use Rattle.framing.specs.Windows.{Window}
        use Rattle.framing.specs.Walk.{Sink}

        pub record Opens {A : Type 0} (xs ys : List A) : Type 0 where
          pub rest : List A
          pub whole : xs ++ rest ≡ ys

        pub record LacksTrailer (s : Sink) (w : Window) (m : ℕ) : Type 0 where
          pub takes_one : s.trailer ≡ true
          pub lacks_one : m + trailer_bits ≡ w.size
          pub zero : field w.bits m trailer_bits ≡ 0
        """,
    ("promises", "specs/Verdicts"): """
        use Rattle.std.specs.Prelude.{ℕ, ◌≤◌, ◌≡◌, true, false}
        use Rattle.framing.specs.Counters.{Counters, counted, is_clean}
        use Rattle.framing.specs.Sinks.{Walker, Leafy}
        use Rattle.framing.specs.Verdicts as F
        use Rattle.exports.specs.WalkResults.{verdict_number_lem}

        abbrev pub Exactly : (A B : Type 0) → Type 0
        Exactly A B = (A → B) × (B → A)

        pub record OnWindow {A : Type 0} (form : F.Verdict → A) (k : Walker) (bits : ℕ) (c : Counters) (v : A) : Type 0 where
          pub empty : Exactly (v ≡ form F.empty) (Leafy k × (bits ≡ 0))
          pub clean : Exactly (v ≡ form F.clean) ((1 ≤ bits) × (is_clean c ≡ true))
          pub partial : Exactly (v ≡ form F.partial) (is_clean c ≡ false)
          pub nothing_counted : Leafy k → bits ≡ 0 → c ≡ counted 0 0 0 0 0 0 0
          pub error_counted : (Leafy k → ⊥) → bits ≡ 0 → c ≡ counted 0 0 0 1 0 0 0

        pub record InC (k : Walker) (bits refusal : ℕ) (c : Counters) (v : ℕ) : Type 0 where
          pub refused : (refusal ≡ 0 → ⊥) → v ≡ 0
          pub accepted : refusal ≡ 0 → OnWindow verdict_number_lem k bits c v

        pub record OnSet {A : Type 0} (form : F.Verdict → A) (c : Counters) (v : A) : Type 0 where
          pub clean : Exactly (v ≡ form F.clean) (is_clean c ≡ true)
          pub partial : Exactly (v ≡ form F.partial) (is_clean c ≡ false)
          pub not_empty : v ≡ form F.empty → ⊥
        """,
    ("promises", "specs/Totals"): """
        use Rattle.std.specs.Prelude.{◌≡◌, true, false, List, ◌∷◌, ◌++◌, eqb, Ok, Err}
        use Rattle.std.proofs.Math.Option.{Option, none, some}
        use Rattle.std.specs.Prelude.{if◌then◌else◌}
        use Rattle.bits.specs.Members.{All, Reorders}
        use Rattle.framing.specs.Counters.{Counters, counted, sums, is_clean}
        use Rattle.framing.specs.Verdicts as F
        use Rattle.array.specs.Merges.{bounded}
        use Rattle.array.specs.Refusals.{Merged, counters_of_lem}
        use Rattle.array.specs.declared.ArrayDecodeStats.{ArrayDecodeStats}
        use Rattle.exports.specs.WalkResults.{counters_in, no_counters_lem}
        use Rattle.exports.specs.declared.VrfCounters.{VrfCounters}
        use Rattle.exports.specs.declared.VrfMerge.{VrfMerge}
        use Rattle.promises.specs.Verdicts.{Exactly}

        pub record ReadAs (A R : Type 0) : Type 0 where
          pub counts : A → Counters
          pub zero : A
          pub sum_in : R → Option A

        abbrev pub Held : {A R : Type 0} → ReadAs A R → A → Type 0
        Held f a = bounded (f.counts a) ≡ true

        abbrev pub AllHeld : {A R : Type 0} → ReadAs A R → List A → Type 0
        AllHeld f l = All (Held f) l

        pub data Plan (A : Type 0) : Type 0 where
          from_zero : Plan A
          one : A → Plan A
          both : (left right : Plan A) → Plan A

        abbrev pub sets : {A : Type 0} → Plan A → List A
        sets from_zero = []
        sets (one a) = a ∷ []
        sets (both p q) = sets p ++ sets q

        abbrev pub onto : {A : Type 0} → Plan A → List A → Plan A
        onto p [] = p
        onto p (a ∷ l) = onto (both p (one a)) l

        abbrev pub in_turn : {A : Type 0} → List A → Plan A
        in_turn l = onto from_zero l

        pub record Given {A R : Type 0} (adds : A → A → R → Type 0) (f : ReadAs A R) (a b : A) (z : Option A) : Type 0 where
          pub answer : R
          pub meets : adds a b answer
          pub sum : z ≡ f.sum_in answer

        abbrev pub MergesTo : {A R : Type 0} → (adds : A → A → R → Type 0) → ReadAs A R → (x y z : Option A) → Type 0
        MergesTo adds f (some a) (some b) z = Given adds f a b z
        MergesTo adds f (some a) none z = z ≡ none
        MergesTo adds f none y z = z ≡ none

        pub record BothCome {A R : Type 0} (adds : A → A → R → Type 0) (f : ReadAs A R) (left right : Option A → Type 0) (z : Option A) : Type 0 where
          pub left_total : Option A
          pub right_total : Option A
          pub comes_left : left left_total
          pub comes_right : right right_total
          pub merges : MergesTo adds f left_total right_total z

        abbrev pub ComesTo : {A R : Type 0} → (adds : A → A → R → Type 0) → ReadAs A R → Plan A → Option A → Type 0
        ComesTo adds f from_zero z = z ≡ some f.zero
        ComesTo adds f (one a) z = z ≡ some a
        ComesTo adds f (both p q) z = BothCome adds f (ComesTo adds f p) (ComesTo adds f q) z

        abbrev pub sums_over : {A R : Type 0} → ReadAs A R → List A → Counters
        sums_over f [] = counted 0 0 0 0 0 0 0
        sums_over f (a ∷ l) = sums (f.counts a) (sums_over f l)

        abbrev pub Commutes : {A R : Type 0} → (adds : A → A → R → Type 0) → ReadAs A R → Type 0
        Commutes {A} {R} adds f = (a b : A) (r s : R) → adds a b r → adds b a s → f.sum_in r ≡ f.sum_in s

        abbrev pub Associates : {A R : Type 0} → (adds : A → A → R → Type 0) → ReadAs A R → Type 0
        Associates {A} {R} adds f =
            (a b c : A) (x y : Option A) → ComesTo adds f (both (both (one a) (one b)) (one c)) x → ComesTo adds f (both (one a) (both (one b) (one c))) y → x ≡ y

        pub record ZeroKeeps {A R : Type 0} (adds : A → A → R → Type 0) (f : ReadAs A R) : Type 0 where
          pub all_zero : f.counts f.zero ≡ counted 0 0 0 0 0 0 0
          pub on_the_left : (a : A) (r : R) → Held f a → adds f.zero a r → f.sum_in r ≡ some a
          pub on_the_right : (a : A) (r : R) → Held f a → adds a f.zero r → f.sum_in r ≡ some a

        pub record Comes {A R : Type 0} (adds : A → A → R → Type 0) (f : ReadAs A R) (p : Plan A) : Type 0 where
          pub outcome : Option A
          pub comes : ComesTo adds f p outcome

        pub record Totals {A R : Type 0} (adds : A → A → R → Type 0) (f : ReadAs A R) : Type 0 where
          pub orders : (l m : List A) → Reorders l m → (x y : Option A) → ComesTo adds f (in_turn l) x → ComesTo adds f (in_turn m) y → x ≡ y
          pub brackets : (p q : Plan A) → AllHeld f (sets p) → Reorders (sets p) (sets q) → (x y : Option A) → ComesTo adds f p x → ComesTo adds f q y → x ≡ y
          pub refused : (l : List A) (x : Option A) → ComesTo adds f (in_turn l) x → Exactly (x ≡ none) (bounded (sums_over f l) ≡ false)
          pub brackets_refused : (p : Plan A) → AllHeld f (sets p) → (x : Option A) → ComesTo adds f p x → Exactly (x ≡ none) (bounded (sums_over f (sets p)) ≡ false)
          pub has_sums : (l : List A) (t : A) → ComesTo adds f (in_turn l) (some t) → f.counts t ≡ sums_over f l
          pub brackets_have_sums : (p : Plan A) (t : A) → ComesTo adds f p (some t) → f.counts t ≡ sums_over f (sets p)
          pub all_come : (p : Plan A) → Comes adds f p

        pub record Faultless (c : Counters) : Type 0 where
          pub truncations : c.truncations ≡ 0
          pub errors : c.errors ≡ 0
          pub nested_bits_lem : c.nested_bits_lem ≡ 0
          pub root_bits_lem : c.root_bits_lem ≡ 0
          pub implicits : c.implicits ≡ 0

        abbrev pub AllFaultless : {A R : Type 0} → ReadAs A R → List A → Type 0
        AllFaultless f l = All (λ a. Faultless (f.counts a)) l

        pub record OnMerged {U : Type 0} (form : F.Verdict → U) (judged : U → Type 0) (c : Counters) (faultlessParts : Type 0) : Type 0 where
          pub counters : Exactly (is_clean c ≡ true) faultlessParts
          pub clean : (v : U) → judged v → Exactly (v ≡ form F.clean) faultlessParts
          pub not_empty : (v : U) → judged v → v ≡ form F.empty → ⊥

        pub record CleanParts {A R U : Type 0} (adds : A → A → R → Type 0) (f : ReadAs A R) (judges : A → U → Type 0) (form : F.Verdict → U) : Type 0 where
          pub of_two : (a b s : A) (r : R) → adds a b r → f.sum_in r ≡ some s
              → OnMerged form (judges s) (f.counts s) (Faultless (f.counts a) × Faultless (f.counts b))
          pub of_list : (l : List A) (t : A) → ComesTo adds f (in_turn l) (some t) → OnMerged form (judges t) (f.counts t) (AllFaultless f l)
          pub of_brackets : (p : Plan A) (t : A) → ComesTo adds f p (some t) → OnMerged form (judges t) (f.counts t) (AllFaultless f (sets p))

        abbrev pub no_stats : ArrayDecodeStats
        no_stats =
            record {
              elements_decoded = 0;
              fields_emitted = 0;
              truncations = 0;
              errors = 0;
              unconsumed_nested_bits = 0;
              unconsumed_root_bits = 0;
              implicit_terminations = 0;
            }

        abbrev pub sum_of : Merged → Option ArrayDecodeStats
        sum_of (Ok s) = some s
        sum_of (Err o) = none

        abbrev pub in_rattle : ReadAs ArrayDecodeStats Merged
        in_rattle = record { counts = counters_of_lem; zero = no_stats; sum_in = sum_of }

        abbrev pub in_c : ReadAs VrfCounters VrfMerge
        in_c = record { counts = counters_in; zero = no_counters_lem; sum_in = λ r. if eqb r.refusal 0 then some r.counters else none }
        """,
    ("bits", "specs/Members"): """
        use Rattle.std.specs.Prelude.{ℕ, ◌≡◌, List, ◌∷◌, ◌++◌, length}

        abbrev pub All : {A : Type 0} → (A → Type 0) → List A → Type 0
        All holds [] = Unit {0}
        All holds (x ∷ l) = holds x × All holds l

        pub data Any {A : Type 0} (holds : A → Type 0) : List A → Type 0 where
          first : {x : A} {l : List A} → holds x → Any holds (x ∷ l)
          later : {x : A} {l : List A} → Any holds l → Any holds (x ∷ l)

        pub record StandsAt {A : Type 0} (x : A) (i : ℕ) (l : List A) : Type 0 where
          pub before : List A
          pub after : List A
          pub whole : l ≡ before ++ (x ∷ after)
          pub many : length before ≡ i

        pub record StandsIn {A : Type 0} (x : A) (others : List A → Type 0) (m : List A) : Type 0 where
          pub before : List A
          pub after : List A
          pub whole : m ≡ before ++ (x ∷ after)
          pub rest : others (before ++ after)

        abbrev pub Reorders : {A : Type 0} → (l m : List A) → Type 0
        Reorders [] m = m ≡ []
        Reorders (x ∷ l) m = StandsIn x (Reorders l) m
        """,
    ("promises", "specs/Paths"): """
        use Rattle.std.specs.Prelude.{◌*◌, ◌≤◌}
        use Rattle.bits.specs.Sizes.{longest_path}
        use Rattle.framing.specs.Refusing.{Room, Answer, refused, accepted}
        use Rattle.exports.specs.declared.VrfWalk.{VrfWalk}

        abbrev pub PathsFit : Answer Room → Type 0
        PathsFit (refused n need) = need.path_bytes_lem ≤ longest_path * need.leaves
        PathsFit (accepted c p need) = need.path_bytes_lem ≤ longest_path * need.leaves

        abbrev pub PathsFitInC : VrfWalk → Type 0
        PathsFitInC r = r.path_bytes ≤ longest_path * r.leaves
        """,
    ("framing", "specs/Paths"): """
        use Rattle.std.specs.Prelude.{ℕ, ◌≤◌, List, ◌∷◌, length}
        use Rattle.bits.specs.Sizes.{longest_path}
        use Rattle.framing.specs.Events.{number, element, array, leaf, pair, truncation, error, implicit, nested, root, Trace}

        abbrev pub PathFits : (path : List ℕ) → Type 0
        PathFits path = length path ≤ longest_path

        abbrev pub working_paths : Trace → List (List ℕ)
        working_paths [] = []
        working_paths (element p ∷ t) = p ∷ working_paths t
        working_paths (array a ∷ t) = a.path ∷ working_paths t
        working_paths (leaf x ∷ t) = x.path ∷ working_paths t
        working_paths (number x ∷ t) = working_paths t
        working_paths (pair x ∷ t) = working_paths t
        working_paths (truncation ∷ t) = working_paths t
        working_paths (error ∷ t) = working_paths t
        working_paths (implicit ∷ t) = working_paths t
        working_paths (nested n ∷ t) = working_paths t
        working_paths (root n ∷ t) = working_paths t
        """,
    ("bits", "specs/Sizes"): """
        use Rattle.std.specs.Prelude.{ℕ}

        abbrev pub longest_path : ℕ
        longest_path = 852
        """,
    ("array", "specs/Calls"): """
        use Rattle.framing.specs.Verdicts as F
        use Rattle.array.specs.declared.Verdict.{Verdict}
        use Rattle.array.specs.declared.Verdict.TheVariants as verdict

        abbrev pub verdict_named : F.Verdict → Verdict
        verdict_named F.clean = verdict.Clean
        verdict_named F.partial = verdict.Partial
        verdict_named F.empty = verdict.Empty
        """,
    ("exports", "specs/WalkResults"): """
        use Rattle.std.specs.Prelude.{ℕ}
        use Rattle.framing.specs.Verdicts.{Verdict, clean, partial, empty}
        use Rattle.framing.specs.Refusing.{Room}
        use Rattle.exports.specs.declared.VrfWalk.{VrfWalk}

        abbrev pub verdict_number_lem : Verdict → ℕ
        verdict_number_lem clean = 0
        verdict_number_lem partial = 1
        verdict_number_lem empty = 2

        abbrev pub filled_in : VrfWalk → Room
        filled_in r = record { leaves = r.leaves; path_bytes_lem = r.path_bytes; payload_bytes_lem = r.payload_bytes }
        """,
    ("promises", "specs/ExportOrders"): """
        use Rattle.std.specs.Prelude.{List, map}
        use Rattle.bits.specs.Refusals.{Numbered, Rule, when}

        abbrev pub numbered_rules : {R : Type 0} → (R → Numbered) → List (Rule R) → List (Rule Numbered)
        numbered_rules f rules = map (λ r. when r.holds (f r.gives)) rules
        """,
    ("bits", "specs/Refusals"): """
        use Rattle.std.specs.Prelude.{Bool, List, ◌∷◌}
        use Rattle.std.proofs.Math.Option.{Option, none, some}
        use Rattle.std.specs.Prelude.{if◌then◌else◌}

        pub record Rule (A : Type 0) : Type 0 where
          pub holds : Bool
          pub gives : A

        abbrev pub when : {A : Type 0} → Bool → A → Rule A
        when t r = record { holds = t; gives = r }

        unfoldable pub first_of : {A : Type 0} → List (Rule A) → Option A
        first_of [] = none
        first_of (r ∷ rs) = if r.holds then some r.gives else first_of rs
        """,
}


def words_of(held, block):
    """The words of a block that `use` lines of its file bring: by name, and as aliases of modules."""
    tokens = tokens_of(block)
    names = {t for t in tokens if t in held.brought} | {name for name, pieces in held.operators if name in held.brought and pieces and all(p in tokens for p in pieces)}
    return names, {t.split(".")[0] for t in tokens if "." in t and t.split(".")[0] in held.aliases}


def at_home(definitions, path, name):
    """Whether a module of this repository declares the name itself, and doesn't pass on another's."""
    where = module_named(path)
    if where is None or where[0] not in definitions.code.crates:  # the library's
        return True
    if where[2]:
        return definitions.in_module(path, name) is not None
    found = definitions.in_module(path, name)
    return found is not None and found[:2] == where[:2]


def statements_stand(definitions, report):
    """Each block stands as it is, and its words come from where the `use` lines above it say."""
    for (crate, file), text in STATED.items():
        held, meant = definitions.files.get((crate, file)), file_of(dedent(text).lstrip("\n"))
        for block in text.strip().split("\n\n"):
            words = block.split()
            if words[0] == "use":
                continue
            name = next(w for w in words if w not in ("abbrev", "pub", "unfoldable", "record", "data"))
            declaration = definitions.declaration((crate, file, name))
            if not report.hold(declaration and declaration.text.split() == words, f"{crate}/{file}.{name} doesn't stand as the promises are read with"):
                continue
            names, aliases = words_of(held, block)
            for word in sorted(names):
                same = word in meant.brought and home_of(*meant.brought[word]) == home_of(*held.brought[word]) and at_home(definitions, *held.brought[word])
                report.hold(same, f"{crate}/{file}.{name}: {word} is brought from elsewhere than the promises are read with")
            for word in sorted(aliases):
                report.hold(meant.aliases.get(word) == held.aliases[word], f"{crate}/{file}.{name}: {word} is another module than the promises are read with")
