//! Byte angles: every byte on every axis of a rotation and of a movement, and its whole number beside the Rust's angle.
use crate::answer::{Difference, Outcome, Value};
use crate::bits::Bits;
use crate::case::Case;
use crate::movement::MovementCase;
use crate::numbers;
use crate::port;
use crate::read::What;
use crate::rng::Rng;
use crate::runner::Runner;
use crate::window::Window;
use decode::decode as rust;
use vrf_bitio::BitReader;
use vrf_proved::lent::{Cursor, LocationScale, RotationWidth};

/// A number that is asked for its thirty-seconds of a degree, a byte or not.
#[derive(Clone, Copy, Debug)]
pub struct StepsCase(pub u32);

/// A rotation with the byte on one axis; the others are not sent.
fn rotation(byte: u8, axis: usize) -> Bits {
    let mut bits = Bits::new();
    put_rotation(&mut bits, byte, axis);
    bits
}

fn put_rotation(bits: &mut Bits, byte: u8, axis: usize) {
    for at in 0..3 {
        bits.put((at == axis).into(), 1);
        if at == axis {
            bits.byte(byte);
        }
    }
}

fn read(byte: u8, axis: usize) -> Case {
    numbers::case(What::Rotation { width: 8 }, &rotation(byte, axis))
}

/// A vector of zeros, as binary32.
fn put_zero_vector(bits: &mut Bits) {
    for width in [7, 32, 32, 32] {
        bits.put(0, width);
    }
}

/// A record that holds nothing else.
fn movement(byte: u8, axis: usize) -> Case {
    let mut bits = Bits::new();
    bits.put(0, 4);
    put_zero_vector(&mut bits);
    put_rotation(&mut bits, byte, axis);
    put_zero_vector(&mut bits);
    Case::Movement(MovementCase {
        scale: LocationScale::One,
        width: RotationWidth::Eight,
        window: Window::of(&bits),
    })
}

/// The Rust's rotation with the byte on one axis.
fn rust_rotation(byte: u8, axis: usize) -> Option<[f32; 3]> {
    let bits = rotation(byte, axis);
    let mut reader = BitReader::with_bit_len(bits.bytes(), bits.len() as u64).ok()?;
    let r = rust::rotation(&mut reader, 8).ok()?;
    Some([r.pitch, r.yaw, r.roll])
}

/// How many thirty-seconds of a degree an angle is, if it is a whole number of them.
fn thirty_seconds(angle: f32) -> Option<u32> {
    let steps = f64::from(angle) * 32.0;
    (steps.fract() == 0.0 && (0.0..4_294_967_295.0).contains(&steps)).then_some(steps as u32)
}

impl StepsCase {
    pub fn line(&self) -> String {
        format!("steps {}", self.0)
    }

    /// A byte's number is the Rust's angle in thirty-seconds of a degree. The Rust has none for what is no byte: the rules say none.
    pub fn check(&self) -> Result<Outcome, Difference> {
        let byte = u8::try_from(self.0).ok();
        let expected = byte.and_then(|k| rust_rotation(k, 0)).and_then(|angles| thirty_seconds(angles[0]));
        let given = [port::byte_angle_steps(self.0), port::byte_angle_entry(self.0)];
        if given != [expected; 2] || byte.is_some() != expected.is_some() {
            return Err(Difference::new("steps", format!("{expected:?}"), format!("{given:?}")));
        }
        Ok(Outcome::Accepted)
    }
}

/// Numbers that are no byte.
const NO_BYTES: [u32; 9] = [256, 257, 511, 512, 65_535, 65_536, 1 << 31, u32::MAX - 1, u32::MAX];

/// False: a difference was found.
pub fn run(runner: &mut Runner) -> bool {
    let row = runner.row("angles", "every byte on every axis, and its thirty-seconds of a degree");
    let mut rng = Rng::new(8, 0);
    let axes = (0..=255).flat_map(|byte| (0..3).flat_map(move |axis| [read(byte, axis), movement(byte, axis)]));
    let random = (0..1000).map(|_| 256 + rng.below(u32::MAX as usize - 256) as u32);
    let numbers = (0..256).chain(NO_BYTES).chain(random).map(|k| Case::Steps(StepsCase(k)));
    axes.chain(numbers).all(|case| runner.one(row, &case))
}

/// The patterns of both sides' angles of a byte on each axis, where there is one.
fn patterns(byte: u8) -> [[Option<u32>; 3]; 2] {
    let ours = |axis: usize| {
        let bits = rotation(byte, axis);
        match port::rotation(bits.bytes(), Cursor::over(bits.len() as u64), 8).result {
            Ok(Value::Floats(found)) => Some(found[axis]),
            _ => None,
        }
    };
    let theirs = |axis: usize| rust_rotation(byte, axis).map(|angles| angles[axis].to_bits());
    [[0, 1, 2].map(theirs), [0, 1, 2].map(ours)]
}

/// Whether both sides have the same angle on every axis, and it is the byte's number of thirty-seconds of a degree.
fn alike([theirs, ours]: [[Option<u32>; 3]; 2], steps: Option<u32>) -> bool {
    let counted = |pattern: &Option<u32>| pattern.and_then(|p| thirty_seconds(f32::from_bits(p)));
    steps.is_some() && theirs == ours && theirs.iter().all(|pattern| counted(pattern) == steps)
}

fn told<T>(value: Option<T>, text: impl Fn(T) -> String) -> String {
    value.map_or("none".into(), text)
}

/// Prints every byte with its number, and both sides' patterns of its angle on each axis. False: one differs.
pub fn print() -> bool {
    println!("byte  steps  degrees    Rust: pitch, yaw, roll      port: pitch, yaw, roll");
    let mut differ = 0;
    for byte in 0..=255 {
        let (both, steps) = (patterns(byte), port::byte_angle_steps(byte.into()));
        let same = alike(both, steps);
        differ += u32::from(!same);
        let [theirs, ours] = both.map(|side| side.map(|p| told(p, |p| format!("{p:08x}"))).join(" "));
        let (number, degrees) = (told(steps, |n| n.to_string()), told(steps, |n| (f64::from(n) / 32.0).to_string()));
        println!(
            "{byte:>4}  {number:>5}  {degrees:<9}  {theirs}  {ours}{}",
            if same { "" } else { "  DIFFER" }
        );
    }
    println!("256 byte angles on three axes, {differ} differ");
    differ == 0
}
