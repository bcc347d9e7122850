//! Byte angles as whole numbers: the constant, the proved call, and the angles that rotations and movements have.

mod common;

use common::Window;
use vrf_proved::lent::{self, Cursor, LocationScale, RotationWidth};
use vrf_proved::BYTE_ANGLE_STEPS;

/// The byte on each axis.
fn push_rotation(window: &mut Window, k: u32) {
    for _ in 0..3 {
        window.push(1, 1);
        window.push(k.into(), 8);
    }
}

/// A vector of zeros, sent as binary32.
fn push_zero_vector(window: &mut Window) {
    for width in [7, 32, 32, 32] {
        window.push(0, width);
    }
}

#[test]
fn the_constant_is_the_proved_table() {
    for (k, steps) in (0..).zip(BYTE_ANGLE_STEPS) {
        assert_eq!((lent::byte_angle_steps(k), steps), (Some(steps), 45 * k), "byte {k}");
    }
}

#[test]
fn no_byte_has_no_steps() {
    for k in [256, 257, 511, 65_535, 65_536, 1 << 31, u32::MAX - 1, u32::MAX] {
        assert_eq!(lent::byte_angle_steps(k), None, "{k}");
    }
}

#[test]
fn an_angle_is_its_number_over_32_and_nothing_is_lost() {
    for (k, steps) in (0..).zip(BYTE_ANGLE_STEPS) {
        let angle = steps as f32 / 32.0;
        let mut window = Window::default();
        push_rotation(&mut window, k);
        let read = lent::rotation(&window.bytes, Cursor::over(window.bits.into()), 8);
        let read = read.result.unwrap();
        assert_eq!(read.map(f32::to_bits), [angle.to_bits(); 3], "byte {k}");
        for axis in read {
            assert_eq!(f64::from(axis) * 32.0, f64::from(45 * k), "byte {k}");
            assert_eq!(axis.to_bits(), (k as f32 * (360.0 / 256.0)).to_bits(), "byte {k}");
        }

        let mut record = Window::of(0, 4);
        push_zero_vector(&mut record);
        push_rotation(&mut record, k);
        push_zero_vector(&mut record);
        let read = lent::movement(&record.bytes, record.bits.into(), RotationWidth::Eight, LocationScale::One);
        assert_eq!(read.result.unwrap().rotation.map(f32::to_bits), [angle.to_bits(); 3], "byte {k}");
    }
}
