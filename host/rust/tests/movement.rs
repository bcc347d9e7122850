//! Movement records with everything in them, and with nothing.

mod common;

use common::Window;
use vrf_proved::*;

/// A quantized vector of 12-bit components, divided by the scale if `scaled`.
fn push_vector(window: &mut Window, scaled: bool, components: [i64; 3]) {
    window.push(12 | u64::from(scaled) << 6, 7);
    for component in components {
        window.push(component as u64, 12);
    }
}

/// Sleeping, with physics, frame and handle, turned by one step of its width about the first axis and by three about the last.
fn full(width: u32) -> Window {
    let mut window = Window::of(0b1111, 4);
    push_vector(&mut window, true, [-125, 0, 2047]);
    for (flag, steps) in [(1, 1), (0, 0), (1, 3)] {
        window.push(flag, 1);
        window.push(steps, if flag == 1 { width } else { 0 });
    }
    push_vector(&mut window, true, [-2048, 1, 2]);
    push_vector(&mut window, false, [3, 4, -5]);
    window.packed(u32::MAX);
    window.packed(0);
    window
}

fn expected(divisor: f64, step: f32) -> FRepMovement {
    FRepMovement {
        location: FVector {
            x: -125.0 / divisor,
            y: 0.0,
            z: 2047.0 / divisor,
        },
        rotation: FRotator {
            pitch: step,
            yaw: 0.0,
            roll: 3.0 * step,
        },
        linear_velocity: FVector {
            x: -2048.0,
            y: 1.0,
            z: 2.0,
        },
        angular_velocity: Some(FVector { x: 3.0, y: 4.0, z: -5.0 }),
        simulated_physics_sleep: true,
        rep_physics: true,
        server_frame: Some(u32::MAX),
        server_physics_handle: Some(0),
    }
}

#[test]
fn every_width_and_unit() {
    let widths = [
        (RotatorQuantization::ByteComponents, 8, 360.0 / 256.0),
        (RotatorQuantization::ShortComponents, 16, 360.0 / 65_536.0),
    ];
    let units = [
        VectorQuantization::RoundWholeNumber,
        VectorQuantization::RoundOneDecimal,
        VectorQuantization::RoundTwoDecimals,
    ];
    for (rotation, width, step) in widths {
        for location in units {
            let mut window = full(width);
            let record = expected(f64::from(location.scale()), step);
            assert_eq!(
                read_rep_movement(&window.bytes, window.bits, rotation, location),
                Ok(record.clone())
            );

            // bits may be left over; they aren't counted as used
            let used = u64::from(window.bits);
            window.push(0x3f, 6);
            let read = try_read_rep_movement(&window.bytes, window.bits, rotation, location);
            assert_eq!(read, Ok(MovementRead { record, used, padded: 0 }));
        }
    }
}

#[test]
fn what_is_not_sent_is_none() {
    let mut window = Window::of(0, 4);
    push_vector(&mut window, false, [1, 2, 3]);
    window.push(0, 3);
    push_vector(&mut window, false, [4, 5, 6]);
    let unit = VectorQuantization::RoundTwoDecimals;
    let record = read_rep_movement(&window.bytes, window.bits, RotatorQuantization::ShortComponents, unit).unwrap();
    assert_eq!(record.location.to_string(), "(1,2,3)", "no scale without its bit");
    assert_eq!(
        (record.angular_velocity, record.server_frame, record.server_physics_handle),
        (None, None, None)
    );
}
