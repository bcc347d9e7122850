//! The angles that a byte can stand for, as whole numbers.

/// Each byte's angle in whole thirty-seconds of a degree: entry k is 45 times k, and divided by 32 it is the angle in degrees that a
/// rotation of 8 bits an axis has for k, with nothing lost. The library's own table has the same entries; [`crate::lent::byte_angle_steps`]
/// asks it.
///
/// ```
/// use vrf_proved::BYTE_ANGLE_STEPS;
/// assert_eq!((BYTE_ANGLE_STEPS[1], BYTE_ANGLE_STEPS[128]), (45, 180 * 32));
/// ```
pub const BYTE_ANGLE_STEPS: [u32; 256] = {
    let mut steps = [0; 256];
    let mut k = 0;
    while k < 256 {
        steps[k] = 45 * k as u32;
        k += 1;
    }
    steps
};
