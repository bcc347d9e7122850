//! How values are written as text; other programs read it.

use vrf_proved::*;

#[test]
fn vectors_and_rotations() {
    let vector = FVector { x: 1.0, y: -0.25, z: 1e21 };
    assert_eq!(vector.to_string(), "(1,-0.25,1000000000000000000000)");
    let rotation = FRotator {
        pitch: 90.0,
        yaw: 358.59375,
        roll: -0.0,
    };
    assert_eq!(rotation.to_string(), "rot(90,358.59375,-0)");
}

#[test]
fn movements() {
    let mut record = FRepMovement {
        location: FVector { x: 1.5, y: 2.0, z: -3.0 },
        rotation: FRotator {
            pitch: 1.40625,
            yaw: 0.0,
            roll: 180.0,
        },
        linear_velocity: FVector { x: 0.1, y: 0.0, z: 7.0 },
        angular_velocity: None,
        simulated_physics_sleep: true,
        rep_physics: false,
        server_frame: None,
        server_physics_handle: Some(0),
    };
    assert_eq!(
        record.to_string(),
        concat!(
            r#"{"linear_velocity":{"x":0.1,"y":0,"z":7},"angular_velocity":null,"location":{"x":1.5,"y":2,"z":-3},"#,
            r#""rotation":{"pitch":1.40625,"yaw":0,"roll":180},"simulated_physics_sleep":true,"rep_physics":false,"#,
            r#""server_frame":null,"server_physics_handle":0}"#
        )
    );
    record.angular_velocity = Some(record.location);
    assert!(record.to_string().contains(r#""angular_velocity":{"x":1.5,"y":2,"z":-3},"#));
}

#[test]
fn scales() {
    use VectorQuantization::*;
    assert_eq!(
        [RoundWholeNumber, RoundOneDecimal, RoundTwoDecimals].map(VectorQuantization::scale),
        [1, 10, 100]
    );
}
