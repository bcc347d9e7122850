//! What an error tells: its text, and what failed below it.

use std::error::Error;
use vrf_proved::lent::{self, Refusal};
use vrf_proved::{ArrayDecodeStats, BitError, DecodeError};

/// The texts of an error and of all below it.
fn told(error: &dyn Error) -> Vec<String> {
    let mut texts = vec![error.to_string()];
    texts.extend(error.source().into_iter().flat_map(told));
    texts
}

#[test]
fn a_read_that_failed_is_the_source() {
    let cut = BitError::Eof {
        position: 24,
        length: 26,
        requested: 3,
    };
    let text = "refusal 7: a read asks more bits than the window has left: 3 bits at bit 24 of 26";
    assert_eq!(told(&cut), [text]);
    let error = DecodeError::from(cut.clone());
    assert_eq!(told(&error), [text, text]);
    assert_eq!(error.source().unwrap().downcast_ref(), Some(&cut));
}

#[test]
fn a_refusal_that_the_original_lacks_is_the_source() {
    let long = Refusal { number: 1, values: [0; 3] };
    let error = DecodeError::from(long);
    assert_eq!(error.source().unwrap().downcast_ref(), Some(&long));
    assert_eq!(told(&error).len(), 2);
}

#[test]
fn nothing_is_below_a_component_that_is_not_finite() {
    let error = DecodeError::NonFiniteComponent {
        context: "quantized vector",
    };
    assert_eq!(told(&error), ["refusal 12: a vector's component is a NaN or infinite"]);
}

#[test]
fn a_refused_merge_is_refusal_4() {
    let full = ArrayDecodeStats {
        errors: u64::MAX,
        fields_emitted: 3,
        ..Default::default()
    };
    let refused = lent::merge(&full, &full).unwrap_err();
    assert_eq!(told(&refused), ["refusal 4: a sum of two counters is over 2^64 - 1"]);
    assert_eq!(refused.left, full);
}
