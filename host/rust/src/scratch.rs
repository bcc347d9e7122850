//! Buffers that stay with a thread and are lent to its calls, so that most calls are made once.

use crate::lent::Refusal;
use std::cell::Cell;
use std::thread::LocalKey;

/// The buffers of one kind of call.
pub(crate) trait Buffers: Default {
    /// Makes room for what a refusal 3 says is needed.
    fn make_room(&mut self, needs: [u64; 3]);
}

/// Makes the call with the thread's buffers; if they are too short they grow and the call is made again.
///
/// The buffers are taken out of their place for that time: a call within a call, or in a thread that is ending, gets new ones.
pub(crate) fn lend<B: Buffers, T>(place: &'static LocalKey<Cell<B>>, call: impl Fn(&mut B) -> Result<T, Refusal>) -> Result<T, Refusal> {
    let mut buffers = place.try_with(Cell::take).unwrap_or_default();
    let mut answer = call(&mut buffers);
    if let Err(Refusal {
        number: Refusal::SHORT_BUFFER,
        values,
    }) = answer
    {
        buffers.make_room(values);
        answer = call(&mut buffers);
    }
    // A thread that is ending has no place any more; then the buffers are dropped here.
    let _ = place.try_with(|place| place.set(buffers));
    answer
}

/// At least `records` records of `size` numbers or bytes. Grows to a power of two, so that slowly growing needs cost few second calls.
pub(crate) fn fit<T: Clone + Default>(buffer: &mut Vec<T>, records: u64, size: usize) {
    const LEAST: usize = 1024;
    let need = records as usize * size;
    if buffer.len() < need {
        buffer.resize(need.next_power_of_two().max(LEAST), T::default());
    }
}
