//! A listener for a stream of one serial form's strings.

use crate::ffi::{self, FlatRecord};
use crate::form::Form;
use crate::record::Record;
use crate::refusal::Refusal;

/// The bytes of a listener's state, which carry the version of their layout; any bytes are safe to go on from.
pub type State = ffi::State;

/// A listener. It hands out a record exactly when the byte just fed is the last of a valid string.
///
/// ```
/// use lindenscoop::{Form, Listener};
///
/// let mut listener = Listener::new(Form::RACAL).unwrap();
/// let mut heard = Vec::new();
/// for byte in b"XGU00XGU000229000000\r" {
///     heard.extend(listener.feed(*byte).unwrap());
/// }
/// assert_eq!(heard.len(), 1);
/// ```
#[derive(Clone, Debug, PartialEq, Eq)]
pub struct Listener {
    state: State,
}

fn answer(number: u32, numbers: &FlatRecord) -> Result<Option<Record>, Refusal> {
    match number {
        0 => Ok(None),
        ffi::HANDED_OUT => Ok(Some(Record::decode(numbers))),
        number => Err(Refusal::answered(number)),
    }
}

impl Listener {
    /// Starts a listener for a serial form, 1 to 7, 10 or 12. Any other is refused with [`Refusal::UnknownForm`].
    pub fn new(form: Form) -> Result<Listener, Refusal> {
        let mut state = [0; ffi::STATE_BYTES];
        match ffi::start(form.0, &mut state) {
            0 => Ok(Listener { state }),
            number => Err(Refusal::answered(number)),
        }
    }

    /// Goes on from a state that was kept. Bytes that are no state of a listener, or one of another version, are refused
    /// with [`Refusal::BadState`] when a byte is fed, and left as they are.
    pub fn from_state(state: State) -> Listener {
        Listener { state }
    }

    /// The state, to be kept.
    pub fn state(&self) -> &State {
        &self.state
    }

    /// Feeds one byte.
    pub fn feed(&mut self, byte: u8) -> Result<Option<Record>, Refusal> {
        let (number, numbers) = ffi::feed(&mut self.state, byte);
        answer(number, &numbers)
    }

    /// Feeds bytes one after the other, up to the first that hands out a record or is refused; the number is how many were fed.
    pub fn feed_all(&mut self, bytes: &[u8]) -> (usize, Result<Option<Record>, Refusal>) {
        let (number, used, numbers) = ffi::feed_all(&mut self.state, bytes);
        (used, answer(number, &numbers))
    }
}
