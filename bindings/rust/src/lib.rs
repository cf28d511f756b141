//! Time strings of satellite clocks, read, written and listened for by the verified Lindenscoop library.
//!
//! A field that was not in the string is `None`, a damaged string is refused with a number, and every input has exactly one answer.
//!
//! ```
//! use lindenscoop::{read, Date, Form, Refusal};
//!
//! let record = read(Form::RACAL, b"XGU000229000000\r").unwrap();
//! assert_eq!(record.date, Date::of_full_year(2000, 2, 29));
//! assert_eq!(record.sync, None);
//!
//! assert_eq!(read(Form::RACAL, b"XGU000230000000\r"), Err(Refusal::OutOfRange));
//! ```

mod codec;
mod ffi;
mod flat;
mod form;
mod listener;
mod record;
mod refusal;
mod runs;
mod telegrams;

pub use codec::{append, read, search, write, Found};
pub use form::{Form, ParseFormError};
pub use listener::{Listener, State};
pub use record::{Date, Fraction, Position, Record};
pub use refusal::Refusal;
pub use runs::{add_second, Added, Row, Run, Runs, Second};
pub use telegrams::{heard, mark, telegrams, Heard, Telegrams};
