use std::error::Error;
use std::io::{self, ErrorKind};

use lindenscoop::Refusal;

#[test]
fn a_refusal_is_an_error_with_its_number_and_meaning() {
    for refusal in Refusal::ALL {
        let error: Box<dyn Error + Send + Sync> = Box::new(*refusal);
        let text = format!("refused with {}: {}", refusal.number(), refusal.meaning());
        assert_eq!(error.to_string(), text);
        assert_eq!(Refusal::from_number(refusal.number()), Some(*refusal));
        let error = io::Error::from(*refusal);
        assert_eq!(error.to_string(), text);
        assert_eq!(error.downcast::<Refusal>().unwrap(), *refusal);
    }
    assert_eq!(Refusal::ALL.len(), 17);
    let unused = (0..=u32::from(u16::MAX)).filter(|number| !matches!(number, 1..=16 | 21));
    for number in unused {
        assert_eq!(Refusal::from_number(number), None);
    }
}

#[test]
fn the_kind_of_an_io_error_says_whose_fault_it_is() {
    for refusal in Refusal::ALL {
        let expected = match refusal.number() {
            1 | 7 | 8 | 9 | 10 | 14 | 15 | 16 => ErrorKind::InvalidInput,
            _ => ErrorKind::InvalidData,
        };
        assert_eq!(io::Error::from(*refusal).kind(), expected, "{refusal:?}");
    }
}
