use lindenscoop::{Form, Listener, Refusal};

const RACAL: &[u8] = b"XGU000229000000\r";

/// A listener that waits for the last byte of a string.
fn waiting() -> Listener {
    let mut listener = Listener::new(Form::RACAL).unwrap();
    assert_eq!(listener.feed_all(&RACAL[..15]), (15, Ok(None)));
    listener
}

#[test]
fn a_stored_state_is_fed_on() {
    let mut listener = Listener::from_state(*waiting().state());
    assert!(listener.feed(b'\r').unwrap().is_some());
}

/// The last byte has the form in its low four bits; a state of a form that is not serial is refused.
#[test]
fn a_state_keeps_its_form() {
    for form in 0..16 {
        let mut state = *waiting().state();
        *state.last_mut().unwrap() = 1 << 4 | form;
        let mut listener = Listener::from_state(state);
        match Listener::new(Form(form.into())) {
            Ok(started) => {
                assert_eq!(started.state().last(), state.last());
                assert!(listener.feed(b'.').is_ok(), "form {form}");
            }
            Err(_) => {
                assert_eq!(listener.feed(b'.'), Err(Refusal::BadState), "form {form}");
                assert_eq!(*listener.state(), state);
            }
        }
    }
}

#[test]
fn a_state_of_another_version_is_refused_and_left_as_it_is() {
    for version in (0..16).filter(|version| *version != 1) {
        let mut state = *waiting().state();
        *state.last_mut().unwrap() = version << 4 | 5;
        let mut listener = Listener::from_state(state);
        assert_eq!(listener.feed(b'\r'), Err(Refusal::BadState));
        assert_eq!(listener.feed_all(RACAL), (1, Err(Refusal::BadState)));
        assert_eq!(*listener.state(), state);
    }
}
