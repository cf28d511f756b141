use lindenscoop::{append, read, write, Date, Form, Record, Refusal};

#[test]
fn append_writes_what_write_does_behind_what_is_there() {
    let record = Record {
        date: Date::of_full_year(2024, 2, 29),
        ..Record::default()
    };
    let mut buffer = [0; 16];
    assert_eq!(write(Form::RACAL, &record, &mut buffer), Ok(16));
    let mut out = b"before".to_vec();
    assert_eq!(append(Form::RACAL, &record, &mut out), Ok(16));
    assert_eq!(out, [&b"before"[..], &buffer].concat());
    assert_eq!(read(Form::RACAL, &out[6..]), Ok(record));
}

#[test]
fn a_refused_append_leaves_the_vector_as_it_is() {
    let mut out = b"before".to_vec();
    let empty = Record::default();
    assert_eq!(
        append(Form(15), &empty, &mut out),
        Err(Refusal::UnknownForm)
    );
    assert_eq!(
        append(Form::RACAL, &empty, &mut out),
        Err(Refusal::MissingField)
    );
    let bad = Record { hour: 24, ..empty };
    assert_eq!(append(Form::BLOCK, &bad, &mut out), Err(Refusal::BadRecord));
    assert_eq!(out, b"before");
}

/// The longest block, 174 bytes, has room.
#[test]
fn the_longest_string_is_appended() {
    let block = "date=24-02-29\ntime=23:59:60\nfraction=0000431\nchannel=1\nsync=yes\nfix=yes\nutc=yes\nsummer=no\nchange=yes\nleap=yes\noffset=-03:30\nposition=-047.3500 +008.0625 0431\ndsp=yes\nlsp=yes\n";
    let record = read(Form::BLOCK, block.as_bytes()).unwrap();
    let mut out = Vec::new();
    assert_eq!(append(Form::BLOCK, &record, &mut out), Ok(block.len()));
    assert_eq!(out, block.as_bytes());
    assert_eq!(record.block().as_deref(), Ok(block));
}
