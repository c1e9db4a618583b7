//! A blob that is put without a copy, and the journal of a store that is closed, if it has one.

use lrc_store::{Buffer, Call, Code, Session, Shape, Status};

#[test]
fn a_buffer_is_put() {
    let mut session = Session::open(4, 100).unwrap();
    let mut buffer = Buffer::new(54).unwrap();
    assert_eq!(buffer.as_mut_slice(), [0; 54]);
    buffer.as_mut_slice().fill(b'x');
    for name in ["BAD", "BAD"] {
        let refused = session.put_buffer(name, &mut buffer, Code::Wide);
        let error = refused.unwrap_err();
        assert_eq!(error.status, Status::BadName);
        assert_eq!(error.call, "put_buffer(\"BAD\", 54, Wide)");
        assert!(buffer.as_mut_slice().is_empty());
    }
    assert_eq!(session.put_buffer("fox", &mut buffer, Code::Small), Ok(1));
    assert!(buffer.as_mut_slice().is_empty());
    assert_eq!(session.stat("fox").unwrap().stripes, 3); // of 6 times 4 bytes
    assert_eq!(session.read("fox", 0, 54).unwrap().to_vec(), [b'x'; 54]);
}

fn calls(session: &mut Session) {
    let mut target = [0; 4];
    session.put("a", &[7; 60], Code::Small).unwrap();
    session.put("bb", &[8; 49], Code::Wide).unwrap();
    let mut other = session.split(3).unwrap();
    other.lose("a", 0, 9).unwrap();
    other.lose("a", 1, 3).unwrap();
    other.stat("a").unwrap();
    other.repair("a", 0, 9).unwrap();
    other.read("bb", 2, 47).unwrap();
    other.read_into("bb", 3, &mut target).unwrap();
    other.lose("bb", 1, 0).unwrap();
    other.lose("bb", 7, 5).unwrap_err();
    other.delete("none").unwrap_err();
    session.delete("bb").unwrap();
    session.join(other).unwrap();
}

#[rustfmt::skip]
#[test]
fn the_journal_has_each_call_with_its_arguments() {
    let mut session = Session::open(4, 100).unwrap();
    calls(&mut session);
    assert_eq!(session.trim(11), Ok(1));
    let journal = session.close_to_journal().unwrap();
    assert!(journal.is_checked && journal.discarded == 1);
    let noted: Vec<_> = journal
        .entries
        .iter()
        .map(|entry| (entry.who, &entry.name[..], entry.call, entry.reply))
        .collect();
    let wanted = [
        (0, "bb", Call::Put { code: Code::Wide, len: 49 }, Ok(2)),
        (3, "a", Call::Lose { stripe: 0, fragment: 9 }, Ok(1)),
        (3, "a", Call::Lose { stripe: 1, fragment: 3 }, Ok(1)),
        (3, "a", Call::Stat, Ok(1)),
        (3, "a", Call::Repair { stripe: 0, fragment: 9 }, Ok(1)),
        (3, "bb", Call::Read { start: 2, len: 47 }, Ok(2)),
        (3, "bb", Call::Read { start: 3, len: 4 }, Ok(2)),
        (3, "bb", Call::Lose { stripe: 1, fragment: 0 }, Ok(2)),
        (3, "bb", Call::Lose { stripe: 7, fragment: 5 }, Err(Status::NoFragment)),
        (3, "none", Call::Delete, Err(Status::NoName)),
        (0, "bb", Call::Delete, Ok(2)),
    ];
    assert_eq!(noted, wanted);
    let shape = Shape { version: 1, len: 60, stripes: 3, lost: 2 };
    let shapes: Vec<_> = journal.entries.iter().map(|entry| entry.shape).collect();
    assert_eq!(shapes[3], Some(shape));
    assert_eq!(shapes.iter().flatten().count(), 1);
}

#[test]
fn a_small_code_is_in_the_journal() {
    let mut session = Session::open(4, 100).unwrap();
    session.put("a", &[7; 10], Code::Small).unwrap();
    let journal = session.close_to_journal().unwrap();
    let call = Call::Put {
        code: Code::Small,
        len: 10,
    };
    assert_eq!((journal.discarded, journal.entries[0].call), (0, call));
}

#[test]
fn a_restoration_is_in_the_journal() {
    let mut session = Session::open(4, 100).unwrap();
    session.put("b", b"", Code::Small).unwrap();
    session.put("a", &[7; 60], Code::Small).unwrap();
    let mut held = session.hold("a").unwrap();
    session.lose("a", 1, 3).unwrap();
    session.restore(&mut held, 1, 3, &[7; 4]).unwrap();
    let journal = session.close_to_journal().unwrap();
    let call = Call::Restore {
        version: 2,
        stripe: 1,
        fragment: 3,
    };
    assert_eq!(journal.entries[4].call, call);
}

#[test]
fn a_store_without_a_journal_counts_its_calls() {
    let mut session = Session::open(4, None).unwrap();
    session.put("a", &[7; 49], Code::Wide).unwrap();
    for _ in 0..99 {
        assert_eq!(session.stat("a").unwrap().stripes, 2); // of 12 times 4 bytes
    }
    assert_eq!(session.trim(0), Ok(0));
    let journal = session.close_to_journal().unwrap();
    assert_eq!((journal.discarded, journal.entries.len()), (100, 0));
    let closed = Session::open(4, None).unwrap().close().unwrap();
    assert_eq!(closed.entries, 0);
    assert!(!journal.is_checked && !closed.is_checked);
}
