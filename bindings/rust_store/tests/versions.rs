//! Held versions, fragments out and in, and the numbers of a store.

use lrc_store::{name_of, Code, Session, Status};

fn blob(len: usize) -> Vec<u8> {
    (0..len).map(|i| (i * 7 + i / 251) as u8).collect()
}

#[test]
fn a_version_stays_as_it_is() {
    let (mut session, blob) = (Session::open(4, None).unwrap(), blob(200));
    session.put("a", &blob, Code::Small).unwrap();
    session.lose("a", 2, 9).unwrap();
    session.lose("a", 0, 3).unwrap();
    let mut held = session.hold("a").unwrap();
    assert_eq!(
        (held.number(), held.len(), held.is_empty()),
        (1, 200, false)
    );
    session.delete("a").unwrap();
    let shape = held.shape().unwrap();
    assert_eq!(
        (shape.version, shape.len, shape.stripes, shape.lost),
        (1, 200, 9, 2)
    );
    assert_eq!((shape.width, shape.code), (4, Code::Small));
    assert_eq!(held.lost(2).unwrap(), 1 << 9);
    assert_eq!(held.lost(1).unwrap(), 0);
    assert_eq!(held.lost(9).unwrap_err().status, Status::NoFragment);
    drop(session);
    let mut grant = held.read(3, 80).unwrap();
    assert_eq!(grant.version(), 1);
    assert_eq!(grant.to_vec(), blob[3..83]);
    assert!(grant.pieces().count() > 1);
    assert_eq!(held.read(0, 200).unwrap().to_vec(), blob);
    assert_eq!(held.fragment(1, 2).unwrap(), &blob[24 + 8..24 + 12]);
    assert_eq!(held.fragment(0, 9).unwrap().len(), 4);
    for (call, status) in [
        (held.fragment(0, 3).map(drop), Status::AlreadyLost),
        (held.fragment(9, 0).map(drop), Status::NoFragment),
        (held.read(1, 200).map(drop), Status::OutOfRange),
    ] {
        assert_eq!(call.unwrap_err().status, status);
    }
    let error = held.read(1, 200).err().unwrap();
    assert_eq!(error.call, "read(1, 200)");
    let mut target = [0; 80];
    held.read_into(3, &mut target).unwrap();
    assert_eq!(target, blob[3..83]);
    let error = held.read_into(121, &mut target).unwrap_err();
    assert_eq!(error.status, Status::OutOfRange);
    assert_eq!(error.call, "read_into(121, 80)");
    let code = |session: &mut Session| session.hold("b").unwrap().shape().unwrap().code;
    let mut other = Session::open(4, None).unwrap();
    assert_eq!(other.hold("b").err().unwrap().call, "hold(\"b\")");
    other.put("b", b"", Code::Wide).unwrap();
    assert_eq!(code(&mut other), Code::Wide);
    assert!(other.hold("b").unwrap().is_empty());
}

#[test]
fn a_fragment_is_restored() {
    let (mut session, blob) = (Session::open(4, None).unwrap(), blob(96));
    let mut other = Session::open(4, None).unwrap();
    session.put("a", &blob, Code::Wide).unwrap();
    let mut whole = session.hold("a").unwrap();
    session.lose("a", 1, 3).unwrap();
    let fragment = whole.fragment(1, 3).unwrap().to_vec();
    let error = session.restore(&mut whole, 1, 3, b"abc").unwrap_err();
    assert_eq!(error.status, Status::BadArgument);
    assert_eq!(error.call, "restore(1, 3, 3)");
    let present = whole.fragment(0, 3).unwrap().to_vec();
    let error = session.restore(&mut whole, 0, 3, &present).unwrap_err();
    assert_eq!(error.status, Status::NotLost);
    let error = other.restore(&mut whole, 1, 3, &fragment).unwrap_err();
    assert_eq!(error.status, Status::BadArgument);
    assert_eq!(session.restore(&mut whole, 1, 3, &fragment), Ok(1));
    assert_eq!(session.get("a").unwrap(), blob);
    assert_eq!(session.stat("a").unwrap().lost, 0);
    for number in 0..5 {
        session.lose("a", 1, number).unwrap();
    }
    let error = session.repair("a", 1, 3).unwrap_err();
    assert_eq!(error.status, Status::Unrecoverable);
    assert_eq!(session.restore(&mut whole, 1, 3, &fragment), Ok(1));
    session.put("a", &blob, Code::Wide).unwrap();
    let error = session.restore(&mut whole, 1, 3, &fragment).unwrap_err();
    assert_eq!(error.status, Status::Replaced);
}

#[test]
fn a_key_of_any_bytes_has_a_name() {
    assert_eq!(name_of(b""), "................................");
    let (name, other) = (name_of(b"Some Key/\xff"), name_of(b"Some Key/\xfe"));
    assert_ne!(name, other);
    let mut session = Session::open(4, None).unwrap();
    session.put(&name, b"x", Code::Small).unwrap();
    assert_eq!(session.get(&name).unwrap(), b"x");
}

#[test]
fn a_store_has_numbers() {
    let mut session = Session::open(4, 100).unwrap();
    session.put("a", &blob(200), Code::Wide).unwrap();
    session.put("b", b"x", Code::Small).unwrap();
    for fragment in 0..4 {
        session.lose("a", 0, fragment).unwrap();
    }
    session.trim(5).unwrap();
    let numbers = session.numbers().unwrap();
    assert_eq!((numbers.blobs, numbers.bytes), (2, 201));
    assert_eq!((numbers.lost, numbers.unrecoverable), (4, 1));
    assert_eq!((numbers.calls, numbers.entries), (6, 5));
}
