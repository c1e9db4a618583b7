//! A join and a close that are refused give the session back; each error says what was wrong.

use lrc_store::{Buffer, Code, Error, Refused, Session, Status};
use std::error::Error as _;

#[test]
fn sessions_come_back() {
    let mut first = Session::open(4, 100).unwrap();
    let mut second = Session::open(4, 100).unwrap();
    let mut part = second.split(1).unwrap();
    second.learn(&mut part).unwrap();
    expect(first.learn(&mut part), Status::BadArgument, "learn()");
    let join = first.join(part).unwrap_err();
    assert_eq!(join.error.status, Status::BadArgument);
    let text = Status::BadArgument.text();
    assert_eq!(join.to_string(), format!("join(): {text}"));
    assert!(format!("{join:?}").contains("BadArgument"));
    let close = second.close().unwrap_err();
    assert_eq!(
        close.to_string(),
        "close(): the store has other sessions: join them first"
    );
    let close = close.session.close_to_journal().unwrap_err();
    assert_eq!(close.error.status, Status::NotAlone);
    let Refused { mut session, error } = close;
    assert_eq!(error.call, "close_to_journal()");
    session.join(join.session).unwrap();
    let closed = session.close().unwrap();
    assert_eq!((closed.entries, closed.is_checked), (0, true));
}

fn status<T>(result: Result<T, Error>) -> (Status, String) {
    let error = result.err().expect("a refused call");
    let whole = format!("{}: {}", error.call, error.status.text());
    assert_eq!(error.to_string(), whole);
    assert!(error.source().is_none());
    (error.status, error.call)
}

fn expect<T>(result: Result<T, Error>, wanted: Status, call: &str) {
    assert_eq!(status(result), (wanted, call.to_string()));
}

#[test]
fn errors_say_what_was_wrong() {
    expect(Session::open(4, 0), Status::BadArgument, "open(4, 0)");
    expect(Session::open(0, 9), Status::BadWidth, "open(0, 9)");
    expect(Session::open(0, None), Status::BadWidth, "open(0, None)");
    let mut session = Session::open(1, 100).unwrap();
    let s = &mut session;
    expect(
        s.put("A", b"xy", Code::Small),
        Status::BadName,
        "put(\"A\", 2, Small)",
    );
    let long = [0; 49153];
    expect(
        s.put("a", &long, Code::Wide),
        Status::TooLong,
        "put(\"a\", 49153, Wide)",
    );
    expect(s.stat("a"), Status::NoName, "stat(\"a\")");
    expect(s.delete("a"), Status::NoName, "delete(\"a\")");
    s.put("a", &[5; 20], Code::Wide).unwrap();
    expect(s.read("a", 9, 12), Status::OutOfRange, "read(\"a\", 9, 12)");
    let mut target = [7; 12];
    let read = s.read_into("a", 9, &mut target);
    expect(read, Status::OutOfRange, "read_into(\"a\", 9, 12)");
    assert_eq!(target, [7; 12]);
    expect(s.lose("a", 2, 3), Status::NoFragment, "lose(\"a\", 2, 3)");
    expect(s.repair("a", 1, 4), Status::NotLost, "repair(\"a\", 1, 4)");
    s.lose("a", 1, 4).unwrap();
    expect(s.lose("a", 1, 4), Status::AlreadyLost, "lose(\"a\", 1, 4)");
    expect(
        Buffer::new(usize::MAX),
        Status::NoMemory,
        &format!("Buffer::new({})", usize::MAX),
    );
}

#[test]
fn what_cannot_be_rebuilt_is_an_error() {
    let mut session = Session::open(1, 100).unwrap();
    session.put("a", &[5; 12], Code::Wide).unwrap();
    for fragment in [0, 1, 2, 3, 4] {
        session.lose("a", 0, fragment).unwrap();
    }
    expect(session.get("a"), Status::Unrecoverable, "get(\"a\")");
    assert_eq!(session.mend(), Ok(0));
    assert_eq!(session.stat("a").unwrap().lost, 5);
}

#[test]
fn a_session_has_63_others() {
    let mut first = Session::open(1, 100).unwrap();
    let others: Vec<Session> = (0..63).map(|who| first.split(who).unwrap()).collect();
    expect(first.split(77), Status::NoPass, "split(77)");
    for other in others {
        first.join(other).unwrap();
    }
    let closed: Result<_, Error> = first.close().map_err(Error::from);
    assert_eq!(closed.unwrap().entries, 0);
}

#[test]
fn a_full_journal_stops_a_mend() {
    let mut session = Session::open(1, 10).unwrap();
    session.put("a", &[5; 48], Code::Wide).unwrap();
    for stripe in 0..4 {
        session.lose("a", stripe, 11 - stripe).unwrap();
    }
    session.trim(7).unwrap(); // 5 entries: room for 5 more
    session.stat("a").unwrap();
    session.stat("a").unwrap();
    let stopped = session.mend().unwrap_err();
    assert_eq!(stopped.error.status, Status::JournalFull);
    assert_eq!(stopped.repaired, 3);
    assert!(stopped.source().is_none());
    expect(session.stat("a"), Status::JournalFull, "stat(\"a\")");
    assert_eq!(session.trim(2), Ok(8));
    assert_eq!(session.mend(), Ok(1));
    assert_eq!(session.stat("a").unwrap().lost, 0);
}
