//! Each call passes its session's timeout on and returns what the library does; a mend that stops
//! says how much it did.

use crate::library::RECORD;
use crate::*;

const BUSY: u32 = Status::Busy as u32;

/// What a call did, with the waiting forms that it called.
fn recorded<R>(call: impl FnOnce() -> R) -> (R, Vec<(&'static str, i64)>) {
    RECORD.with_borrow_mut(|record| record.calls.clear());
    let result = call();
    (result, RECORD.with_borrow(|record| record.calls.clone()))
}

/// Has the next waiting forms return these statuses, without a call of the library.
fn script(statuses: &[u32]) {
    RECORD.with_borrow_mut(|record| record.statuses.extend(statuses));
}

fn unread() -> usize {
    RECORD.with_borrow(|record| record.statuses.len())
}

/// All calls that wait, with an argument that makes each fail or succeed.
fn waiting_calls(session: &mut Session) -> Vec<Result<(), Error>> {
    let mut buffer = Buffer::new(5).unwrap();
    let mut target = [0; 3];
    vec![
        session.put("a", b"HELLO", Code::Small).map(drop),
        session.put_buffer("b", &mut buffer, Code::Wide).map(drop),
        session.read("a", 1, 3).map(drop),
        session.read_into("a", 1, &mut target).map(drop),
        session.get("a").map(drop),
        session.lose("a", 0, 9).map(drop),
        session.repair("a", 0, 9).map(drop),
        session.delete("b").map(drop),
        session.stat("a").map(drop),
        session.trim(2).map(drop),
        session.hold("a").map(drop),
        session.lost_fragments().map(drop),
        session.numbers().map(drop),
    ]
}

const NAMES: [&str; 13] = [
    "lrc_store_put_wait",
    "lrc_store_put_from_wait",
    "lrc_store_lend_wait",
    "lrc_store_read_wait",
    "lrc_store_hold_wait",
    "lrc_store_lose_wait",
    "lrc_store_repair_wait",
    "lrc_store_delete_wait",
    "lrc_store_stat_wait",
    "lrc_store_trim_wait",
    "lrc_store_hold_wait",
    "lrc_store_plan_part_wait",
    "lrc_store_numbers_wait",
];

#[test]
fn each_call_has_the_timeout() {
    let mut first = Session::open(4, 1000).unwrap();
    first.put("a", b"x", Code::Wide).unwrap();
    let fresh = recorded(|| first.stat("a").unwrap()).1;
    assert_eq!(fresh, [("lrc_store_stat_wait", -1)]);
    let mut session = first.split(1).unwrap();
    for (timeout, milliseconds) in [
        (None, -1),
        (Some(Duration::ZERO), 0),
        (Some(Duration::from_nanos(1)), 1),
        (Some(Duration::from_micros(7001)), 8),
        (Some(Duration::from_secs(3)), 3000),
        (Some(Duration::MAX), i64::MAX),
    ] {
        session.set_timeout(timeout);
        let (results, calls) = recorded(|| waiting_calls(&mut session));
        assert!(results.iter().all(Result::is_ok), "{results:?}");
        assert_eq!(calls, NAMES.map(|name| (name, milliseconds)));
    }
    first.set_timeout(Some(Duration::from_secs(2)));
    let mut other = first.split(2).unwrap();
    assert_eq!(
        recorded(|| other.stat("a").map(|_| ())).1,
        [("lrc_store_stat_wait", 2000)]
    );
}

#[test]
fn a_restoration_has_the_timeout() {
    let mut session = Session::open(4, 1000).unwrap();
    session.put("a", b"HELLO", Code::Wide).unwrap();
    let mut known = session.hold("a").unwrap();
    session.set_timeout(Some(Duration::from_secs(2)));
    script(&[BUSY]);
    let (result, calls) = recorded(|| session.restore(&mut known, 0, 1, b"O..."));
    assert_eq!(result.unwrap_err().status, Status::Busy);
    assert_eq!(calls, [("lrc_store_restore_wait", 2000)]);
}

#[test]
fn a_deadline_is_an_error_of_each_call() {
    let mut session = Session::open(4, 1000).unwrap();
    script(&[BUSY; 13]);
    let results = waiting_calls(&mut session);
    let shown: Vec<String> = results
        .into_iter()
        .map(|result| {
            let error = result.unwrap_err();
            assert_eq!(error.status, Status::Busy);
            assert_eq!(
                error.to_string(),
                format!("{}: {}", error.call, Status::Busy)
            );
            error.call
        })
        .collect();
    let wanted = [
        "put(\"a\", 5, Small)",
        "put_buffer(\"b\", 5, Wide)",
        "read(\"a\", 1, 3)",
        "read_into(\"a\", 1, 3)",
        "get(\"a\")",
        "lose(\"a\", 0, 9)",
        "repair(\"a\", 0, 9)",
        "delete(\"b\")",
        "stat(\"a\")",
        "trim(2)",
        "hold(\"a\")",
        "lost_fragments()",
        "numbers()",
    ];
    assert_eq!(shown, wanted);
    assert_eq!(unread(), 0);
}

#[test]
fn a_mend_has_the_timeout() {
    let mut session = Session::open(4, 1000).unwrap();
    session.put("a", b"HELLO", Code::Wide).unwrap();
    session.lose("a", 0, 1).unwrap();
    session.set_timeout(Some(Duration::from_millis(77)));
    let (mended, calls) = recorded(|| session.mend());
    assert_eq!(mended, Ok(1));
    assert_eq!(calls, [("lrc_store_mend_wait", 77)]);
}

#[test]
fn the_sessions_of_a_pool_have_its_timeout() {
    let mut session = Session::open(4, 1000).unwrap();
    session.put("a", b"HELLO", Code::Wide).unwrap();
    session.set_timeout(Some(Duration::from_millis(77)));
    let pool = Pool::new(session).unwrap();
    let (_, calls) = recorded(|| pool.take().unwrap().stat("a"));
    assert_eq!(calls, [("lrc_store_stat_wait", 77)]);
    let mut session = pool.close().unwrap();
    let (_, calls) = recorded(|| session.stat("a"));
    assert_eq!(calls, [("lrc_store_stat_wait", 77)]);
    drop(Pool::new(session).unwrap());
}

#[test]
fn get_copies_the_whole_blob() {
    let mut session = Session::open(4, 1000).unwrap();
    let long: Vec<u8> = (0..2000).map(|i| (i % 251) as u8).collect();
    for blob in [&long[..], b"short", b""] {
        session.put("a", blob, Code::Wide).unwrap();
        assert_eq!(session.get("a").unwrap(), blob);
    }
    session.put("a", &long, Code::Wide).unwrap();
    for stripe in 0..long.len().div_ceil(48) as u64 {
        session.lose("a", stripe, 3).unwrap();
    }
    assert_eq!(session.get("a").unwrap(), long);
    let missing = session.get("none").unwrap_err();
    assert_eq!(missing.to_string(), "get(\"none\"): the name has no blob");
}

#[test]
fn a_mend_says_how_much_it_did() {
    let mut session = Session::open(4, 1000).unwrap();
    for stop in [
        Status::Busy,
        Status::NoMemory,
        Status::JournalFull,
        Status::Empty,
    ] {
        script(&[stop as u32]);
        let error = session.mend().unwrap_err();
        assert_eq!((error.repaired, error.error.status), (0, stop));
        let text = stop.text();
        let shown = format!("mend() after 0 repaired fragments: {text}");
        assert_eq!(error.to_string(), shown);
        assert_eq!(Error::from(error).to_string(), format!("mend(): {text}"));
    }
    assert_eq!(unread(), 0);
}

#[test]
fn statuses_have_the_numbers_of_the_header() {
    for number in 1..=20 {
        assert_eq!(Status::of(number) as u32, number);
        assert_ne!(Status::of(number).text(), Status::Unknown.text());
    }
    assert_eq!(Status::of(21), Status::Unknown);
    assert_eq!(Status::Unknown.to_string(), "unknown status");
    assert_eq!(Status::NoName.to_string(), "the name has no blob");
}

#[test]
fn a_journal_may_be_unchecked() {
    for is_unchecked in [false, true] {
        RECORD.with_borrow_mut(|record| record.is_unchecked = is_unchecked);
        let closed = Session::open(4, 9).unwrap().close().unwrap();
        assert_eq!(closed.is_checked, !is_unchecked);
        let journal = Session::open(4, 9).unwrap().close_to_journal().unwrap();
        assert_eq!(journal.is_checked, !is_unchecked);
    }
}
