//! Reads of a range and of the whole blob, without and with lost fragments.

use lrc_store::{Buffer, Code, Session, Shape};

fn blob(len: usize) -> Vec<u8> {
    (0..len).map(|i| (i * 7 + i / 251) as u8).collect()
}

fn store(len: usize) -> (Session, Vec<u8>) {
    let (mut session, blob) = (Session::open(4, 1000).unwrap(), blob(len));
    session.put("old", b"x", Code::Small).unwrap();
    session.put("a", &blob, Code::Wide).unwrap();
    for (stripe, fragment) in [(0, 1), (0, 2), (2, 11), (3, 13)] {
        session.lose("a", stripe, fragment).unwrap();
    }
    (session, blob)
}

#[test]
fn a_blob_has_a_shape() {
    let shape = Shape {
        version: 2,
        len: 200,
        stripes: 5,
        lost: 4,
    };
    assert_eq!(store(200).0.stat("a"), Ok(shape));
}

#[test]
fn a_range_is_read_into_a_slice() {
    let (mut session, blob) = store(200);
    let mut target = [0xEE; 100];
    assert_eq!(session.read_into("a", 3, &mut target[10..90]), Ok(2));
    assert_eq!(target[10..90], blob[3..83]);
    assert_eq!(
        (target[..10].to_vec(), target[90..].to_vec()),
        (vec![0xEE; 10], vec![0xEE; 10])
    );
    assert_eq!(session.read_into("a", 200, &mut []), Ok(2));
}

#[test]
fn a_range_is_lent() {
    let (mut session, blob) = store(200);
    let all = session.read("a", 0, 200).unwrap();
    assert_eq!(all.runs().count(), 12 + 1 + 12 + 12 + 1); // three stripes have lost fragments
    assert_eq!(all.to_vec(), blob);
    let mut grant = session.read("a", 3, 80).unwrap();
    session.put("a", b"", Code::Wide).unwrap();
    assert_eq!(grant.version(), 2);
    assert_eq!(grant.to_vec(), blob[3..83]);
    let pieces: Vec<&[u8]> = grant.pieces().collect();
    assert!(pieces.len() > 1 && pieces.concat() == blob[3..83]);
    let runs: Vec<&[u8]> = grant.runs().collect();
    assert_eq!(runs.concat(), blob[3..83]);
    assert_eq!(runs.len(), 12 + 1); // the first stripe has lost fragments
    let joined = std::thread::scope(|scope| scope.spawn(|| grant.to_vec()).join().unwrap());
    assert_eq!(joined, grant.to_vec());
    assert!(session.read("a", 0, 0).unwrap().to_vec().is_empty());
}

#[test]
fn a_blob_is_read_whole() {
    for len in [0, 1, 47, 48, 49, 200, 10_000] {
        let mut session = Session::open(4, 1000).unwrap();
        session.put("a", &blob(len), Code::Small).unwrap();
        assert_eq!(session.get("a").unwrap(), blob(len));
        let mut whole = session.read("a", 0, len as u64).unwrap();
        assert_eq!(whole.runs().count(), usize::from(len > 0));
        assert_eq!(whole.pieces().count(), (len + 3) / 4); // of fragments of 4 bytes
        assert_eq!(whole.to_vec(), blob(len));
    }
    let (mut session, blob) = store(200);
    assert_eq!(session.get("a").unwrap(), blob);
    assert_eq!(session.mend(), Ok(4));
    assert_eq!(session.get("a").unwrap(), blob);
    assert_eq!(session.get("old").unwrap(), b"x");
}

/// The process's memory in use, in mebibytes.
fn resident() -> usize {
    let text = std::fs::read_to_string("/proc/self/statm").unwrap();
    text.split(' ').nth(1).unwrap().parse::<usize>().unwrap() / 256
}

#[test]
fn memory_is_given_back() {
    let (before, blob) = (resident(), blob(4 << 20));
    for _ in 0..40 {
        let mut session = Session::open(4096, 9).unwrap();
        session.put("a", &blob, Code::Small).unwrap();
        session.lose("a", 0, 0).unwrap();
        let grant = session.read("a", 0, 4 << 20).unwrap();
        session.delete("a").unwrap();
        drop(session);
        assert_eq!(grant.to_vec(), blob);
        Buffer::new(4 << 20).unwrap().as_mut_slice().fill(1);
    }
    assert!(resident() < before + 100);
}
