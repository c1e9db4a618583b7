//! What sessions, stores, pools, grants, versions and buffers leave of the library's memory: nothing.
//! It runs over the library that tests/store/counted.sh makes, whose count is in the file that
//! LRC_COUNTED names, and does nothing without.

use lrc_store::{Buffer, Code, Pool, Session, ShardedStore, Version};
use std::path::PathBuf;

/// How many blocks of memory the library has.
fn blocks(path: &PathBuf) -> i64 {
    let numbers = std::fs::read(path).unwrap();
    i64::from_ne_bytes(numbers[..8].try_into().unwrap())
}

/// A store with a blob of which the last fragment is lost.
fn opened(limit: Option<u32>) -> Session {
    let mut session = Session::open(4, limit).unwrap();
    session.put("a", &[7; 1000], Code::Wide).unwrap();
    session.lose("a", 0, 15).unwrap();
    session
}

fn sessions() {
    let mut first = opened(None);
    let others: Vec<Session> = (0..9).map(|who| first.split(who).unwrap()).collect();
    let refused = first.close().unwrap_err();
    let mut first = refused.session;
    for other in others.into_iter().skip(3) {
        first.join(other).unwrap();
    }
    drop(first.join(opened(None)).unwrap_err()); // of another store
    first.learn(&mut opened(None)).unwrap_err();
    opened(Some(100)).close().unwrap();
    let journal = opened(Some(100)).close_to_journal().unwrap();
    assert_eq!(journal.entries.len(), 2);
    assert!(Session::open(0, None).is_err());
    assert!(Session::open(4, 0).is_err());
}

fn refused_calls() {
    let mut session = opened(Some(1000));
    for _ in 0..20 {
        session.put("BAD", &[0; 100_000], Code::Wide).unwrap_err();
        assert!(session.read("none", 0, 1).is_err());
        assert!(session.read("a", 10, 1000).is_err());
        assert!(session.hold("none").is_err());
        session.get("none").unwrap_err();
        let mut version = session.hold("a").unwrap();
        version.fragment(0, 15).unwrap_err();
        assert!(version.read(0, 1001).is_err());
        session.restore(&mut version, 0, 15, b"abc").unwrap_err();
    }
}

fn grants_and_versions() {
    let mut session = opened(None);
    let mut versions: Vec<Version> = Vec::new();
    let mut grants = Vec::new();
    for turn in 0..20 {
        versions.push(session.hold("a").unwrap());
        grants.push(session.read("a", turn, 900).unwrap());
        grants.push(versions[turn as usize].read(0, turn).unwrap());
        session.put("a", &[7; 1000], Code::Small).unwrap();
        session.lose("a", 0, turn % 10).unwrap();
    }
    session.mend().unwrap();
    session.close().unwrap();
    drop(versions);
    assert_eq!(
        grants[2].to_vec(),
        [7; 899][..]
            .iter()
            .chain(&[7])
            .copied()
            .collect::<Vec<u8>>()
    );
}

fn buffers() {
    let mut session = opened(None);
    for _ in 0..10 {
        let mut buffer = Buffer::new(5000).unwrap();
        buffer.as_mut_slice()[4999] = 1;
        session
            .put_buffer("BAD", &mut buffer, Code::Wide)
            .unwrap_err();
        drop(Buffer::new(100_000).unwrap());
    }
    let mut buffer = Buffer::new(5000).unwrap();
    session.put_buffer("b", &mut buffer, Code::Wide).unwrap();
    session
        .put_buffer("b", &mut buffer, Code::Wide)
        .unwrap_err();
}

fn pools_and_shards() {
    let pool = Pool::new(opened(None)).unwrap();
    pool.take().unwrap().get("a").unwrap();
    drop(pool);
    let pool = Pool::new(opened(Some(100))).unwrap();
    drop(pool.take().unwrap());
    pool.close().unwrap().close().unwrap();
    for shards in [1, 16] {
        let store = ShardedStore::open(4, shards, 100).unwrap();
        for name in ["a", "b", "c"] {
            store
                .take(name)
                .unwrap()
                .put(name, &[7; 1000], Code::Wide)
                .unwrap();
            store.take(name).unwrap().lose(name, 0, 15).unwrap();
        }
        assert_eq!(store.mend().unwrap(), 3);
        if shards == 1 {
            store.close().unwrap();
        }
    }
    assert!(ShardedStore::open(4, 65, None).is_err());
}

#[test]
fn nothing_is_left() {
    let Some(path) = std::env::var_os("LRC_COUNTED").map(PathBuf::from) else {
        return;
    };
    let before = blocks(&path);
    for (what, use_it) in [
        ("sessions", sessions as fn()),
        ("refused calls", refused_calls),
        ("grants and versions", grants_and_versions),
        ("buffers", buffers),
        ("pools and shards", pools_and_shards),
    ] {
        use_it();
        assert_eq!(blocks(&path), before, "{what}");
    }
    let kept = opened(None);
    assert!(blocks(&path) > before);
    drop(kept);
}
