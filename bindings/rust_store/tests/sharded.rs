//! A store of several shards.

use lrc_store::{Buffer, Code, Error, Lease, LostFragment, ShardedStore, Status};
use std::thread;
use std::time::{Duration, Instant};

const THREADS: usize = 8;
const TURNS: usize = 20;
const SESSIONS: usize = 63;

/// Puts blobs of names of its own, each with a lost fragment, and reads them.
fn work(store: &ShardedStore, number: usize) {
    for turn in 0..TURNS {
        let name = format!("n{}", number * TURNS + turn);
        let mut session = store.take(&name).unwrap();
        session.put(&name, name.as_bytes(), Code::Wide).unwrap();
        session.lose(&name, 0, 0).unwrap();
        assert_eq!(session.get(&name).unwrap(), name.as_bytes());
    }
}

#[test]
fn threads_share_it_and_two_mend() {
    let all = (THREADS * TURNS) as u64;
    let store = ShardedStore::open(4, 16, 1000).unwrap();
    thread::scope(|scope| {
        for number in 0..THREADS {
            let store = &store;
            scope.spawn(move || work(store, number));
        }
    });
    let numbers = store.numbers().unwrap();
    assert_eq!((numbers.blobs, numbers.lost), (all, all));
    let repaired = thread::scope(|scope| {
        let other = scope.spawn(|| store.mend().unwrap());
        store.mend().unwrap() + other.join().unwrap()
    });
    assert_eq!(repaired, all);
    let entries = store.numbers().unwrap().entries;
    let discarded = store.trim(3).unwrap();
    let numbers = store.numbers().unwrap();
    assert_eq!((numbers.lost, numbers.entries), (0, entries - discarded));
    assert!(numbers.entries <= 3 * 16);
    let closed = store.close().unwrap();
    assert_eq!((closed.entries, closed.is_checked), (numbers.entries, true));
}

#[test]
fn it_refuses_bad_options_and_names() {
    let refused = |width, shards, limit| {
        let error = ShardedStore::open(width, shards, limit).err().unwrap();
        (error.status, error.call)
    };
    let bad_width = (Status::BadWidth, "open(0, 2, None)".to_string());
    assert_eq!(refused(0, 2, None), bad_width);
    for (shards, limit) in [(0, None), (65, None), (2, Some(0)), (2, Some(1_048_577))] {
        let call = format!("open(4, {shards}, {limit:?})");
        assert_eq!(refused(4, shards, limit), (Status::BadArgument, call));
    }
    let store = ShardedStore::open(4, 2, None).unwrap();
    let error = store.take("A").err().unwrap();
    assert_eq!(
        (error.status, &error.call[..]),
        (Status::BadName, "take(\"A\")")
    );
    assert_eq!(format!("{store:?}"), "ShardedStore { .. }");
    assert!(!store.close().unwrap().is_checked);
}

type Call = (&'static str, fn(&mut Lease<'_>, &str) -> Result<(), Error>);

/// All calls of a name.
const CALLS: [Call; 10] = [
    ("put", |it, name| it.put(name, b"x", Code::Wide).map(drop)),
    ("put_buffer", |it, name| {
        let mut buffer = Buffer::new(1).unwrap();
        it.put_buffer(name, &mut buffer, Code::Wide).map(drop)
    }),
    ("get", |it, name| it.get(name).map(drop)),
    ("read", |it, name| it.read(name, 0, 1).map(drop)),
    ("read_into", |it, name| {
        it.read_into(name, 0, &mut [0]).map(drop)
    }),
    ("hold", |it, name| it.hold(name).map(drop)),
    ("stat", |it, name| it.stat(name).map(drop)),
    ("lose", |it, name| it.lose(name, 0, 0).map(drop)),
    ("repair", |it, name| it.repair(name, 0, 0).map(drop)),
    ("delete", |it, name| it.delete(name).map(drop)),
];

/// A lease calls names of its shard, and no others: these would be twice in the store.
#[test]
fn a_lease_is_of_one_shard() {
    let store = ShardedStore::open(4, 7, None).unwrap();
    let names: Vec<String> = (0..50).map(|i| format!("n{i}")).collect();
    for name in &names {
        store
            .take(name)
            .unwrap()
            .put(name, b"x", Code::Wide)
            .unwrap();
    }
    let (mut same, mut others) = (0, 0);
    for name in &names {
        match store.take("n0").unwrap().stat(name) {
            Ok(_) => same += 1,
            Err(error) => {
                others += 1;
                assert_eq!(error.status, Status::BadArgument);
                for (call, make) in CALLS {
                    let error = make(&mut store.take("n0").unwrap(), name).unwrap_err();
                    assert_eq!(error.status, Status::BadArgument, "{call}");
                    assert!(
                        error.call.starts_with(&format!("{call}({name:?}")),
                        "{error}"
                    );
                }
            }
        }
    }
    assert!(same > 1 && others > 30);
    let error = store.take("n0").unwrap().stat("A").unwrap_err();
    assert_eq!(error.status, Status::BadName);
    assert_eq!(store.numbers().unwrap().blobs, 50);
    let (mut a, mut b) = (store.take("n0").unwrap(), store.take("n0").unwrap());
    for (call, make) in CALLS {
        make(&mut a, "n0").unwrap_or_else(|error| panic!("{call}: {error}"));
        std::mem::swap(&mut a, &mut b);
    }
}

/// A version of another shard is not restored.
#[test]
fn a_restoration_is_of_one_shard() {
    let store = ShardedStore::open(4, 64, None).unwrap();
    let other = (1..)
        .map(|i| format!("n{i}"))
        .find(|name| store.take("n0").unwrap().stat(name).unwrap_err().status != Status::NoName);
    let other = other.unwrap();
    for name in ["n0", &other] {
        let mut lease = store.take(name).unwrap();
        lease.put(name, b"HELLO", Code::Wide).unwrap();
        lease.lose(name, 0, 0).unwrap();
    }
    let mut known = store.take(&other).unwrap().hold(&other).unwrap();
    let error = store.take("n0").unwrap().restore(&mut known, 0, 0, b"HELL");
    assert_eq!(error.unwrap_err().status, Status::BadArgument);
    assert_eq!(store.numbers().unwrap().lost, 2);
    store
        .take(&other)
        .unwrap()
        .restore(&mut known, 0, 0, b"HELL")
        .unwrap();
    assert_eq!(store.take("n0").unwrap().mend().unwrap(), 1);
    assert_eq!(store.take(&other).unwrap().numbers().unwrap().lost, 0);
}

#[test]
fn a_call_waits_for_the_timeout() {
    let timeout = Duration::from_millis(20);
    let mut store = ShardedStore::open(4, 1, None).unwrap();
    store.set_timeout(Some(timeout));
    let mut leases: Vec<_> = (0..SESSIONS).map(|_| store.take("a").unwrap()).collect();
    leases[0].put("a", b"HELLO", Code::Wide).unwrap();
    leases[0].lose("a", 0, 0).unwrap();
    let calls: [(&str, &dyn Fn() -> Status); 4] = [
        ("take", &|| store.take("a").err().unwrap().status),
        ("numbers", &|| store.numbers().err().unwrap().status),
        ("trim", &|| store.trim(1).err().unwrap().status),
        ("mend", &|| store.mend().err().unwrap().error.status),
    ];
    for (name, call) in calls {
        let start = Instant::now();
        assert_eq!(call(), Status::Busy, "{name}");
        assert!(start.elapsed() >= timeout, "{name}");
    }
    leases.pop();
    assert_eq!(store.mend().unwrap(), 1);
}

#[test]
fn a_leaked_lease_keeps_it_open() {
    let store = ShardedStore::open(4, 2, None).unwrap();
    std::mem::forget(store.take("a").unwrap());
    let (store, error) = store.close().err().unwrap();
    assert_eq!(
        (error.status, &error.call[..]),
        (Status::NotAlone, "close()")
    );
    store.take("a").unwrap().put("a", b"x", Code::Wide).unwrap();
}

/// What is lost is listed by shard and name, in parts of 512.
#[test]
fn lost_fragments_are_listed() {
    let store = ShardedStore::open(1, 8, None).unwrap();
    let mut all = Vec::new();
    for (i, stripes) in [600, 2].into_iter().chain([1; 40]).enumerate() {
        let name = &format!("n{i:02}");
        let mut lease = store.take(name).unwrap();
        let version = lease
            .put(name, &[7; 7200][..stripes * 12], Code::Wide)
            .unwrap();
        for stripe in 0..stripes as u64 {
            let fragment = stripe % 16;
            lease.lose(name, stripe, fragment).unwrap();
            let name = name.to_string();
            all.push(LostFragment {
                name,
                version,
                stripe,
                fragment,
            });
        }
        let found = lease.lost_fragments().unwrap();
        assert!(found.ends_with(&all[all.len() - stripes..])); // the last one by name
    }
    let mut found = store.lost_fragments().unwrap();
    found.sort_by_key(|it| (it.name.clone(), it.stripe));
    assert_eq!(found, all);
    store.mend().unwrap();
    assert_eq!(store.lost_fragments().unwrap(), []);
}
