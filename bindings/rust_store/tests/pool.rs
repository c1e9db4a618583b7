//! A pool of the sessions of a store.

use lrc_store::{Code, Pool, Session, Status};
use std::sync::atomic::{AtomicU64, Ordering};
use std::thread;
use std::time::{Duration, Instant};

const SESSIONS: usize = 63;
const THREADS: u64 = 100;
const TURNS: u64 = 20;

fn pool(timeout: Option<Duration>) -> Pool {
    let mut session = Session::open(4, 10_000).unwrap();
    session.set_timeout(timeout);
    Pool::new(session).unwrap()
}

#[test]
fn threads_take_turns() {
    let (pool, stored) = (pool(Some(Duration::from_secs(60))), AtomicU64::new(0));
    thread::scope(|scope| {
        for number in 0..THREADS {
            let (pool, stored) = (&pool, &stored);
            scope.spawn(move || {
                let name = format!("n{number}");
                for turn in 0..TURNS {
                    let blob = vec![number as u8 ^ turn as u8; 100];
                    pool.take().unwrap().put(&name, &blob, Code::Wide).unwrap();
                    assert_eq!(pool.take().unwrap().get(&name).unwrap(), blob);
                    stored.fetch_add(1, Ordering::Relaxed);
                }
            });
        }
    });
    assert_eq!(stored.into_inner(), THREADS * TURNS);
    let mut session = pool.close().unwrap();
    assert_eq!(session.stat("n0").unwrap().len, 100);
    assert_eq!(session.close().unwrap().entries, 2 * THREADS * TURNS + 1);
}

#[test]
fn a_pool_waits_for_its_timeout() {
    let timeout = Duration::from_millis(20);
    let pool = pool(Some(timeout));
    let mut leases: Vec<_> = (0..SESSIONS).map(|_| pool.take().unwrap()).collect();
    let start = Instant::now();
    let error = pool.take().err().unwrap();
    assert_eq!((error.status, &error.call[..]), (Status::Busy, "take()"));
    assert!(start.elapsed() >= timeout);
    leases.pop();
    pool.take().unwrap().put("a", b"HELLO", Code::Wide).unwrap();
    drop(leases);
    assert_eq!(pool.close().unwrap().get("a").unwrap(), b"HELLO");
}

#[test]
fn a_leaked_lease_keeps_the_pool_open() {
    let pool = pool(None);
    pool.take().unwrap().put("a", b"HELLO", Code::Wide).unwrap();
    std::mem::forget(pool.take().unwrap());
    let (pool, error) = pool.close().err().unwrap();
    assert_eq!(
        (error.status, &error.call[..]),
        (Status::NotAlone, "close()")
    );
    assert_eq!(pool.take().unwrap().get("a").unwrap(), b"HELLO");
    assert_eq!(format!("{pool:?}"), "Pool { .. }");
}
