//! A session whose timeout passes while another thread is in the critical section.

use lrc_store::{Code, Session, Status};
use std::ffi::c_void;
use std::sync::atomic::{AtomicBool, Ordering};
use std::thread;
use std::time::{Duration, Instant};

const STRIPES: u64 = 4096;
const MOST: Duration = Duration::from_secs(60); // that the test takes

/// A store with as many lost fragments as a blob can have, so that a plan of all takes long.
fn all_lost() -> Session {
    let mut session = Session::open(1, None).unwrap();
    session
        .put("a", &vec![1; 12 * STRIPES as usize], Code::Wide)
        .unwrap();
    for stripe in 0..STRIPES {
        for fragment in 0..16 {
            session.lose("a", stripe, fragment).unwrap();
        }
    }
    session
}

extern "C" {
    fn lrc_store_plan_wait(slot: *mut c_void, other: *mut c_void, items: *mut u64, ms: i64) -> u32;
    fn lrc_slot_release(slot: *mut c_void);
}

/// Plans the repair of all fragments at once, by the store's slot.
fn plan_all(session: &mut Session) {
    let (mut plan, mut items) = (std::ptr::null_mut::<c_void>(), 0);
    let other = (&mut plan as *mut *mut c_void).cast();
    // SAFETY: both slots are valid, and different ones.
    let status = unsafe { lrc_store_plan_wait(session.as_raw(), other, &mut items, -1) };
    assert_eq!((status, items), (0, 16 * STRIPES));
    unsafe { lrc_slot_release(other) };
}

/// How long the first call took that found another thread in the critical section, if one did.
fn until_busy(session: &mut Session, ends: &AtomicBool) -> Option<Duration> {
    while !ends.load(Ordering::Acquire) {
        let start = Instant::now();
        match session.stat("a") {
            Ok(_) => thread::sleep(Duration::from_micros(200)),
            Err(error) => {
                assert_eq!(error.status, Status::Busy);
                return Some(start.elapsed());
            }
        }
    }
    None
}

#[test]
fn a_call_ends_at_its_deadline() {
    let timeout = Duration::from_millis(1);
    let mut first = all_lost();
    let mut other = first.split(1).unwrap();
    other.set_timeout(Some(timeout));
    let start = Instant::now();
    while start.elapsed() < MOST {
        let ends = AtomicBool::new(false);
        let busy = thread::scope(|scope| {
            scope.spawn(|| {
                plan_all(&mut first);
                ends.store(true, Ordering::Release);
            });
            until_busy(&mut other, &ends)
        });
        if let Some(waited) = busy {
            assert!(waited >= timeout && waited < MOST);
            other.set_timeout(None); // waits, and gets in
            assert_eq!(other.stat("a").unwrap().lost, 16 * STRIPES);
            return;
        }
    }
    panic!("no call found another thread in the critical section");
}
