//! A cache over the store: values by keys of any bytes, of which the least recently used go once
//! they take too much memory together.

use lrc_store::{name_of, Code, Error, MendError, ShardedStore, Status};
use std::collections::{BTreeMap, HashMap};
use std::sync::{Mutex, MutexGuard, PoisonError};

/// What a value takes beside its fragments, also an empty one: its name and its entries in the
/// store and in the list of uses.
const OF_EACH: u64 = 640;
const DATA_FRAGMENTS: u64 = 12;
const PARITIES: u64 = 4;
const SHARDS: usize = 16;

/// A cache that threads share.
pub struct Cache {
    store: ShardedStore,
    width: u64,
    most_bytes: u64,
    /// Held while a value of some of the names is stored or deleted and the uses take note of it,
    /// so that the two agree.
    changes: [Mutex<()>; SHARDS],
    uses: Mutex<Uses>,
}

/// Which values there are, and when each was used last.
#[derive(Default)]
struct Uses {
    clock: u64,
    bytes: u64,
    /// The time of the last use and the memory of each value, by its name.
    values: HashMap<String, (u64, u64)>,
    /// The names, by the time of the last use.
    order: BTreeMap<u64, String>,
}

impl Uses {
    /// Takes note of a value that takes so much memory.
    fn note(&mut self, name: &str, bytes: u64) {
        self.forget(name);
        self.clock += 1;
        self.bytes += bytes;
        self.values.insert(name.to_owned(), (self.clock, bytes));
        self.order.insert(self.clock, name.to_owned());
    }

    /// Takes note of a use of a value, if it is still there.
    fn touch(&mut self, name: &str) {
        if let Some(&(_, bytes)) = self.values.get(name) {
            self.note(name, bytes);
        }
    }

    /// Forgets a value. False if there was none.
    fn forget(&mut self, name: &str) -> bool {
        match self.values.remove(name) {
            Some((time, bytes)) => {
                self.bytes -= bytes;
                self.order.remove(&time);
                true
            }
            None => false,
        }
    }

    /// Forgets values, the least recently used first, until at most so many bytes are left.
    fn shrink_to(&mut self, most_bytes: u64) -> Vec<String> {
        let mut gone = Vec::new();
        while self.bytes > most_bytes {
            // There are bytes, so there is a value.
            let oldest = self.order.values().next().cloned();
            gone.extend(oldest.into_iter().filter(|name| self.forget(name)));
        }
        gone
    }
}

impl Cache {
    /// A cache of at most so many bytes of memory, in fragments of `width` bytes. Each value counts
    /// with its parities and with the entries that even an empty one has.
    pub fn new(width: u32, most_bytes: u64) -> Result<Cache, Error> {
        Ok(Cache {
            store: ShardedStore::open(width, SHARDS as u32, None)?,
            width: u64::from(width),
            most_bytes,
            changes: Default::default(),
            uses: Mutex::default(),
        })
    }

    /// Stores a value, and drops those that no longer have room. One that is longer than the cache
    /// is dropped itself.
    pub fn put(&self, key: &[u8], value: &[u8]) -> Result<(), Error> {
        let name = name_of(key);
        let gone = {
            let _change = self.change(&name);
            self.store.take(&name)?.put(&name, value, Code::Wide)?;
            let mut uses = self.uses();
            uses.note(&name, self.bytes_of(value.len() as u64));
            uses.shrink_to(self.most_bytes)
        };
        gone.iter().try_for_each(|name| {
            let _change = self.change(name);
            if self.uses().values.contains_key(name) {
                return Ok(()); // another thread has put it again
            }
            self.drop_value(name)
        })
    }

    /// The value of a key, if it is still there. Lost fragments are rebuilt on the way.
    pub fn get(&self, key: &[u8]) -> Result<Option<Vec<u8>>, Error> {
        let name = name_of(key);
        match self.store.take(&name)?.get(&name) {
            Ok(value) => {
                self.uses().touch(&name);
                Ok(Some(value))
            }
            Err(error) if error.status == Status::NoName => Ok(None),
            Err(error) => Err(error),
        }
    }

    /// Drops the value of a key. False if there was none.
    pub fn remove(&self, key: &[u8]) -> Result<bool, Error> {
        let name = name_of(key);
        let _change = self.change(&name);
        let was_there = self.uses().forget(&name);
        self.drop_value(&name)?;
        Ok(was_there)
    }

    /// The memory of all values, in bytes.
    pub fn bytes(&self) -> u64 {
        self.uses().bytes
    }

    /// Repairs all lost fragments, and returns their number.
    pub fn mend(&self) -> Result<u64, MendError> {
        self.store.mend()
    }

    /// Loses a fragment of the first stripe of a value, as after a failure of its memory.
    pub fn lose(&self, key: &[u8], fragment: u64) -> Result<(), Error> {
        let name = name_of(key);
        self.store.take(&name)?.lose(&name, 0, fragment)?;
        Ok(())
    }

    /// How much memory a value of this length takes.
    fn bytes_of(&self, len: u64) -> u64 {
        let stripe = DATA_FRAGMENTS * self.width;
        let stripes = (len + stripe - 1) / stripe;
        OF_EACH + len + stripes * PARITIES * self.width
    }

    /// Waits until no other thread changes the value of this name.
    fn change(&self, name: &str) -> MutexGuard<'_, ()> {
        let sum: usize = name.bytes().map(usize::from).sum();
        let lock = self.changes[sum % SHARDS].lock();
        lock.unwrap_or_else(PoisonError::into_inner)
    }

    fn uses(&self) -> MutexGuard<'_, Uses> {
        self.uses.lock().unwrap_or_else(PoisonError::into_inner)
    }

    /// Deletes a blob, unless it is gone.
    fn drop_value(&self, name: &str) -> Result<(), Error> {
        match self.store.take(name)?.delete(name) {
            Err(error) if error.status != Status::NoName => Err(error),
            _ => Ok(()),
        }
    }
}

#[cfg(test)]
mod tests {
    use super::*;
    use std::thread;

    /// What a value of 100 bytes takes, in fragments of 16 bytes.
    const OF_100: u64 = 640 + 100 + 64;

    #[test]
    fn the_least_recently_used_values_go() {
        let cache = Cache::new(16, 3 * OF_100).unwrap();
        for key in [b"a", b"b", b"c"] {
            cache.put(key, &[key[0]; 100]).unwrap();
        }
        assert_eq!(cache.get(b"a").unwrap().unwrap(), [b'a'; 100]);
        cache.put(b"d", &[b'd'; 100]).unwrap();
        assert_eq!(cache.get(b"b").unwrap(), None);
        for key in [b"a", b"c", b"d"] {
            assert_eq!(cache.get(key).unwrap().unwrap(), [key[0]; 100]);
        }
        assert_eq!(cache.bytes(), 3 * OF_100);
        cache.put(b"a", b"short").unwrap();
        assert_eq!(cache.bytes(), 3 * OF_100 - 95);
        cache.put(b"e", &[0; 2000]).unwrap();
        assert_eq!((cache.bytes(), cache.get(b"e").unwrap()), (0, None));
        assert_eq!(cache.get(b"d").unwrap(), None);
    }

    #[test]
    fn parities_and_empty_values_count() {
        let cache = Cache::new(16, 20_000).unwrap();
        for (len, bytes) in [(0, 640), (1, 705), (192, 896), (193, 961)] {
            cache.put(b"a", &vec![7; len]).unwrap();
            assert_eq!(cache.bytes(), bytes);
        }
        for number in 0..10_000u32 {
            cache.put(&number.to_le_bytes(), b"").unwrap();
        }
        assert_eq!(cache.bytes(), 31 * 640);
        assert_eq!(cache.store.numbers().unwrap().blobs, 31);
    }

    #[test]
    fn keys_that_differ_a_little() {
        let cache = Cache::new(16, 100_000).unwrap();
        let keys: [&[u8]; 6] = [b"key", b"Key", b"KEY", b"key ", b"key\0", b""];
        for (number, key) in (0u8..).zip(keys) {
            cache.put(key, &[number]).unwrap();
        }
        assert!(!cache.remove(b"kEy").unwrap());
        assert!(cache.remove(b"Key").unwrap());
        for (number, key) in (0u8..).zip(keys) {
            let wanted = (number != 1).then_some(vec![number]);
            assert_eq!(cache.get(key).unwrap(), wanted);
        }
        assert_eq!(cache.store.numbers().unwrap().blobs, 5);
    }

    /// A value that has no room any more is no blob of the store, nor is one of the same name that
    /// was longer.
    #[test]
    fn dropped_values_are_gone() {
        let cache = Cache::new(16, 2 * OF_100).unwrap();
        for turn in 0..50u8 {
            cache.put(&[turn], &[turn; 100]).unwrap();
            let numbers = cache.store.numbers().unwrap();
            let kept = u64::from(turn.min(1)) + 1;
            assert_eq!((numbers.blobs, numbers.bytes), (kept, 100 * kept));
            if turn > 1 {
                assert_eq!(cache.get(&[turn - 2]).unwrap(), None);
            }
            assert_eq!(cache.get(&[turn]).unwrap().unwrap(), [turn; 100]);
        }
        cache.put(&[49], &[0; 5000]).unwrap(); // longer than the cache, and so are all others
        let numbers = cache.store.numbers().unwrap();
        assert_eq!((numbers.blobs, numbers.bytes, cache.bytes()), (0, 0, 0));
        cache.put(&[49], b"x").unwrap();
        assert_eq!(cache.get(&[49]).unwrap().unwrap(), b"x");
        assert!(!cache.remove(&[3]).unwrap());
    }

    #[test]
    fn values_are_removed() {
        let cache = Cache::new(16, 3000).unwrap();
        cache.put(b"a", b"x").unwrap();
        assert!(cache.remove(b"a").unwrap());
        assert!(!cache.remove(b"a").unwrap());
        assert_eq!((cache.bytes(), cache.get(b"a").unwrap()), (0, None));
    }

    #[test]
    fn values_outlive_lost_fragments() {
        let cache = Cache::new(16, 10_000).unwrap();
        let value: Vec<u8> = (0..150).collect();
        cache.put(b"a key of any bytes", &value).unwrap();
        for fragment in [0, 1, 6] {
            cache.lose(b"a key of any bytes", fragment).unwrap();
        }
        assert_eq!(cache.get(b"a key of any bytes").unwrap().unwrap(), value);
        assert_eq!(cache.mend().unwrap(), 3);
        assert_eq!(cache.lose(b"b", 0).unwrap_err().status, Status::NoName);
    }

    #[test]
    fn threads_share_it() {
        let cache = Cache::new(16, 20_000).unwrap();
        thread::scope(|scope| {
            for thread in 0..8u8 {
                let cache = &cache;
                scope.spawn(move || {
                    for turn in 0..200u8 {
                        let key = [thread, turn % 20];
                        cache.put(&key, &[thread; 100]).unwrap();
                        if let Some(value) = cache.get(&key).unwrap() {
                            assert_eq!(value, [thread; 100]);
                        }
                    }
                });
            }
        });
        assert!(cache.bytes() <= 20_000);
        assert_eq!(cache.store.numbers().unwrap().blobs, cache.bytes() / OF_100);
    }

    /// Puts, gets and removes values of 8 keys.
    fn work(cache: &Cache, mut state: u64) {
        for _ in 0..30 {
            state = state.wrapping_mul(6364136223846793005).wrapping_add(1);
            let (key, len) = ([(state >> 33) as u8 % 8], (state >> 41) as usize % 1500);
            match state >> 61 {
                0..=4 => cache.put(&key, &vec![7; len]).unwrap(),
                5 => drop(cache.remove(&key).unwrap()),
                _ => drop(cache.get(&key).unwrap()),
            }
        }
    }

    /// Threads change the same values: what counts is what there is.
    #[test]
    fn the_memory_of_shared_keys_is_known() {
        let cache = Cache::new(16, 8_000).unwrap();
        for round in 0..400 {
            thread::scope(|scope| {
                for thread in 0..6u64 {
                    let cache = &cache;
                    scope.spawn(move || work(cache, (round * 6 + thread) << 20));
                }
            });
            let values = (0..8u8).filter_map(|key| cache.get(&[key]).unwrap());
            let bytes: Vec<u64> = values.map(|it| cache.bytes_of(it.len() as u64)).collect();
            assert_eq!(cache.bytes(), bytes.iter().sum::<u64>());
            let blobs = cache.store.numbers().unwrap().blobs;
            assert_eq!(blobs, bytes.len() as u64);
        }
    }
}
