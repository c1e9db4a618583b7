//! The library's store in plain Rust, to measure it by, with the calls of bench/clients: a mutex, a
//! hash map and reference counts, nothing proved, and a journal that is cleared when it is full,
//! without being judged. Its width is given at run time, and its entries can hold each call and
//! each note. With SHARDS it is so many such stores, as in bench/sharded_clients: all threads call
//! one name, or each calls its own.
//!
//! store reads|walks THREADS MILLIS [one|own SHARDS]    rustc -O --edition 2021 store.rs

mod code;

use code::{add_scaled, Code};
use std::collections::HashMap;
use std::hint::black_box;
use std::sync::{Arc, Mutex};
use std::time::{Duration, Instant};
use std::{array, env, thread};

const LIMIT: usize = 65_536;
const DATA: usize = 12;
const LEN: u64 = 256;

// ---- blobs

type Name = [u8; 33];

/// The fragments of a stripe, and a bit for each that is lost.
#[derive(Clone)]
struct Stripe {
    fragments: [Option<Arc<[u8]>>; 16],
    lost: u16,
}

#[derive(Clone)]
struct Blob {
    version: u64,
    width: usize,
    len: u64,
    lost: u64,
    stripes: Vec<Arc<Stripe>>,
}

/// The other fragments of a data fragment's group.
fn others(fragment: usize) -> u16 {
    let group = if fragment < 6 {
        0b0001_0000_0011_1111
    } else {
        0b0010_1111_1100_0000
    };
    group & !(1 << fragment)
}

impl Stripe {
    /// Whether a data fragment is there, or can be told from those that are.
    fn has(&self, fragment: usize) -> bool {
        let is_lost = |f: usize| self.lost >> f & 1 == 1;
        !is_lost(fragment)
            || self.lost & others(fragment) == 0
            || Code::Wide.recipe(is_lost, fragment).is_some()
    }

    /// A part of a data fragment that is lost, by what is left.
    fn rebuild(&self, fragment: usize, from: usize, to: usize) -> Vec<u8> {
        let mut made = vec![0; to - from];
        let mut add = |f: usize, scale| {
            add_scaled(
                &mut made,
                scale,
                &self.fragments[f].as_ref().unwrap()[from..to],
            )
        };
        if self.lost & others(fragment) == 0 {
            (0..16)
                .filter(|&f| others(fragment) >> f & 1 == 1)
                .for_each(|f| add(f, 1));
        } else {
            let recipe = Code::Wide
                .recipe(|f| self.lost >> f & 1 == 1, fragment)
                .unwrap();
            recipe.into_iter().for_each(|(f, scale)| add(f, scale));
        }
        made
    }
}

/// The parts of a range: stripe, fragment, from, to.
fn cut(width: usize, start: u64, len: u64) -> impl Iterator<Item = (usize, usize, usize, usize)> {
    let (start, end) = (start as usize, (start + len) as usize);
    let pieces = if start == end {
        0..0
    } else {
        start / width..(end - 1) / width + 1
    };
    pieces.map(move |k| {
        (
            k / DATA,
            k % DATA,
            start.saturating_sub(k * width),
            width.min(end - k * width),
        )
    })
}

impl Blob {
    fn is_readable(&self, start: u64, len: u64) -> bool {
        self.lost == 0 || cut(self.width, start, len).all(|(j, f, ..)| self.stripes[j].has(f))
    }
}

// ---- the store

#[allow(dead_code)]
enum Call {
    Put(Name, Code, u64),
    Read(Name, u64, u64),
    Lose(Name, u64, u64),
    Repair(Name, u64, u64),
    Delete(Name),
    Stat(Name),
}

#[allow(dead_code)]
enum Note {
    Stored(u64),
    NoName,
    OutOfRange,
    Unrecoverable(u64),
    Granted(u64),
    Lost(u64),
    NoFragment,
    AlreadyLost,
    Repaired(u64),
    NotLost,
    Deleted(u64),
    Shape {
        version: u64,
        len: u64,
        stripes: u64,
        lost: u64,
    },
}

#[allow(dead_code)]
struct Entry {
    who: u32,
    call: Call,
    note: Note,
}

struct Full;

struct Book {
    names: HashMap<Name, Arc<Blob>>,
    journal: Vec<Entry>,
}

impl Book {
    fn read(
        &mut self,
        who: u32,
        name: &Name,
        start: u64,
        len: u64,
    ) -> Result<Option<Arc<Blob>>, Full> {
        if self.journal.len() == LIMIT {
            return Err(Full);
        }
        let blob = &self.names[name];
        let (note, granted) = if start > blob.len || len > blob.len - start {
            (Note::OutOfRange, None)
        } else if !blob.is_readable(start, len) {
            (Note::Unrecoverable(blob.version), None)
        } else {
            (Note::Granted(blob.version), Some(blob.clone()))
        };
        self.journal.push(Entry {
            who,
            call: Call::Read(*name, start, len),
            note,
        });
        Ok(granted)
    }

    /// Loses a fragment of the first stripe.
    fn lose(&mut self, who: u32, name: &Name, fragment: usize) -> Result<(), Full> {
        if self.journal.len() == LIMIT {
            return Err(Full);
        }
        let blob = self.names.get_mut(name).unwrap();
        let note = if blob.stripes[0].fragments[fragment].is_none() {
            Note::AlreadyLost
        } else {
            set(blob, fragment, None);
            Note::Lost(blob.version)
        };
        self.journal.push(Entry {
            who,
            call: Call::Lose(*name, 0, fragment as u64),
            note,
        });
        Ok(())
    }

    /// Puts back a fragment of the first stripe that was rebuilt before.
    fn repair(
        &mut self,
        who: u32,
        name: &Name,
        fragment: usize,
        made: Option<Vec<u8>>,
    ) -> Result<(), Full> {
        if self.journal.len() == LIMIT {
            return Err(Full);
        }
        let blob = self.names.get_mut(name).unwrap();
        let note = if blob.stripes[0].fragments[fragment].is_some() {
            Note::NotLost
        } else {
            let made = made.unwrap_or_else(|| blob.stripes[0].rebuild(fragment, 0, blob.width));
            set(blob, fragment, Some(made.into()));
            Note::Repaired(blob.version)
        };
        self.journal.push(Entry {
            who,
            call: Call::Repair(*name, 0, fragment as u64),
            note,
        });
        Ok(())
    }
}

fn set(blob: &mut Arc<Blob>, fragment: usize, bytes: Option<Arc<[u8]>>) {
    let blob = Arc::make_mut(blob);
    blob.lost = if bytes.is_none() {
        blob.lost + 1
    } else {
        blob.lost - 1
    };
    let stripe = Arc::make_mut(&mut blob.stripes[0]);
    stripe.lost ^= 1 << fragment;
    stripe.fragments[fragment] = bytes;
}

/// A store on cache lines of its own.
#[repr(align(256))]
struct Shard(Mutex<Book>);

/// The shard of a name, by FxHash. A name's last byte is its length.
fn find_shard(name: &Name, count: usize) -> usize {
    let step =
        |hash: u64, number: u64| (hash.rotate_left(5) ^ number).wrapping_mul(0x517c_c1b7_2722_0a95);
    let pieces = name[..usize::from(name[32])].chunks_exact(8);
    let rest = pieces.remainder().iter().map(|byte| u64::from(*byte));
    let hash = pieces
        .map(|piece| u64::from_le_bytes(piece.try_into().unwrap()))
        .chain(rest)
        .fold(0, step);
    ((hash >> 32) * count as u64 >> 32) as usize
}

fn store_of<'a>(shards: &'a [Shard], name: &Name) -> &'a Mutex<Book> {
    match shards {
        [only] => &only.0,
        _ => &shards[find_shard(name, shards.len())].0,
    }
}

/// Looks, rebuilds outside the lock, and puts the bytes back.
fn repair(store: &Mutex<Book>, who: u32, name: &Name, fragment: usize) -> Result<(), Full> {
    let blob = store.lock().unwrap().names[name].clone();
    let is_lost = blob.stripes[0].fragments[fragment].is_none();
    let made = is_lost.then(|| blob.stripes[0].rebuild(fragment, 0, blob.width));
    drop(blob);
    store.lock().unwrap().repair(who, name, fragment, made)
}

// ---- the clients

/// How many bytes the pieces of a range have. What is lost is built.
fn walk(blob: &Blob, start: u64, len: u64) -> u64 {
    let mut bytes = 0;
    for (j, f, from, to) in cut(blob.width, start, len) {
        let stripe = &blob.stripes[j];
        bytes += match &stripe.fragments[f] {
            Some(fragment) => black_box(&fragment[from..to]).len(),
            None => black_box(stripe.rebuild(f, from, to)).len(),
        };
    }
    bytes as u64
}

fn call(shards: &[Shard], who: u32, name: &Name, is_walk: bool, turn: u64) -> Result<u64, Full> {
    let store = store_of(shards, name);
    match turn % 200 {
        198 if is_walk => store.lock().unwrap().lose(who, name, 1)?,
        199 if is_walk => repair(store, who, name, 1)?,
        _ => {
            let granted = store.lock().unwrap().read(who, name, 0, LEN)?;
            return Ok(granted
                .filter(|_| is_walk)
                .map_or(0, |blob| walk(&blob, 0, LEN)));
        }
    }
    Ok(0)
}

/// How many calls were made, how many bytes walked, and how often the journal was cleared.
fn work(shards: &[Shard], who: u32, name: &Name, is_walk: bool, until: Instant) -> [u64; 3] {
    let (mut calls, mut bytes, mut trims) = (0, 0, 0);
    for turn in 0.. {
        if turn % 64 == 0 && Instant::now() >= until {
            break;
        }
        match call(shards, who, name, is_walk, turn) {
            Ok(walked) => (calls, bytes) = (calls + 1, bytes + walked),
            Err(Full) => {
                store_of(shards, name).lock().unwrap().journal.clear();
                trims += 1;
            }
        }
    }
    [calls, bytes, trims]
}

fn name_of(number: u32) -> Name {
    let mut name = [0; 33];
    let text = format!("n{number}");
    name[..text.len()].copy_from_slice(text.as_bytes());
    name[32] = text.len() as u8;
    name
}

/// The names of the threads: the first, or for each its own, spread evenly over the shards.
fn names_of(threads: usize, is_own: bool, shards: usize) -> Vec<Name> {
    let (mut names, mut taken) = (vec![name_of(0)], vec![find_shard(&name_of(0), shards)]);
    for name in (1..).map(name_of) {
        if names.len() >= threads || !is_own {
            break;
        }
        let shard = find_shard(&name, shards);
        if taken.iter().filter(|one| **one == shard).count() <= taken.len() / shards {
            taken.push(shard);
            names.push(name);
        }
    }
    names.into_iter().cycle().take(threads).collect()
}

fn blob() -> Arc<Blob> {
    let width = black_box(64);
    let stripe = Stripe {
        fragments: array::from_fn(|f| (f != 0).then(|| Arc::from(vec![7; width]))),
        lost: 1,
    };
    Arc::new(Blob {
        version: 1,
        width,
        len: (DATA * width) as u64,
        lost: 1,
        stripes: vec![Arc::new(stripe)],
    })
}

fn main() {
    let words: Vec<String> = env::args().collect();
    let (is_walk, threads) = (words[1] == "walks", words[2].parse().unwrap());
    let count = words.get(5).map_or(1, |word| word.parse().unwrap());
    let names = names_of(
        threads,
        words.get(4).is_some_and(|word| word == "own"),
        count,
    );
    let open = |_| {
        Shard(Mutex::new(Book {
            names: HashMap::new(),
            journal: Vec::with_capacity(LIMIT),
        }))
    };
    let shards: Vec<Shard> = (0..count).map(open).collect();
    for name in &names {
        store_of(&shards, name)
            .lock()
            .unwrap()
            .names
            .insert(*name, blob());
    }
    let start = Instant::now();
    let until = start + Duration::from_millis(words[3].parse().unwrap());
    let done: Vec<_> = thread::scope(|scope| {
        let shards = &shards[..];
        let run = |(who, name)| scope.spawn(move || work(shards, who, name, is_walk, until));
        let started: Vec<_> = (0..).zip(&names).map(run).collect();
        started
            .into_iter()
            .map(|client| client.join().unwrap())
            .collect()
    });
    let all: [u64; 3] = array::from_fn(|k| done.iter().map(|one| one[k]).sum());
    println!(
        "calls {} nanos {} bytes {} trims {} failed 0",
        all[0],
        start.elapsed().as_nanos(),
        all[1],
        all[2]
    );
}
