//! The program lrcstore in plain Rust, to measure it by: one mutex, a map and reference counts,
//! nothing proved, and a journal that is not judged.
//!
//! plain SCRIPT [--width N] [--workers K] [--limit J] [--history]    It takes scripts that are not
//! refused. rustc -O --edition 2021 plain.rs

mod code;

use code::{add_scaled, Code};
use std::collections::{BTreeMap, VecDeque};
use std::fmt::{self, Display, Write as _};
use std::io::Write as _;
use std::sync::atomic::{AtomicUsize, Ordering};
use std::sync::{Arc, Mutex};
use std::{env, fs, io, thread};

// ---- blobs

type Stripe = Vec<Option<Arc<[u8]>>>;

#[derive(Clone)]
struct Blob {
    version: u64,
    len: u64,
    code: Code,
    lost: u64,
    stripes: Vec<Arc<Stripe>>,
}

const MOST_STRIPES: usize = 4096;

fn seal(code: Code, width: usize, bytes: &[u8]) -> Option<Blob> {
    let size = code.data() * width;
    if bytes.len().div_ceil(size) > MOST_STRIPES {
        return None;
    }
    let stripes = bytes
        .chunks(size)
        .map(|chunk| Arc::new(stripe(code, width, chunk)))
        .collect();
    Some(Blob {
        version: 0,
        len: bytes.len() as u64,
        code,
        lost: 0,
        stripes,
    })
}

fn stripe(code: Code, width: usize, chunk: &[u8]) -> Stripe {
    let mut parities = vec![vec![0; width]; 4];
    let mut all = Vec::with_capacity(code.fragments());
    for f in 0..code.data() {
        let mut fragment = vec![0; width];
        let (from, to) = (
            (f * width).min(chunk.len()),
            ((f + 1) * width).min(chunk.len()),
        );
        fragment[..to - from].copy_from_slice(&chunk[from..to]);
        for (parity, weight) in parities.iter_mut().zip(code.weights(f)) {
            add_scaled(parity, weight, &fragment);
        }
        all.push(Some(Arc::from(fragment)));
    }
    all.extend(parities.into_iter().map(|parity| Some(Arc::from(parity))));
    all
}

/// A part of a fragment that is lost, by what is left of its stripe.
fn rebuild(
    code: Code,
    stripe: &Stripe,
    fragment: usize,
    from: usize,
    to: usize,
) -> Option<Vec<u8>> {
    let recipe = code.recipe(|f| stripe[f].is_none(), fragment)?;
    let mut made = vec![0; to - from];
    for (f, scale) in recipe {
        add_scaled(&mut made, scale, &stripe[f].as_ref().unwrap()[from..to]);
    }
    Some(made)
}

impl Blob {
    fn has(&self, stripe: u64, fragment: u64) -> bool {
        stripe < self.stripes.len() as u64 && fragment < self.code.fragments() as u64
    }

    fn set(&mut self, stripe: u64, fragment: u64, value: Option<Arc<[u8]>>) {
        self.lost = if value.is_none() {
            self.lost + 1
        } else {
            self.lost - 1
        };
        Arc::make_mut(&mut self.stripes[stripe as usize])[fragment as usize] = value;
    }

    /// The parts of a range: stripe, fragment, from, to.
    fn cut(
        &self,
        width: usize,
        start: u64,
        len: u64,
    ) -> impl Iterator<Item = (usize, usize, usize, usize)> + '_ {
        let (start, end) = (start as usize, (start + len) as usize);
        let pieces = if start == end {
            0..0
        } else {
            start / width..(end - 1) / width + 1
        };
        pieces.map(move |k| {
            let (from, to) = (
                (k * width).max(start) - k * width,
                ((k + 1) * width).min(end) - k * width,
            );
            (k / self.code.data(), k % self.code.data(), from, to)
        })
    }

    fn is_readable(&self, width: usize, start: u64, len: u64) -> bool {
        self.lost == 0
            || self.cut(width, start, len).all(|(j, f, ..)| {
                let stripe = &self.stripes[j];
                stripe[f].is_some() || self.code.recipe(|f| stripe[f].is_none(), f).is_some()
            })
    }
}

// ---- the store

#[derive(Clone)]
enum Ask {
    Put(String, Code, Vec<u8>),
    Read(String, u64, u64),
    Lose(String, u64, u64),
    Repair(String, u64, u64),
    Delete(String),
    Stat(String),
    Trim(usize),
}

enum Call {
    Put(String, Code, u64),
    Read(String, u64, u64),
    Lose(String, u64, u64),
    Repair(String, u64, u64),
    Delete(String),
    Stat(String),
}

#[derive(Clone, Copy, PartialEq)]
enum Note {
    Stored(u64),
    NoName,
    OutOfRange,
    Unrecoverable(u64),
    Granted(u64),
    Lost(u64),
    NoFragment,
    AlreadyLost,
    Repaired(u64),
    NotLost,
    Deleted(u64),
    Shape(u64, u64, u64, u64),
}

enum Reply {
    Noted(Note),
    Granted(Arc<Blob>, u64, u64),
    Trimmed(usize),
    Mended([usize; 4]),
    Full,
    TooLong,
}

struct Book {
    width: usize,
    limit: usize,
    puts: u64,
    trimmed: usize,
    names: BTreeMap<String, Arc<Blob>>,
    journal: VecDeque<(u32, Call, Note)>,
}

impl Book {
    fn note(&mut self, who: u32, call: Call, note: Note) -> Note {
        self.journal.push_back((who, call, note));
        note
    }

    fn put(&mut self, name: String, code: Code, mut blob: Blob, who: u32) -> Note {
        self.puts += 1;
        blob.version = self.puts;
        let len = blob.len;
        self.names.insert(name.clone(), Arc::new(blob));
        self.note(who, Call::Put(name, code, len), Note::Stored(self.puts))
    }

    fn read(&mut self, name: String, start: u64, len: u64, who: u32) -> Reply {
        let blob = self.names.get(&name).cloned();
        let note = match &blob {
            None => Note::NoName,
            Some(blob) if start.checked_add(len).map_or(true, |end| end > blob.len) => {
                Note::OutOfRange
            }
            Some(blob) if !blob.is_readable(self.width, start, len) => {
                Note::Unrecoverable(blob.version)
            }
            Some(blob) => Note::Granted(blob.version),
        };
        match (self.note(who, Call::Read(name, start, len), note), blob) {
            (Note::Granted(_), Some(blob)) => Reply::Granted(blob, start, len),
            (note, _) => Reply::Noted(note),
        }
    }

    fn lose(&mut self, name: String, stripe: u64, fragment: u64, who: u32) -> Note {
        let note = match self.names.get_mut(&name) {
            None => Note::NoName,
            Some(blob) if !blob.has(stripe, fragment) => Note::NoFragment,
            Some(blob) if blob.stripes[stripe as usize][fragment as usize].is_none() => {
                Note::AlreadyLost
            }
            Some(blob) => {
                Arc::make_mut(blob).set(stripe, fragment, None);
                Note::Lost(blob.version)
            }
        };
        self.note(who, Call::Lose(name, stripe, fragment), note)
    }

    /// Puts back a fragment that was rebuilt of this version.
    fn repair(
        &mut self,
        name: String,
        stripe: u64,
        fragment: u64,
        made: Option<(u64, Vec<u8>)>,
        who: u32,
    ) -> Note {
        let note = match self.names.get_mut(&name) {
            None => Note::NoName,
            Some(blob) if !blob.has(stripe, fragment) => Note::NoFragment,
            Some(blob) if blob.stripes[stripe as usize][fragment as usize].is_some() => {
                Note::NotLost
            }
            Some(blob) => {
                let made = made
                    .filter(|made| made.0 == blob.version)
                    .map(|made| made.1);
                let width = self.width;
                match made.or_else(|| {
                    rebuild(
                        blob.code,
                        &blob.stripes[stripe as usize],
                        fragment as usize,
                        0,
                        width,
                    )
                }) {
                    None => Note::Unrecoverable(blob.version),
                    Some(bytes) => {
                        Arc::make_mut(blob).set(stripe, fragment, Some(Arc::from(bytes)));
                        Note::Repaired(blob.version)
                    }
                }
            }
        };
        self.note(who, Call::Repair(name, stripe, fragment), note)
    }

    fn trim(&mut self, keep: usize) -> usize {
        let given = self.journal.len().saturating_sub(keep);
        self.journal.drain(..given);
        self.trimmed += given;
        given
    }
}

/// Makes a call. What it needs is sealed or rebuilt outside the lock.
fn make(store: &Mutex<Book>, width: usize, who: u32, ask: Ask) -> Reply {
    let sealed = match &ask {
        Ask::Put(_, code, bytes) => match seal(*code, width, bytes) {
            None => return Reply::TooLong,
            sealed => sealed,
        },
        _ => None,
    };
    let mut made = None;
    if let Ask::Repair(name, stripe, fragment) = &ask {
        let blob = store.lock().unwrap().names.get(name).cloned();
        if let Some(blob) = blob.filter(|blob| blob.has(*stripe, *fragment)) {
            let stripe = &blob.stripes[*stripe as usize];
            if stripe[*fragment as usize].is_none() {
                made = rebuild(blob.code, stripe, *fragment as usize, 0, width)
                    .map(|bytes| (blob.version, bytes));
            }
        }
    }
    let mut book = store.lock().unwrap();
    if let Ask::Trim(keep) = ask {
        return Reply::Trimmed(book.trim(keep));
    }
    if book.journal.len() == book.limit {
        return Reply::Full;
    }
    Reply::Noted(match ask {
        Ask::Put(name, code, _) => book.put(name, code, sealed.unwrap(), who),
        Ask::Read(name, start, len) => return book.read(name, start, len, who),
        Ask::Lose(name, stripe, fragment) => book.lose(name, stripe, fragment, who),
        Ask::Repair(name, stripe, fragment) => book.repair(name, stripe, fragment, made, who),
        Ask::Delete(name) => {
            let note = book
                .names
                .remove(&name)
                .map_or(Note::NoName, |blob| Note::Deleted(blob.version));
            book.note(who, Call::Delete(name), note)
        }
        Ask::Stat(name) => {
            let shape = |blob: &Arc<Blob>| {
                Note::Shape(blob.version, blob.len, blob.stripes.len() as u64, blob.lost)
            };
            let note = book.names.get(&name).map_or(Note::NoName, shape);
            book.note(who, Call::Stat(name), note)
        }
        Ask::Trim(_) => unreachable!(),
    })
}

// ---- scripts

enum Task {
    Make(Ask),
    Mend,
}

/// The fields of each row: commas, quotes and line ends as `csv` has them.
fn records(text: &[u8]) -> Vec<Vec<Vec<u8>>> {
    let (mut rows, mut row, mut field, mut quoted) = (Vec::new(), Vec::new(), Vec::new(), false);
    let mut at = 0;
    while at < text.len() {
        let byte = text[at];
        at += 1;
        match byte {
            b'"' if quoted && text.get(at) == Some(&b'"') => {
                field.push(byte);
                at += 1;
            }
            b'"' if quoted || field.is_empty() => quoted = !quoted,
            b',' if !quoted => row.push(std::mem::take(&mut field)),
            b'\n' | b'\r' if !quoted => {
                if !row.is_empty() || !field.is_empty() {
                    row.push(std::mem::take(&mut field));
                    rows.push(std::mem::take(&mut row));
                }
            }
            _ if quoted => field.push(byte),
            _ => {
                let run = text[at..]
                    .iter()
                    .position(|b| matches!(b, b'"' | b',' | b'\n' | b'\r'))
                    .unwrap_or(text.len() - at);
                field.extend_from_slice(&text[at - 1..at + run]);
                at += run;
            }
        }
    }
    if !row.is_empty() || !field.is_empty() {
        row.push(field);
        rows.push(row);
    }
    rows
}

fn bytes_of(kind: &[u8], text: &[u8]) -> Vec<u8> {
    let digit = |byte: u8| {
        if byte <= b'9' {
            byte - b'0'
        } else {
            byte - b'a' + 10
        }
    };
    if kind == b"text" {
        text.to_vec()
    } else {
        text.chunks(2)
            .map(|two| digit(two[0]) * 16 + digit(two[1]))
            .collect()
    }
}

fn task(row: &[Vec<u8>]) -> (u32, u32, Task) {
    let text = |k: usize| String::from_utf8(row[k].clone()).unwrap();
    let number = |k: usize| text(k).parse::<u64>().unwrap();
    let ask = match row[2].as_slice() {
        b"put" => Ask::Put(text(3), Code::Wide, bytes_of(&row[4], &row[5])),
        b"put6" => Ask::Put(text(3), Code::Small, bytes_of(&row[4], &row[5])),
        b"read" => Ask::Read(text(3), number(4), number(5)),
        b"lose" => Ask::Lose(text(3), number(4), number(5)),
        b"repair" => Ask::Repair(text(3), number(4), number(5)),
        b"delete" => Ask::Delete(text(3)),
        b"stat" => Ask::Stat(text(3)),
        b"trim" => Ask::Trim(number(4) as usize),
        b"mend" => return (number(0) as u32, 0, Task::Mend),
        _ => panic!("no operation"),
    };
    (number(0) as u32, number(1) as u32, Task::Make(ask))
}

// ---- rounds

fn run_round(
    store: &Mutex<Book>,
    width: usize,
    rows: Vec<(usize, u32, Ask)>,
) -> Vec<(usize, Reply)> {
    let mut by_worker: BTreeMap<u32, Vec<(usize, Ask)>> = BTreeMap::new();
    for (number, worker, ask) in rows {
        by_worker.entry(worker).or_default().push((number, ask));
    }
    thread::scope(|scope| {
        let start = |(worker, rows): (u32, Vec<(usize, Ask)>)| {
            scope.spawn(move || {
                rows.into_iter()
                    .map(|(number, ask)| (number, make(store, width, worker, ask)))
                    .collect::<Vec<_>>()
            })
        };
        let started: Vec<_> = by_worker.into_iter().map(start).collect();
        started
            .into_iter()
            .flat_map(|worker| worker.join().unwrap())
            .collect()
    })
}

fn mend(store: &Mutex<Book>, width: usize, workers: u32) -> Reply {
    let mut plan = Vec::new();
    for (name, blob) in &store.lock().unwrap().names {
        for (j, stripe) in blob.stripes.iter().enumerate() {
            plan.extend(
                stripe
                    .iter()
                    .enumerate()
                    .filter(|(_, f)| f.is_none())
                    .map(|(f, _)| (name.clone(), j as u64, f as u64)),
            );
        }
    }
    let tickets = AtomicUsize::new(0);
    let work = |who| {
        let mut counts = [0; 4];
        while let Some((name, j, f)) = plan.get(tickets.fetch_add(1, Ordering::Relaxed)).cloned() {
            match make(store, width, who, Ask::Repair(name, j, f)) {
                Reply::Noted(Note::Repaired(_)) => counts[0] += 1,
                Reply::Noted(Note::NotLost) => counts[1] += 1,
                Reply::Noted(Note::NoName | Note::NoFragment) => counts[2] += 1,
                Reply::Noted(_) => counts[3] += 1,
                _ => return None,
            }
        }
        Some(counts)
    };
    let done: Vec<_> = thread::scope(|scope| {
        let started: Vec<_> = (1..=workers)
            .map(|who| scope.spawn(move || work(who)))
            .collect();
        started
            .into_iter()
            .map(|worker| worker.join().unwrap())
            .collect()
    });
    let add = |sum: [usize; 4], one: &Option<[usize; 4]>| {
        one.map(|one| std::array::from_fn(|k| sum[k] + one[k]))
    };
    done.iter()
        .try_fold([0; 4], add)
        .map_or(Reply::Full, Reply::Mended)
}

// ---- what is printed

impl Display for Note {
    fn fmt(&self, f: &mut fmt::Formatter<'_>) -> fmt::Result {
        match self {
            Note::Stored(v) => write!(f, "stored {v}"),
            Note::NoName => f.write_str("no-name"),
            Note::OutOfRange => f.write_str("out-of-range"),
            Note::Unrecoverable(v) => write!(f, "unrecoverable {v}"),
            Note::Granted(v) => write!(f, "granted {v}"),
            Note::Lost(v) => write!(f, "lost {v}"),
            Note::NoFragment => f.write_str("no-fragment"),
            Note::AlreadyLost => f.write_str("already-lost"),
            Note::Repaired(v) => write!(f, "repaired {v}"),
            Note::NotLost => f.write_str("not-lost"),
            Note::Deleted(v) => write!(f, "deleted {v}"),
            Note::Shape(v, len, stripes, lost) => write!(f, "shape {v} {len} {stripes} {lost}"),
        }
    }
}

impl Display for Call {
    fn fmt(&self, f: &mut fmt::Formatter<'_>) -> fmt::Result {
        match self {
            Call::Put(name, Code::Wide, len) => write!(f, "put {name} {len}"),
            Call::Put(name, Code::Small, len) => write!(f, "put6 {name} {len}"),
            Call::Read(name, start, len) => write!(f, "read {name} {start} {len}"),
            Call::Lose(name, j, k) => write!(f, "lose {name} {j} {k}"),
            Call::Repair(name, j, k) => write!(f, "repair {name} {j} {k}"),
            Call::Delete(name) => write!(f, "delete {name}"),
            Call::Stat(name) => write!(f, "stat {name}"),
        }
    }
}

fn push_hex(text: &mut String, bytes: &[u8]) {
    const DIGITS: &[u8; 16] = b"0123456789abcdef";
    for byte in bytes {
        text.push(DIGITS[usize::from(byte >> 4)] as char);
        text.push(DIGITS[usize::from(byte & 15)] as char);
    }
}

/// Walks a grant: what is there is taken as it is, what is lost is rebuilt.
fn push_granted(text: &mut String, blob: &Blob, width: usize, start: u64, len: u64) {
    let is_there = |&(j, f, ..): &(usize, usize, usize, usize)| blob.stripes[j][f].is_some();
    let (lent, built): (Vec<_>, Vec<_>) = blob.cut(width, start, len).partition(is_there);
    write!(
        text,
        "granted {} {} {} ",
        blob.version,
        lent.len(),
        built.len()
    )
    .unwrap();
    text.reserve(2 * len as usize + 1);
    if len == 0 {
        text.push('-');
    }
    for (j, f, from, to) in blob.cut(width, start, len) {
        match &blob.stripes[j][f] {
            Some(bytes) => push_hex(text, &bytes[from..to]),
            None => push_hex(
                text,
                &rebuild(blob.code, &blob.stripes[j], f, from, to).unwrap(),
            ),
        }
    }
}

fn push_line(text: &mut String, width: usize, number: usize, reply: &Reply) {
    write!(text, "{number} ").unwrap();
    match reply {
        Reply::Noted(note) => write!(text, "{note}").unwrap(),
        Reply::Granted(blob, start, len) => push_granted(text, blob, width, *start, *len),
        Reply::Trimmed(count) => write!(text, "trimmed {count}").unwrap(),
        Reply::Mended([a, b, c, d]) => write!(text, "mended {a} {b} {c} {d}").unwrap(),
        Reply::Full => text.push_str("full"),
        Reply::TooLong => text.push_str("too-long"),
    }
    text.push('\n');
}

fn main() {
    let words: Vec<String> = env::args().skip(1).collect();
    let option = |name: &str, default: usize| {
        words
            .iter()
            .position(|word| word == name)
            .map_or(default, |at| words[at + 1].parse().unwrap())
    };
    let (width, workers, limit) = (
        option("--width", 1),
        option("--workers", 1) as u32,
        option("--limit", 4096),
    );
    let tasks: Vec<_> = records(&fs::read(&words[0]).unwrap())
        .iter()
        .map(|row| task(row))
        .collect();
    let names = BTreeMap::new();
    let store = Mutex::new(Book {
        width,
        limit,
        puts: 0,
        trimmed: 0,
        names,
        journal: VecDeque::new(),
    });
    let (mut replies, mut round, mut ready) = (Vec::new(), 0, Vec::new());
    for (number, (next, worker, task)) in (1..).zip(tasks) {
        if next != round {
            replies.extend(run_round(&store, width, std::mem::take(&mut ready)));
            round = next;
        }
        match task {
            Task::Make(ask) => ready.push((number, worker, ask)),
            Task::Mend => replies.push((number, mend(&store, width, workers))),
        }
    }
    replies.extend(run_round(&store, width, ready));
    replies.sort_by_key(|reply| reply.0);
    let book = store.into_inner().unwrap();
    let mut text = String::new();
    for (number, reply) in &replies {
        push_line(&mut text, width, *number, reply);
    }
    if words.iter().any(|word| word == "--history") {
        for (number, (who, call, note)) in (book.trimmed + 1..).zip(&book.journal) {
            writeln!(text, "h {number} {who} {call} {note}").unwrap();
        }
    }
    write!(
        text,
        "calls {}\nlawful yes\n",
        book.trimmed + book.journal.len()
    )
    .unwrap();
    io::stdout().write_all(text.as_bytes()).unwrap();
}
