//! A plain program, unproved, for scale: what states of the two formats cost where nothing is promised. It makes the
//! states that `rds_bench formats` makes, and prints the same figures: the dots, and of each format the bytes of the
//! text and the fewest microseconds that encoding and decoding took.
//!
//!     rustc --edition 2021 -O -o formats bench/plain/formats.rs
//!     formats DOTS KEYS
//!
//! A path shares its keys, as it does there. Keys are numbered by a map with std's hasher, whose seed is random.
use std::collections::{HashMap, HashSet};
use std::rc::Rc;
use std::time::Instant;

const ROUNDS: usize = 5;

type Key = Rc<str>;
type Row = ((u8, u64), Entry);

struct Entry {
    path: Rc<[Key]>,
    kind: u8,
    value: i64,
}

/// The first dots of replica 0, all of them live.
struct State {
    dots: u64,
    rows: Vec<Row>,
}

const LONG: &str = "a-key-that-is-as-long-as-a-key-may-be-and-tells-little-of-";
const SAME_HASH: &str = "sltgzdusqyrawqsbxl4ePHbk";

fn path(keys: &str, number: u64) -> String {
    let fields = ["name", "mail", "city", "born", "note"];
    match (keys, number % 4) {
        ("one", _) => "items".into(),
        ("shared", _) => format!("users/user-{}/tags", number / 10),
        ("fields", _) => format!("users/user-{}/{}", number / 5, fields[(number % 5) as usize]),
        ("mixed", 0) => format!("users/u{number}/name"),
        ("mixed", 1) => format!("users/u{}/mail", number - 1),
        ("mixed", 2) => format!("boards/t{number}/cards"),
        ("mixed", _) => format!("lists/l{}/items", number % 100),
        ("new", _) => format!("key-{}", number * 659_003 % 1_048_576),
        ("falling", _) => format!("{LONG}{}", 999_999 - number % 1_000_000),
        ("colliding", _) => format!("{SAME_HASH}{}", 10_000_000 + number),
        _ => panic!("no keys are called {keys}"),
    }
}

fn state(dots: u64, keys: &str) -> State {
    let row = |seq| {
        let path = path(keys, seq).split('/').map(Key::from).collect();
        ((0, seq), Entry { path, kind: 2, value: seq as i64 })
    };
    State { dots, rows: (1..=dots).map(row).collect() }
}

fn put_seen(out: &mut Vec<u8>, dots: u64) {
    out.extend(1u16.to_be_bytes());
    out.push(0);
    out.extend(dots.to_be_bytes());
    out.extend(0u32.to_be_bytes());
}

fn put_key(out: &mut Vec<u8>, key: &str) {
    out.push(key.len() as u8);
    out.extend(key.as_bytes());
}

fn put_rows(out: &mut Vec<u8>, rows: &[Row], mut put_keys: impl FnMut(&mut Vec<u8>, &[Key])) {
    out.extend((rows.len() as u32).to_be_bytes());
    for ((replica, seq), entry) in rows {
        out.push(*replica);
        out.extend(seq.to_be_bytes());
        out.push(entry.path.len() as u8);
        put_keys(out, &entry.path);
        out.push(entry.kind);
        out.push(3);
        out.extend(entry.value.to_be_bytes());
    }
    out.extend(0u32.to_be_bytes());
}

fn keys_length<'a>(keys: impl IntoIterator<Item = &'a Key>) -> usize {
    keys.into_iter().map(|key| 1 + key.len()).sum()
}

fn encode_one(state: &State) -> Vec<u8> {
    let rows: usize = state.rows.iter().map(|row| 20 + keys_length(row.1.path.iter())).sum();
    let mut out = Vec::with_capacity(23 + rows);
    put_seen(&mut out, state.dots);
    put_rows(&mut out, &state.rows, |out, keys| keys.iter().for_each(|key| put_key(out, key)));
    out
}

fn encode_two(state: &State) -> Vec<u8> {
    let (mut places, mut table, mut numbers) = (HashMap::new(), Vec::new(), Vec::new());
    for key in state.rows.iter().flat_map(|row| row.1.path.iter()) {
        let number = *places.entry(&**key).or_insert_with(|| {
            table.push(key);
            table.len() as u32 - 1
        });
        numbers.push(number);
    }
    let rows = 20 * state.rows.len() + 4 * numbers.len();
    let mut out = Vec::with_capacity(27 + keys_length(table.iter().copied()) + rows);
    out.extend((table.len() as u32).to_be_bytes());
    table.iter().for_each(|key| put_key(&mut out, key));
    put_seen(&mut out, state.dots);
    let mut numbers = numbers.iter();
    put_rows(&mut out, &state.rows, |out, keys| {
        numbers.by_ref().take(keys.len()).for_each(|number| out.extend(number.to_be_bytes()));
    });
    out
}

struct Reader<'a>(&'a [u8]);

impl<'a> Reader<'a> {
    fn bytes(&mut self, count: usize) -> Option<&'a [u8]> {
        let (first, rest) = self.0.split_at_checked(count)?;
        self.0 = rest;
        Some(first)
    }
    fn number<const N: usize>(&mut self) -> Option<u64> {
        Some(self.bytes(N)?.iter().fold(0, |number, byte| number << 8 | u64::from(*byte)))
    }
    fn key(&mut self) -> Option<&'a str> {
        let length = self.number::<1>()? as usize;
        let key = std::str::from_utf8(self.bytes(length)?).ok()?;
        (1..=64).contains(&length).then_some(())?;
        (!key.contains('/')).then_some(key)
    }
    fn seen(&mut self) -> Option<u64> {
        let head = (self.number::<2>()?, self.number::<1>()?);
        let dots = self.number::<8>()?;
        (head == (1, 0) && self.number::<4>()? == 0).then_some(dots)
    }
    fn rows(&mut self, dots: u64, mut key: impl FnMut(&mut Self) -> Option<Key>) -> Option<Vec<Row>> {
        let (count, mut rows, mut last) = (self.number::<4>()?, Vec::new(), 0);
        for _ in 0..count {
            let (replica, seq) = (self.number::<1>()? as u8, self.number::<8>()?);
            (replica == 0 && last < seq && seq <= dots).then_some(())?;
            last = seq;
            let keys = self.number::<1>()?;
            (1..=8).contains(&keys).then_some(())?;
            let path = (0..keys).map(|_| key(self)).collect::<Option<Rc<[Key]>>>()?;
            let kind = self.number::<1>()? as u8;
            ((kind == 1 || kind == 2) && self.number::<1>()? == 3).then_some(())?;
            let value = self.number::<8>()? as i64;
            rows.push(((replica, seq), Entry { path, kind, value }));
        }
        (self.number::<4>()? == 0 && self.0.is_empty()).then_some(rows)
    }
}

fn decode_one(text: &[u8]) -> Option<State> {
    let mut reader = Reader(text);
    let dots = reader.seen()?;
    let rows = reader.rows(dots, |reader| reader.key().map(Key::from))?;
    Some(State { dots, rows })
}

fn decode_two(text: &[u8]) -> Option<State> {
    let mut reader = Reader(text);
    let (mut known, mut table) = (HashSet::new(), Vec::new());
    for _ in 0..reader.number::<4>()? {
        let key = reader.key()?;
        known.insert(key).then_some(())?;
        table.push(Key::from(key));
    }
    let dots = reader.seen()?;
    let mut met = 0;
    let rows = reader.rows(dots, |reader| {
        let number = reader.number::<4>()? as usize;
        (number <= met).then_some(())?;
        met += usize::from(number == met);
        table.get(number).cloned()
    })?;
    (met == table.len()).then_some(State { dots, rows })
}

fn time(state: &State, encode: fn(&State) -> Vec<u8>, decode: fn(&[u8]) -> Option<State>) -> String {
    let (mut bytes, mut encoded, mut decoded) = (0, u128::MAX, u128::MAX);
    for _ in 0..ROUNDS {
        let start = Instant::now();
        let text = encode(state);
        encoded = encoded.min(start.elapsed().as_micros());
        bytes = text.len();
        let start = Instant::now();
        let read = decode(&text).expect("a text of its own");
        decoded = decoded.min(start.elapsed().as_micros());
        assert_eq!(read.rows.len(), state.rows.len());
    }
    format!("{bytes} {encoded} {decoded}")
}

fn main() {
    let words: Vec<String> = std::env::args().skip(1).collect();
    let [dots, keys] = &words[..] else {
        panic!("formats DOTS KEYS");
    };
    let state = state(dots.parse().expect("a number of dots"), keys);
    let one = time(&state, encode_one, decode_one);
    let two = time(&state, encode_two, decode_two);
    println!("{dots} {one} {two}");
}
