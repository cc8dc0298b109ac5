//! A plain program, unproved, for scale: what `join` and `pair` cost where nothing is promised. It reads both formats,
//! and writes the same bytes as `rds_node`, of format 2, for snapshots without counters whose values are whole numbers
//! or texts. It panics at any other.
//!
//!     rustc --edition 2021 -O -o files bench/plain/files.rs
//!     files join < LINES
//!     files pair FILE FILE
//!
//! `pair` sends nothing: each file gets the live rows that it lacks, so nothing may have been deleted. Keys are
//! numbered by a map with std's hasher, whose seed is random.
use std::cmp::Ordering;
use std::collections::{HashMap, HashSet};
use std::io::{self, BufRead, Write};
use std::rc::Rc;
use std::{env, fs};

#[derive(Clone, PartialEq)]
enum Scalar {
    Int(i64),
    Text(Rc<str>),
}

type Key = Rc<str>;

#[derive(Clone, PartialEq)]
struct Entry {
    path: Rc<[Key]>,
    kind: u8,
    scalar: Scalar,
}

type Dot = (u8, u64);
type Row = (Dot, Entry);
type Runs = Vec<(u64, u64)>;
/// For each replica the runs of its dots, in order.
type Seen = Vec<(u8, Runs)>;

struct Snapshot {
    /// The bytes between the format and the own number: the group and the roster.
    head: Vec<u8>,
    own: u8,
    seen: Seen,
    rows: Vec<Row>,
}

fn unhex(line: &[u8]) -> Option<Vec<u8>> {
    fn digit(b: u8) -> Option<u8> {
        match b {
            b'0'..=b'9' => Some(b - b'0'),
            b'a'..=b'f' => Some(b - b'a' + 10),
            b'A'..=b'F' => Some(b - b'A' + 10),
            _ => None,
        }
    }
    if line.len() % 2 != 0 {
        return None;
    }
    line.chunks_exact(2)
        .map(|p| Some(digit(p[0])? << 4 | digit(p[1])?))
        .collect()
}

struct Reader<'a>(&'a [u8]);

impl<'a> Reader<'a> {
    fn bytes(&mut self, n: usize) -> Option<&'a [u8]> {
        if self.0.len() < n {
            return None;
        }
        let (a, b) = self.0.split_at(n);
        self.0 = b;
        Some(a)
    }
    fn number(&mut self, n: usize) -> Option<u64> {
        Some(self.bytes(n)?.iter().fold(0, |x, b| x << 8 | u64::from(*b)))
    }
    fn key(&mut self) -> Option<&'a str> {
        let n = self.number(1)? as usize;
        if n == 0 || n > 64 {
            return None;
        }
        let key = std::str::from_utf8(self.bytes(n)?).ok()?;
        (!key.contains('/')).then_some(key)
    }
}

/// The keys of a text: spelled out in format 1, numbers of a table in format 2.
enum Keys {
    Spelled,
    Tabled { table: Vec<Key>, met: usize },
}

impl Keys {
    /// What stands in front of a state's dots.
    fn begin(r: &mut Reader, format: u64) -> Option<Keys> {
        if format == 1 {
            return Some(Keys::Spelled);
        }
        let (mut known, mut table) = (HashSet::new(), Vec::new());
        for _ in 0..r.number(4)? {
            let key = r.key()?;
            if !known.insert(key) {
                return None;
            }
            table.push(Key::from(key));
        }
        Some(Keys::Tabled { table, met: 0 })
    }
    fn key(&mut self, r: &mut Reader) -> Option<Key> {
        match self {
            Keys::Spelled => r.key().map(Key::from),
            Keys::Tabled { table, met } => {
                let number = r.number(4)? as usize;
                if number > *met {
                    return None;
                }
                *met += usize::from(number == *met);
                table.get(number).cloned()
            }
        }
    }
    /// Whether each key of the table was used.
    fn is_used(&self) -> bool {
        match self {
            Keys::Spelled => true,
            Keys::Tabled { table, met } => table.len() == *met,
        }
    }
}

fn decode(text: &[u8]) -> Option<Snapshot> {
    let mut r = Reader(text);
    let format = match r.bytes(4)? {
        b"RDS1" => 1,
        b"RDS2" => 2,
        _ => return None,
    };
    let whole = r.0;
    let g = r.number(1)? as usize;
    r.bytes(g)?;
    let names = r.number(2)?;
    for _ in 0..names {
        let n = r.number(1)? as usize;
        std::str::from_utf8(r.bytes(n)?).ok()?;
    }
    let head = whole[..whole.len() - r.0.len()].to_vec();
    let own = r.number(1)? as u8;
    let mut keys = Keys::begin(&mut r, format)?;
    let mut seen = Vec::new();
    for _ in 0..r.number(2)? {
        let replica = r.number(1)? as u8;
        let top = r.number(8)?;
        let gaps = r.number(4)?;
        let (mut runs, mut from) = (Vec::new(), 1);
        for _ in 0..gaps {
            let lo = r.number(8)?;
            let hi = r.number(8)?;
            if lo < from || hi < lo || hi >= top {
                return None;
            }
            if lo > from {
                runs.push((from, lo - 1));
            }
            from = hi + 1;
        }
        runs.push((from, top));
        seen.push((replica, runs));
    }
    let count = r.number(4)? as usize;
    let mut rows: Vec<Row> = Vec::new();
    for _ in 0..count {
        let dot = (r.number(1)? as u8, r.number(8)?);
        if let Some((last, _)) = rows.last() {
            if *last >= dot {
                return None;
            }
        }
        if !has(&seen, dot) {
            return None;
        }
        let length = r.number(1)?;
        if length == 0 || length > 8 {
            return None;
        }
        let path = (0..length).map(|_| keys.key(&mut r)).collect::<Option<Rc<[Key]>>>()?;
        let kind = r.number(1)? as u8;
        let scalar = match r.number(1)? {
            3 => Scalar::Int(r.number(8)? as i64),
            4 => {
                let n = r.number(2)? as usize;
                Scalar::Text(Rc::from(std::str::from_utf8(r.bytes(n)?).ok()?))
            }
            _ => return None,
        };
        rows.push((dot, Entry { path, kind, scalar }));
    }
    if r.number(4)? != 0 || !r.0.is_empty() || !keys.is_used() {
        return None;
    }
    Some(Snapshot {
        head,
        own,
        seen,
        rows,
    })
}

fn has(seen: &[(u8, Runs)], dot: Dot) -> bool {
    seen.binary_search_by_key(&dot.0, |s| s.0).is_ok_and(|i| {
        let runs = &seen[i].1;
        let at = runs.partition_point(|run| run.1 < dot.1);
        at < runs.len() && runs[at].0 <= dot.1
    })
}

fn union(a: &[(u64, u64)], b: &[(u64, u64)]) -> Runs {
    let (mut i, mut j, mut out): (usize, usize, Runs) =
        (0, 0, Vec::with_capacity(a.len() + b.len()));
    while i < a.len() || j < b.len() {
        let run = if j == b.len() || (i < a.len() && a[i].0 <= b[j].0) {
            i += 1;
            a[i - 1]
        } else {
            j += 1;
            b[j - 1]
        };
        match out.last_mut() {
            Some(last) if run.0 <= last.1 + 1 => last.1 = last.1.max(run.1),
            _ => out.push(run),
        }
    }
    out
}

fn union_of(a: &[(u8, Runs)], b: &[(u8, Runs)]) -> Seen {
    let (mut i, mut j, mut seen) = (0, 0, Vec::new());
    while i < a.len() || j < b.len() {
        if j == b.len() || (i < a.len() && a[i].0 < b[j].0) {
            seen.push(a[i].clone());
            i += 1;
        } else if i == a.len() || b[j].0 < a[i].0 {
            seen.push(b[j].clone());
            j += 1;
        } else {
            seen.push((a[i].0, union(&a[i].1, &b[j].1)));
            i += 1;
            j += 1;
        }
    }
    seen
}

fn join(mut a: Snapshot, b: Snapshot) -> Option<Snapshot> {
    let mut rows = Vec::with_capacity(a.rows.len() + b.rows.len());
    let (mut x, mut y) = (
        std::mem::take(&mut a.rows).into_iter().peekable(),
        b.rows.into_iter().peekable(),
    );
    loop {
        let order = match (x.peek(), y.peek()) {
            (None, None) => break,
            (Some(_), None) => Ordering::Less,
            (None, Some(_)) => Ordering::Greater,
            (Some(p), Some(q)) => p.0.cmp(&q.0),
        };
        match order {
            Ordering::Less => {
                let row = x.next()?;
                if !has(&b.seen, row.0) {
                    rows.push(row);
                }
            }
            Ordering::Greater => {
                let row = y.next()?;
                if !has(&a.seen, row.0) {
                    rows.push(row);
                }
            }
            Ordering::Equal => {
                let (p, q) = (x.next()?, y.next()?);
                if p.1 != q.1 {
                    return None;
                }
                rows.push(p);
            }
        }
    }
    let seen = union_of(&a.seen, &b.seen);
    Some(Snapshot {
        head: a.head,
        own: a.own,
        seen,
        rows,
    })
}

fn encode(s: &Snapshot) -> Vec<u8> {
    let (mut places, mut table, mut numbers) = (HashMap::new(), Vec::new(), Vec::new());
    for key in s.rows.iter().flat_map(|row| row.1.path.iter()) {
        let number = *places.entry(&**key).or_insert_with(|| {
            table.push(key);
            table.len() as u32 - 1
        });
        numbers.push(number);
    }
    let mut out = b"RDS2".to_vec();
    out.extend(&s.head);
    out.push(s.own);
    out.extend((table.len() as u32).to_be_bytes());
    for key in table {
        out.push(key.len() as u8);
        out.extend(key.as_bytes());
    }
    out.extend((s.seen.len() as u16).to_be_bytes());
    for (replica, runs) in &s.seen {
        out.push(*replica);
        out.extend(runs[runs.len() - 1].1.to_be_bytes());
        let gaps: Runs = std::iter::once((runs[0].0 > 1).then(|| (1, runs[0].0 - 1)))
            .flatten()
            .chain(runs.windows(2).map(|w| (w[0].1 + 1, w[1].0 - 1)))
            .collect();
        out.extend((gaps.len() as u32).to_be_bytes());
        for (lo, hi) in gaps {
            out.extend(lo.to_be_bytes());
            out.extend(hi.to_be_bytes());
        }
    }
    out.extend((s.rows.len() as u32).to_be_bytes());
    let mut numbers = numbers.iter();
    for (dot, entry) in &s.rows {
        out.push(dot.0);
        out.extend(dot.1.to_be_bytes());
        out.push(entry.path.len() as u8);
        for number in numbers.by_ref().take(entry.path.len()) {
            out.extend(number.to_be_bytes());
        }
        out.push(entry.kind);
        match &entry.scalar {
            Scalar::Int(n) => {
                out.push(3);
                out.extend(n.to_be_bytes());
            }
            Scalar::Text(t) => {
                out.push(4);
                out.extend((t.len() as u16).to_be_bytes());
                out.extend(t.as_bytes());
            }
        }
    }
    out.extend(0u32.to_be_bytes());
    out
}

/// What one snapshot has that the other lacks: its seen set, and the rows that are new there.
fn delta(of: &Snapshot, at: &Snapshot) -> (Seen, Vec<Row>) {
    let new = of.rows.iter().filter(|row| !has(&at.seen, row.0));
    (of.seen.clone(), new.cloned().collect())
}

fn pair(first: &str, second: &str) {
    let read = |name: &str| decode(&fs::read(name).unwrap()).unwrap();
    let (a, b) = (read(first), read(second));
    let (to_a, to_b) = (delta(&b, &a), delta(&a, &b));
    for (name, own, (seen, rows)) in [(first, a, to_a), (second, b, to_b)] {
        let text = encode(&take(own, &seen, rows));
        let new = format!("{name}.new");
        let mut file = fs::File::create(&new).unwrap();
        file.write_all(&text).unwrap();
        file.sync_all().unwrap();
        fs::rename(&new, name).unwrap();
    }
}

/// Puts new live rows between own ones.
fn take(own: Snapshot, seen: &Seen, new: Vec<Row>) -> Snapshot {
    let mut rows = Vec::with_capacity(own.rows.len() + new.len());
    let mut new = new.into_iter().peekable();
    for row in own.rows {
        while let Some(first) = new.next_if(|first| first.0 < row.0) {
            rows.push(first);
        }
        rows.push(row);
    }
    rows.extend(new);
    Snapshot {
        seen: union_of(&own.seen, seen),
        rows,
        ..own
    }
}

fn main() {
    let words: Vec<String> = env::args().skip(1).collect();
    match words.iter().map(String::as_str).collect::<Vec<_>>()[..] {
        ["join"] => join_lines(),
        ["pair", first, second] => pair(first, second),
        _ => panic!("plain join < LINES, or plain pair FILE FILE"),
    }
}

fn join_lines() {
    let lines: Vec<Vec<u8>> = io::stdin()
        .lock()
        .split(b'\n')
        .map(Result::unwrap)
        .collect();
    let read = |line: &[u8]| decode(&unhex(line).unwrap()).unwrap();
    let out = encode(&join(read(&lines[0]), read(&lines[1])).unwrap());
    let digits = b"0123456789abcdef";
    let mut hex = Vec::with_capacity(out.len() * 2 + 1);
    for byte in out {
        hex.push(digits[usize::from(byte >> 4)]);
        hex.push(digits[usize::from(byte & 15)]);
    }
    hex.push(b'\n');
    io::stdout().write_all(&hex).unwrap();
}
