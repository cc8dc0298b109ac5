//! A plain program that answers `sim`'s edits and shows, for scale: `rustc --edition 2021 -O bench/plain/sim.rs`. It
//! reads lines of JSON from its standard input: a roster first, then add, set, del, clear, inc, dec and show. It has no
//! proof, judges little, and answers as rds_node does on lines that are not refused.
use std::collections::BTreeMap;
use std::fmt::Write as _;
use std::io::{BufRead, Write};
use std::rc::Rc;

#[derive(Clone, Debug, PartialEq, Eq, PartialOrd, Ord)]
enum Scalar {
    Null,
    Bool(bool),
    Int(i64),
    Text(Rc<str>),
}

enum Json {
    Scalar(Scalar),
    Array(Vec<Json>),
}

struct Text<'a> {
    bytes: &'a [u8],
    at: usize,
}

impl Text<'_> {
    fn spaces(&mut self) {
        while self.at < self.bytes.len() && self.bytes[self.at].is_ascii_whitespace() {
            self.at += 1;
        }
    }

    fn value(&mut self) -> Option<Json> {
        self.spaces();
        match *self.bytes.get(self.at)? {
            b'[' => self.array(),
            b'"' => self.text().map(|text| Json::Scalar(Scalar::Text(text.into()))),
            b'n' => self.word("null", Scalar::Null),
            b't' => self.word("true", Scalar::Bool(true)),
            b'f' => self.word("false", Scalar::Bool(false)),
            _ => self.number(),
        }
    }

    fn word(&mut self, word: &str, scalar: Scalar) -> Option<Json> {
        let rest = self.bytes[self.at..].strip_prefix(word.as_bytes())?;
        self.at = self.bytes.len() - rest.len();
        Some(Json::Scalar(scalar))
    }

    fn number(&mut self) -> Option<Json> {
        let start = self.at;
        while self.bytes.get(self.at).is_some_and(|b| *b == b'-' || b.is_ascii_digit()) {
            self.at += 1;
        }
        let text = std::str::from_utf8(&self.bytes[start..self.at]).ok()?;
        Some(Json::Scalar(Scalar::Int(text.parse().ok()?)))
    }

    fn text(&mut self) -> Option<String> {
        self.at += 1;
        let mut text = Vec::new();
        loop {
            match *self.bytes.get(self.at)? {
                b'"' => break,
                b'\\' => {
                    self.at += 1;
                    text.push(*self.bytes.get(self.at)?);
                }
                byte if byte < 32 => return None,
                byte => text.push(byte),
            }
            self.at += 1;
        }
        self.at += 1;
        String::from_utf8(text).ok()
    }

    fn array(&mut self) -> Option<Json> {
        self.at += 1;
        let mut items = Vec::new();
        self.spaces();
        if *self.bytes.get(self.at)? == b']' {
            self.at += 1;
            return Some(Json::Array(items));
        }
        loop {
            items.push(self.value()?);
            self.spaces();
            let byte = *self.bytes.get(self.at)?;
            self.at += 1;
            match byte {
                b',' => (),
                b']' => return Some(Json::Array(items)),
                _ => return None,
            }
        }
    }
}

type Dot = (u8, u64);
type Held = BTreeMap<Scalar, Vec<Dot>>;

#[derive(Default)]
struct Node {
    children: BTreeMap<Rc<str>, Node>,
    reg: Held,
    set: Held,
}

impl Node {
    fn at(&mut self, path: &[Rc<str>]) -> &mut Node {
        match path.split_first() {
            Some((key, rest)) => self.children.entry(key.clone()).or_default().at(rest),
            None => self,
        }
    }

    fn found(&self, path: &[&str]) -> Option<&Node> {
        match path.split_first() {
            Some((key, rest)) => self.children.get(*key)?.found(rest),
            None => Some(self),
        }
    }

    fn is_empty(&self) -> bool {
        self.children.is_empty() && self.reg.is_empty() && self.set.is_empty()
    }

    fn drain(&mut self, dots: &mut Vec<Dot>) {
        dots.extend(std::mem::take(&mut self.reg).into_values().flatten());
        dots.extend(std::mem::take(&mut self.set).into_values().flatten());
        for child in std::mem::take(&mut self.children).into_values() {
            let mut child = child;
            child.drain(dots);
        }
    }

    fn prune(&mut self, path: &[Rc<str>]) {
        if let Some((key, rest)) = path.split_first() {
            if let Some(child) = self.children.get_mut(key) {
                child.prune(rest);
                if child.is_empty() {
                    self.children.remove(key);
                }
            }
        }
    }
}

#[derive(Default)]
struct Replica {
    own: u8,
    next: u64,
    seen: BTreeMap<u8, Vec<(u64, u64)>>,
    rows: BTreeMap<Dot, (Rc<[Rc<str>]>, bool, Scalar)>,
    tree: Node,
    counts: BTreeMap<Rc<str>, BTreeMap<u8, (u64, u64)>>,
}

impl Replica {
    fn put(&mut self, path: &Rc<[Rc<str>]>, is_set: bool, value: Scalar) -> Dot {
        self.next += 1;
        let dot = (self.own, self.next);
        match self.seen.entry(self.own).or_default().last_mut() {
            Some(run) => run.1 += 1,
            None => self.seen.entry(self.own).or_default().push((1, 1)),
        }
        let node = self.tree.at(path);
        let held = if is_set { &mut node.set } else { &mut node.reg };
        held.entry(value.clone()).or_default().push(dot);
        self.rows.insert(dot, (path.clone(), is_set, value));
        dot
    }

    fn kill(&mut self, dots: &[Dot]) {
        for dot in dots {
            self.rows.remove(dot);
        }
    }
}

fn quoted(text: &str, out: &mut String) {
    out.push('"');
    for c in text.chars() {
        match c {
            '"' | '\\' => {
                out.push('\\');
                out.push(c);
            }
            c if (c as u32) < 32 => write!(out, "\\u{:04x}", c as u32).unwrap(),
            c => out.push(c),
        }
    }
    out.push('"');
}

fn scalar(value: &Scalar, out: &mut String) {
    match value {
        Scalar::Null => out.push_str("null"),
        Scalar::Bool(truth) => write!(out, "{truth}").unwrap(),
        Scalar::Int(number) => write!(out, "{number}").unwrap(),
        Scalar::Text(text) => quoted(text, out),
    }
}

fn values(node: &Node, of: fn(&Node) -> &Held, out: &mut String) {
    out.push('{');
    let mut first = true;
    for (key, child) in node.children.iter().filter(|(_, child)| !of(child).is_empty()) {
        if !std::mem::take(&mut first) {
            out.push(',');
        }
        quoted(key, out);
        out.push_str(":[");
        for (at, value) in of(child).keys().enumerate() {
            if at > 0 {
                out.push(',');
            }
            scalar(value, out);
        }
        out.push(']');
    }
    out.push('}');
}

fn show(node: &Node, sums: Option<&Replica>, out: &mut String) {
    out.push('{');
    if let Some(replica) = sums {
        out.push_str("\"counters\":{");
        for (at, (key, numbers)) in replica.counts.iter().enumerate() {
            if at > 0 {
                out.push(',');
            }
            quoted(key, out);
            let sum: i64 = numbers.values().map(|(p, n)| *p as i64 - *n as i64).sum();
            write!(out, ":{sum}").unwrap();
        }
        out.push_str("},");
    }
    out.push_str("\"maps\":{");
    let mut first = true;
    for (key, child) in node.children.iter().filter(|(_, child)| !child.children.is_empty()) {
        if !std::mem::take(&mut first) {
            out.push(',');
        }
        quoted(key, out);
        out.push(':');
        show(child, None, out);
    }
    out.push_str("},\"regs\":");
    values(node, |node| &node.reg, out);
    out.push_str(",\"sets\":");
    values(node, |node| &node.set, out);
    out.push('}');
}

fn text_of(json: &Json) -> Option<&str> {
    match json {
        Json::Scalar(Scalar::Text(text)) => Some(text),
        _ => None,
    }
}

fn number_of(json: &Json) -> Option<u64> {
    match json {
        Json::Scalar(Scalar::Int(number)) => u64::try_from(*number).ok(),
        _ => None,
    }
}

fn path_of(text: &str) -> Rc<[Rc<str>]> {
    text.split('/').map(Rc::from).collect()
}

fn edited(dot: Option<(&str, u64)>, killed: usize, out: &mut String) {
    match dot {
        Some((name, seq)) => writeln!(out, "{{\"dot\":[\"{name}\",{seq}],\"killed\":{killed}}}").unwrap(),
        None => writeln!(out, "{{\"dot\":null,\"killed\":{killed}}}").unwrap(),
    }
}

fn answer(line: &[Json], names: &[String], group: &mut [Replica], out: &mut String) -> Option<()> {
    let word = text_of(line.first()?)?;
    let name = text_of(line.get(1)?)?;
    let replica = &mut group[names.iter().position(|other| other == name)?];
    match word {
        "set" | "add" | "del" => {
            let path = path_of(text_of(line.get(2)?)?);
            let Json::Scalar(value) = line.get(3)? else { return None };
            let node = replica.tree.at(&path);
            let dots: Vec<Dot> = match word {
                "set" => std::mem::take(&mut node.reg).into_values().flatten().collect(),
                _ => node.set.remove(value).unwrap_or_default(),
            };
            replica.kill(&dots);
            if word == "del" {
                replica.tree.prune(&path);
                edited(None, dots.len(), out);
            } else {
                let dot = replica.put(&path, word == "add", value.clone());
                edited(Some((name, dot.1)), dots.len(), out);
            }
        }
        "clear" => {
            let text = text_of(line.get(2)?)?;
            let path = if text.is_empty() { Rc::from([]) } else { path_of(text) };
            let mut dots = Vec::new();
            replica.tree.at(&path).drain(&mut dots);
            replica.tree.prune(&path);
            replica.kill(&dots);
            edited(None, dots.len(), out);
        }
        "inc" | "dec" => {
            let by = number_of(line.get(3)?)?;
            let own = replica.own;
            let numbers = replica.counts.entry(text_of(line.get(2)?)?.into()).or_default().entry(own).or_default();
            if word == "inc" { numbers.0 += by } else { numbers.1 += by }
            edited(None, 0, out);
        }
        "show" => {
            let text = text_of(line.get(2)?)?;
            let path: Vec<&str> = if text.is_empty() { Vec::new() } else { text.split('/').collect() };
            let empty = Node::default();
            show(replica.tree.found(&path).unwrap_or(&empty), text.is_empty().then_some(replica), out);
            out.push('\n');
        }
        _ => return None,
    }
    Some(())
}

fn main() {
    let stdout = std::io::stdout();
    let mut output = stdout.lock();
    let mut names: Vec<String> = Vec::new();
    let mut group: Vec<Replica> = Vec::new();
    let mut out = String::new();
    for line in std::io::stdin().lock().lines() {
        let line = line.unwrap();
        let mut text = Text { bytes: line.as_bytes(), at: 0 };
        let Some(Json::Array(line)) = text.value() else { panic!("no line") };
        out.clear();
        if group.is_empty() {
            names = line[2..].iter().map(|name| text_of(name).unwrap().to_string()).collect();
            group = (0..names.len()).map(|own| Replica { own: own as u8, ..Replica::default() }).collect();
            out.push_str("{\"ok\":true}\n");
        } else if answer(&line, &names, &mut group, &mut out).is_none() {
            out.push_str("refused\n");
        }
        output.write_all(out.as_bytes()).unwrap();
    }
}
