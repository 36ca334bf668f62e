//! What spprof is timed against: the same program in plain Rust, without any proof.
//!
//! `plain check < FILE` prints the work of a trace or the trace's first fault; `plain encode < FILE` writes the bytes
//! of the trace that a text names, or prints the text's first fault.

use std::collections::HashSet;
use std::io::{self, Read, Write};
use std::process::exit;

const MOST_NAMES: u32 = 65536;
const MOST_EVENTS: u32 = 1 << 28;

/// Why the program ends without an answer.
enum Fault {
    Usage,
    Read,
    Write,
    Header(String),
    Event(u32, String),
    Text(usize, &'static str),
}

enum Event {
    Strand(u64),
    Call,
    Spawn,
    Return,
    Sync,
}

struct Trace<'a> {
    functions: Vec<&'a [u8]>,
    sites: Vec<&'a [u8]>,
    events: u32,
    body: &'a [u8],
}

/// The first `n` bytes, which `bytes` then no longer has.
fn take<'a>(bytes: &mut &'a [u8], n: usize) -> Result<&'a [u8], Fault> {
    let (first, rest) = bytes.split_at_checked(n).ok_or(Fault::Header("short".into()))?;
    *bytes = rest;
    Ok(first)
}

impl<'a> Trace<'a> {
    /// Reads the header and the names.
    fn open(bytes: &'a [u8]) -> Result<Self, Fault> {
        let bad = |why: &str| Err(Fault::Header(why.into()));
        let mut rest = bytes;
        let head = take(&mut rest, 24)?;
        if !head.starts_with(b"SPTRACE1") {
            return bad("magic");
        }
        let number = |at: usize| u32::from_be_bytes(head[at..at + 4].try_into().unwrap());
        let (functions, sites, root, events) = (number(8), number(12), number(16), number(20));
        if functions == 0 || functions > MOST_NAMES || sites > MOST_NAMES || events > MOST_EVENTS {
            return bad("limits");
        }
        if root >= functions {
            return bad("root function");
        }
        let mut names = Vec::new();
        let mut seen = HashSet::from([&b"(root)"[..]]);
        for n in 0..functions + sites {
            let length = u16::from_be_bytes(take(&mut rest, 2)?.try_into().unwrap());
            if length == 0 || length > 200 {
                return bad(&format!("name {n}"));
            }
            let name = take(&mut rest, length.into())?;
            if !name.iter().all(|byte| (0x20..=0x7e).contains(byte)) {
                return bad(&format!("name {n}"));
            }
            if n >= functions && !seen.insert(name) {
                return bad(&format!("same name {n}"));
            }
            names.push(name);
        }
        if rest.len() > 16 * events as usize {
            return bad("trailing");
        }
        let sites = names.split_off(functions as usize);
        Ok(Trace { functions: names, sites, events, body: rest })
    }

    /// Decodes event `i`.
    fn event(&self, i: u32) -> Result<Event, &'static str> {
        let at = 16 * i as usize;
        let record = self.body.get(at..at + 16).ok_or("truncated")?;
        let high = u64::from_be_bytes(record[..8].try_into().unwrap());
        let low = u64::from_be_bytes(record[8..].try_into().unwrap());
        let (site, function) = (high as u32 as usize, (low >> 32) as usize);
        match high >> 56 {
            0 if high == 0 => Ok(Event::Strand(low)),
            tag @ (1 | 2) if high << 8 >> 40 == 0 && low as u32 == 0 => {
                if site >= self.sites.len() {
                    Err("site")
                } else if function >= self.functions.len() {
                    Err("function")
                } else {
                    Ok(if tag == 1 { Event::Call } else { Event::Spawn })
                }
            }
            3 if high << 8 == 0 && low == 0 => Ok(Event::Return),
            4 if high << 8 == 0 && low == 0 => Ok(Event::Sync),
            0..=4 => Err("padding"),
            _ => Err("tag"),
        }
    }

    /// The sum of all strands of a well-formed trace.
    fn work(&self) -> Result<u128, Fault> {
        let bad = |i, why: &str| Fault::Event(i, why.into());
        let (mut work, mut depth) = (0u128, 0u32);
        for i in 0..self.events {
            match self.event(i).map_err(|why| bad(i, why))? {
                Event::Strand(count) => work += u128::from(count),
                Event::Call | Event::Spawn => depth += 1,
                Event::Return if depth == 0 => return Err(bad(i, "root return")),
                Event::Return => depth -= 1,
                Event::Sync => {}
            }
        }
        if depth > 0 {
            return Err(bad(self.events, &format!("unclosed {depth}")));
        }
        Ok(work)
    }
}

/// The default burden, as spprof's.
const BURDEN: u128 = 15000;

/// An open frame: its greatest weights along it and through a child, without burdens and with them. No child weighs 0.
#[derive(Clone, Copy, Default)]
struct Frame {
    spawned: bool,
    spine: [u128; 2],
    child: [u128; 2],
}

impl Frame {
    fn close(&self) -> [u128; 2] {
        [self.spine[0].max(self.child[0]), self.spine[1].max(self.child[1])]
    }

    /// After the return of a child.
    fn after(mut self, child: &Frame) -> Frame {
        let span = child.close();
        for (k, burden) in [0, BURDEN].into_iter().enumerate() {
            if child.spawned {
                self.child[k] = self.child[k].max(self.spine[k] + span[k] + burden);
                self.spine[k] += burden;
            } else {
                self.spine[k] += span[k];
            }
        }
        self
    }
}

impl Trace<'_> {
    /// The work, the span and the burdened span of a well-formed trace.
    fn figures(&self) -> Result<[u128; 3], Fault> {
        let bad = |i, why: &str| Fault::Event(i, why.into());
        let mut work = 0;
        let (mut top, mut below) = (Frame::default(), Vec::new());
        for i in 0..self.events {
            match self.event(i).map_err(|why| bad(i, why))? {
                Event::Strand(count) => {
                    work += u128::from(count);
                    top.spine[0] += u128::from(count);
                    top.spine[1] += u128::from(count);
                }
                event @ (Event::Call | Event::Spawn) => {
                    below.push(top);
                    top = Frame { spawned: matches!(event, Event::Spawn), ..Frame::default() };
                }
                Event::Return => {
                    let parent = below.pop().ok_or_else(|| bad(i, "root return"))?;
                    top = parent.after(&top);
                }
                Event::Sync => {
                    top.spine = top.close();
                    top.child = [0; 2];
                }
            }
        }
        if !below.is_empty() {
            return Err(bad(self.events, &format!("unclosed {}", below.len())));
        }
        let [span, burdened] = top.close();
        Ok([work, span, burdened])
    }
}

/// `work / span` with two digits, rounded down.
fn ratio(work: u128, span: u128) -> String {
    match (100 * work).checked_div(span) {
        Some(h) => format!("{}.{:02}", h / 100, h % 100),
        None => "-".into(),
    }
}

fn figures_text([work, span, burdened]: [u128; 3]) -> String {
    format!(
        "work {work}\nspan {span}\nburdened {burdened}\nparallelism {}\nburdened parallelism {}\n",
        ratio(work, span),
        ratio(work, burdened)
    )
}

/// What the lines of a text have said so far.
#[derive(Default)]
struct Draft<'a> {
    functions: Vec<&'a str>,
    sites: Vec<&'a str>,
    seen: HashSet<&'a str>,
    root: Option<u32>,
    records: Vec<[u8; 16]>,
}

/// A number in digits alone, of at most `most`.
fn number(word: &str, most: u64) -> Result<u64, &'static str> {
    if !word.bytes().all(|byte| byte.is_ascii_digit()) {
        return Err("number");
    }
    word.parse().ok().filter(|n| *n <= most).ok_or("number")
}

fn short_number(word: &str) -> Result<u32, &'static str> {
    Ok(number(word, u32::MAX.into())? as u32)
}

impl<'a> Draft<'a> {
    fn name(&self, name: &'a str, names: &[&str]) -> Result<&'a str, &'static str> {
        if !self.records.is_empty() {
            return Err("late");
        }
        if names.len() >= MOST_NAMES as usize {
            return Err("limits");
        }
        if name.is_empty() || name.len() > 200 || !name.bytes().all(|byte| (0x20..=0x7e).contains(&byte)) {
            return Err("name");
        }
        Ok(name)
    }

    /// What is missing for the first event.
    fn opening(&self) -> Result<(), &'static str> {
        if self.records.is_empty() && self.functions.is_empty() {
            return Err("no function");
        }
        if self.records.is_empty() && self.root.unwrap_or(0) as usize >= self.functions.len() {
            return Err("root");
        }
        Ok(())
    }

    fn set_root(&mut self, words: &[&str]) -> Result<(), &'static str> {
        let [n] = words else { return Err("count") };
        let n = short_number(n)?;
        if !self.records.is_empty() {
            return Err("late");
        }
        match self.root.replace(n) {
            Some(_) => Err("root"),
            None => Ok(()),
        }
    }

    fn add(&mut self, tag: u8, site: u32, last: u64) -> Result<(), &'static str> {
        if self.records.len() >= MOST_EVENTS as usize {
            return Err("limits");
        }
        if (tag == 1 || tag == 2) && site as usize >= self.sites.len() {
            return Err("site");
        }
        if (tag == 1 || tag == 2) && (last >> 32) as usize >= self.functions.len() {
            return Err("function");
        }
        let first = u64::from(tag) << 56 | u64::from(site);
        self.records.push((u128::from(first) << 64 | u128::from(last)).to_be_bytes());
        Ok(())
    }

    fn line(&mut self, line: &'a str) -> Result<(), &'static str> {
        if let Some(name) = line.strip_prefix("func ") {
            self.functions.push(self.name(name, &self.functions)?);
            return Ok(());
        }
        if let Some(name) = line.strip_prefix("site ") {
            let name = self.name(name, &self.sites)?;
            if name == "(root)" || !self.seen.insert(name) {
                return Err("same name");
            }
            self.sites.push(name);
            return Ok(());
        }
        if line.starts_with('#') {
            return Ok(());
        }
        let mut words = line.split([' ', '\t']).filter(|word| !word.is_empty());
        let Some(first) = words.next() else { return Ok(()) };
        let mut rest = [""; 3];
        let mut count = 0;
        for word in words.take(3) {
            rest[count] = word;
            count += 1;
        }
        let rest = &rest[..count];
        let tag = match first {
            "root" => return self.set_root(rest),
            "strand" => 0,
            "call" => 1,
            "spawn" => 2,
            "return" => 3,
            "sync" => 4,
            _ => return Err("word"),
        };
        self.opening()?;
        match (tag, rest) {
            (0, [count]) => self.add(0, 0, number(count, u64::MAX)?),
            (1 | 2, [site, function]) => {
                let (site, function) = (short_number(site)?, short_number(function)?);
                self.add(tag, site, u64::from(function) << 32)
            }
            (3 | 4, []) => self.add(tag, 0, 0),
            _ => Err("count"),
        }
    }

    fn bytes(&self) -> Vec<u8> {
        let mut bytes = Vec::from(b"SPTRACE1");
        let numbers = [self.functions.len(), self.sites.len(), self.root.unwrap_or(0) as usize, self.records.len()];
        for number in numbers {
            bytes.extend((number as u32).to_be_bytes());
        }
        for name in self.functions.iter().chain(&self.sites) {
            bytes.extend((name.len() as u16).to_be_bytes());
            bytes.extend(name.as_bytes());
        }
        bytes.extend(self.records.as_flattened());
        bytes
    }
}

/// The bytes of the trace that a text names.
fn encoded(text: &str) -> Result<Vec<u8>, Fault> {
    let mut draft = Draft::default();
    let mut lines = 0;
    for line in text.lines() {
        lines += 1;
        draft.line(line).map_err(|why| Fault::Text(lines, why))?;
    }
    draft.opening().map_err(|why| Fault::Text(lines + 1, why))?;
    Ok(draft.bytes())
}

fn run() -> Result<(), Fault> {
    let words: Vec<String> = std::env::args().skip(1).collect();
    let command = match &words[..] {
        [word] if ["check", "figures", "encode"].contains(&word.as_str()) => word.as_str(),
        _ => return Err(Fault::Usage),
    };
    let mut bytes = Vec::new();
    io::stdin().lock().read_to_end(&mut bytes).map_err(|_| Fault::Read)?;
    if command == "check" {
        let work = Trace::open(&bytes)?.work()?;
        return writeln!(io::stdout(), "work {work}").map_err(|_| Fault::Write);
    }
    if command == "figures" {
        let figures = Trace::open(&bytes)?.figures()?;
        return write!(io::stdout(), "{}", figures_text(figures)).map_err(|_| Fault::Write);
    }
    let text = std::str::from_utf8(&bytes).map_err(|e| {
        let feeds = bytes[..e.valid_up_to()].iter().filter(|byte| **byte == b'\n').count();
        Fault::Text(feeds + 1, "word")
    })?;
    io::stdout().write_all(&encoded(text)?).map_err(|_| Fault::Write)
}

fn main() {
    let Err(fault) = run() else { return };
    let (status, line) = match fault {
        Fault::Usage => (2, "usage: plain check|figures|encode < FILE".into()),
        Fault::Read => (3, "cannot read input".into()),
        Fault::Write => (3, "cannot write output".into()),
        Fault::Header(why) => (1, format!("bad header: {why}")),
        Fault::Event(i, why) => (1, format!("bad event {i}: {why}")),
        Fault::Text(line, why) => (1, format!("bad text line {line}: {why}")),
    };
    eprintln!("{line}");
    exit(status);
}
