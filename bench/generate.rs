//! Makes large well-formed traces: `generate KIND EVENTS > FILE`, or as text: `generate KIND EVENTS text > FILE`.
//!
//! A trace has about EVENTS events, never more, and at most 2^28. The same KIND and
//! EVENTS always give the same bytes. The header holds the exact number of events,
//! so each trace is made twice by the same code: at first events are only counted,
//! then they are written.

use std::io::{self, BufWriter, Write};
use std::process::exit;

const USAGE: &str = "usage: generate fib|loop|wide|deep|sites|program|random EVENTS [text] > FILE";

/// The most events that a header may announce.
const MOST_EVENTS: u64 = 1 << 28;

// ------------------------------------------------------------- random numbers

/// A small generator of random numbers (splitmix64), always with the same seed.
struct Random(u64);

impl Random {
    fn next(&mut self) -> u64 {
        self.0 = self.0.wrapping_add(0x9e37_79b9_7f4a_7c15);
        let mut z = self.0;
        z = (z ^ (z >> 30)).wrapping_mul(0xbf58_476d_1ce4_e5b9);
        z = (z ^ (z >> 27)).wrapping_mul(0x94d0_49bb_1331_11eb);
        z ^ (z >> 31)
    }

    /// A number below `n`.
    fn below(&mut self, n: u32) -> u32 {
        (((self.next() >> 32) * u64::from(n)) >> 32) as u32
    }

    /// A count of instructions in `low..high`.
    fn count(&mut self, low: u32, high: u32) -> u64 {
        u64::from(low + self.below(high - low))
    }
}

// ------------------------------------------------------------- events and sinks

/// Takes the records of a trace one by one.
trait Sink {
    fn put(&mut self, record: [u8; 16]);
}

/// The sink of the first pass. The events are counted by [`Trace`] itself.
struct Nowhere;

impl Sink for Nowhere {
    fn put(&mut self, _: [u8; 16]) {}
}

impl<W: Write> Sink for BufWriter<W> {
    fn put(&mut self, record: [u8; 16]) {
        written(self.write_all(&record));
    }
}

/// Writes each record as a line of text.
struct Lines<W>(W);

impl<W: Write> Sink for Lines<W> {
    fn put(&mut self, record: [u8; 16]) {
        let record = u128::from_be_bytes(record);
        let (site, function, count) = ((record >> 64) as u32, (record >> 32) as u32, record as u64);
        written(match record >> 120 {
            0 => writeln!(self.0, "strand {count}"),
            1 => writeln!(self.0, "call {site} {function}"),
            2 => writeln!(self.0, "spawn {site} {function}"),
            3 => writeln!(self.0, "return"),
            _ => writeln!(self.0, "sync"),
        });
    }
}

/// Ends the program where the output can't be written.
fn written(result: io::Result<()>) {
    if let Err(error) = result {
        eprintln!("cannot write output: {error}");
        exit(3);
    }
}

/// A record: the tag, then a number in bytes 4-7 and one in bytes 8-15.
fn record(tag: u8, middle: u32, last: u64) -> [u8; 16] {
    let first = u64::from(tag) << 56 | u64::from(middle);
    (u128::from(first) << 64 | u128::from(last)).to_be_bytes()
}

/// A trace while it's made.
struct Trace<S> {
    sink: S,
    random: Random,
    /// The number of events that may still come.
    left: u64,
    /// The number of events so far.
    count: u64,
    /// The number of open frames, without the root.
    depth: u64,
}

impl<S: Sink> Trace<S> {
    fn new(sink: S, events: u64) -> Self {
        Trace { sink, random: Random(1), left: events, count: 0, depth: 0 }
    }

    fn put(&mut self, record: [u8; 16]) {
        self.sink.put(record);
        self.left -= 1;
        self.count += 1;
    }

    /// `low..high` instructions.
    fn strand(&mut self, low: u32, high: u32) {
        let count = self.random.count(low, high);
        self.put(record(0, 0, count));
    }

    fn call(&mut self, site: u32, function: u32) {
        self.put(record(1, site, u64::from(function) << 32));
        self.depth += 1;
    }

    fn spawn(&mut self, site: u32, function: u32) {
        self.put(record(2, site, u64::from(function) << 32));
        self.depth += 1;
    }

    /// Closes the innermost frame.
    fn end(&mut self) {
        self.put(record(3, 0, 0));
        self.depth -= 1;
    }

    fn sync(&mut self) {
        self.put(record(4, 0, 0));
    }
}

// ------------------------------------------------------------- the kinds

#[derive(Clone, Copy)]
enum Kind {
    Fib,
    Loop,
    Wide,
    Deep,
    Sites,
    Program,
    Random,
}

impl Kind {
    fn of(word: &str) -> Option<Kind> {
        Some(match word {
            "fib" => Kind::Fib,
            "loop" => Kind::Loop,
            "wide" => Kind::Wide,
            "deep" => Kind::Deep,
            "sites" => Kind::Sites,
            "program" => Kind::Program,
            "random" => Kind::Random,
            _ => return None,
        })
    }

    /// The names of the functions and those of the sites. Function 0 is the root's.
    fn names(self) -> (Vec<String>, Vec<String>) {
        let list = |names: &[&str]| names.iter().map(|name| name.to_string()).collect();
        let many = |count: u32, word: &str| (0..count).map(|n| format!("{word}{n}")).collect();
        match self {
            Kind::Fib => (
                list(&["main", "fib"]),
                list(&["fib.c:5 spawn fib(n - 1)", "fib.c:6 call fib(n - 2)", "fib.c:12 call fib"]),
            ),
            Kind::Loop => (
                list(&["main", "half", "leaf"]),
                list(&["loop.c:7 spawn half", "loop.c:8 call half", "loop.c:4 call leaf", "loop.c:20 call half"]),
            ),
            Kind::Wide => (list(&["main", "child"]), list(&["wide.c:9 spawn child", "wide.c:11 spawn child"])),
            Kind::Deep => (
                list(&["main", "even", "odd"]),
                list(&["deep.c:3 call even", "deep.c:8 call odd", "deep.c:10 spawn odd"]),
            ),
            Kind::Sites => (many(60_000, "function"), many(60_000, "sites.c:")),
            Kind::Program => (many(20_000, "function"), many(60_000, "program.c:")),
            Kind::Random => (many(8, "function"), many(16, "random.c:")),
        }
    }

    /// All events of the trace.
    fn events<S: Sink>(self, trace: &mut Trace<S>) {
        match self {
            Kind::Fib => fibs(trace),
            Kind::Loop => whole_loop(trace),
            Kind::Wide => wide(trace),
            Kind::Deep => deep(trace),
            Kind::Sites => tree(trace, 200, |random, _| (random.below(60_000), random.below(60_000))),
            Kind::Program => tree(trace, 200, own_site),
            Kind::Random => tree(trace, 60, |random, _| (random.below(16), random.below(8))),
        }
    }
}

/// `main` calls `fib` with the largest argument that fits, again and again.
fn fibs<S: Sink>(trace: &mut Trace<S>) {
    // a frame of fib(0) or fib(1) has one event, besides those that open and close it
    while trace.left >= 4 {
        let (mut n, mut size, mut next) = (1, 1, 1 + 1 + 7);
        while next + 3 <= trace.left {
            (n, size, next) = (n + 1, next, next + size + 7);
        }
        trace.call(2, 1);
        fib(trace, n);
        trace.end();
        trace.strand(1, 10);
    }
}

/// The events inside a frame of `fib(n)`.
fn fib<S: Sink>(trace: &mut Trace<S>, n: u32) {
    if n < 2 {
        trace.strand(5, 25);
        return;
    }
    trace.strand(10, 20);
    trace.spawn(0, 1);
    fib(trace, n - 1);
    trace.end();
    trace.call(1, 1);
    fib(trace, n - 2);
    trace.end();
    trace.sync();
    trace.strand(5, 8);
}

/// One parallel loop with as many steps as fit.
fn whole_loop<S: Sink>(trace: &mut Trace<S>) {
    // half a loop of k steps has 4 k + 5 (k - 1) events
    if trace.left >= 7 {
        let steps = (trace.left - 3 + 5) / 9;
        trace.call(3, 1);
        half(trace, steps);
        trace.end();
        trace.strand(1, 10);
    }
}

/// The events inside a frame that makes `steps` steps, from 1 on.
fn half<S: Sink>(trace: &mut Trace<S>, steps: u64) {
    if steps == 1 {
        trace.strand(2, 5);
        trace.call(2, 2);
        trace.strand(50, 150);
        trace.end();
        return;
    }
    trace.spawn(0, 1);
    half(trace, steps / 2);
    trace.end();
    trace.call(1, 1);
    half(trace, steps - steps / 2);
    trace.end();
    trace.sync();
}

/// The root frame spawns all children, with one sync at the end.
fn wide<S: Sink>(trace: &mut Trace<S>) {
    while trace.left >= 5 {
        let site = trace.random.below(2);
        trace.spawn(site, 1);
        trace.strand(100, 1100);
        trace.end();
        trace.strand(1, 4);
    }
    if trace.left > 0 {
        trace.sync();
    }
}

/// Towers of a million nested frames, down and up again.
fn deep<S: Sink>(trace: &mut Trace<S>) {
    while trace.left >= 5 {
        let height = ((trace.left - 1) / 4).min(1_000_000);
        for level in 1..=height {
            match level {
                _ if level % 1000 == 0 => trace.spawn(2, 2),
                _ if level % 2 == 0 => trace.call(0, 1),
                _ => trace.call(1, 2),
            }
            trace.strand(1, 10);
        }
        for _ in 0..height {
            trace.strand(0, 10);
            trace.end();
        }
        trace.sync();
    }
}

/// A random walk up and down a tree of frames, at most `most` deep. `entered` chooses, in a frame of this function, a
/// call site and the function that is entered by it.
fn tree<S: Sink>(trace: &mut Trace<S>, most: u64, entered: impl Fn(&mut Random, u32) -> (u32, u32)) {
    // the functions of the open frames
    let mut open = vec![0];
    // each open frame needs an event that closes it
    while trace.left > trace.depth {
        match trace.random.below(16) {
            0..=4 if trace.depth < most && trace.left >= trace.depth + 2 => {
                let (site, function) = entered(&mut trace.random, open[open.len() - 1]);
                if trace.random.below(2) == 0 {
                    trace.call(site, function);
                } else {
                    trace.spawn(site, function);
                }
                open.push(function);
            }
            5..=9 if trace.depth > 0 => {
                trace.end();
                open.pop();
            }
            10 => trace.sync(),
            _ => trace.strand(0, 1000),
        }
    }
    while trace.depth > 0 {
        trace.end();
    }
}

/// One of the three call sites that each function of a large program has, and its callee: always the same.
fn own_site(random: &mut Random, function: u32) -> (u32, u32) {
    let site = 3 * function + random.below(3);
    (site, (site * 12_983 + 1) % 20_000)
}

// ------------------------------------------------------------- the whole file

/// Everything before the events.
fn write_header(out: &mut impl Write, kind: Kind, events: u64) -> io::Result<()> {
    let (functions, sites) = kind.names();
    out.write_all(b"SPTRACE1")?;
    for number in [functions.len(), sites.len(), 0, events as usize] {
        out.write_all(&(number as u32).to_be_bytes())?;
    }
    for name in functions.iter().chain(&sites) {
        out.write_all(&(name.len() as u16).to_be_bytes())?;
        out.write_all(name.as_bytes())?;
    }
    Ok(())
}

/// The lines before those of the events.
fn write_names(out: &mut impl Write, kind: Kind) -> io::Result<()> {
    let (functions, sites) = kind.names();
    for name in functions {
        writeln!(out, "func {name}")?;
    }
    for name in sites {
        writeln!(out, "site {name}")?;
    }
    writeln!(out, "root 0")
}

fn main() {
    let words: Vec<String> = std::env::args().skip(1).collect();
    let (kind, events, text) = match &words[..] {
        [kind, events] => (kind, events, false),
        [kind, events, text] if text == "text" => (kind, events, true),
        _ => wrong(),
    };
    let Some((kind, events)) = Kind::of(kind).zip(events.parse::<u64>().ok()) else { wrong() };
    let events = events.min(MOST_EVENTS);

    let mut counted = Trace::new(Nowhere, events);
    kind.events(&mut counted);

    let mut out = BufWriter::with_capacity(1 << 20, io::stdout().lock());
    let (depth, count) = if text {
        written(write_names(&mut out, kind));
        let mut trace = Trace::new(Lines(out), events);
        kind.events(&mut trace);
        written(trace.sink.0.flush());
        (trace.depth, trace.count)
    } else {
        written(write_header(&mut out, kind, counted.count));
        let mut trace = Trace::new(out, events);
        kind.events(&mut trace);
        written(trace.sink.flush());
        (trace.depth, trace.count)
    };
    assert!(depth == 0 && count == counted.count);
}

fn wrong() -> ! {
    eprintln!("{USAGE}");
    exit(2);
}
