//! Plays random scripts on the program and on the plain queue of bench/, and compares their answers line by line.
//!
//! Called as: random_scripts PROGRAM COUNT. The scripts have the numbers from 0 to COUNT - 1, and each depends on its number
//! alone. At the first difference the script is written into the file `different.script` where this is called.

#[path = "../bench/plain_script.rs"]
mod plain_script;
#[path = "../bench/queue.rs"]
mod queue;

use plain_script::Script;
use queue::GREATEST_INSTANT;
use std::collections::{BTreeMap, VecDeque};
use std::fmt::Write as _;
use std::io::Write;
use std::process::{exit, Command, Stdio};

// Each first word of an answer has to come, or the scripts would miss a rule.
const ANSWERS: [&str; 32] = [
    "absent", "admitted", "allbusy", "allreserved", "badoffset", "bytes", "closed", "committed", "discarded", "duplicate", "end",
    "expired", "filled", "gap", "holding", "locked", "nocursor", "noreservation", "notheld", "nothing", "notqueued", "opened",
    "overfill", "product", "queued", "released", "reserved", "stat", "tally", "timeend", "toobig", "unfilled",
];

/// Random numbers: SplitMix64.
struct Draws(u64);

impl Draws {
    fn below(&mut self, limit: u64) -> u64 {
        self.0 = self.0.wrapping_add(0x9e37_79b9_7f4a_7c15);
        let n = self.0;
        let n = (n ^ n >> 30).wrapping_mul(0xbf58_476d_1ce4_e5b9);
        let n = (n ^ n >> 27).wrapping_mul(0x94d0_49bb_1331_11eb);
        (n ^ n >> 31) % limit
    }

    fn one_in(&mut self, count: u64) -> bool {
        self.below(count) == 0
    }

    fn of<'a>(&mut self, items: &[&'a str]) -> &'a str {
        items[self.below(items.len() as u64) as usize]
    }
}

/// What a random script is like.
struct Shape {
    draws: Draws,
    arena: u64,
    slots: u64,
    lines: u64,
    actors: u64,
    // How many signatures and feedtypes there are, the places that lines name, and the greatest body.
    signatures: u64,
    feeds: u64,
    places: u64,
    largest: u64,
    // Of 32 lines so many insert, so many open, and so many go to a cursor.
    inserts: u64,
    opens: u64,
    on_cursors: u64,
    // Of this many lines one reserves.
    reserves: u64,
    // The lines that fill a reserved region and end the reservation, which other lines come between.
    planned: VecDeque<String>,
    moment: u64,
}

impl Shape {
    fn of(number: u64) -> Shape {
        let mut draws = Draws(number << 32);
        // in some scripts all places of reservations are taken
        let crowded = draws.one_in(40);
        let cells = if draws.one_in(4) { 8 } else { 200 };
        let arena = if crowded { 8192 } else { 64 + 8 * draws.below(cells) };
        // in some scripts the times run out
        let moment = match draws.below(8) {
            0 => GREATEST_INSTANT - draws.below(4000),
            _ => draws.below(1_000_000),
        };
        let many = if draws.one_in(3) { 4 } else { 40 };
        let inserts = 4 + draws.below(14);
        let opens = if draws.one_in(6) { 12 } else { 1 + draws.below(3) };
        Shape {
            arena,
            slots: if crowded { 80 } else { 1 + draws.below(many) },
            lines: 40 + draws.below(300),
            actors: 1 + draws.below(5),
            signatures: 2 + draws.below(40),
            feeds: 1 + draws.below(4),
            places: 1 + draws.below(12),
            largest: if crowded { 24 } else { 8 + draws.below(arena) },
            inserts,
            opens,
            on_cursors: 32 - 4 - inserts.min(16) - opens.min(8),
            reserves: if crowded { 2 } else { 4 + draws.below(24) },
            planned: VecDeque::new(),
            moment,
            draws,
        }
    }

    fn signature(&mut self) -> String {
        let byte = self.draws.below(self.signatures);
        // signatures that differ in one byte alone
        if byte % 2 == 0 { format!("{byte:032x}") } else { format!("{byte:02x}").repeat(16) }
    }

    fn feed(&mut self, sets: bool) -> String {
        let bits = if sets { 1 + self.draws.below((1 << self.feeds) - 1) } else { 1 << self.draws.below(self.feeds) };
        if self.draws.one_in(3) { format!("0x{bits:08x}") } else { bits.to_string() }
    }

    fn body(&mut self) -> String {
        match self.draws.below(6) {
            0 => "-".to_string(),
            1 => {
                let len = 1 + self.draws.below(24);
                (0..len).fold(String::new(), |text, _| text + &format!("{:02x}", self.draws.below(256)))
            }
            _ => format!("{}*{:02X}", self.draws.below(self.largest), self.draws.below(256)),
        }
    }

    fn now(&mut self) -> u64 {
        self.moment = (self.moment + self.draws.below(40)).min(GREATEST_INSTANT);
        self.moment.saturating_sub(self.draws.below(100))
    }

    // The fields from ARRIVAL to IDENT.
    fn metadata(&mut self) -> String {
        let now = self.now();
        let (signature, feed) = (self.signature(), self.feed(false));
        let number = self.draws.below(1 << 32);
        let origin = self.draws.of(&["h", "h", "host-7", "-", "%2D", "idd.unidata.ucar.edu", "a%20b"]);
        let ident = self.draws.of(&["p", "p", "-", "SAUS70 KWBC 271200", "%FF%25%0A", "/pSAO/x"]).replace(' ', "%20");
        format!("{now} {signature} {feed} {number} {origin} {ident}")
    }

    fn insert(&mut self) -> String {
        format!("insert {} {}", self.metadata(), self.body())
    }

    // Reserves, and plans what fills the region and ends the reservation, if it is not left open.
    fn reserve(&mut self, actor: u64) -> String {
        let mut left = match self.draws.below(8) {
            0 => 0,
            1 => self.draws.below(self.largest),
            2 if self.draws.one_in(8) => u32::MAX.into(),
            _ => 1 + self.draws.below(24),
        };
        let line = format!("reserve {} {left}", self.metadata());
        if self.reserves > 2 && !self.draws.one_in(4) && left < 4096 {
            while left > 0 {
                let part = 1 + self.draws.below(left);
                self.planned.push_back(format!("{actor} fill . {part}*{:02X}", self.draws.below(256)));
                left -= part;
            }
            let now = self.now();
            let end = if self.draws.one_in(8) { "discard .".to_string() } else { format!("commit . {now}") };
            self.planned.push_back(format!("{actor} {end}"));
        }
        line
    }

    fn on_reservation(&mut self) -> String {
        let r = match self.draws.below(4) {
            0 => ".".to_string(),
            1 if self.draws.one_in(12) => self.draws.below(64).to_string(),
            _ => self.draws.below(self.places).to_string(),
        };
        match self.draws.below(8) {
            0..=3 => format!("fill {r} {}", self.body()),
            4..=6 => format!("commit {r} {}", self.now()),
            _ => format!("discard {r}"),
        }
    }

    fn open(&mut self) -> String {
        let feed = self.feed(true);
        let start = match self.draws.below(6) {
            0..=1 => "oldest".to_string(),
            2 => "next".to_string(),
            3..=4 => format!("sig {}", self.signature()),
            _ => format!("after {}", self.moment.saturating_sub(self.draws.below(300))),
        };
        format!("open {feed} {start}")
    }

    fn on_cursor(&mut self) -> String {
        let k = match self.draws.below(4) {
            0 => ".".to_string(),
            1 if self.draws.one_in(12) => self.draws.below(64).to_string(),
            _ => self.draws.below(self.places).to_string(),
        };
        match self.draws.below(20) {
            0..=8 => format!("step {k}"),
            9..=10 => format!("read {k} {} {}", self.draws.below(40), self.draws.below(4097)),
            11 => format!("read {k} {} {}", self.draws.below(self.largest + 2), self.draws.below(20)),
            12..=16 => format!("release {k}"),
            17 => format!("close {k}"),
            _ => format!("tally {k}"),
        }
    }

    fn alone(&mut self) -> String {
        match self.draws.below(5) {
            0..=1 => format!("look {}", self.signature()),
            2 => "expire".to_string(),
            _ => "stat".to_string(),
        }
    }

    fn line(&mut self) -> String {
        if !self.planned.is_empty() && self.draws.one_in(2) {
            return self.planned.pop_front().unwrap();
        }
        let actor = self.draws.below(self.actors);
        if self.draws.one_in(self.reserves) {
            return format!("{actor} {}", self.reserve(actor));
        }
        if self.reserves < 20 && self.draws.one_in(10) {
            return format!("{actor} {}", self.on_reservation());
        }
        let (opens, cursors) = (self.inserts + self.opens, self.inserts + self.opens + self.on_cursors);
        let line = match self.draws.below(32) {
            n if n < self.inserts => self.insert(),
            n if n < opens => self.open(),
            n if n < cursors => self.on_cursor(),
            _ => self.alone(),
        };
        format!("{actor} {line}")
    }
}

/// What the program writes for a script, and whether it ends with 0 and an empty log.
fn played(program: &str, shape: &Shape, text: &str) -> (String, bool) {
    let mut child = Command::new(program)
        .args(["play", &shape.arena.to_string(), &shape.slots.to_string()])
        .stdin(Stdio::piped())
        .stdout(Stdio::piped())
        .stderr(Stdio::piped())
        .spawn()
        .expect("the program starts");
    let mut stdin = child.stdin.take().unwrap();
    let text = text.to_string();
    let writer = std::thread::spawn(move || stdin.write_all(text.as_bytes()));
    let output = child.wait_with_output().unwrap();
    let taken = writer.join().unwrap().is_ok();
    let good = taken && output.status.success() && output.stderr.is_empty();
    (String::from_utf8_lossy(&output.stdout).into_owned(), good)
}

fn main() {
    let words: Vec<String> = std::env::args().collect();
    let count: u64 = words[2].parse().unwrap();
    let mut told = BTreeMap::new();
    let mut lines = 0u64;
    for number in 0..count {
        let mut shape = Shape::of(number);
        let mut plain = Script::new(shape.arena, shape.slots as usize);
        let (mut text, mut wanted) = (String::new(), String::new());
        for _ in 0..shape.lines {
            let line = shape.line();
            let mut answer = Vec::new();
            plain.answer(&line).write(&mut answer);
            let answer = String::from_utf8(answer).unwrap();
            *told.entry(answer.split(' ').next().unwrap().to_string()).or_insert(0u64) += 1;
            writeln!(text, "{line}").unwrap();
            writeln!(wanted, "{answer}").unwrap();
        }
        lines += shape.lines;
        let (found, good) = played(&words[1], &shape, &text);
        if found != wanted || !good {
            let same = found.lines().zip(wanted.lines()).take_while(|(a, b)| a == b).count();
            std::fs::write("different.script", &text).unwrap();
            eprintln!("script {number}, on {} bytes and {} slots: different.script", shape.arena, shape.slots);
            eprintln!("line {}:     {}", same + 1, text.lines().nth(same).unwrap_or("none"));
            eprintln!("the program:  {}", found.lines().nth(same).unwrap_or("nothing"));
            eprintln!("a plain queue: {}", wanted.lines().nth(same).unwrap_or("nothing"));
            exit(1);
        }
    }
    let seldom: Vec<_> = ANSWERS.iter().filter(|word| told.get(**word).is_none_or(|times| *times < 20)).collect();
    if !seldom.is_empty() {
        eprintln!("too few answers of these kinds: {seldom:?}, of {told:?}");
        exit(1);
    }
    println!("{count} random scripts with {lines} lines are answered as by a plain queue");
}
