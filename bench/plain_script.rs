//! Lines of a script, answered by the plain queue as `ldm play` answers them. Every line is taken to be well formed, a
//! signature to be digits, and feedtypes to be a number.

use crate::queue::{Answer, Info, Metadata, Queue, Start};
use std::collections::HashMap;
use std::sync::Arc;

// The most fields of a line.
const MOST_FIELDS: usize = 10;

/// A queue, and what a script on it needs besides.
pub struct Script {
    queue: Queue,
    // The places of the cursor that each actor opened last, and of its last reservation.
    opened: HashMap<u32, usize>,
    reserved: HashMap<u32, usize>,
    body: Vec<u8>,
}

fn number<T: std::str::FromStr>(text: &str) -> T {
    text.parse().ok().expect("a number")
}

// What each byte is worth as a hexadecimal digit.
const WORTH: [u8; 256] = {
    let mut worth = [0; 256];
    let mut i = 0;
    while i < 16 {
        worth[b"0123456789abcdef"[i] as usize] = i as u8;
        worth[b"0123456789ABCDEF"[i] as usize] = i as u8;
        i += 1;
    }
    worth
};

fn signature(text: &str) -> [u8; 16] {
    let mut bytes = [0; 16];
    for (byte, digits) in bytes.iter_mut().zip(text.as_bytes().chunks_exact(2)) {
        *byte = WORTH[usize::from(digits[0])] << 4 | WORTH[usize::from(digits[1])];
    }
    bytes
}

fn feed(text: &str) -> u32 {
    match text.strip_prefix("0x") {
        Some(digits) => u32::from_str_radix(digits, 16).unwrap(),
        None => number(text),
    }
}

// The bytes of a body: `COUNT*HH`, `-`, or two digits for each byte.
fn body_into(text: &str, body: &mut Vec<u8>) {
    body.clear();
    match text.split_once('*') {
        Some((count, byte)) => body.resize(number(count), u8::from_str_radix(byte, 16).unwrap()),
        None => body.extend((0..text.len() / 2).map(|i| u8::from_str_radix(&text[2 * i..2 * i + 2], 16).unwrap())),
    }
}

// How many bytes a text takes in the metadata: `-` spells none, and `%` and two digits one.
fn text_len(text: &str) -> u64 {
    let bytes = if text == "-" { 0 } else { text.len() - 2 * text.matches('%').count() };
    bytes.next_multiple_of(4) as u64
}

// Fields one blank apart.
fn joined(fields: &[&str]) -> Box<[u8]> {
    fields.join(" ").into_bytes().into()
}

// What the six fields from ARRIVAL to IDENT say of a product with a body of that size.
fn metadata(fields: &[&str], size: usize) -> Metadata {
    let feed = feed(fields[2]);
    Metadata {
        signature: signature(fields[1]),
        feed,
        info: Arc::new(Info {
            front: joined(&fields[..2]),
            feed,
            rest: joined(&fields[3..6]),
        }),
        texts: text_len(fields[4]) + text_len(fields[5]),
        size,
    }
}

// The place that a field names, where `.` is the last of that actor. Nothing is at the place behind the last.
fn place(last: &HashMap<u32, usize>, actor: u32, text: &str) -> usize {
    match text {
        "." => last.get(&actor).copied().unwrap_or(usize::MAX),
        _ => number(text),
    }
}

impl Script {
    pub fn new(arena: u64, slots: usize) -> Script {
        Script {
            queue: Queue::new(arena, slots),
            opened: HashMap::new(),
            reserved: HashMap::new(),
            body: Vec::new(),
        }
    }

    fn insert(&mut self, fields: &[&str]) -> Answer {
        body_into(fields[6], &mut self.body);
        self.queue.insert(number(fields[0]), metadata(fields, self.body.len()), &self.body)
    }

    fn reserve(&mut self, actor: u32, fields: &[&str]) -> Answer {
        let answer = self.queue.reserve(actor, metadata(fields, number(fields[6])));
        if let Answer::Reserved { r, .. } = answer {
            self.reserved.insert(actor, r);
        }
        answer
    }

    fn on_reservation(&mut self, actor: u32, fields: &[&str]) -> Answer {
        let r = place(&self.reserved, actor, fields[1]);
        match fields[0] {
            "fill" => {
                body_into(fields[2], &mut self.body);
                self.queue.fill(actor, r, &self.body)
            }
            "commit" => self.queue.commit(actor, r, number(fields[2])),
            _ => self.queue.discard(actor, r),
        }
    }

    fn open(&mut self, actor: u32, fields: &[&str]) -> Answer {
        let start = match fields[1] {
            "oldest" => Start::Oldest,
            "next" => Start::Next,
            "after" => Start::After(number(fields[2])),
            _ => Start::Signature(signature(fields[2])),
        };
        let answer = self.queue.open(actor, feed(fields[0]), start);
        if let Answer::Opened { k } = answer {
            self.opened.insert(actor, k);
        }
        answer
    }

    /// The answer to a line.
    pub fn answer(&mut self, line: &str) -> Answer {
        let mut fields = [""; MOST_FIELDS];
        for (place, field) in fields.iter_mut().zip(line.split(' ')) {
            *place = field;
        }
        let actor = number(fields[0]);
        match fields[1] {
            "insert" => self.insert(&fields[2..]),
            "open" => self.open(actor, &fields[2..]),
            "look" => self.queue.look(&signature(fields[2])),
            "expire" => self.queue.expire(),
            "stat" => self.queue.stat(),
            "reserve" => self.reserve(actor, &fields[2..]),
            "fill" | "commit" | "discard" => self.on_reservation(actor, &fields[1..]),
            word => {
                let k = place(&self.opened, actor, fields[2]);
                match word {
                    "step" => self.queue.step(actor, k),
                    "read" => self.queue.read(actor, k, number(fields[3]), number(fields[4])),
                    "release" => self.queue.release(actor, k),
                    "close" => self.queue.close(actor, k),
                    "tally" => self.queue.tally(actor, k),
                    other => panic!("no word: {other}"),
                }
            }
        }
    }
}
