//! Bulletins in a stream, found by a plain program with the rules of crates/ldm_wmo/README.md. Without arguments a stream is read from
//! standard input, and scanned five times in pieces of 64 KiB: the MB a second of the best time, and what was found. `make MB NOISE` writes
//! so many MB of bulletins of 500 to 4,000 bytes, all different; with noise between them and a bad one in four, where NOISE is 1.

use std::fmt;
use std::io::{BufWriter, Read, Write};
use std::time::Instant;

const PIECE: usize = 65_536;
const LARGEST: usize = 1_048_576;
const BLOCK: usize = 64;
const SHORT_FORM: &[u8] = b"TTAAii CCCC YYGGgg";
const LONG_FORM: &[u8] = b"TTAAii CCCC YYGGgg BBB";

fn fits(form: &[u8], bytes: &[u8]) -> bool {
    let fits_one = |(symbol, byte): (&u8, &u8)| match symbol {
        b'T' | b'A' | b'B' => byte.is_ascii_uppercase(),
        b'C' => byte.is_ascii_uppercase() || byte.is_ascii_digit(),
        b' ' => *byte == b' ',
        _ => byte.is_ascii_digit(),
    };
    form.len() == bytes.len() && form.iter().zip(bytes).all(fits_one)
}

fn without_blanks(line: &[u8]) -> &[u8] {
    let end = line.iter().rposition(|byte| !matches!(byte, b' ' | b'\t')).map_or(0, |at| at + 1);
    &line[..end]
}

fn line(bytes: &[u8]) -> Option<(&[u8], &[u8])> {
    let end = bytes.iter().position(|byte| *byte == b'\r')?;
    let rest = bytes[end..].strip_prefix(b"\r\r\n")?;
    Some((without_blanks(&bytes[..end]), rest))
}

struct Bulletin<'a> {
    number: u32,
    heading: &'a [u8],
}

/// A candidate has no 1 but its first byte, and no 3 but its last one, if that is one.
fn bulletin_in(candidate: &[u8]) -> Option<Bulletin<'_>> {
    let (digits, rest) = line(candidate.strip_prefix(b"\x01\r\r\n")?)?;
    let (heading, rest) = line(rest)?;
    let is_number = (1..=5).contains(&digits.len()) && digits.iter().all(u8::is_ascii_digit);
    let is_heading = fits(SHORT_FORM, heading) || fits(LONG_FORM, heading);
    if !is_number || !is_heading || !rest.ends_with(b"\r\r\n\x03") {
        return None;
    }
    let number = digits.iter().fold(0, |number, digit| number * 10 + u32::from(digit - b'0'));
    Some(Bulletin { number, heading })
}

/// The place of the first byte that is wanted. Blocks without one are passed over at once.
fn place_of(bytes: &[u8], is_wanted: impl Fn(u8) -> bool) -> Option<usize> {
    let has_none = |block: &&[u8]| !block.iter().fold(false, |has, byte| has | is_wanted(*byte));
    let passed = bytes.chunks_exact(BLOCK).take_while(has_none).count() * BLOCK;
    let at = bytes[passed..].iter().position(|byte| is_wanted(*byte))?;
    Some(passed + at)
}

/// How many of these bytes the candidate takes that goes on with them, if it ends there, where it has room for so many.
fn end_in(bytes: &[u8], room: usize) -> Option<usize> {
    let front = &bytes[..bytes.len().min(room)];
    match place_of(front, |byte| matches!(byte, 1 | 3)) {
        Some(at) => Some(at + usize::from(front[at] == 3)),
        None => (front.len() == room).then_some(room),
    }
}

/// What was found. The sums are of the bulletins, but that of the places, which is of all candidates.
#[derive(Default)]
struct Found {
    bulletins: u64,
    bad: u64,
    numbers: u64,
    headings: u64,
    bytes: u64,
    places: u64,
}

impl fmt::Display for Found {
    fn fmt(&self, f: &mut fmt::Formatter) -> fmt::Result {
        let Found { bulletins, bad, numbers, headings, bytes, places } = self;
        write!(f, "{bulletins} bulletins {bad} bad sums {numbers} {headings} {bytes} {places}")
    }
}

/// A candidate as far as it came in earlier pieces, where the next byte stands, and what was found.
#[derive(Default)]
struct Scan {
    begun: Vec<u8>,
    place: u64,
    found: Found,
}

impl Scan {
    /// Takes a candidate that ends at the place.
    fn take(&mut self, candidate: &[u8]) {
        self.found.places += self.place - candidate.len() as u64;
        match bulletin_in(candidate) {
            Some(Bulletin { number, heading }) => {
                self.found.bulletins += 1;
                self.found.numbers += u64::from(number);
                self.found.headings += heading.len() as u64;
                self.found.bytes += candidate.len() as u64;
            }
            None => self.found.bad += 1,
        }
    }

    /// Goes on with a candidate that began in an earlier piece; the bytes behind it.
    fn go_on<'a>(&mut self, piece: &'a [u8]) -> &'a [u8] {
        let end = end_in(piece, LARGEST - self.begun.len());
        let (front, rest) = piece.split_at(end.unwrap_or(piece.len()));
        self.begun.extend_from_slice(front);
        self.place += front.len() as u64;
        if end.is_some() {
            let mut candidate = std::mem::take(&mut self.begun);
            self.take(&candidate);
            candidate.clear();
            self.begun = candidate;
        }
        rest
    }

    /// Passes over bytes before a candidate; the bytes from it on.
    fn pass<'a>(&mut self, piece: &'a [u8]) -> &'a [u8] {
        let count = place_of(piece, |byte| byte == 1).unwrap_or(piece.len());
        self.place += count as u64;
        &piece[count..]
    }

    /// A candidate that is whole in the piece is not copied.
    fn push(&mut self, mut piece: &[u8]) {
        if !self.begun.is_empty() {
            piece = self.go_on(piece);
        }
        loop {
            piece = self.pass(piece);
            if piece.is_empty() {
                return;
            }
            let end = end_in(&piece[1..], LARGEST - 1);
            let (front, rest) = piece.split_at(end.map_or(piece.len(), |count| 1 + count));
            self.place += front.len() as u64;
            match end {
                Some(_) => self.take(front),
                None => self.begun.extend_from_slice(front),
            }
            piece = rest;
        }
    }
}

struct Draws(u64);

impl Draws {
    fn below(&mut self, limit: u64) -> u64 {
        self.0 = self.0.wrapping_mul(6_364_136_223_846_793_005).wrapping_add(1_442_695_040_888_963_407);
        (self.0 >> 32) % limit
    }
}

fn make(bytes: u64, has_noise: bool) -> std::io::Result<()> {
    let mut out = BufWriter::new(std::io::stdout().lock());
    let mut draws = Draws(1);
    let (mut written, mut count) = (0, 0);
    while written < bytes {
        let mut part = format!("\x01\r\r\n{:03}\r\r\nSAUS{:02} KWBC 3016{:02}\r\r\n", count % 1_000, count % 100, count % 60).into_bytes();
        part.extend_from_slice(format!("METAR {count}\r\r\n").as_bytes());
        let length = 500 + draws.below(3_430) as usize;
        while part.len() < length {
            part.extend_from_slice(b"KDEN 301553Z 24008KT 10SM FEW080 SCT150 BKN220 12/M03 A3012 RMK AO2\r\r\n");
        }
        part.extend_from_slice(b"\r\r\n\x03");
        if has_noise {
            match draws.below(4) {
                0 => part.extend((0..draws.below(200)).map(|_| draws.below(256) as u8)),
                1 => part[12] = b'x',
                _ => {}
            }
        }
        out.write_all(&part)?;
        written += part.len() as u64;
        count += 1;
    }
    out.flush()
}

fn main() -> std::io::Result<()> {
    let words: Vec<String> = std::env::args().collect();
    if words.len() > 1 {
        return make(words[2].parse::<u64>().unwrap() * 1_000_000, words[3] == "1");
    }
    let mut stream = Vec::new();
    std::io::stdin().read_to_end(&mut stream)?;
    let (mut best, mut scan) = (f64::MAX, Scan::default());
    for _ in 0..5 {
        scan = Scan::default();
        let start = Instant::now();
        stream.chunks(PIECE).for_each(|piece| scan.push(piece));
        best = best.min(start.elapsed().as_secs_f64());
    }
    println!("{:.0} MB/s {}", stream.len() as f64 / best / 1e6, scan.found);
    Ok(())
}
