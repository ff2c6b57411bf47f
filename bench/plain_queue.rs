//! A plain Rust program that answers a script of well-formed lines as `ldm play` does, for comparison.
//!
//! Called as: plain_queue ARENA SLOTS

mod plain_script;
mod queue;

use plain_script::Script;
use std::io::{self, BufRead, BufReader, Write};

// Answers are gathered up to so many bytes.
const GATHERED: usize = 65_536;

fn main() {
    let words: Vec<String> = std::env::args().collect();
    let mut script = Script::new(words[1].parse().unwrap(), words[2].parse().unwrap());
    let mut lines = BufReader::with_capacity(65_536, io::stdin().lock());
    let mut sink = io::stdout().lock();
    let mut out = Vec::with_capacity(2 * GATHERED);
    let mut line = Vec::new();
    loop {
        // as `ldm play`, it writes its answers before it reads more of the script
        if out.len() >= GATHERED || lines.buffer().is_empty() {
            sink.write_all(&out).unwrap();
            out.clear();
        }
        line.clear();
        if lines.read_until(b'\n', &mut line).unwrap() == 0 {
            break;
        }
        let text = std::str::from_utf8(&line).unwrap();
        script.answer(text.trim_end()).write(&mut out);
        out.push(b'\n');
    }
    sink.flush().unwrap();
}
