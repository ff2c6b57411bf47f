//! Hourly totals by a plain program, with the rules of crates/ldm_stats/README.md. Called with a number of products and of rounds: in each
//! round drawn products are added to a table of 24 hours. Writes the nanoseconds for each of the best round, and the report.

use std::collections::BTreeMap;
use std::fmt::Write;
use std::time::Instant;

const HOUR: u64 = 3_600_000_000;
const WINDOW: u32 = 24;

struct Product {
    time: u64,
    arrival: u64,
    feed: u32,
    origin: Vec<u8>,
    size: u32,
}

struct Draws(u64);

impl Draws {
    fn below(&mut self, limit: u64) -> u64 {
        self.0 = self.0.wrapping_mul(6_364_136_223_846_793_005).wrapping_add(1_442_695_040_888_963_407);
        (self.0 >> 32) % limit
    }
}

/// Products of 30 hours, about in order, of 10 feeds and 50 origins.
fn drawn(count: u64) -> Vec<Product> {
    let mut draws = Draws(1);
    let step = 30 * HOUR / count.max(1);
    let mut product = |i: u64| {
        let arrival = 474_780 * HOUR + i * step + draws.below(60_000_000);
        Product {
            time: arrival + draws.below(5_000_000),
            arrival,
            feed: 1 << draws.below(10),
            origin: format!("host{}.example", 10 + draws.below(50)).into_bytes(),
            size: draws.below(100_000) as u32,
        }
    };
    (0..count).map(&mut product).collect()
}

/// `YYYYMMDDHH`. Days are counted in years that begin with March, so that a leap day is the last of its year.
fn hour_text(hour: u32) -> String {
    let days = hour / 24 + 719_468;
    let (era, day_of_era) = (days / 146_097, days % 146_097);
    let year_of_era = (day_of_era - day_of_era / 1_460 + day_of_era / 36_524 - day_of_era / 146_096) / 365;
    let day_of_year = day_of_era - (365 * year_of_era + year_of_era / 4 - year_of_era / 100);
    let month_from_march = (5 * day_of_year + 2) / 153;
    let day = day_of_year - (153 * month_from_march + 2) / 5 + 1;
    let month = if month_from_march < 10 { month_from_march + 3 } else { month_from_march - 9 };
    let year = 400 * era + year_of_era + u32::from(month <= 2);
    format!("{year:04}{month:02}{day:02}{:02}", hour % 24)
}

fn spelled(origin: &[u8]) -> String {
    match origin {
        b"" => return "-".into(),
        b"-" => return "%2D".into(),
        _ => {}
    }
    let mut text = String::new();
    for byte in origin {
        match byte {
            b'!'..=b'~' if *byte != b'%' => text.push(char::from(*byte)),
            _ => write!(text, "%{byte:02X}").unwrap(),
        }
    }
    text
}

#[derive(Default)]
struct Total {
    count: u32,
    bytes: u64,
    latency: u64,
}

/// At most 64 bytes, with zeros behind them: so the order is that of the bytes.
#[derive(Clone, Copy, PartialEq, Eq, PartialOrd, Ord)]
struct Origin {
    bytes: [u8; 64],
    length: u8,
}

impl Origin {
    fn of(origin: &[u8]) -> Origin {
        let mut bytes = [0; 64];
        bytes[..origin.len()].copy_from_slice(origin);
        Origin { bytes, length: origin.len() as u8 }
    }

    fn as_slice(&self) -> &[u8] {
        &self.bytes[..usize::from(self.length)]
    }
}

#[derive(PartialEq, Eq, PartialOrd, Ord)]
struct Place {
    hour: u32,
    feed: u32,
    origin: Origin,
}

#[derive(Default)]
struct Table {
    hour: u32,
    totals: BTreeMap<Place, Total>,
}

impl Table {
    fn add(&mut self, product: &Product) {
        let hour = (product.arrival / HOUR) as u32;
        if hour + WINDOW <= self.hour {
            return;
        }
        let place = Place { hour, feed: product.feed, origin: Origin::of(&product.origin) };
        let total = self.totals.entry(place).or_default();
        total.count += 1;
        total.bytes += u64::from(product.size);
        total.latency = total.latency.max(product.time.saturating_sub(product.arrival));
        self.advance(hour);
    }

    fn advance(&mut self, hour: u32) {
        self.hour = self.hour.max(hour);
        while self.totals.first_key_value().is_some_and(|(place, _)| place.hour + WINDOW <= self.hour) {
            self.totals.pop_first();
        }
    }

    fn report(&self) -> String {
        let mut report = String::new();
        for (Place { hour, feed, origin }, Total { count, bytes, latency }) in &self.totals {
            let (hour, origin) = (hour_text(*hour), spelled(origin.as_slice()));
            writeln!(report, "{hour} 0x{feed:08x} {origin} {count} {bytes} {latency}").unwrap();
        }
        report
    }
}

fn main() {
    let words: Vec<u64> = std::env::args().skip(1).map(|word| word.parse().unwrap()).collect();
    let (count, rounds) = (words[0], words[1]);
    let products = drawn(count);
    let (mut best, mut table) = (f64::MAX, Table::default());
    for _ in 0..rounds {
        table = Table::default();
        let start = Instant::now();
        products.iter().for_each(|product| table.add(product));
        best = best.min(start.elapsed().as_secs_f64());
    }
    let counted: u64 = table.totals.values().map(|total| u64::from(total.count)).sum();
    println!("{:.1} ns\n{counted} counted", best * 1e9 / count as f64);
    print!("{}", table.report());
}
