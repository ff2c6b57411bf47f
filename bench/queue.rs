//! A plain Rust queue, for comparison: it stands on the collections of the standard library, and proves nothing.

use std::collections::{BTreeMap, BTreeSet, HashMap, VecDeque};
use std::hash::{BuildHasherDefault, Hasher};
use std::sync::Arc;

pub const GREATEST_INSTANT: u64 = 4_294_967_295_999_999;

// How many cursors can be open, and how many reservations.
const PLACES: usize = 64;

pub enum Answer {
    Admitted { n: u64, time: u64, evicted: usize },
    TooBig { need: u64, arena: u64 },
    Duplicate { n: u64 },
    TimeEnd,
    Locked { held: usize },
    Queued { n: u64, time: u64 },
    Absent,
    Expired { n: u64 },
    Nothing,
    Opened { k: usize },
    AllBusy,
    NotQueued,
    Product { n: u64, time: u64, info: Arc<Info>, size: usize },
    Holding { n: u64 },
    Gap { count: u64, least: u64, greatest: u64 },
    End { at: u64 },
    Bytes { bytes: Vec<u8> },
    BadOffset { size: usize },
    Released { n: u64 },
    NotHeld,
    Closed,
    NoCursor,
    Tally { given: u64, lost: u64, left: usize },
    Stat { admitted: u64, queued: usize, held: usize, used: u64, largest: u64 },
    Reserved { r: usize, evicted: usize },
    AllReserved,
    NoReservation,
    Filled { left: usize },
    Overfill { left: usize },
    Unfilled { left: usize },
    Committed { n: u64, time: u64 },
    Discarded,
}

/// Digits are put together from the last to the first.
fn put_number(out: &mut Vec<u8>, mut number: u64) {
    let mut digits = [0; 20];
    let mut at = digits.len();
    loop {
        at -= 1;
        digits[at] = b'0' + (number % 10) as u8;
        number /= 10;
        if number == 0 {
            break;
        }
    }
    out.extend_from_slice(&digits[at..]);
}

fn put_numbers(out: &mut Vec<u8>, word: &[u8], numbers: &[u64]) {
    out.extend_from_slice(word);
    for number in numbers {
        out.push(b' ');
        put_number(out, *number);
    }
}

impl Answer {
    /// Writes the answer as `ldm play` does, without a newline.
    pub fn write(&self, out: &mut Vec<u8>) {
        match self {
            Answer::Admitted { n, time, evicted } => put_numbers(out, b"admitted", &[*n, *time, *evicted as u64]),
            Answer::TooBig { need, arena } => put_numbers(out, b"toobig", &[*need, *arena]),
            Answer::Duplicate { n } => put_numbers(out, b"duplicate", &[*n]),
            Answer::TimeEnd => out.extend_from_slice(b"timeend"),
            Answer::Locked { held } => put_numbers(out, b"locked", &[*held as u64]),
            Answer::Queued { n, time } => put_numbers(out, b"queued", &[*n, *time]),
            Answer::Absent => out.extend_from_slice(b"absent"),
            Answer::Expired { n } => put_numbers(out, b"expired", &[*n]),
            Answer::Nothing => out.extend_from_slice(b"nothing"),
            Answer::Opened { k } => put_numbers(out, b"opened", &[*k as u64]),
            Answer::AllBusy => out.extend_from_slice(b"allbusy"),
            Answer::NotQueued => out.extend_from_slice(b"notqueued"),
            Answer::Product { n, time, info, size } => {
                put_numbers(out, b"product", &[*n, *time]);
                out.push(b' ');
                info.write(out);
                out.push(b' ');
                put_number(out, *size as u64);
            }
            Answer::Holding { n } => put_numbers(out, b"holding", &[*n]),
            Answer::Gap { count, least, greatest } => put_numbers(out, b"gap", &[*count, *least, *greatest]),
            Answer::End { at } => put_numbers(out, b"end", &[*at]),
            Answer::Bytes { bytes } if bytes.is_empty() => out.extend_from_slice(b"bytes -"),
            Answer::Bytes { bytes } => {
                out.extend_from_slice(b"bytes ");
                for byte in bytes {
                    out.extend_from_slice(&[DIGITS[usize::from(byte >> 4)], DIGITS[usize::from(byte & 15)]]);
                }
            }
            Answer::BadOffset { size } => put_numbers(out, b"badoffset", &[*size as u64]),
            Answer::Released { n } => put_numbers(out, b"released", &[*n]),
            Answer::NotHeld => out.extend_from_slice(b"notheld"),
            Answer::Closed => out.extend_from_slice(b"closed"),
            Answer::NoCursor => out.extend_from_slice(b"nocursor"),
            Answer::Tally { given, lost, left } => put_numbers(out, b"tally", &[*given, *lost, *left as u64]),
            Answer::Stat { admitted, queued, held, used, largest } => {
                put_numbers(out, b"stat", &[*admitted, *queued as u64, *held as u64, *used, *largest]);
            }
            Answer::Reserved { r, evicted } => put_numbers(out, b"reserved", &[*r as u64, *evicted as u64]),
            Answer::AllReserved => out.extend_from_slice(b"allreserved"),
            Answer::NoReservation => out.extend_from_slice(b"noreservation"),
            Answer::Filled { left } => put_numbers(out, b"filled", &[*left as u64]),
            Answer::Overfill { left } => put_numbers(out, b"overfill", &[*left as u64]),
            Answer::Unfilled { left } => put_numbers(out, b"unfilled", &[*left as u64]),
            Answer::Committed { n, time } => put_numbers(out, b"committed", &[*n, *time]),
            Answer::Discarded => out.extend_from_slice(b"discarded"),
        }
    }
}

const DIGITS: &[u8; 16] = b"0123456789abcdef";

/// What a line says of a product, as it stands there: arrival and signature; feedtypes; and sequence number, origin and ident.
pub struct Info {
    pub front: Box<[u8]>,
    pub feed: u32,
    pub rest: Box<[u8]>,
}

impl Info {
    fn write(&self, out: &mut Vec<u8>) {
        out.extend_from_slice(&self.front);
        out.extend_from_slice(b" 0x");
        for place in (0..8).rev() {
            out.push(DIGITS[(self.feed >> (4 * place) & 15) as usize]);
        }
        out.push(b' ');
        out.extend_from_slice(&self.rest);
    }
}

// A hash of a signature, whose bytes are as good as drawn: both halves, mixed by one product.
#[derive(Default)]
struct Halves(u64);

impl Hasher for Halves {
    fn finish(&self) -> u64 {
        self.0
    }

    fn write(&mut self, bytes: &[u8]) {
        for half in bytes.chunks_exact(8) {
            let half = u64::from_le_bytes(half.try_into().unwrap());
            self.0 = (self.0.rotate_left(5) ^ half).wrapping_mul(0x9e37_79b9_7f4a_7c15);
        }
    }

    // the length of the array
    fn write_usize(&mut self, _len: usize) {}
}

/// Where a cursor begins: at the oldest product, behind the last one, behind those that were inserted up to a time, or behind
/// the one with that signature.
pub enum Start {
    Oldest,
    Next,
    After(u64),
    Signature([u8; 16]),
}

/// What lines say of a product, its body apart.
pub struct Metadata {
    pub signature: [u8; 16],
    pub feed: u32,
    pub info: Arc<Info>,
    /// The bytes that the two texts take, and the body.
    pub texts: u64,
    pub size: usize,
}

impl Metadata {
    // The bytes in front of the body, and those that the product takes of the arena.
    fn front(&self) -> u64 {
        44 + self.texts
    }

    fn extent(&self) -> u64 {
        (self.front() + self.size as u64).next_multiple_of(8)
    }
}

struct Product {
    signature: [u8; 16],
    time: u64,
    place: u64,
    extent: u64,
    feed: u32,
    // Where its body begins in the arena, and its bytes.
    body: usize,
    size: usize,
    info: Arc<Info>,
}

struct Cursor {
    actor: u32,
    feed: u32,
    position: u64,
    held: Option<u64>,
    given: u64,
    lost: u64,
    // How many losses were not told, the least number among them and the greatest.
    untold: Option<(u64, u64, u64)>,
}

struct Reservation {
    actor: u32,
    metadata: Metadata,
    place: u64,
    filled: usize,
}

pub struct Queue {
    arena: Vec<u8>,
    slots: usize,
    // The products by number, from the oldest on, and the number of the first. Those that went before it left a hole.
    products: VecDeque<Option<Product>>,
    first: u64,
    queued: usize,
    by_signature: HashMap<[u8; 16], u64, BuildHasherDefault<Halves>>,
    // Gaps by their start, and by their length and start.
    gaps: BTreeMap<u64, u64>,
    by_length: BTreeSet<(u64, u64)>,
    last: Option<u64>,
    used: u64,
    // The places for cursors, up to the last that was ever taken.
    cursors: Vec<Option<Cursor>>,
    // Those for reservations likewise.
    reservations: Vec<Option<Reservation>>,
}

// The first empty place, where one of all is.
fn empty_place<T>(places: &[Option<T>]) -> Option<usize> {
    let place = places.iter().position(Option::is_none).unwrap_or(places.len());
    (place < PLACES).then_some(place)
}

fn put<T>(places: &mut Vec<Option<T>>, place: usize, value: T) {
    if place == places.len() {
        places.push(None);
    }
    places[place] = Some(value);
}

impl Queue {
    pub fn new(arena: u64, slots: usize) -> Queue {
        let mut queue = Queue {
            arena: vec![0; arena as usize],
            slots,
            products: VecDeque::new(),
            first: 0,
            queued: 0,
            by_signature: HashMap::default(),
            gaps: BTreeMap::new(),
            by_length: BTreeSet::new(),
            last: None,
            used: 0,
            cursors: Vec::new(),
            reservations: Vec::new(),
        };
        queue.add_gap(0, arena);
        queue
    }

    // The number that the next product will have.
    fn admitted(&self) -> u64 {
        self.first + self.products.len() as u64
    }

    fn product(&self, n: u64) -> &Product {
        self.products[(n - self.first) as usize].as_ref().unwrap()
    }

    // The products that are queued from a number on.
    fn from(&self, n: u64) -> impl Iterator<Item = (u64, &Product)> {
        let skipped = n.saturating_sub(self.first) as usize;
        let numbered = (self.first..).zip(&self.products).skip(skipped);
        numbered.filter_map(|(n, product)| Some((n, product.as_ref()?)))
    }

    fn add_gap(&mut self, start: u64, length: u64) {
        if length > 0 {
            self.gaps.insert(start, length);
            self.by_length.insert((length, start));
        }
    }

    fn take_gap(&mut self, start: u64) -> u64 {
        let length = self.gaps.remove(&start).unwrap();
        self.by_length.remove(&(length, start));
        length
    }

    fn give_back(&mut self, mut start: u64, mut length: u64) {
        if let Some((&before, &extent)) = self.gaps.range(..start).next_back() {
            if before + extent == start {
                self.take_gap(before);
                start = before;
                length += extent;
            }
        }
        if self.gaps.contains_key(&(start + length)) {
            length += self.take_gap(start + length);
        }
        self.add_gap(start, length);
    }

    // The regions that are held, as place and extent: those of the products that readers hold, and the reserved ones.
    fn held(&self) -> Vec<(u64, u64)> {
        let numbers: BTreeSet<u64> = self.cursors.iter().flatten().filter_map(|cursor| cursor.held).collect();
        let products = numbers.iter().map(|n| (self.product(*n).place, self.product(*n).extent));
        products.chain(self.reservations.iter().flatten().map(|own| (own.place, own.metadata.extent()))).collect()
    }

    fn holds(&self, n: u64) -> bool {
        self.cursors.iter().flatten().any(|cursor| cursor.held == Some(n))
    }

    fn evict(&mut self) -> Option<u64> {
        let n = self.from(self.first).map(|(n, _)| n).find(|n| !self.holds(*n))?;
        let product = self.products[(n - self.first) as usize].take()?;
        self.queued -= 1;
        while let Some(None) = self.products.front() {
            self.products.pop_front();
            self.first += 1;
        }
        for cursor in self.cursors.iter_mut().flatten() {
            if cursor.position <= n && cursor.feed & product.feed != 0 {
                let (count, least, greatest) = cursor.untold.unwrap_or((0, n, n));
                cursor.untold = Some((count + 1, least.min(n), greatest.max(n)));
                cursor.lost += 1;
            }
        }
        self.by_signature.remove(&product.signature);
        self.give_back(product.place, product.extent);
        self.used -= product.extent;
        Some(n)
    }

    // Whether there is a slot and a gap of so many bytes once all is evicted that nobody holds.
    fn can_make_room(&self, need: u64, mut regions: Vec<(u64, u64)>) -> bool {
        let slot = regions.len() < self.slots;
        regions.sort();
        regions.push((self.arena.len() as u64, 0));
        let mut end = 0;
        let mut longest = 0;
        for (place, extent) in regions {
            longest = longest.max(place - end);
            end = place + extent;
        }
        slot && need <= longest
    }

    // Takes a region of so many bytes at the best fit: its place, and how many products are evicted for it. Where there can be
    // none, the answer.
    fn take_region(&mut self, need: u64) -> Result<(u64, usize), Answer> {
        let held = self.held();
        let count = held.len();
        if count > 0 && !self.can_make_room(need, held) {
            return Err(Answer::Locked { held: count });
        }
        let reserved = self.reservations.iter().flatten().count();
        let mut evicted = 0;
        let place = loop {
            if self.queued + reserved < self.slots {
                if let Some(&(_, start)) = self.by_length.range((need, 0)..).next() {
                    break start;
                }
            }
            self.evict();
            evicted += 1;
        };
        let length = self.take_gap(place);
        self.add_gap(place + need, length - need);
        self.used += need;
        Ok((place, evicted))
    }

    // The answer where a product is larger than the arena, or queued already.
    fn refused(&self, metadata: &Metadata) -> Option<Answer> {
        let (need, arena) = (metadata.extent(), self.arena.len() as u64);
        if need > arena {
            return Some(Answer::TooBig { need, arena });
        }
        self.by_signature.get(&metadata.signature).map(|&n| Answer::Duplicate { n })
    }

    // The insertion time of a product that is admitted now, if one is left.
    fn time(&self, now: u64) -> Option<u64> {
        match self.last {
            Some(GREATEST_INSTANT) => None,
            Some(last) => Some(now.max(last + 1)),
            None => Some(now),
        }
    }

    // Queues a product whose bytes lie at a place. Its number.
    fn admit(&mut self, time: u64, metadata: Metadata, place: u64) -> u64 {
        let n = self.admitted();
        self.last = Some(time);
        self.by_signature.insert(metadata.signature, n);
        self.products.push_back(Some(Product {
            signature: metadata.signature,
            time,
            place,
            extent: metadata.extent(),
            feed: metadata.feed,
            body: (place + metadata.front()) as usize,
            size: metadata.size,
            info: metadata.info,
        }));
        self.queued += 1;
        n
    }

    pub fn insert(&mut self, now: u64, metadata: Metadata, body: &[u8]) -> Answer {
        if let Some(answer) = self.refused(&metadata) {
            return answer;
        }
        let Some(time) = self.time(now) else {
            return Answer::TimeEnd;
        };
        let (place, evicted) = match self.take_region(metadata.extent()) {
            Ok(taken) => taken,
            Err(locked) => return locked,
        };
        let front = (place + metadata.front()) as usize;
        self.arena[front..front + body.len()].copy_from_slice(body);
        let n = self.admit(time, metadata, place);
        Answer::Admitted { n, time, evicted }
    }

    pub fn reserve(&mut self, actor: u32, metadata: Metadata) -> Answer {
        if let Some(answer) = self.refused(&metadata) {
            return answer;
        }
        let Some(r) = empty_place(&self.reservations) else {
            return Answer::AllReserved;
        };
        let (place, evicted) = match self.take_region(metadata.extent()) {
            Ok(taken) => taken,
            Err(locked) => return locked,
        };
        let filled = 0;
        put(&mut self.reservations, r, Reservation { actor, metadata, place, filled });
        Answer::Reserved { r, evicted }
    }

    pub fn fill(&mut self, actor: u32, r: usize, bytes: &[u8]) -> Answer {
        let Some(own) = self.reservations.get_mut(r).and_then(Option::as_mut).filter(|own| own.actor == actor) else {
            return Answer::NoReservation;
        };
        let left = own.metadata.size - own.filled;
        if bytes.len() > left {
            return Answer::Overfill { left };
        }
        let start = (own.place + own.metadata.front()) as usize + own.filled;
        self.arena[start..start + bytes.len()].copy_from_slice(bytes);
        own.filled += bytes.len();
        Answer::Filled { left: left - bytes.len() }
    }

    fn reservation(&self, actor: u32, r: usize) -> Option<&Reservation> {
        self.reservations.get(r)?.as_ref().filter(|own| own.actor == actor)
    }

    fn give_up(&mut self, place: u64, extent: u64) {
        self.give_back(place, extent);
        self.used -= extent;
    }

    pub fn commit(&mut self, actor: u32, r: usize, now: u64) -> Answer {
        let Some(own) = self.reservation(actor, r) else {
            return Answer::NoReservation;
        };
        let left = own.metadata.size - own.filled;
        if left > 0 {
            return Answer::Unfilled { left };
        }
        let own = self.reservations[r].take().unwrap();
        let (place, extent) = (own.place, own.metadata.extent());
        if let Some(&n) = self.by_signature.get(&own.metadata.signature) {
            self.give_up(place, extent);
            return Answer::Duplicate { n };
        }
        let Some(time) = self.time(now) else {
            self.give_up(place, extent);
            return Answer::TimeEnd;
        };
        let n = self.admit(time, own.metadata, place);
        Answer::Committed { n, time }
    }

    pub fn discard(&mut self, actor: u32, r: usize) -> Answer {
        if self.reservation(actor, r).is_none() {
            return Answer::NoReservation;
        }
        let own = self.reservations[r].take().unwrap();
        self.give_up(own.place, own.metadata.extent());
        Answer::Discarded
    }

    pub fn look(&self, signature: &[u8; 16]) -> Answer {
        match self.by_signature.get(signature) {
            Some(&n) => Answer::Queued {
                n,
                time: self.product(n).time,
            },
            None => Answer::Absent,
        }
    }

    pub fn expire(&mut self) -> Answer {
        match self.evict() {
            Some(n) => Answer::Expired { n },
            None => Answer::Nothing,
        }
    }

    pub fn stat(&self) -> Answer {
        Answer::Stat {
            admitted: self.admitted(),
            queued: self.queued,
            held: self.held().len(),
            used: self.used,
            largest: self.by_length.last().map_or(0, |gap| gap.0),
        }
    }

    // The number of the product at which a cursor begins.
    fn position(&self, start: Start) -> Option<u64> {
        match start {
            Start::Oldest => Some(self.from(self.first).next().map_or(self.admitted(), |(n, _)| n)),
            Start::Next => Some(self.admitted()),
            Start::After(time) => Some(self.from(self.first).find(|(_, product)| product.time > time).map_or(self.admitted(), |(n, _)| n)),
            Start::Signature(signature) => self.by_signature.get(&signature).map(|n| n + 1),
        }
    }

    pub fn open(&mut self, actor: u32, feed: u32, start: Start) -> Answer {
        let Some(k) = empty_place(&self.cursors) else {
            return Answer::AllBusy;
        };
        let Some(position) = self.position(start) else {
            return Answer::NotQueued;
        };
        let cursor = Cursor {
            actor,
            feed,
            position,
            held: None,
            given: 0,
            lost: 0,
            untold: None,
        };
        put(&mut self.cursors, k, cursor);
        Answer::Opened { k }
    }

    // The cursor at a place, where it is one of that actor.
    fn cursor(&self, actor: u32, k: usize) -> Option<&Cursor> {
        self.cursors.get(k)?.as_ref().filter(|cursor| cursor.actor == actor)
    }

    fn cursor_mut(&mut self, actor: u32, k: usize) -> Option<&mut Cursor> {
        self.cursors.get_mut(k)?.as_mut().filter(|cursor| cursor.actor == actor)
    }

    pub fn step(&mut self, actor: u32, k: usize) -> Answer {
        let Some(cursor) = self.cursor_mut(actor, k) else {
            return Answer::NoCursor;
        };
        if let Some(n) = cursor.held {
            return Answer::Holding { n };
        }
        if let Some((count, least, greatest)) = cursor.untold.take() {
            return Answer::Gap { count, least, greatest };
        }
        let (feed, position) = (cursor.feed, cursor.position);
        let found = self.from(position).find(|(_, product)| product.feed & feed != 0);
        let given = found.map(|(n, product)| (n, product.time, product.info.clone(), product.size));
        let at = self.admitted();
        let cursor = self.cursors[k].as_mut().unwrap();
        match given {
            Some((n, time, info, size)) => {
                cursor.held = Some(n);
                cursor.given += 1;
                cursor.position = n + 1;
                Answer::Product { n, time, info, size }
            }
            None => {
                cursor.position = at;
                Answer::End { at }
            }
        }
    }

    pub fn read(&self, actor: u32, k: usize, offset: usize, len: usize) -> Answer {
        let Some(cursor) = self.cursor(actor, k) else {
            return Answer::NoCursor;
        };
        let Some(n) = cursor.held else {
            return Answer::NotHeld;
        };
        let product = self.product(n);
        if offset > product.size {
            return Answer::BadOffset { size: product.size };
        }
        let end = product.size.min(offset + len);
        Answer::Bytes {
            bytes: self.arena[product.body + offset..product.body + end].to_vec(),
        }
    }

    pub fn release(&mut self, actor: u32, k: usize) -> Answer {
        match self.cursor_mut(actor, k) {
            None => Answer::NoCursor,
            Some(cursor) => match cursor.held.take() {
                Some(n) => Answer::Released { n },
                None => Answer::NotHeld,
            },
        }
    }

    pub fn close(&mut self, actor: u32, k: usize) -> Answer {
        if self.cursor(actor, k).is_none() {
            return Answer::NoCursor;
        }
        self.cursors[k] = None;
        Answer::Closed
    }

    pub fn tally(&self, actor: u32, k: usize) -> Answer {
        let Some(cursor) = self.cursor(actor, k) else {
            return Answer::NoCursor;
        };
        let behind = self.from(cursor.position);
        Answer::Tally {
            given: cursor.given,
            lost: cursor.lost,
            left: behind.filter(|(_, product)| product.feed & cursor.feed != 0).count(),
        }
    }
}
