//! Puts products into nodes and takes them from nodes, and does the like with plain streams and brokers, for the scripts of this
//! folder. It speaks the messages of docs/messages.md and shares no code with the program.
//!
//! Called as one of these; ADDRESS is that of a program which listens.
//!
//! ```text
//! load put ADDRESS SIZE COUNT NAMES          puts products in whose idents are NAMES numbers in turn
//! load take ADDRESS COUNT                    is fed so many products
//! load append ADDRESS COUNT FOLDER           is fed so many, and appends each to the file of its ident; 32 files are open at most
//! load relay ADDRESS ADDRESS SIZE COUNT      puts into the first, and is fed by the second
//! load fan ADDRESS SIZE COUNT SUBSCRIBERS    puts into a node that feeds each of so many subscribers
//! load delay ADDRESS ADDRESS TIMES           the same with single products, one at a time
//! load far PORT ADDRESS MILLISECONDS         listens, and passes on what it is sent so much later, each way, until it is ended
//! load stream SIZE COUNT                     sends such products over one plain stream
//! load redis|nats|mqtt ADDRESS SIZE COUNT    publishes such bodies to a broker, and subscribes them
//! load jetstream ADDRESS SIZE COUNT          the same over a stream of nats that is kept in a file
//! ```
//!
//! `load gathered BYTES ..` does one of these, and each that sends products gathers up to BYTES before it writes, as clients of brokers
//! do; else it writes each product by itself.
//!
//! Each prints how many seconds it took, from the first byte that was sent to the last one that came; `delay` prints the least, the
//! middle, that of 99% and the greatest time, in milliseconds.

use std::collections::HashMap;
use std::fs::{self, File, OpenOptions};
use std::io::{self, BufRead, BufReader, BufWriter, Error, ErrorKind, Read, Write};
use std::net::{Shutdown, TcpListener, TcpStream};
use std::path::Path;
use std::sync::atomic::{AtomicU64, AtomicUsize, Ordering};
use std::sync::mpsc;
use std::thread;
use std::time::{Duration, Instant, SystemTime, UNIX_EPOCH};

const HEREIS: u32 = 1;
const FEEDME: u32 = 4;
const IS_ALIVE: u32 = 14;
const PUT: u32 = 101;

const IDS: u32 = 8;
const ANY: u32 = u32::MAX;

/// How many bytes may be on their way, so that no queue of the default size evicts what was not passed on yet.
const WINDOW: u64 = 16_777_216;

/// How many files `append` keeps open.
const OPEN_FILES: usize = 32;

fn wrong<T>(what: impl Into<String>) -> io::Result<T> {
    Err(Error::new(ErrorKind::InvalidData, what.into()))
}

// Messages

fn number(out: &mut Vec<u8>, value: u32) {
    out.extend(value.to_be_bytes());
}

fn string(out: &mut Vec<u8>, text: &[u8]) {
    number(out, text.len() as u32);
    out.extend(text);
    out.resize(out.len().next_multiple_of(4), 0);
}

// The record of a call; the first four bytes of `out` are room for its header.
fn call(out: &mut Vec<u8>, xid: u32, procedure: u32, body: impl FnOnce(&mut Vec<u8>)) {
    out.clear();
    for field in [0, xid, 0, 2, 300_029, 6, procedure, 0, 0, 0, 0] {
        number(out, field);
    }
    body(out);
    let header = (out.len() - 4) as u32 | 1 << 31;
    out[..4].copy_from_slice(&header.to_be_bytes());
}

fn put_call(out: &mut Vec<u8>, xid: u32, signature: u128, ident: &[u8], body: &[u8]) {
    call(out, xid, PUT, |out| {
        number(out, 0);
        number(out, 100);
        out.extend(signature.to_be_bytes());
        string(out, b"h");
        number(out, IDS);
        number(out, xid);
        string(out, ident);
        number(out, body.len() as u32);
        out.extend(body);
        out.resize(out.len().next_multiple_of(4), 0);
    });
}

// Asks for the products of all times in whose idents the pattern is found.
fn feedme(out: &mut Vec<u8>, pattern: &str) {
    call(out, 1, FEEDME, |out| {
        for field in [0, 0, u32::MAX, 999_999, 1, ANY] {
            number(out, field);
        }
        string(out, pattern.as_bytes());
        number(out, u32::MAX);
    });
}

fn number_at(bytes: &[u8], at: usize) -> u32 {
    u32::from_be_bytes(bytes[at..at + 4].try_into().unwrap())
}

fn connect(address: &str) -> io::Result<TcpStream> {
    let stream = TcpStream::connect(address)?;
    stream.set_nodelay(true)?;
    Ok(stream)
}

/// Records of a stream. Each is one fragment.
struct Records {
    stream: BufReader<TcpStream>,
    content: Vec<u8>,
}

impl Records {
    fn new(stream: TcpStream) -> Records {
        Records { stream: BufReader::with_capacity(262_144, stream), content: Vec::new() }
    }

    fn next(&mut self) -> io::Result<&[u8]> {
        let mut header = [0; 4];
        self.stream.read_exact(&mut header)?;
        let header = u32::from_be_bytes(header);
        if header >> 31 == 0 {
            return wrong("a record in fragments");
        }
        self.content.resize((header & !(1 << 31)) as usize, 0);
        self.stream.read_exact(&mut self.content)?;
        Ok(&self.content)
    }
}

/// One who is fed the products of a node, whole.
struct Subscriber {
    records: Records,
}

impl Subscriber {
    fn new(address: &str, pattern: &str) -> io::Result<Subscriber> {
        let mut stream = connect(address)?;
        let mut request = Vec::new();
        feedme(&mut request, pattern);
        stream.write_all(&request)?;
        let mut records = Records::new(stream);
        let reply = records.next()?;
        if reply.len() != 28 || number_at(reply, 24) != 0 {
            return wrong("the node does not feed");
        }
        Ok(Subscriber { records })
    }

    /// The ident and the body of the next product.
    fn next(&mut self) -> io::Result<(&[u8], &[u8])> {
        while number_at(self.records.next()?, 20) == IS_ALIVE {}
        let content = &self.records.content;
        if number_at(content, 20) != HEREIS {
            return wrong("no product");
        }
        let padded = |at: usize| at + 4 + (number_at(content, at) as usize).next_multiple_of(4);
        let ident = padded(64) + 8;
        let size = padded(ident);
        let text = &content[ident + 4..][..number_at(content, ident) as usize];
        Ok((text, &content[size + 4..][..number_at(content, size) as usize]))
    }
}

// Load

/// Bodies of one size, each with its number in front.
struct Bodies {
    body: Vec<u8>,
}

impl Bodies {
    fn new(size: usize) -> Bodies {
        Bodies { body: (0..size.max(8)).map(|i| (i * 31 % 251) as u8).collect() }
    }

    fn numbered(&mut self, i: u64) -> &[u8] {
        self.body[..8].copy_from_slice(&i.to_be_bytes());
        &self.body
    }
}

fn check(body: &[u8], size: usize, i: u64) -> io::Result<()> {
    if body.len() != size.max(8) || body[..8] != i.to_be_bytes() {
        return wrong(format!("product {i} is missing"));
    }
    Ok(())
}

/// A number that no other run has. With zeros behind it, it is in front of the signatures of its products.
fn run_number() -> u128 {
    SystemTime::now().duration_since(UNIX_EPOCH).unwrap().as_nanos()
}

fn signature(run: u128, i: u64) -> u128 {
    (run << 40) + u128::from(i)
}

/// How many bytes a publisher gathers before it writes them. With 0 it writes each product by itself.
static GATHERED: AtomicUsize = AtomicUsize::new(0);

// What a publisher writes to. Before it waits for anything it is to be flushed.
fn gathering(stream: TcpStream) -> BufWriter<TcpStream> {
    BufWriter::with_capacity(GATHERED.load(Ordering::Relaxed), stream)
}

/// How much came of what was sent.
#[derive(Default)]
struct Passed(AtomicU64);

impl Passed {
    fn is_full(&self, sent: u64, size: usize) -> bool {
        let most = (WINDOW / size as u64).clamp(4, 4_096);
        sent - self.0.load(Ordering::Relaxed) >= most
    }

    // Waits until so many of the products of this size came that another one may be sent.
    fn wait_for_room(&self, sent: u64, size: usize, out: &mut impl Write) -> io::Result<()> {
        if self.is_full(sent, size) {
            out.flush()?;
        }
        while self.is_full(sent, size) {
            thread::sleep(Duration::from_micros(20));
        }
        Ok(())
    }

    fn add(&self) {
        self.0.fetch_add(1, Ordering::Relaxed);
    }
}

/// What products are put in.
struct Load<'a> {
    size: usize,
    count: u64,
    run: u128,
    ident: &'a (dyn Fn(u64) -> String + Sync),
}

/// Puts products in on one connection. Does not wait for a reply before it sends the next one, but for room: by what passed where
/// that is looked at, else by the replies.
fn put(address: &str, load: &Load, passed: &[Passed]) -> io::Result<()> {
    let stream = connect(address)?;
    let mut replies = Records::new(stream.try_clone()?);
    let mut stream = gathering(stream);
    let answered = [Passed::default()];
    let passed = if passed.is_empty() { &answered } else { passed };
    thread::scope(|scope| {
        let hearing = scope.spawn(|| {
            for _ in 0..load.count {
                let reply = replies.next()?;
                if number_at(reply, 20) != 0 || number_at(reply, 24) != 0 {
                    return wrong(format!("a product is refused: {:?}", &reply[20..]));
                }
                answered[0].add();
            }
            Ok(())
        });
        let mut bodies = Bodies::new(load.size);
        let mut record = Vec::new();
        for i in 0..load.count {
            for it in passed {
                it.wait_for_room(i, load.size, &mut stream)?;
            }
            let ident = (load.ident)(i);
            put_call(&mut record, i as u32, signature(load.run, i), ident.as_bytes(), bodies.numbered(i));
            stream.write_all(&record)?;
        }
        stream.flush()?;
        hearing.join().unwrap()
    })
}

/// Takes so many products, one way or another, and tells of each.
fn take_all(mut next: impl FnMut(u64) -> io::Result<()>, count: u64, passed: &Passed) -> io::Result<()> {
    for i in 0..count {
        next(i)?;
        passed.add();
    }
    Ok(())
}

fn relay(from: &str, to: &str, size: usize, count: u64) -> io::Result<Duration> {
    fan(from, to, size, count, 1)
}

/// Puts products into the first node, which are fed to so many subscribers by the second.
fn fan(from: &str, to: &str, size: usize, count: u64, subscribers: usize) -> io::Result<Duration> {
    let run = run_number();
    let passed: Vec<Passed> = (0..subscribers).map(|_| Passed::default()).collect();
    let mut fed = Vec::new();
    for _ in 0..subscribers {
        // what an earlier run left is not taken
        fed.push(Subscriber::new(to, &format!("^{run}$"))?);
    }
    thread::sleep(Duration::from_millis(200));
    let load = Load { size, count, run, ident: &|_| run.to_string() };
    let begun = Instant::now();
    thread::scope(|scope| {
        let taking: Vec<_> = fed
            .into_iter()
            .zip(&passed)
            .map(|(mut it, passed)| scope.spawn(move || take_all(|i| check(it.next()?.1, size, i), count, passed)))
            .collect();
        put(from, &load, &passed)?;
        taking.into_iter().try_for_each(|it| it.join().unwrap())
    })?;
    Ok(begun.elapsed())
}

fn take(address: &str, count: u64) -> io::Result<Duration> {
    let begun = Instant::now();
    let mut subscriber = Subscriber::new(address, ".*")?;
    for _ in 0..count {
        subscriber.next()?;
    }
    Ok(begun.elapsed())
}

/// The times between a PUT and its product, of products that come one at a time into nodes that were idle.
fn delays(from: &str, to: &str, times: u64) -> io::Result<Vec<f64>> {
    let run = run_number();
    let ident = run.to_string();
    let mut subscriber = Subscriber::new(to, &format!("^{run}$"))?;
    let (came, coming) = mpsc::channel();
    thread::spawn(move || {
        while subscriber.next().is_ok() && came.send(Instant::now()).is_ok() {}
    });
    let mut stream = connect(from)?;
    let mut replies = Records::new(stream.try_clone()?);
    let mut record = Vec::new();
    let mut bodies = Bodies::new(2_048);
    let mut delays = Vec::new();
    for i in 0..times {
        // not in step with an idle call of the node
        thread::sleep(Duration::from_millis(150 + i * 17 % 50));
        put_call(&mut record, i as u32, signature(run, i), ident.as_bytes(), bodies.numbered(i));
        let begun = Instant::now();
        stream.write_all(&record)?;
        replies.next()?;
        match coming.recv_timeout(Duration::from_secs(20)) {
            Ok(came) => delays.push((came - begun).as_secs_f64() * 1e3),
            Err(_) => return wrong("no product came"),
        }
    }
    delays.sort_by(f64::total_cmp);
    Ok(delays)
}

/// Passes on what comes, so much later.
fn pass_on_late(mut from: TcpStream, mut to: TcpStream, late: Duration) {
    let (came, coming) = mpsc::channel::<(Instant, Vec<u8>)>();
    thread::spawn(move || {
        for (at, bytes) in coming {
            thread::sleep((at + late).saturating_duration_since(Instant::now()));
            if to.write_all(&bytes).is_err() {
                break;
            }
        }
        let _ = to.shutdown(Shutdown::Write);
    });
    thread::spawn(move || {
        let mut piece = vec![0; 262_144];
        while let Ok(count @ 1..) = from.read(&mut piece) {
            if came.send((Instant::now(), piece[..count].to_vec())).is_err() {
                break;
            }
        }
    });
}

fn far(port: u16, address: &str, late: Duration) -> io::Result<()> {
    for stream in TcpListener::bind(("127.0.0.1", port))?.incoming() {
        let (near, beyond) = (stream?, connect(address)?);
        near.set_nodelay(true)?;
        pass_on_late(near.try_clone()?, beyond.try_clone()?, late);
        pass_on_late(beyond, near, late);
    }
    Ok(())
}

fn stream(size: usize, count: u64) -> io::Result<Duration> {
    let listener = TcpListener::bind("127.0.0.1:0")?;
    let mut sending = gathering(connect(&listener.local_addr()?.to_string())?);
    let mut records = Records::new(listener.accept()?.0);
    let begun = Instant::now();
    thread::scope(|scope| {
        let taking = scope.spawn(move || -> io::Result<()> {
            for _ in 0..count {
                records.next()?;
            }
            Ok(())
        });
        let mut bodies = Bodies::new(size);
        let mut record = Vec::new();
        for i in 0..count {
            put_call(&mut record, i as u32, u128::from(i), b"0", bodies.numbered(i));
            sending.write_all(&record)?;
        }
        sending.flush()?;
        taking.join().unwrap()
    })?;
    Ok(begun.elapsed())
}

/// Appends each product to the file of its ident, as `FILE FOLDER/\1` with `(.*)` does.
fn append(address: &str, count: u64, folder: &Path) -> io::Result<Duration> {
    fs::create_dir_all(folder)?;
    let begun = Instant::now();
    let mut subscriber = Subscriber::new(address, ".*")?;
    let mut files: HashMap<Vec<u8>, (File, u64)> = HashMap::new();
    for i in 0..count {
        let (ident, body) = subscriber.next()?;
        if !files.contains_key(ident) {
            if files.len() == OPEN_FILES {
                let oldest = files.iter().min_by_key(|(_, (_, used))| *used).map(|(name, _)| name.clone());
                files.remove(&oldest.unwrap());
            }
            let path = folder.join(String::from_utf8_lossy(ident).as_ref());
            files.insert(ident.to_vec(), (OpenOptions::new().append(true).create(true).open(path)?, i));
        }
        let (file, used) = files.get_mut(ident).unwrap();
        *used = i;
        file.write_all(body)?;
    }
    drop(files);
    Ok(begun.elapsed())
}

// Brokers

#[derive(Clone, Copy)]
enum Broker {
    Redis,
    Nats,
    JetStream,
    Mqtt,
}

/// What makes a stream of all that is published, in a file of at most so many bytes, and one consumer of it, to whom it is sent on.
const STREAM: &str = r#"{"name":"c","subjects":["c"],"retention":"limits","storage":"file","max_bytes":67108864,"discard":"old"}"#;
const CONSUMER: &str = r#"{"stream_name":"c","config":{"deliver_subject":"d","deliver_policy":"all","ack_policy":"none"}}"#;

/// Asks a server of nats for something, and hears that it has done it, or, where that may fail, that it has not.
fn ask_nats(stream: &mut TcpStream, answers: &mut impl BufRead, what: &str, body: &str, may_fail: bool) -> io::Result<()> {
    stream.write_all(format!("PUB $JS.API.{what} answer {}\r\n{body}\r\n", body.len()).as_bytes())?;
    loop {
        let line = read_line(answers)?;
        if let Some(size) = line.strip_prefix("MSG answer 9 ") {
            let told = read_body(answers, size.parse().unwrap())?;
            read_line(answers)?;
            let told = String::from_utf8_lossy(&told);
            return if may_fail || !told.contains("\"error\"") { Ok(()) } else { wrong(told) };
        }
    }
}

fn read_line(stream: &mut impl BufRead) -> io::Result<String> {
    let mut line = String::new();
    stream.read_line(&mut line)?;
    if !line.ends_with("\r\n") {
        return wrong("the broker went");
    }
    line.truncate(line.len() - 2);
    Ok(line)
}

fn read_body(stream: &mut impl BufRead, size: usize) -> io::Result<Vec<u8>> {
    let mut body = vec![0; size];
    stream.read_exact(&mut body)?;
    Ok(body)
}

// The length of a packet of MQTT: seven bits a byte, the lowest first.
fn packet(kind: u8, parts: &[&[u8]]) -> Vec<u8> {
    let mut left: usize = parts.iter().map(|part| part.len()).sum();
    let mut out = vec![kind];
    loop {
        let more = left >= 128;
        out.push((left % 128) as u8 | u8::from(more) << 7);
        left /= 128;
        if !more {
            break;
        }
    }
    out.extend(parts.concat());
    out
}

fn read_packet(stream: &mut impl BufRead) -> io::Result<(u8, Vec<u8>)> {
    let kind = read_body(stream, 1)?[0];
    let mut size = 0;
    for shift in 0..4 {
        let byte = read_body(stream, 1)?[0];
        size |= usize::from(byte % 128) << (7 * shift);
        if byte < 128 {
            break;
        }
    }
    Ok((kind, read_body(stream, size)?))
}

impl Broker {
    /// Says what is said at first, and reads what comes of it.
    fn greet(self, stream: &mut TcpStream, answers: &mut impl BufRead, subscribes: bool) -> io::Result<()> {
        match self {
            Broker::Redis if subscribes => {
                stream.write_all(b"*2\r\n$9\r\nSUBSCRIBE\r\n$1\r\nc\r\n")?;
                for _ in 0..6 {
                    read_line(answers)?;
                }
            }
            Broker::Redis => {}
            Broker::Nats | Broker::JetStream => {
                read_line(answers)?;
                stream.write_all(b"CONNECT {\"verbose\":false}\r\n")?;
                if subscribes && matches!(self, Broker::JetStream) {
                    stream.write_all(b"SUB d 1\r\nSUB answer 9\r\n")?;
                    ask_nats(stream, answers, "STREAM.DELETE.c", "", true)?;
                    ask_nats(stream, answers, "STREAM.CREATE.c", STREAM, false)?;
                    ask_nats(stream, answers, "CONSUMER.CREATE.c", CONSUMER, false)?;
                } else if subscribes {
                    stream.write_all(b"SUB c 1\r\n")?;
                }
                stream.write_all(b"PING\r\n")?;
                if read_line(answers)? != "PONG" {
                    return wrong("no PONG");
                }
            }
            Broker::Mqtt => {
                let name: &[u8] = if subscribes { b"\0\x01s" } else { b"\0\x01p" };
                stream.write_all(&packet(0x10, &[b"\0\x04MQTT\x04\x02\0\x3c", name]))?;
                read_packet(answers)?;
                if subscribes {
                    stream.write_all(&packet(0x82, &[b"\0\x01\0\x01c\0"]))?;
                    read_packet(answers)?;
                }
            }
        }
        Ok(())
    }

    fn message(self, body: &[u8]) -> Vec<u8> {
        match self {
            Broker::Redis => [format!("*3\r\n$7\r\nPUBLISH\r\n$1\r\nc\r\n${}\r\n", body.len()).as_bytes(), body, b"\r\n"].concat(),
            Broker::Nats | Broker::JetStream => [format!("PUB c {}\r\n", body.len()).as_bytes(), body, b"\r\n"].concat(),
            Broker::Mqtt => packet(0x30, &[b"\0\x01c", body]),
        }
    }

    fn next(self, stream: &mut impl BufRead) -> io::Result<Vec<u8>> {
        match self {
            Broker::Redis => {
                for _ in 0..5 {
                    read_line(stream)?;
                }
                let size = read_line(stream)?[1..].parse().unwrap();
                let body = read_body(stream, size)?;
                read_line(stream)?;
                Ok(body)
            }
            Broker::Nats | Broker::JetStream => loop {
                let line = read_line(stream)?;
                // the size is the last word, behind the one to whom it may be answered
                if let Some((_, size)) = line.strip_prefix("MSG c 1").and_then(|rest| rest.rsplit_once(' ')) {
                    let body = read_body(stream, size.parse().unwrap())?;
                    read_line(stream)?;
                    return Ok(body);
                }
            },
            Broker::Mqtt => loop {
                let (kind, mut body) = read_packet(stream)?;
                if kind >> 4 == 3 {
                    return Ok(body.split_off(3));
                }
            },
        }
    }
}

fn through_broker(broker: Broker, address: &str, size: usize, count: u64) -> io::Result<Duration> {
    let passed = Passed::default();
    let mut subscriber = connect(address)?;
    let mut coming = BufReader::with_capacity(262_144, subscriber.try_clone()?);
    broker.greet(&mut subscriber, &mut coming, true)?;
    let mut publisher = connect(address)?;
    let mut answers = BufReader::new(publisher.try_clone()?);
    broker.greet(&mut publisher, &mut answers, false)?;
    // whatever a publisher is answered is read, and not looked at
    thread::spawn(move || io::copy(&mut answers, &mut io::sink()));
    let begun = Instant::now();
    thread::scope(|scope| {
        let taking = scope.spawn(|| take_all(|i| check(&broker.next(&mut coming)?, size, i), count, &passed));
        let mut bodies = Bodies::new(size);
        let mut publisher = gathering(publisher);
        for i in 0..count {
            passed.wait_for_room(i, size, &mut publisher)?;
            publisher.write_all(&broker.message(bodies.numbered(i)))?;
        }
        publisher.flush()?;
        taking.join().unwrap()
    })?;
    Ok(begun.elapsed())
}

fn run(words: &[&str]) -> io::Result<String> {
    let size = |text: &str| text.parse().expect("a number");
    let count = |text: &str| text.parse().expect("a number");
    let took = match words {
        ["gathered", bytes, rest @ ..] => {
            GATHERED.store(size(bytes), Ordering::Relaxed);
            return run(rest);
        }
        ["put", address, bytes, number, names] => {
            let names = count(names);
            let load = Load { size: size(bytes), count: count(number), run: run_number(), ident: &|i| (i % names).to_string() };
            let begun = Instant::now();
            put(address, &load, &[])?;
            begun.elapsed()
        }
        ["take", address, number] => take(address, count(number))?,
        ["append", address, number, folder] => append(address, count(number), Path::new(folder))?,
        ["relay", from, to, bytes, number] => relay(from, to, size(bytes), count(number))?,
        ["fan", address, bytes, number, many] => fan(address, address, size(bytes), count(number), size(many))?,
        ["far", port, address, late] => {
            far(port.parse().expect("a port"), address, Duration::from_millis(count(late)))?;
            return Ok(String::new());
        }
        ["stream", bytes, number] => stream(size(bytes), count(number))?,
        ["redis", address, bytes, number] => through_broker(Broker::Redis, address, size(bytes), count(number))?,
        ["nats", address, bytes, number] => through_broker(Broker::Nats, address, size(bytes), count(number))?,
        ["jetstream", address, bytes, number] => through_broker(Broker::JetStream, address, size(bytes), count(number))?,
        ["mqtt", address, bytes, number] => through_broker(Broker::Mqtt, address, size(bytes), count(number))?,
        ["delay", from, to, times] => {
            let delays = delays(from, to, count(times))?;
            let at = |part: usize| delays[(delays.len() - 1) * part / 100];
            return Ok(format!("{:.2} {:.2} {:.2} {:.2}", at(0), at(50), at(99), at(100)));
        }
        _ => return wrong("these are no words of this program"),
    };
    Ok(format!("{:.6}", took.as_secs_f64()))
}

fn main() {
    let words: Vec<String> = std::env::args().skip(1).collect();
    let words: Vec<&str> = words.iter().map(String::as_str).collect();
    match run(&words) {
        Ok(told) => println!("{told}"),
        Err(why) => {
            eprintln!("load: {why}");
            std::process::exit(1);
        }
    }
}
