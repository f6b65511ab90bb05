//! Runs sessions on the crate nbd 0.3.1, unchanged, and writes down what it did.
//!
//! Standard input is a run of sessions, standard output a run of answers. All numbers are big-endian; "bytes" are a length (4) and so
//! many bytes.
//!
//!   'S', chunk (4), table, image, input (bytes each)
//!       -> a call's record, input taken when the handshake succeeded (4, or 2^32-1), image (bytes)
//!   'C', chunk (4), name, input (bytes each), number of calls (4), the calls
//!       -> the handshake's record, and for each call that was made (none after 40 to 43, 45, 46 or 50) its record; a byte 0 behind the last
//!   'D', as 'C', but calls are made after every fault too
//!   'O', size (8), flags (4)
//!       -> oldstyle_header's output (bytes)
//!
//! A call: 'r' or 'w' and a buffer (bytes); 'k', whence (1), offset (8); 'f'; 't', length (8); 'z', size (8).
//! A record: byte 1, outcome (1), value (8), the crate's error text (bytes), events, output (bytes), and at the client size (8), position (8),
//! flags (1), buffer (bytes).
//! Events are the crate's reads and writes on the wire in their order, neighbours of one kind joined: a length (4) and for each one
//! byte, 0 taken or 1 sent, and a count (4).
//!
//! The outcome is document 01's number, by the crate's error text; 0 is a success, and OTHER a text that 01 has no number for.
extern crate nbd;

use nbd::client::{NbdClient, NbdExt};
use nbd::Export;
use std::cell::RefCell;
use std::io::{Cursor, Error, ErrorKind, Read, Result, Seek, SeekFrom, Write};

const OTHER: u8 = 255;
const TEXTS: [(&str, u8); 19] = [
    ("Invalid client flag", 1),
    ("Invalid client optmagic", 2),
    ("Suspiciously big option length", 3),
    ("NBD_OPT_LIST with content", 4),
    ("Non-UTF8 export name requested", 5),
    (NO_SUCH_NAME, 6),
    ("Client abort", 7),
    ("TLS not supported", 8),
    ("Invalid client option type", 9),
    ("Invalid request magic", 10),
    ("Unknown command from client", 11),
    ("Invalid magic1", 40),
    ("Invalid magic2", 41),
    ("Old style server does not support named exports", 42),
    ("Expected 124 bytes of zeroes are not zeroes", 43),
    ("Invalid signature for incoming reply", 45),
    ("Unexpected handle", 46),
    ("Invalid seek", 48),
    ("Trying to read or write past the end of the device", 49),
];
// the callback's own: in the crate a name is looked up by its caller
const NO_SUCH_NAME: &str = "no such name";
// device errors: the crate names five of them, and says no number for the others
const DEVICE: [(&str, u64); 6] = [
    ("from device", 1),
    ("EIO", 5),
    ("ENOMEM", 12),
    ("EINVAL", 22),
    ("ENOSPC", 28),
    ("other error from device", 0),
];

/// The outcome and its value: for 47 the number that the crate's text names.
fn judged(result: &Result<u64>, end_of_input: u8) -> (u8, u64) {
    let e = match *result {
        Ok(value) => return (0, value),
        Err(ref e) => e,
    };
    if e.kind() == ErrorKind::UnexpectedEof {
        return (end_of_input, 0);
    }
    let text = e.to_string();
    if let Some(x) = DEVICE.iter().find(|x| x.0 == text) {
        return (47, x.1);
    }
    match TEXTS.iter().find(|x| x.0 == text) {
        Some(x) => (x.1, 0),
        None => (OTHER, 0),
    }
}

// ---- the wire: hands out and accepts at most `chunk` bytes at once, and keeps count

struct Wire<'a> {
    input: &'a [u8],
    taken: usize,
    chunk: usize,
    events: Vec<(u8, u32)>,
    sent: Vec<u8>,
}

impl<'a> Wire<'a> {
    fn over(input: &'a [u8], chunk: usize) -> RefCell<Self> {
        let (events, sent) = (vec![], vec![]);
        RefCell::new(Wire {
            input,
            taken: 0,
            chunk,
            events,
            sent,
        })
    }

    fn note(&mut self, kind: u8, n: usize) {
        match self.events.last_mut() {
            Some(last) if last.0 == kind => last.1 += n as u32,
            _ if n > 0 => self.events.push((kind, n as u32)),
            _ => {}
        }
    }
}

struct End<'a, 'b: 'a>(&'a RefCell<Wire<'b>>);

impl<'a, 'b> Read for End<'a, 'b> {
    fn read(&mut self, buf: &mut [u8]) -> Result<usize> {
        let mut w = self.0.borrow_mut();
        let n = buf.len().min(w.chunk).min(w.input.len() - w.taken);
        buf[..n].copy_from_slice(&w.input[w.taken..w.taken + n]);
        w.taken += n;
        w.note(0, n);
        Ok(n)
    }
}

impl<'a, 'b> Write for End<'a, 'b> {
    fn write(&mut self, buf: &[u8]) -> Result<usize> {
        let mut w = self.0.borrow_mut();
        let n = buf.len().min(w.chunk);
        w.sent.extend_from_slice(&buf[..n]);
        w.note(1, n);
        Ok(n)
    }
    fn flush(&mut self) -> Result<()> {
        Ok(())
    }
}

// ---- sessions and answers

struct Source<'a>(&'a [u8]);

impl<'a> Source<'a> {
    fn take(&mut self, n: usize) -> &'a [u8] {
        let (front, rest) = self.0.split_at(n);
        self.0 = rest;
        front
    }
    fn number(&mut self, width: usize) -> u64 {
        self.take(width).iter().fold(0, |x, &b| x << 8 | b as u64)
    }
    fn bytes(&mut self) -> &'a [u8] {
        let n = self.number(4) as usize;
        self.take(n)
    }
}

fn put(out: &mut Vec<u8>, x: u64, width: usize) {
    out.extend_from_slice(&x.to_be_bytes()[8 - width..]);
}

fn put_bytes(out: &mut Vec<u8>, bytes: &[u8]) {
    put(out, bytes.len() as u64, 4);
    out.extend_from_slice(bytes);
}

/// Byte 1, outcome, value, text, and what passed on the wire since the last record. The outcome.
fn record(out: &mut Vec<u8>, result: Result<u64>, end_of_input: u8, wire: &RefCell<Wire>) -> u8 {
    let mut w = wire.borrow_mut();
    let (outcome, value) = judged(&result, end_of_input);
    out.extend_from_slice(&[1, outcome]);
    put(out, value, 8);
    let text = result.err().map_or(String::new(), |e| e.to_string());
    put_bytes(out, text.as_bytes());
    put(out, w.events.len() as u64, 4);
    for (kind, n) in w.events.drain(..) {
        out.push(kind);
        put(out, n as u64, 4);
    }
    put_bytes(out, &w.sent);
    w.sent.clear();
    outcome
}

// ---- the server

struct Found {
    start: usize,
    size: usize,
}

/// The callback: the first record of that name.
fn look_up(table: &[u8], name: &str) -> Result<Export<Found>> {
    let mut t = Source(&table[1..]);
    while !t.0.is_empty() {
        let length = t.number(2) as usize;
        let (start, size, flags) = (t.number(8), t.number(8), t.number(1));
        if t.take(length - 17) == name.as_bytes() {
            return Ok(Export {
                size,
                readonly: flags & 1 != 0,
                resizeable: flags & 2 != 0,
                rotational: flags & 4 != 0,
                send_trim: flags & 8 != 0,
                send_flush: false,
                data: Found {
                    start: start as usize,
                    size: size as usize,
                },
            });
        }
    }
    Err(Error::new(ErrorKind::Other, NO_SUCH_NAME))
}

fn serve(s: &mut Source, chunk: usize, out: &mut Vec<u8>) {
    let (table, mut image, input) = (s.bytes(), s.bytes().to_vec(), s.bytes());
    let wire = Wire::over(input, chunk);
    let mut shaken = u32::max_value();
    let result =
        nbd::server::handshake(End(&wire), |name| look_up(table, name)).and_then(|found| {
            shaken = wire.borrow().taken as u32;
            let window = &mut image[found.start..found.start + found.size];
            nbd::server::transmission(End(&wire), Cursor::new(window))
        });
    record(out, result.map(|()| 0), 12, &wire);
    put(out, shaken as u64, 4);
    put_bytes(out, &image);
}

// ---- the client

/// What a record of the client has beside: size, position, flags, buffer.
fn put_client(out: &mut Vec<u8>, size: u64, position: u64, e: &Export, buffer: &[u8]) {
    put(out, size, 8);
    put(out, position, 8);
    let bits = [
        e.readonly,
        e.resizeable,
        e.rotational,
        e.send_trim,
        e.send_flush,
    ];
    out.push(bits.iter().fold(0, |x, &b| x << 1 | b as u8));
    put_bytes(out, buffer);
}

/// Makes the next call: its value or error, and the buffer afterwards.
fn call<IO: Read + Write>(s: &mut Source, c: &mut NbdClient<IO>) -> (Result<u64>, Vec<u8>) {
    let mut buffer = vec![];
    let result = match s.number(1) as u8 {
        b'r' => {
            buffer = s.bytes().to_vec();
            c.read(&mut buffer).map(|n| n as u64)
        }
        b'w' => {
            buffer = s.bytes().to_vec();
            c.write(&buffer).map(|n| n as u64)
        }
        b'k' => {
            let (whence, offset) = (s.number(1), s.number(8));
            c.seek(match whence {
                0 => SeekFrom::Start(offset),
                1 => SeekFrom::Current(offset as i64),
                _ => SeekFrom::End(offset as i64),
            })
        }
        b'f' => c.flush().map(|()| 0),
        b't' => c.trim(s.number(8) as usize).map(|()| 0),
        b'z' => {
            let size = s.number(8);
            c.resize(size).map(|()| size)
        }
        _ => panic!("no such call"),
    };
    (result, buffer)
}

/// Passes over a call that is not made.
fn skip(s: &mut Source) {
    match s.number(1) as u8 {
        b'r' | b'w' => drop(s.bytes()),
        b'k' => drop(s.take(9)),
        b't' | b'z' => drop(s.take(8)),
        _ => {}
    }
}

fn connect(s: &mut Source, chunk: usize, after_faults: bool, out: &mut Vec<u8>) {
    let (name, input, calls) = (s.bytes(), s.bytes(), s.number(4));
    let wire = Wire::over(input, chunk);
    let export = nbd::client::handshake(End(&wire), name);
    let mut open = export.is_ok();
    let (export, shaken) = match export {
        Ok(e) => {
            let size = e.size;
            (e, Ok(size))
        }
        Err(e) => (Export::default(), Err(e)),
    };
    record(out, shaken, 50, &wire);
    put_client(out, export.size, 0, &export, name);
    let mut c = NbdClient::new(End(&wire), &export);
    for _ in 0..calls {
        if !open {
            skip(s);
            continue;
        }
        let (result, buffer) = call(s, &mut c);
        let outcome = record(out, result, 50, &wire);
        // the fields are private: seeks show them
        let position = c.seek(SeekFrom::Current(0)).unwrap();
        let size = c.seek(SeekFrom::End(0)).unwrap();
        c.seek(SeekFrom::Start(position)).unwrap();
        put_client(out, size, position, &export, &buffer);
        open = after_faults || outcome == 0 || (47..=49).contains(&outcome);
    }
    out.push(0);
}

fn main() {
    let mut input = vec![];
    std::io::stdin().read_to_end(&mut input).unwrap();
    let mut s = Source(&input);
    let mut out = vec![];
    while !s.0.is_empty() {
        match s.number(1) as u8 {
            b'O' => {
                let mut header = vec![];
                nbd::server::oldstyle_header(&mut header, s.number(8), s.number(4) as u32).unwrap();
                put_bytes(&mut out, &header);
            }
            kind => {
                let chunk = s.number(4) as usize;
                if kind == b'S' {
                    serve(&mut s, chunk, &mut out);
                } else {
                    connect(&mut s, chunk, kind == b'D', &mut out);
                }
            }
        }
    }
    std::io::stdout().write_all(&out).unwrap();
}
