//! The jobs of `dlt_bench` as plain Rust does them, with nothing proved: what the figures are compared with.
//! `stock JOB COUNT` prints the same line as `dlt_bench JOB COUNT`; `stock file COUNT` writes a file of so many messages
//! with storage headers, as dlt-convert reads them.

use std::env;
use std::io::{self, Write};
use std::process::ExitCode;

const PIECE: usize = 65_536;

/// The log call of a number: a text of twenty letters and a number of 32 bits.
fn message(number: u32, out: &mut Vec<u8>) {
    let mut payload = Vec::new();
    payload.extend_from_slice(&0x0000_0200u32.to_le_bytes());
    payload.extend_from_slice(&21u16.to_le_bytes());
    payload.extend_from_slice(b"twenty letters, text\0");
    payload.extend_from_slice(&0x0000_0043u32.to_le_bytes());
    payload.extend_from_slice(&number.to_le_bytes());
    out.push(0x3d);
    out.push((number % 256) as u8);
    out.extend_from_slice(&(26 + payload.len() as u16).to_be_bytes());
    out.extend_from_slice(b"ECU1");
    out.extend_from_slice(&1u32.to_be_bytes());
    out.extend_from_slice(&number.to_be_bytes());
    out.push(0x41);
    out.push(2);
    out.extend_from_slice(b"LOG1TEST");
    out.extend_from_slice(&payload);
}

fn stream() -> Vec<u8> {
    let mut bytes = Vec::new();
    for number in 0.. {
        let mut next = Vec::new();
        message(number, &mut next);
        if bytes.len() + next.len() > PIECE {
            break;
        }
        bytes.extend_from_slice(&next);
    }
    bytes
}

/// A cutter that keeps what is left of each piece.
#[derive(Default)]
struct Cutter {
    bytes: Vec<u8>,
    at: usize,
}

impl Cutter {
    fn feed(&mut self, piece: &[u8]) {
        self.bytes.drain(..self.at);
        self.at = 0;
        self.bytes.extend_from_slice(piece);
    }

    fn next(&mut self) -> Option<&[u8]> {
        let mut rest = &self.bytes[self.at..];
        if rest.starts_with(b"DLS\x01") {
            rest = &rest[4..];
        }
        if rest.len() < 4 {
            return None;
        }
        let len = u16::from_be_bytes([rest[2], rest[3]]) as usize;
        if rest[0] >> 5 != 1 || len < 4 || rest.len() < len {
            return None;
        }
        self.at = self.bytes.len() - rest.len() + len;
        Some(&rest[..len])
    }
}

struct Heads<'a> {
    _mcnt: u8,
    _ecu: Option<[u8; 4]>,
    _session: Option<u32>,
    _ticks: Option<u32>,
    _apid: [u8; 4],
    _ctid: [u8; 4],
    start: usize,
    count: u8,
    payload: &'a [u8],
}

fn heads(message: &[u8]) -> Option<Heads<'_>> {
    let htyp = message[0];
    let mut at = 4;
    let mut field = |there: bool| -> Option<[u8; 4]> {
        if !there {
            return None;
        }
        let value = message.get(at..at + 4)?.try_into().ok();
        at += 4;
        value
    };
    let ecu = field(htyp & 4 != 0);
    let session = field(htyp & 8 != 0).map(u32::from_be_bytes);
    let ticks = field(htyp & 16 != 0).map(u32::from_be_bytes);
    let extended = message.get(at..at + 10)?;
    Some(Heads {
        _mcnt: message[1],
        _ecu: ecu,
        _session: session,
        _ticks: ticks,
        _apid: extended[2..6].try_into().ok()?,
        _ctid: extended[6..10].try_into().ok()?,
        start: at + 10,
        count: extended[1],
        payload: &message[at + 10..],
    })
}

enum Arg<'a> {
    Text(&'a [u8]),
    Uint(#[allow(dead_code)] u64),
}

fn next_arg<'a>(payload: &mut &'a [u8]) -> Option<Arg<'a>> {
    let info = u32::from_le_bytes(payload.get(..4)?.try_into().ok()?);
    let rest = &payload[4..];
    if info & 0x200 != 0 {
        let len = u16::from_le_bytes(rest.get(..2)?.try_into().ok()?) as usize;
        let text = rest.get(2..2 + len)?;
        *payload = &rest[2 + len..];
        return Some(Arg::Text(text.strip_suffix(b"\0").unwrap_or(text)));
    }
    if info & 0x40 != 0 && info & 0xf == 3 {
        let number = u32::from_le_bytes(rest.get(..4)?.try_into().ok()?);
        *payload = &rest[4..];
        return Some(Arg::Uint(number as u64));
    }
    None
}

fn borrowed(heads: &Heads) -> Option<u64> {
    let mut payload = heads.payload;
    let mut sum = 0u64;
    for _ in 0..heads.count {
        sum = sum.wrapping_add(match next_arg(&mut payload)? {
            Arg::Text(text) => text.len() as u64,
            Arg::Uint(number) => number,
        });
    }
    Some(sum)
}

enum Owned {
    Text(#[allow(dead_code)] Vec<u8>),
    Uint(#[allow(dead_code)] u64),
}

fn owned(heads: &Heads) -> Option<u64> {
    let mut payload = heads.payload;
    let mut args = Vec::with_capacity(heads.count as usize);
    for _ in 0..heads.count {
        args.push(match next_arg(&mut payload)? {
            Arg::Text(text) => Owned::Text(text.to_vec()),
            Arg::Uint(number) => Owned::Uint(number),
        });
    }
    Some(args.len() as u64)
}

fn run(job: &str, count: u64) -> Option<(u64, u64, u64)> {
    let stream = stream();
    let mut cutter = Cutter::default();
    let (mut times, mut bytes, mut sum) = (0u64, 0u64, 0u64);
    while times < count {
        cutter.feed(&stream);
        while let Some(message) = cutter.next() {
            let outcome = match job {
                "cut" => message.len() as u64,
                "heads" => heads(message)?.start as u64,
                "borrowed" => borrowed(&heads(message)?)?,
                "owned" => owned(&heads(message)?)?,
                _ => return None,
            };
            times += 1;
            bytes += message.len() as u64;
            sum = sum.wrapping_add(outcome);
        }
    }
    Some((times, bytes, sum))
}

fn write_file(count: u32) -> io::Result<()> {
    let mut out = io::BufWriter::new(io::stdout().lock());
    for number in 0..count {
        let mut bytes = Vec::from(*b"DLT\x01\0\0\0\0\0\0\0\0ECU1");
        message(number, &mut bytes);
        out.write_all(&bytes)?;
    }
    out.flush()
}

fn main() -> ExitCode {
    let words: Vec<String> = env::args().collect();
    let [_, job, count] = words.as_slice() else {
        return ExitCode::from(2);
    };
    let Ok(count) = count.parse::<u32>() else {
        return ExitCode::from(2);
    };
    if job == "file" {
        return if write_file(count).is_ok() { ExitCode::SUCCESS } else { ExitCode::FAILURE };
    }
    match run(job, count as u64) {
        Some((times, bytes, sum)) => {
            println!("{times} times, {bytes} bytes, sum {sum}");
            ExitCode::SUCCESS
        }
        None => ExitCode::from(9),
    }
}
