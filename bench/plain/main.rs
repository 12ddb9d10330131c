//! A plain program that shows and joins traces of well-formed dialogues as `zvt show` and `zvt join` do, as a measure for
//! their speed: std alone, a reader of its own that borrows what it reads, buffered output. It waits for the whole of a
//! message and gives up where one is malformed, so it does less than the proved program.
//!
//!     rustc -O --edition 2021 bench/plain/main.rs -o plain && ./plain show < TRACE

use std::fmt;
use std::io::{self, BufWriter, Read, Write};
use std::process::ExitCode;

#[derive(Clone, Copy, PartialEq)]
enum Direction {
    FromTill,
    FromTerminal,
}

impl Direction {
    fn sign(self) -> &'static str {
        match self {
            Direction::FromTill => ">",
            Direction::FromTerminal => "<",
        }
    }
}

#[derive(Clone, Copy)]
enum Command {
    Show,
    Join,
}

enum Fault {
    Line(usize),
    Malformed,
    Io(io::Error),
}

impl fmt::Display for Fault {
    fn fmt(&self, f: &mut fmt::Formatter<'_>) -> fmt::Result {
        match self {
            Fault::Line(line) => write!(f, "line {line} is none of a trace"),
            Fault::Malformed => f.write_str("a message is malformed"),
            Fault::Io(error) => write!(f, "{error}"),
        }
    }
}

impl From<io::Error> for Fault {
    fn from(error: io::Error) -> Self {
        Fault::Io(error)
    }
}

type Outcome = Result<(), Fault>;

/// How the content of a field is delimited.
enum Shape {
    Fixed(usize),
    Digits(usize),
    Decimal(usize),
    Tree,
}

fn shape(bmp: u8) -> Option<Shape> {
    Some(match bmp {
        0x01 | 0x02 | 0x03 | 0x05 | 0x19 | 0x27 | 0x8A | 0x8C | 0xA0 => Shape::Fixed(1),
        0x0E | 0x17 | 0x3A | 0x87 => Shape::Fixed(2),
        0x0D | 0x49 => Shape::Digits(2),
        0x37 | 0x3D | 0x88 => Shape::Fixed(3),
        0x0B | 0x0C | 0xAA => Shape::Digits(3),
        0x29 => Shape::Digits(4),
        0xBA => Shape::Fixed(5),
        0x04 => Shape::Digits(6),
        0x3B => Shape::Fixed(8),
        0x2A => Shape::Fixed(15),
        0x22 | 0x23 | 0x2D | 0x8B | 0xA7 => Shape::Decimal(2),
        0x24 | 0x2E | 0x3C | 0x60 | 0x92 | 0x9A | 0xAF => Shape::Decimal(3),
        0x06 => Shape::Tree,
        _ => return None,
    })
}

fn name(bmp: u8) -> &'static str {
    match bmp {
        0x01 => "time-out",
        0x02 => "max-status",
        0x03 => "service",
        0x04 => "amount",
        0x05 => "pump",
        0x06 => "container",
        0x0B => "trace",
        0x0C => "time",
        0x0D => "date",
        0x0E => "expiry",
        0x17 => "sequence",
        0x19 => "payment-type",
        0x22 => "pan",
        0x23 => "track2",
        0x24 => "track3",
        0x27 => "result",
        0x29 => "terminal",
        0x2A => "contract",
        0x2D => "track1",
        0x2E => "chip-data",
        0x37 => "original-trace",
        0x3A => "verification",
        0x3B => "attribute",
        0x3C => "text",
        0x3D => "password",
        0x49 => "currency",
        0x60 => "totals",
        0x87 => "receipt",
        0x88 => "turnover",
        0x8A => "card-type",
        0x8B => "card-name",
        0x8C => "network-card",
        0x92 => "field-92",
        0x9A => "field-9A",
        0xA0 => "result-as",
        0xA7 => "ef-id",
        0xAA => "date-ymd",
        0xAF => "field-AF",
        0xBA => "aid",
        _ => "",
    }
}

fn meaning(code: u8) -> Option<&'static str> {
    Some(match code {
        0x00 => "success",
        0x64 => "card not readable",
        0x6C => "abort by time-out or abort key",
        0x6F => "wrong currency",
        0x83 => "function not possible",
        0xB4 => "already reversed",
        0xB5 => "reversal not possible",
        0xFF => "system error",
        _ => return None,
    })
}

/// Takes so many bytes off the front.
fn take<'a>(bytes: &mut &'a [u8], count: usize) -> Result<&'a [u8], Fault> {
    if bytes.len() < count {
        return Err(Fault::Malformed);
    }
    let (front, rest) = bytes.split_at(count);
    *bytes = rest;
    Ok(front)
}

fn take_byte(bytes: &mut &[u8]) -> Result<u8, Fault> {
    Ok(take(bytes, 1)?[0])
}

/// The size of the first message of the bytes, where all of it is there, and where its data begins.
fn whole(bytes: &[u8]) -> Option<(usize, usize)> {
    let (start, size) = match *bytes {
        [_, _, 0xFF, low, high, ..] => (5, usize::from(low) + 256 * usize::from(high)),
        [_, _, 0xFF, ..] => return None,
        [_, _, size, ..] => (3, usize::from(size)),
        _ => return None,
    };
    (bytes.len() >= start + size).then_some((start, start + size))
}

fn are_digits(bytes: &[u8]) -> bool {
    bytes.iter().all(|byte| byte >> 4 <= 9 && byte & 15 <= 9)
}

fn number(digits: &[u8]) -> u64 {
    digits.iter().fold(0, |sum, byte| {
        sum * 100 + u64::from(byte >> 4) * 10 + u64::from(byte & 15)
    })
}

const DIGITS: &[u8; 16] = b"0123456789ABCDEF";

fn put_hex(out: &mut impl Write, bytes: &[u8]) -> Outcome {
    for byte in bytes {
        out.write_all(&[
            DIGITS[usize::from(byte >> 4)],
            DIGITS[usize::from(byte & 15)],
        ])?;
    }
    Ok(())
}

fn put_hex_or_dash(out: &mut impl Write, bytes: &[u8]) -> Outcome {
    if bytes.is_empty() {
        out.write_all(b"-")?;
        return Ok(());
    }
    put_hex(out, bytes)
}

fn put_quoted(out: &mut impl Write, bytes: &[u8]) -> Outcome {
    out.write_all(b"\"")?;
    for &byte in bytes {
        match byte {
            b'"' | b'\\' => write!(out, "\\x{byte:02X}")?,
            0x20..=0x7E => out.write_all(&[byte])?,
            _ => write!(out, "\\x{byte:02X}")?,
        }
    }
    out.write_all(b"\"")?;
    Ok(())
}

fn put_result(out: &mut impl Write, code: u8) -> Outcome {
    match meaning(code) {
        Some(meaning) => write!(out, "{code:02X} {meaning}")?,
        None => write!(out, "code {code:02X}")?,
    }
    Ok(())
}

fn put_data(out: &mut impl Write, payload: &[u8]) -> Outcome {
    if payload.is_empty() {
        return Ok(());
    }
    out.write_all(b" data ")?;
    put_hex(out, payload)
}

/// A tag, whether it is constructed, and a length.
fn take_head<'a>(bytes: &mut &'a [u8]) -> Result<(&'a [u8], bool, usize), Fault> {
    let size = match **bytes {
        [first, second, ..] if first & 31 == 31 => {
            if second < 128 {
                2
            } else {
                3
            }
        }
        _ => 1,
    };
    let tag = take(bytes, size)?;
    let length = take_length(bytes)?;
    Ok((tag, tag[0] & 0x20 != 0, length))
}

fn take_length(bytes: &mut &[u8]) -> Result<usize, Fault> {
    match take_byte(bytes)? {
        length @ 0..=0x7F => Ok(usize::from(length)),
        0x81 => Ok(usize::from(take_byte(bytes)?)),
        0x82 => Ok(usize::from(take_byte(bytes)?) * 256 + usize::from(take_byte(bytes)?)),
        _ => Err(Fault::Malformed),
    }
}

fn check_objects(mut bytes: &[u8], depth: usize) -> Outcome {
    while !bytes.is_empty() {
        let (_, constructed, length) = take_head(&mut bytes)?;
        let content = take(&mut bytes, length)?;
        if constructed {
            if depth == 6 {
                return Err(Fault::Malformed);
            }
            check_objects(content, depth + 1)?;
        }
    }
    Ok(())
}

fn put_objects(out: &mut impl Write, mut bytes: &[u8], depth: usize) -> Outcome {
    while !bytes.is_empty() {
        let (tag, constructed, length) = take_head(&mut bytes)?;
        let content = take(&mut bytes, length)?;
        for _ in 0..2 + 2 * depth {
            out.write_all(b" ")?;
        }
        put_hex(out, tag)?;
        if constructed {
            out.write_all(b" constructed\n")?;
            put_objects(out, content, depth + 1)?;
        } else {
            out.write_all(b" ")?;
            put_hex_or_dash(out, content)?;
            out.write_all(b"\n")?;
        }
    }
    Ok(())
}

/// Takes a field off the front: its BMP and its content.
fn take_field<'a>(bytes: &mut &'a [u8]) -> Result<(u8, &'a [u8]), Fault> {
    let bmp = take_byte(bytes)?;
    let content = match shape(bmp).ok_or(Fault::Malformed)? {
        Shape::Fixed(size) => take(bytes, size)?,
        Shape::Digits(size) => {
            let content = take(bytes, size)?;
            if !are_digits(content) {
                return Err(Fault::Malformed);
            }
            content
        }
        Shape::Decimal(count) => {
            let mut size = 0;
            for digit in take(bytes, count)? {
                if !(0xF0..=0xF9).contains(digit) {
                    return Err(Fault::Malformed);
                }
                size = size * 10 + usize::from(digit & 15);
            }
            take(bytes, size)?
        }
        Shape::Tree => {
            let size = take_length(bytes)?;
            let content = take(bytes, size)?;
            check_objects(content, 1)?;
            content
        }
    };
    Ok((bmp, content))
}

fn check_fields(mut bytes: &[u8]) -> Outcome {
    while !bytes.is_empty() {
        take_field(&mut bytes)?;
    }
    Ok(())
}

fn put_fields(out: &mut impl Write, mut bytes: &[u8]) -> Outcome {
    while !bytes.is_empty() {
        let (bmp, content) = take_field(&mut bytes)?;
        out.write_all(b"  ")?;
        put_hex(out, &[bmp])?;
        out.write_all(b" ")?;
        out.write_all(name(bmp).as_bytes())?;
        if bmp == 0x06 {
            out.write_all(b"\n")?;
            put_objects(out, content, 1)?;
            continue;
        }
        out.write_all(b" ")?;
        match (bmp, content) {
            (0x04, _) => write!(out, "{}", number(content))?,
            (0x27, [code]) => put_result(out, *code)?,
            (0x2A | 0x8B, _) => put_quoted(out, content)?,
            (0x22 | 0x23 | 0x24 | 0x2D | 0x3A | 0x3D, _) => {
                write!(out, "hidden {}", content.len())?
            }
            _ => put_hex_or_dash(out, content)?,
        }
        out.write_all(b"\n")?;
    }
    Ok(())
}

/// A message: what its head says, and its fields.
struct Message<'a> {
    head: Head<'a>,
    fields: &'a [u8],
}

enum Head<'a> {
    Plain(&'static str),
    Data(&'static str, &'a [u8]),
    Coded(&'static str, u8, &'a [u8]),
    GivenUp(u8, &'a [u8]),
    Registration { config: u8, currency: Option<u64> },
    PrintLine(u8, &'a [u8]),
    Other(&'a [u8], &'a [u8]),
}

fn read<'a>(bytes: &'a [u8], start: usize) -> Result<Message<'a>, Fault> {
    let mut data = &bytes[start..];
    let head = match (bytes[0], bytes[1]) {
        (0x80, 0x00) => Head::Data("Ack", std::mem::take(&mut data)),
        (0x84, code) => Head::Coded("Nack", code, std::mem::take(&mut data)),
        (0x06, 0x00) => {
            let config = take(&mut data, 4)?[3];
            let currency = match data {
                [] => None,
                _ => {
                    let digits = take(&mut data, 2)?;
                    if !are_digits(digits) {
                        return Err(Fault::Malformed);
                    }
                    Some(number(digits))
                }
            };
            Head::Registration { config, currency }
        }
        (0x06, 0x01) => Head::Plain("Authorisation"),
        (0x06, 0x30) => {
            take(&mut data, 3)?;
            Head::Plain("Reversal")
        }
        (0x06, 0x50) => {
            take(&mut data, 3)?;
            Head::Plain("EndOfDay")
        }
        (0x06, 0xB0) => Head::Plain("AbortOrder"),
        (0x04, 0x0F) => Head::Plain("Status"),
        (0x04, 0xFF) => {
            let status = take_byte(&mut data)?;
            Head::Coded("Intermediate", status, std::mem::take(&mut data))
        }
        (0x06, 0xD1) => {
            let attribute = take_byte(&mut data)?;
            Head::PrintLine(attribute, std::mem::take(&mut data))
        }
        (0x06, 0xD3) => Head::Plain("TextBlock"),
        (0x06, 0x0F) => Head::Plain("Completion"),
        (0x06, 0x1E) => {
            let code = take_byte(&mut data)?;
            Head::GivenUp(code, std::mem::take(&mut data))
        }
        _ => Head::Other(&bytes[..2], std::mem::take(&mut data)),
    };
    check_fields(data)?;
    Ok(Message { head, fields: data })
}

fn show(out: &mut impl Write, from: Direction, message: &Message<'_>) -> Outcome {
    write!(out, "{} ", from.sign())?;
    match message.head {
        Head::Plain(name) => out.write_all(name.as_bytes())?,
        Head::Data(name, payload) => {
            out.write_all(name.as_bytes())?;
            put_data(out, payload)?;
        }
        Head::Coded(name, code, payload) => {
            write!(out, "{name} {code:02X}")?;
            put_data(out, payload)?;
        }
        Head::GivenUp(code, payload) => {
            out.write_all(b"Abort ")?;
            put_result(out, code)?;
            put_data(out, payload)?;
        }
        Head::Registration { config, currency } => {
            write!(out, "Registration config {config:02X}")?;
            if let Some(currency) = currency {
                write!(out, " currency {currency:04}")?;
            }
        }
        Head::PrintLine(attribute, text) => {
            write!(out, "PrintLine {attribute:02X} ")?;
            put_quoted(out, text)?;
        }
        Head::Other(control, payload) => {
            out.write_all(b"Other ")?;
            put_hex(out, control)?;
            put_data(out, payload)?;
        }
    }
    out.write_all(b"\n")?;
    put_fields(out, message.fields)
}

fn join(out: &mut impl Write, from: Direction, bytes: &[u8]) -> Outcome {
    write!(out, "{} ", from.sign())?;
    put_hex(out, bytes)?;
    out.write_all(b"\n")?;
    Ok(())
}

fn digit(character: u8) -> Option<u8> {
    match character {
        b'0'..=b'9' => Some(character - b'0'),
        b'A'..=b'F' => Some(character - b'A' + 10),
        b'a'..=b'f' => Some(character - b'a' + 10),
        _ => None,
    }
}

/// Appends the bytes that hexadecimal text spells, its spaces dropped.
fn decode(text: &[u8], bytes: &mut Vec<u8>) -> Option<()> {
    let mut digits = text
        .iter()
        .copied()
        .filter(|&character| character != b' ')
        .map(digit);
    while let Some(high) = digits.next() {
        bytes.push(high? * 16 + digits.next()??);
    }
    Some(())
}

/// Writes each whole message at the front of what a side has sent, and keeps the rest.
fn write_messages(
    out: &mut impl Write,
    command: Command,
    from: Direction,
    held: &mut Vec<u8>,
) -> Outcome {
    let mut rest = &held[..];
    while let Some((start, size)) = whole(rest) {
        let (bytes, after) = rest.split_at(size);
        let message = read(bytes, start)?;
        match command {
            Command::Show => show(out, from, &message)?,
            Command::Join => join(out, from, bytes)?,
        }
        rest = after;
    }
    let taken = held.len() - rest.len();
    held.drain(..taken);
    Ok(())
}

fn run(command: Command) -> Outcome {
    let mut trace = Vec::new();
    io::stdin().lock().read_to_end(&mut trace)?;
    let mut out = BufWriter::with_capacity(1 << 16, io::stdout().lock());
    let mut till = Vec::new();
    let mut terminal = Vec::new();
    let text = trace.strip_suffix(b"\n").unwrap_or(&trace);
    for (index, line) in text.split(|&byte| byte == b'\n').enumerate() {
        let line = line.strip_suffix(b"\r").unwrap_or(line);
        let (from, held, digits) = match line {
            [] | [b'#', ..] => continue,
            [b'>', digits @ ..] => (Direction::FromTill, &mut till, digits),
            [b'<', digits @ ..] => (Direction::FromTerminal, &mut terminal, digits),
            [b'!'] => {
                till.clear();
                terminal.clear();
                out.write_all(match command {
                    Command::Show => b"! line lost\n",
                    Command::Join => b"!\n",
                })?;
                continue;
            }
            _ => return Err(Fault::Line(index + 1)),
        };
        decode(digits, held).ok_or(Fault::Line(index + 1))?;
        write_messages(&mut out, command, from, held)?;
    }
    out.flush()?;
    Ok(())
}

fn main() -> ExitCode {
    let command = match std::env::args().nth(1).as_deref() {
        Some("show") => Command::Show,
        Some("join") => Command::Join,
        _ => {
            eprintln!("plain: show or join");
            return ExitCode::from(2);
        }
    };
    match run(command) {
        Ok(()) => ExitCode::SUCCESS,
        Err(fault) => {
            eprintln!("plain: {fault}");
            ExitCode::FAILURE
        }
    }
}
