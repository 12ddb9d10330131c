//! Reads a message, pays in memory, saves while a second payment runs, and goes on from what was saved: reverses until the
//! line is lost, and again; and asks what became of a payment.
//! rustc demo.rs -L out -l dylib=zvt
#[allow(dead_code)] // a part of it is used here
mod zvt;

use zvt::{Codepage, Note, Order, Refused, Till, record_ask, record_heard, record_lost, record_opening, record_order, text};

const REGISTERED: &[u8] = &[0x80, 0x00, 0x00, 0x06, 0x0F, 0x00];
const APPROVED: &[u8] = &[
    0x80, 0x00, 0x00, 0x06, 0xD3, 0x0F, 0x06, 0x0D, 0x1F, 0x07, 0x01, 0x02, 0x25, 0x07, 0x07, 0x01, b'1', 0x07, 0x02, 0x81, b'2',
    0x04, 0x0F, 0x27, 0x27, 0x00, 0x04, 0x00, 0x00, 0x00, 0x00, 0x12, 0x34, 0x0B, 0x00, 0x00, 0x17, 0x87, 0x00, 0x05, 0x22, 0xF0,
    0xF8, 0x67, 0x26, 0x12, 0x34, 0x56, 0x78, 0x12, 0x34, 0x8B, 0xF0, 0xF9, b'g', b'i', b'r', b'o', b'c', b'a', b'r', b'd', 0x00,
    0x06, 0x0F, 0x00, 0x06, 0xD1, 0x04, 0x00, b'B', b'y', b'e', 0x06, 0xD1, 0x04, 0x00, b'B', b'y', b'e',
];

/// What a terminal says when it is asked: its status from before a payment, or another.
const ANSWERS: [&[u8]; 2] = [
    &[0x80, 0x00, 0x00, 0x04, 0x0F, 0x10, 0x27, 0, 0x04, 0, 0, 0, 0, 0x12, 0x34, 0x0B, 0, 0, 0x17, 0x87, 0, 5, 0x06, 0x0F, 0x00],
    &[0x80, 0x00, 0x00, 0x04, 0x0F, 0x10, 0x27, 0, 0x04, 0, 0, 0, 0, 0x05, 0x00, 0x0B, 0, 0, 0x18, 0x87, 0, 6, 0x06, 0x0F, 0x00],
];

fn main() -> Result<(), Refused> {
    let row = [0x06, 0x01, 0x0A, 0x04, 0, 0, 0, 0, 0x12, 0x34, 0x49, 0x09, 0x78];
    match text(&row) {
        Ok((text, size)) => print!("{size} bytes\n{text}"),
        Err(why) => println!("{why:?}"),
    }
    println!("{:?}", text(&[0x06, 0x01, 0x02, 0xD0]));

    let mut till = Till::new(0, 0xBE, 978)?;
    println!("{:?}", till.order(Order::Pay(1234)).map_err(|refused| refused.to_string()));
    till.connected()?;
    println!("{:02X?}", till.order(Order::Register)?);
    println!("{:02X?}", till.feed(REGISTERED)?);
    till.order(Order::Pay(1234))?;
    till.codepage = Codepage::Cp437;
    let reply = till.feed(APPROVED)?;
    println!("{:?}", reply.outcome);
    for line in &reply.lines {
        println!("{}, {:?}", String::from_utf8_lossy(&line.bytes), line.receipt_type);
    }
    println!("{} {}", till.card_name(), till.card_number());
    till.order(Order::Pay(777))?;
    let mut again = Till::load(&till.save()?)?;
    println!("{:?}\n{:?}\ntotal {}", again.book()?, again.unclear()?, again.total()?);
    println!("{:?}", Till::load(&[0; 8]).err());
    for heard in [None, Some([0x84, 0xB4, 0])] {
        again.connected()?;
        again.order(Order::Register)?;
        again.feed(REGISTERED)?;
        again.order(Order::Reverse(0))?;
        let outcome = match heard {
            None => again.lost()?,
            Some(answer) => again.feed(&answer)?.outcome,
        };
        again = Till::load(&again.save()?)?;
        println!("{outcome:?}, {} unclear: {:?}", again.unclear_reversals()?, again.book()?[0].doubt);
    }
    show_journal()?;
    show_asks()
}

/// A payment whose line is lost, and what the answers to an ask say about it.
fn show_asks() -> Result<(), Refused> {
    for answer in ANSWERS {
        let mut till = Till::new(0, 0xBE, 978)?;
        till.connected()?;
        till.order(Order::Register)?;
        till.feed(REGISTERED)?;
        till.order(Order::Pay(1234))?;
        till.feed(ANSWERS[0])?;
        till.order(Order::Pay(500))?;
        till.lost()?;
        till.connected()?;
        till.order(Order::Register)?;
        till.feed(REGISTERED)?;
        println!("{:?}, {:02X?}, {}", till.pending()?, till.ask()?, till.asking()?);
        till.feed(answer)?;
        println!("{:?}, {:?}, {}", till.settled()?, till.pending()?, till.asking()?);
    }
    print!("{}", String::from_utf8_lossy(&record_ask(&note("2026-11-28T09:14:05Z", None))?));
    Ok(())
}

/// The note of an order at this time: a till takes that of `Note::now`.
fn note(at: &str, reference: Option<&str>) -> Note {
    Note { at: Some(at.to_string()), ..Note::now(reference) }
}

/// A till's journal, which would be in a file, and the till that is made of it.
fn show_journal() -> Result<(), Refused> {
    let mut till = Till::new(123456, 0xBE, 978)?;
    let mut journal = [record_opening(978)?, record_lost()?].concat();
    till.connected()?;
    let sent = till.order(Order::Register)?;
    journal.extend(record_order(Order::Register, &sent, &note("2026-11-28T09:14:00Z", None))?);
    let mut rest = REGISTERED;
    while let Ok((record, size)) = record_heard(rest) {
        journal.extend(record);
        till.feed(&rest[..size])?;
        rest = &rest[size..];
    }
    let sent = till.order(Order::Pay(1234))?;
    journal.extend(record_order(Order::Pay(1234), &sent, &note("2026-11-28T09:14:03Z", Some("A-1009")))?);
    print!("{}", String::from_utf8_lossy(&journal));
    println!("{:?}", Till::recover(123456, 0xBE, 978, &journal).map(|mut till| till.unclear()));
    println!("{:?}", till.notes(&journal));
    println!("{:?}", Till::recover(123456, 0xBE, 756, &journal).err());
    let damaged = String::from_utf8_lossy(&journal).replace("# pay 1234", "# pay 1235");
    println!("{:?}", Till::recover(123456, 0xBE, 978, damaged.as_bytes()).err());
    journal.extend(b"< 8\n");
    println!("{:?}, {:?}", Till::recover(0, 0xBE, 978, &journal).err(), record_heard(&[0x80]));
    Ok(())
}
