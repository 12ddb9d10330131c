//! The till of zvt.h in safe Rust, for programs that are built without Rattle. Copy this file into your project, declare
//! `mod zvt;` and link libzvt. There are no other dependencies.
use std::fmt;
use std::marker::PhantomData;
use std::mem::{offset_of, size_of};
use std::ptr::null_mut;
use std::time::{SystemTime, UNIX_EPOCH};

const ROOM: usize = 32;
/// Size of a buffer that holds any line to print, as it was sent.
const LINE_ROOM: usize = 65_534;
/// Size of a buffer that holds either text of a card.
const CARD_ROOM: usize = 198;
/// Size of a buffer that holds any record.
const RECORD_ROOM: usize = 131_200;

#[repr(C)]
struct Handle {
    at: *mut u8,
    full: u32,
}

#[repr(C)]
#[derive(Clone, Copy, Default)]
struct OutcomeNumbers {
    kind: u32,
    code: u32,
    trace: u32,
    receipt: u32,
    has_receipt: u32,
}

#[repr(C)]
#[derive(Default)]
struct Step {
    taken: u64,
    send: u64,
    place: u64,
    line: u64,
    reason: u32,
    message: u32,
    printed: u32,
    outcome: OutcomeNumbers,
}

#[repr(C)]
#[derive(Default)]
struct LineNumbers {
    size: u64,
    copy: u32,
}

#[repr(C)]
#[derive(Default)]
struct State {
    total: u64,
    booked: u64,
    unclear: u64,
    unclear_reversals: u64,
    settled: u64,
    held: u64,
    registered: u32,
    running: u32,
    last: OutcomeNumbers,
}

#[repr(C)]
#[derive(Default)]
struct EntryNumbers {
    amount: u64,
    trace: u32,
    receipt: u32,
    has_receipt: u32,
    reversed: u32,
    cause: u32,
    doubt: u32,
}

#[repr(C)]
#[derive(Default)]
struct SettlementNumbers {
    place: u64,
    kind: u32,
    trace: u32,
    receipt: u32,
    has_receipt: u32,
}

#[repr(C)]
#[derive(Default)]
struct PendingNumbers {
    place: u64,
    kind: u32,
    last_known: u32,
}

#[repr(C)]
#[derive(Default)]
struct Answer {
    size: u64,
    place: u64,
    reason: u32,
    status: u32,
}

// The library lays its structs out so.
#[cfg(target_pointer_width = "64")]
const _: () = assert!(
    size_of::<Handle>() == 16
        && size_of::<Step>() == 64
        && size_of::<LineNumbers>() == 16
        && size_of::<State>() == 80
        && size_of::<EntryNumbers>() == 32
        && size_of::<SettlementNumbers>() == 24
        && size_of::<PendingNumbers>() == 16
        && size_of::<Answer>() == 24
        && offset_of!(Handle, full) == 8
        && offset_of!(Step, line) == 24
        && offset_of!(Step, printed) == 40
        && offset_of!(Step, outcome) == 44
        && offset_of!(State, settled) == 32
        && offset_of!(State, running) == 52
        && offset_of!(State, last) == 56
        && offset_of!(EntryNumbers, trace) == 8
        && offset_of!(EntryNumbers, doubt) == 28
        && offset_of!(SettlementNumbers, has_receipt) == 20
        && offset_of!(PendingNumbers, last_known) == 12
        && offset_of!(Answer, status) == 20
);

/// Version of the struct layouts and calls that this file expects.
const ABI: u32 = 4;

unsafe extern "C" {
    fn zvt_abi() -> u32;
    fn zvt_version(room: *mut u8, room_length: usize) -> usize;
    fn zvt_text(bytes: *const u8, length: usize, room: *mut u8, room_length: usize, answer: *mut Answer) -> usize;
    fn zvt_till_new(till: *mut Handle, password: u32, config: u8, currency: u16) -> u32;
    fn zvt_till_free(till: *mut Handle);
    fn zvt_till_connected(till: *mut Handle) -> u32;
    fn zvt_till_lost(till: *mut Handle, step: *mut Step) -> u32;
    fn zvt_till_order(till: *mut Handle, order: u32, number: u64, out: *mut u8, room: usize, step: *mut Step) -> u32;
    fn zvt_till_ask(till: *mut Handle, out: *mut u8, room: usize, step: *mut Step) -> u32;
    fn zvt_till_settled(till: *mut Handle, place: usize, settlement: *mut SettlementNumbers) -> u32;
    fn zvt_till_pending(till: *mut Handle, pending: *mut PendingNumbers) -> u32;
    fn zvt_till_feed_all(
        till: *mut Handle, piece: *const u8, length: usize, out: *mut u8, room: usize, line: *mut u8, line_length: usize, step: *mut Step,
    ) -> u32;
    fn zvt_till_line(till: *mut Handle, place: usize, codepage: u32, room: *mut u8, room_length: usize, line: *mut LineNumbers) -> u32;
    fn zvt_till_card_name(till: *mut Handle, room: *mut u8, room_length: usize) -> usize;
    fn zvt_till_card_number(till: *mut Handle, room: *mut u8, room_length: usize) -> usize;
    fn zvt_till_state(till: *mut Handle, state: *mut State) -> u32;
    fn zvt_till_entry(till: *mut Handle, place: usize, entry: *mut EntryNumbers) -> u32;
    fn zvt_till_unclear(till: *mut Handle, place: usize, entry: *mut EntryNumbers) -> u32;
    fn zvt_till_save(till: *mut Handle, room: *mut u8, room_length: usize, answer: *mut Answer);
    fn zvt_till_load(till: *mut Handle, bytes: *const u8, length: usize) -> u32;
    fn zvt_till_recover(till: *mut Handle, text: *const u8, length: usize, answer: *mut Answer);
    fn zvt_record_opening(currency: u16, room: *mut u8, room_length: usize, answer: *mut Answer);
    fn zvt_record_order(
        order: u32, number: u64, sent: *const u8, sent_length: usize, at: *const u8, at_length: usize, reference: *const u8,
        reference_length: usize, room: *mut u8, room_length: usize, answer: *mut Answer,
    );
    fn zvt_record_ask(
        at: *const u8, at_length: usize, reference: *const u8, reference_length: usize, room: *mut u8, room_length: usize,
        answer: *mut Answer,
    );
    fn zvt_record_heard(bytes: *const u8, length: usize, room: *mut u8, room_length: usize, answer: *mut Answer) -> usize;
    fn zvt_record_lost(room: *mut u8, room_length: usize, answer: *mut Answer);
    fn zvt_record_notes(till: *mut Handle, text: *const u8, length: usize, room: *mut u8, room_length: usize, answer: *mut Answer);
}

const REFUSED: u32 = 2;
const NO_MEMORY: u32 = 3;
const ARGUMENT: u32 = 5;
/// What `running` of the state is while an ask runs.
const ASK: u32 = 6;

/// The reason why a call was refused: a status of zvt.h other than 0. The call changed nothing.
#[derive(Clone, Copy, Debug, PartialEq, Eq)]
pub enum Refused {
    /// The bytes are not a saved till.
    Bytes,
    NoMemory,
    Argument,
    Stopped,
    Offline,
    NotRegistered,
    Busy,
    NothingToCancel,
    BookFull,
    UnknownEntry,
    AlreadyReversed,
    NoReceipt,
    /// The library does not match this file.
    Library,
    /// A status that these calls do not return.
    Other(u32),
}

impl Refused {
    fn of(status: u32) -> Refused {
        match status {
            REFUSED => Refused::Bytes,
            NO_MEMORY => Refused::NoMemory,
            5 => Refused::Argument,
            7 => Refused::Stopped,
            10 => Refused::Offline,
            11 => Refused::NotRegistered,
            12 => Refused::Busy,
            13 => Refused::NothingToCancel,
            14 => Refused::BookFull,
            15 => Refused::UnknownEntry,
            16 => Refused::AlreadyReversed,
            17 => Refused::NoReceipt,
            status => Refused::Other(status),
        }
    }
}

impl fmt::Display for Refused {
    fn fmt(&self, f: &mut fmt::Formatter<'_>) -> fmt::Result {
        f.write_str(match self {
            Refused::Bytes => "the bytes are no saved till",
            Refused::NoMemory => "memory is wanted",
            Refused::Argument => "a number names nothing",
            Refused::Stopped => "this line brought bytes before that begin no message",
            Refused::Offline => "the line is down",
            Refused::NotRegistered => "the till is not registered",
            Refused::Busy => "an order or an ask runs",
            Refused::NothingToCancel => "no payment runs that could be cancelled",
            Refused::BookFull => "the book is full",
            Refused::UnknownEntry => "no such payment is booked",
            Refused::AlreadyReversed => "the payment is taken back",
            Refused::NoReceipt => "the payment has no receipt number",
            Refused::Library => "the library is not the one that zvt.rs is made for",
            Refused::Other(status) => return write!(f, "status {status}"),
        })
    }
}

impl std::error::Error for Refused {}

fn checked(status: u32) -> Result<(), Refused> {
    if status == 0 { Ok(()) } else { Err(Refused::of(status)) }
}

#[derive(Clone, Copy, Debug, PartialEq, Eq)]
pub enum Order {
    Register,
    /// An amount in the smallest unit of the currency.
    Pay(u64),
    /// Index of the payment in the book, from 0.
    Reverse(u64),
    CloseDay,
    Cancel,
}

impl Order {
    fn numbers(self) -> (u32, u64) {
        match self {
            Order::Register => (1, 0),
            Order::Pay(amount) => (2, amount),
            Order::Reverse(place) => (3, place),
            Order::CloseDay => (4, 0),
            Order::Cancel => (5, 0),
        }
    }
}

/// Why a payment or a reversal is unclear. Check the terminal's journal before you book or refund the amount.
#[derive(Clone, Copy, Debug, PartialEq, Eq)]
pub enum Cause {
    NoStatus,
    Conflict,
    AmountDiffers,
    NoTrace,
    TraceUsed,
    AbortAfterApproval,
    Line,
    Malformed,
    Unfinished,
    WrongCurrency,
    /// A number that zvt.h does not define.
    Other(u32),
}

impl Cause {
    fn of(number: u32) -> Cause {
        match number {
            1 => Cause::NoStatus,
            2 => Cause::Conflict,
            3 => Cause::AmountDiffers,
            4 => Cause::NoTrace,
            5 => Cause::TraceUsed,
            6 => Cause::AbortAfterApproval,
            7 => Cause::Line,
            8 => Cause::Malformed,
            9 => Cause::Unfinished,
            10 => Cause::WrongCurrency,
            number => Cause::Other(number),
        }
    }
}

/// The outcome of an order. Codes are the terminal's.
#[derive(Clone, Copy, Debug, PartialEq, Eq)]
pub enum Outcome {
    Registered,
    Paid { trace: u32, receipt: Option<u16> },
    Declined(u32),
    OrderRefused(u32),
    Aborted(u32),
    Unclear { cause: Cause },
    Reversed,
    DayClosed,
}

fn receipt(numbers: (u32, u32)) -> Option<u16> {
    (numbers.1 == 1).then_some(numbers.0 as u16)
}

impl OutcomeNumbers {
    fn outcome(self) -> Option<Outcome> {
        Some(match self.kind {
            1 => Outcome::Registered,
            2 => Outcome::Paid { trace: self.trace, receipt: receipt((self.receipt, self.has_receipt)) },
            3 => Outcome::Declined(self.code),
            4 => Outcome::OrderRefused(self.code),
            5 => Outcome::Aborted(self.code),
            6 => Outcome::Unclear { cause: Cause::of(self.code) },
            7 => Outcome::Reversed,
            8 => Outcome::DayClosed,
            _ => return None,
        })
    }
}

/// What is in doubt about the reversal of a booked payment.
#[derive(Clone, Copy, Debug, PartialEq, Eq)]
pub enum Doubt {
    No,
    /// The last reversal may have succeeded or not. Reverse the payment again once you are connected: the terminal either
    /// completes the reversal or answers B4, because it had reversed the payment before.
    Unclear(Cause),
    /// The terminal answered a reversal with B4, because it had reversed the payment before. `reversed` stays false.
    TakenBack,
    /// A number that zvt.h does not define.
    Other(u32),
}

impl Doubt {
    fn of(entry: &EntryNumbers) -> Doubt {
        match entry.doubt {
            0 => Doubt::No,
            1 => Doubt::Unclear(Cause::of(entry.cause)),
            2 => Doubt::TakenBack,
            number => Doubt::Other(number),
        }
    }
}

#[derive(Clone, Copy, Debug, PartialEq, Eq)]
pub struct Entry {
    pub amount: u64,
    pub trace: u32,
    pub receipt: Option<u16>,
    /// Whether a reversal of it was completed.
    pub reversed: bool,
    pub doubt: Doubt,
}

#[derive(Clone, Copy, Debug, PartialEq, Eq)]
pub struct Unclear {
    pub amount: u64,
    pub cause: Cause,
    /// The numbers that the terminal named in this payment.
    pub trace: Option<u32>,
    pub receipt: Option<u16>,
}

/// What the answer to an ask says about an unclear order. `Paid` and `NotPaid` have the index of the unclear payment, the others
/// the index of the entry whose reversal is unclear.
#[derive(Clone, Copy, Debug, PartialEq, Eq)]
pub enum Settlement {
    Paid { unclear: usize, trace: u32, receipt: Option<u16> },
    NotPaid { unclear: usize },
    Reversed { entry: usize },
    NotReversed { entry: usize },
    /// A kind that zvt.h does not define.
    Other(u32),
}

impl SettlementNumbers {
    fn settlement(&self) -> Settlement {
        let place = self.place as usize;
        match self.kind {
            1 => Settlement::Paid { unclear: place, trace: self.trace, receipt: receipt((self.receipt, self.has_receipt)) },
            2 => Settlement::NotPaid { unclear: place },
            3 => Settlement::Reversed { entry: place },
            4 => Settlement::NotReversed { entry: place },
            kind => Settlement::Other(kind),
        }
    }
}

/// An unclear order that the next answer can settle.
#[derive(Clone, Copy, Debug, PartialEq, Eq)]
pub enum Pending {
    /// The unclear payment at this index.
    Payment(usize),
    /// The reversal of the entry at this index.
    Reversal(usize),
    /// A kind that zvt.h does not define.
    Other(u32),
}

/// The code page of the lines to print.
#[derive(Clone, Copy, Debug, Default, PartialEq, Eq)]
pub enum Codepage {
    /// The lines stay as they were sent.
    #[default]
    AsSent,
    /// Lines become UTF-8, as with the others.
    Cp437,
    Cp850,
    Iso8859_1,
    Utf8,
}

/// The receipt that a text block belongs to.
#[derive(Clone, Copy, Debug, PartialEq, Eq)]
pub enum ReceiptType {
    Merchant,
    Customer,
    Administration,
    Other(u8),
}

/// A line to print, and the type of its receipt, if the terminal named one.
#[derive(Clone, Debug, PartialEq, Eq)]
pub struct Line {
    pub bytes: Vec<u8>,
    pub receipt_type: Option<ReceiptType>,
}

/// Result of feeding bytes from the terminal. Send `send` whatever `stop` is.
#[derive(Debug, Default, PartialEq, Eq)]
pub struct Reply {
    pub send: Vec<u8>,
    /// The lines to print, of print lines and text blocks, in the code page of [`Till::codepage`].
    pub lines: Vec<Line>,
    /// The outcome of the running order, once it has ended.
    pub outcome: Option<Outcome>,
    pub taken: usize,
    pub stop: Option<Stop>,
}

/// The reason why some bytes were not consumed.
#[derive(Clone, Copy, Debug, PartialEq, Eq)]
pub enum Stop {
    /// They are invalid: close the connection and call [`Till::lost`].
    Malformed,
    /// An allocation failed: feed the remaining bytes again.
    NoMemory,
}

/// A till. It must stay on the thread that created it.
pub struct Till {
    /// The code page of the lines to print.
    pub codepage: Codepage,
    handle: Handle,
    _stays: PhantomData<*mut ()>,
}

impl Drop for Till {
    fn drop(&mut self) {
        // SAFETY: the handle is what the last call left in it.
        unsafe { zvt_till_free(&mut self.handle) }
    }
}

// SAFETY of all calls below: the handle is zeroes or what the last call left in it and is borrowed for the call alone;
// slices and structs are lent for the call, apart from each other, and laid out as zvt.h has them.
impl Till {
    fn closed() -> Result<Till, Refused> {
        if unsafe { zvt_abi() } != ABI {
            return Err(Refused::Library);
        }
        Ok(Till { codepage: Codepage::AsSent, handle: Handle { at: null_mut(), full: 0 }, _stays: PhantomData })
    }

    /// Creates a till with an empty book. The password is a number of up to six digits, the currency a code of ISO 4217 (978 is
    /// the euro), and 0xBE is a usual config byte.
    pub fn new(password: u32, config: u8, currency: u16) -> Result<Till, Refused> {
        let mut till = Till::closed()?;
        checked(unsafe { zvt_till_new(&mut till.handle, password, config, currency) })?;
        Ok(till)
    }

    /// Restores a till from saved bytes. It is not connected.
    pub fn load(saved: &[u8]) -> Result<Till, Refused> {
        let mut till = Till::closed()?;
        checked(unsafe { zvt_till_load(&mut till.handle, saved.as_ptr(), saved.len()) })?;
        Ok(till)
    }

    /// Saves the till as bytes. They describe the till as it would be after losing its connection.
    pub fn save(&mut self) -> Result<Vec<u8>, Refused> {
        let mut bytes = Vec::new();
        loop {
            let mut answer = Answer::default();
            unsafe { zvt_till_save(&mut self.handle, bytes.as_mut_ptr(), bytes.len(), &mut answer) };
            checked(answer.status)?;
            if answer.size as usize == bytes.len() {
                return Ok(bytes);
            }
            bytes.resize(answer.size as usize, 0);
        }
    }

    /// Restores the till of a journal. The text is the file up to its first empty line. The till is not connected.
    pub fn recover(password: u32, config: u8, currency: u16, text: &[u8]) -> Result<Till, NoTill> {
        let mut till = Till::new(password, config, currency).map_err(NoTill::Refused)?;
        let mut answer = Answer::default();
        unsafe { zvt_till_recover(&mut till.handle, text.as_ptr(), text.len(), &mut answer) };
        no_till(&answer)?;
        Ok(till)
    }

    /// Returns the times and references of the payments in the text of a journal, with the settings of this till.
    pub fn notes(&mut self, text: &[u8]) -> Result<Notes, NoTill> {
        let mut lines = Vec::new();
        loop {
            let mut answer = Answer::default();
            let (room, length) = (lines.as_mut_ptr(), lines.len());
            unsafe { zvt_record_notes(&mut self.handle, text.as_ptr(), text.len(), room, length, &mut answer) };
            no_till(&answer)?;
            if answer.size as usize == lines.len() {
                return Ok(Notes::of(&String::from_utf8_lossy(&lines)));
            }
            lines.resize(answer.size as usize, 0);
        }
    }

    /// Tells the till that it is connected.
    pub fn connected(&mut self) -> Result<(), Refused> {
        checked(unsafe { zvt_till_connected(&mut self.handle) })
    }

    /// Tells the till that the connection is lost. Returns the outcome of the running order, if there was one.
    pub fn lost(&mut self) -> Result<Option<Outcome>, Refused> {
        let mut step = Step::default();
        checked(unsafe { zvt_till_lost(&mut self.handle, &mut step) })?;
        Ok(step.outcome.outcome())
    }

    /// Starts an order and returns the bytes to send. Save the till before you send them.
    pub fn order(&mut self, order: Order) -> Result<Vec<u8>, Refused> {
        let (kind, number) = order.numbers();
        let (mut out, mut step) = ([0; ROOM], Step::default());
        checked(unsafe { zvt_till_order(&mut self.handle, kind, number, out.as_mut_ptr(), ROOM, &mut step) })?;
        Ok(out[..step.send as usize].to_vec())
    }

    /// Asks the terminal to repeat its last receipt, and returns the bytes to send. The ask has ended once [`Till::asking`]
    /// returns false; [`Till::settled`] then returns what it settled, if anything.
    pub fn ask(&mut self) -> Result<Vec<u8>, Refused> {
        let (mut out, mut step) = ([0; ROOM], Step::default());
        checked(unsafe { zvt_till_ask(&mut self.handle, out.as_mut_ptr(), ROOM, &mut step) })?;
        Ok(out[..step.send as usize].to_vec())
    }

    /// Reads what the terminal sent, up to the first invalid byte.
    pub fn feed(&mut self, piece: &[u8]) -> Result<Reply, Refused> {
        let (mut reply, mut line) = (Reply::default(), vec![0; LINE_ROOM]);
        while reply.taken < piece.len() && reply.stop.is_none() {
            let (mut out, mut step) = ([0; 8 * ROOM], Step::default());
            let rest = &piece[reply.taken..];
            let (to, room) = (out.as_mut_ptr(), out.len());
            match unsafe { zvt_till_feed_all(&mut self.handle, rest.as_ptr(), rest.len(), to, room, line.as_mut_ptr(), LINE_ROOM, &mut step) } {
                REFUSED => reply.stop = Some(Stop::Malformed),
                NO_MEMORY => reply.stop = Some(Stop::NoMemory),
                status => checked(status)?,
            }
            reply.send.extend_from_slice(&out[..step.send as usize]);
            if step.printed == 1 {
                self.print(&mut line, &mut reply)?;
            }
            reply.outcome = step.outcome.outcome().or(reply.outcome);
            reply.taken += step.taken as usize;
        }
        Ok(reply)
    }

    /// Adds the lines that the last message has to print.
    fn print(&mut self, room: &mut Vec<u8>, reply: &mut Reply) -> Result<(), Refused> {
        let mut place = 0;
        loop {
            let (mut line, codepage) = (LineNumbers::default(), self.codepage as u32);
            match unsafe { zvt_till_line(&mut self.handle, place, codepage, room.as_mut_ptr(), room.len(), &mut line) } {
                ARGUMENT => return Ok(()),
                NO_MEMORY => {
                    reply.stop = Some(Stop::NoMemory);
                    return Ok(());
                }
                status => checked(status)?,
            }
            let size = line.size as usize;
            if size > room.len() {
                room.resize(size, 0);
                continue;
            }
            let receipt_type = match line.copy {
                0 => None,
                1 => Some(ReceiptType::Merchant),
                2 => Some(ReceiptType::Customer),
                3 => Some(ReceiptType::Administration),
                other => Some(ReceiptType::Other(other as u8)),
            };
            reply.lines.push(Line { bytes: room[..size].to_vec(), receipt_type });
            place += 1;
        }
    }

    /// Returns the name of the card of the last order. Empty if the terminal named none.
    pub fn card_name(&mut self) -> String {
        let mut room = [0; CARD_ROOM];
        let size = unsafe { zvt_till_card_name(&mut self.handle, room.as_mut_ptr(), CARD_ROOM) };
        String::from_utf8_lossy(&room[..size]).into_owned()
    }

    /// Returns the number of the card of the last order. All digits but the first six and the last four are asterisks.
    pub fn card_number(&mut self) -> String {
        let mut room = [0; CARD_ROOM];
        let size = unsafe { zvt_till_card_number(&mut self.handle, room.as_mut_ptr(), CARD_ROOM) };
        String::from_utf8_lossy(&room[..size]).into_owned()
    }

    fn state(&mut self) -> Result<State, Refused> {
        let mut state = State::default();
        checked(unsafe { zvt_till_state(&mut self.handle, &mut state) })?;
        Ok(state)
    }

    /// Returns the number of booked payments with an unclear reversal: their `doubt` is [`Doubt::Unclear`].
    pub fn unclear_reversals(&mut self) -> Result<usize, Refused> {
        Ok(self.state()?.unclear_reversals as usize)
    }

    /// Returns whether an ask is running.
    pub fn asking(&mut self) -> Result<bool, Refused> {
        Ok(self.state()?.running == ASK)
    }

    /// Returns what the answers to asks settled, in their order.
    pub fn settled(&mut self) -> Result<Vec<Settlement>, Refused> {
        (0..self.state()?.settled as usize)
            .map(|place| {
                let mut settlement = SettlementNumbers::default();
                checked(unsafe { zvt_till_settled(&mut self.handle, place, &mut settlement) })?;
                Ok(settlement.settlement())
            })
            .collect()
    }

    fn pending_numbers(&mut self) -> Result<PendingNumbers, Refused> {
        let mut pending = PendingNumbers::default();
        checked(unsafe { zvt_till_pending(&mut self.handle, &mut pending) })?;
        Ok(pending)
    }

    /// Returns the unclear order that the next answer can settle, if there is one.
    pub fn pending(&mut self) -> Result<Option<Pending>, Refused> {
        let pending = self.pending_numbers()?;
        Ok(match pending.kind {
            0 => None,
            1 => Some(Pending::Payment(pending.place as usize)),
            2 => Some(Pending::Reversal(pending.place as usize)),
            kind => Some(Pending::Other(kind)),
        })
    }

    /// Returns whether the till knows the terminal's last status. Only then can an order that becomes unclear be settled. Ask
    /// after a registration to make it known.
    pub fn last_known(&mut self) -> Result<bool, Refused> {
        Ok(self.pending_numbers()?.last_known == 1)
    }

    /// Returns the sum of the booked payments without a completed reversal.
    pub fn total(&mut self) -> Result<u64, Refused> {
        Ok(self.state()?.total)
    }

    /// Returns the booked payments.
    pub fn book(&mut self) -> Result<Vec<Entry>, Refused> {
        (0..self.state()?.booked as usize)
            .map(|place| {
                let mut entry = EntryNumbers::default();
                checked(unsafe { zvt_till_entry(&mut self.handle, place, &mut entry) })?;
                let receipt = receipt((entry.receipt, entry.has_receipt));
                let doubt = Doubt::of(&entry);
                Ok(Entry { amount: entry.amount, trace: entry.trace, receipt, reversed: entry.reversed == 1, doubt })
            })
            .collect()
    }

    /// Returns the unclear payments: the terminal may have booked them or not.
    pub fn unclear(&mut self) -> Result<Vec<Unclear>, Refused> {
        (0..self.state()?.unclear as usize)
            .map(|place| {
                let mut entry = EntryNumbers::default();
                checked(unsafe { zvt_till_unclear(&mut self.handle, place, &mut entry) })?;
                let trace = (entry.trace > 0).then_some(entry.trace);
                let receipt = receipt((entry.receipt, entry.has_receipt));
                Ok(Unclear { amount: entry.amount, cause: Cause::of(entry.cause), trace, receipt })
            })
            .collect()
    }
}

/// Returns the version of the library, such as 0.2.0.
pub fn version() -> String {
    let mut room = [0; 32];
    // SAFETY: the room is lent for the call, and the declaration fits zvt.h.
    let size = unsafe { zvt_version(room.as_mut_ptr(), room.len()) };
    String::from_utf8_lossy(&room[..size.min(room.len())]).into_owned()
}

/// The reason why a till can't be restored from a text.
#[derive(Clone, Copy, Debug, PartialEq, Eq)]
pub enum NoTill {
    /// The first line is not the opening of a journal in this currency.
    Opening,
    /// This line, from 1, is not a line of a journal.
    Line(usize),
    /// This record, from 1 after the opening, cannot follow the records before it.
    Record(usize),
    /// The check in this line, from 1, differs from its record: somebody edited the record, or the disk damaged it.
    Check(usize),
    Refused(Refused),
}

fn no_till(answer: &Answer) -> Result<(), NoTill> {
    match (answer.status, answer.reason) {
        (0, _) => Ok(()),
        (REFUSED, 1) => Err(NoTill::Opening),
        (REFUSED, 2) => Err(NoTill::Line(answer.place as usize)),
        (REFUSED, 3) => Err(NoTill::Record(answer.place as usize)),
        (REFUSED, 4) => Err(NoTill::Check(answer.place as usize)),
        (status, _) => Err(NoTill::Refused(Refused::of(status))),
    }
}

/// Returns the text that a call writes to a buffer.
fn record(write: impl Fn(*mut u8, usize, *mut Answer)) -> Result<Vec<u8>, Refused> {
    let (mut room, mut answer) = (vec![0; RECORD_ROOM], Answer::default());
    write(room.as_mut_ptr(), room.len(), &mut answer);
    checked(answer.status)?;
    room.truncate(answer.size as usize);
    Ok(room)
}

/// Returns the first record of a journal.
pub fn record_opening(currency: u16) -> Result<Vec<u8>, Refused> {
    // SAFETY: here and below the room is lent for the call, and the declaration fits zvt.h.
    record(|room, length, answer| unsafe { zvt_record_opening(currency, room, length, answer) })
}

/// What the record of an order or ask says beside it.
#[derive(Clone, Debug, Default, PartialEq, Eq)]
pub struct Note {
    /// Its time in UTC, such as `2026-11-28T09:14:03Z`.
    pub at: Option<String>,
    /// A reference of the caller's: 1 to 40 printable ASCII characters without a space.
    pub reference: Option<String>,
}

impl Note {
    /// Returns the note of an order or ask that is made now.
    pub fn now(reference: Option<&str>) -> Note {
        let seconds = SystemTime::now().duration_since(UNIX_EPOCH).map_or(0, |since| since.as_secs());
        Note { at: Some(utc(seconds)), reference: reference.map(str::to_owned) }
    }
}

/// The notes of a till's payments, in the order of [`Till::book`] and [`Till::unclear`].
#[derive(Clone, Debug, Default, PartialEq, Eq)]
pub struct Notes {
    pub booked: Vec<Note>,
    pub unclear: Vec<Note>,
}

impl Notes {
    /// Reads the lines of `zvt_record_notes`.
    fn of(lines: &str) -> Notes {
        let mut notes = Notes::default();
        for line in lines.lines() {
            let (mut words, mut note) = (line.split(' '), Note::default());
            let rows = if words.next() == Some("booked") { &mut notes.booked } else { &mut notes.unclear };
            while let (Some(key), Some(word)) = (words.next(), words.next()) {
                *(if key == "at" { &mut note.at } else { &mut note.reference }) = Some(word.to_owned());
            }
            rows.push(note);
        }
        notes
    }
}

/// Returns the time that many seconds after the beginning of 1970, in UTC.
fn utc(seconds: u64) -> String {
    let (days, second) = (seconds / 86_400, seconds % 86_400);
    // Years begin with March here, so that a leap day is the last day of its year; an era is 400 of them.
    let shifted = days + 719_468;
    let (era, day_of_era) = (shifted / 146_097, shifted % 146_097);
    let year_of_era = (day_of_era - day_of_era / 1_460 + day_of_era / 36_524 - day_of_era / 146_096) / 365;
    let day_of_year = day_of_era - (365 * year_of_era + year_of_era / 4 - year_of_era / 100);
    let shifted_month = (5 * day_of_year + 2) / 153;
    let day = day_of_year - (153 * shifted_month + 2) / 5 + 1;
    let month = if shifted_month < 10 { shifted_month + 3 } else { shifted_month - 9 };
    let year = era * 400 + year_of_era + u64::from(month <= 2);
    format!("{year:04}-{month:02}-{day:02}T{:02}:{:02}:{:02}Z", second / 3_600, second / 60 % 60, second % 60)
}

/// Returns the record of an order, with the bytes that [`Till::order`] returned. Make it durable before you send them.
pub fn record_order(order: Order, sent: &[u8], note: &Note) -> Result<Vec<u8>, Refused> {
    let (kind, number) = order.numbers();
    let (at, reference) = (note.at.as_deref().unwrap_or(""), note.reference.as_deref().unwrap_or(""));
    record(|room, length, answer| unsafe {
        zvt_record_order(
            kind, number, sent.as_ptr(), sent.len(), at.as_ptr(), at.len(), reference.as_ptr(), reference.len(), room, length, answer,
        )
    })
}

/// Returns the record of an ask. Make it durable before you send the bytes that [`Till::ask`] returned.
pub fn record_ask(note: &Note) -> Result<Vec<u8>, Refused> {
    let (at, reference) = (note.at.as_deref().unwrap_or(""), note.reference.as_deref().unwrap_or(""));
    record(|room, length, answer| unsafe {
        zvt_record_ask(at.as_ptr(), at.len(), reference.as_ptr(), reference.len(), room, length, answer)
    })
}

/// Returns the record of a lost connection. Make it durable before [`Till::connected`].
pub fn record_lost() -> Result<Vec<u8>, Refused> {
    record(|room, length, answer| unsafe { zvt_record_lost(room, length, answer) })
}

/// Returns the record of the first message and the message's size. Make the record durable before you feed the message.
pub fn record_heard(bytes: &[u8]) -> Result<(Vec<u8>, usize), NoText> {
    let (mut room, mut answer) = (vec![0; RECORD_ROOM], Answer::default());
    // SAFETY: both slices are lent for the call and apart, and the declaration fits zvt.h.
    let size = unsafe { zvt_record_heard(bytes.as_ptr(), bytes.len(), room.as_mut_ptr(), room.len(), &mut answer) };
    no_text(&answer)?;
    room.truncate(size);
    Ok((room, answer.size as usize))
}

/// The reason why there is no text: the message is incomplete, a byte is invalid, or an allocation failed.
#[derive(Clone, Copy, Debug, PartialEq, Eq)]
pub enum NoText {
    More,
    RefusedAt { place: usize, reason: u32 },
    Memory,
}

fn no_text(answer: &Answer) -> Result<(), NoText> {
    match answer.status {
        0 => Ok(()),
        1 => Err(NoText::More),
        REFUSED => Err(NoText::RefusedAt { place: answer.place as usize, reason: answer.reason }),
        _ => Err(NoText::Memory),
    }
}

/// Returns the text of the first message, and the message's size in bytes.
pub fn text(bytes: &[u8]) -> Result<(String, usize), NoText> {
    let mut room = vec![0; 256];
    loop {
        let mut answer = Answer::default();
        // SAFETY: both slices are lent for the call and apart, and the declaration fits zvt.h.
        let size = unsafe { zvt_text(bytes.as_ptr(), bytes.len(), room.as_mut_ptr(), room.len(), &mut answer) };
        no_text(&answer)?;
        if size <= room.len() {
            room.truncate(size);
            return Ok((String::from_utf8_lossy(&room).into_owned(), answer.size as usize));
        }
        room.resize(size, 0);
    }
}
