//! A board's main loop in Rust, with motors that do at once what they are told: a start under a boot number that outlasts
//! power cuts, an order and the same one again, the red button, a local recovery, and the mains cut during a move. Prints
//! what examples/board.c prints; with the name of a file, receipts go onto that as a memory card.

use rolthai::card::{self, Entry, HEAD_BYTES, PAST_END, RECORD_BYTES, UNSOUND};
use rolthai::profile::{CAPABILITIES, DRIVE, ESTOP};
use rolthai::{
    Action, Answer, Answered, Config, Driver, DriverError, EstopSignal, Item, LeaseRequest,
    Observation, Reason, Receipt, Refused, Stage, WORDS,
};
use std::env;
use std::ffi::OsStr;
use std::fs::{File, OpenOptions};
use std::io::{Read, Seek, SeekFrom, Write};
use std::ops::RangeInclusive;
use std::process::ExitCode;

/// The red button's interrupt raises it.
static BUTTON: EstopSignal = EstopSignal::new();

// the boot number: two slots of a memory that keeps them (docs/HOST.md) -----------------------------------------------------

#[derive(Clone, Copy, Default)]
struct Slot {
    number: u64,
    check: u64,
}

impl Slot {
    fn of(number: u64) -> Self {
        let check = (!number).wrapping_mul(0x9e37_79b9_7f4a_7c15); // on a board, a CRC
        Self { number, check }
    }

    fn kept(self) -> Option<u64> {
        (self.check == Self::of(self.number).check && self.number > 0).then_some(self.number)
    }
}

/// The number of this life, once it is kept.
fn next_boot_number(slots: &mut [Slot; 2]) -> Option<u64> {
    let newest = usize::from(slots[0].kept() <= slots[1].kept());
    let other = 1 - newest;
    let number = slots[newest].kept()?.checked_add(1)?;
    slots[other] = Slot::of(number); // on a board: written to the memory, and read back from it
    println!("boot number {number}, kept in slot {other}");
    slots[other].kept().filter(|kept| *kept == number)
}

// the memory card (docs/CARD.md) -------------------------------------------------------------------------------------------

const FRAME: usize = 3; // the bytes of a record around its body
const BODIES: RangeInclusive<usize> = 4..=RECORD_BYTES - FRAME;
const MOST_BYTES: usize = 255 + FRAME; // that a record can seem to have, by its length byte

/// Why the card cannot be used, and the byte.
struct Trouble(&'static str, u64);

struct Card(File);

impl Card {
    /// What there is from a place on, up to n bytes. A failed read must not pass for the card's end: the card is cut there.
    fn get(&self, at: u64, n: usize) -> Result<Vec<u8>, Trouble> {
        let mut bytes = Vec::new();
        let found = (&self.0).seek(SeekFrom::Start(at));
        let read = found.and_then(|_| (&self.0).take(n as u64).read_to_end(&mut bytes));
        read.map(|_| bytes)
            .map_err(|_| Trouble("cannot be read", at))
    }

    /// Adds bytes at the end, and onto the medium.
    fn put(&self, bytes: &[u8]) -> Result<(), Trouble> {
        let at = (&self.0).seek(SeekFrom::End(0)).unwrap_or_default();
        let done = (&self.0).write_all(bytes).and_then(|()| self.0.sync_all());
        done.map_err(|_| Trouble("cannot be written", at))
    }

    fn put_receipt(&self, receipt: &Receipt) -> Result<(), Trouble> {
        let mut record = [0; RECORD_BYTES];
        let n = card::write(receipt, &mut record).expect("room for the longest record");
        self.put(&record[..n])
    }

    fn cut_to(&self, at: u64) -> Result<(), Trouble> {
        let done = self.0.set_len(at).and_then(|()| self.0.sync_all());
        done.map_err(|_| Trouble("cannot be cut", at))
    }

    /// A new card gets its head, and so does one that was cut inside of it.
    fn open_head(&self) -> Result<(), Trouble> {
        let there = self.get(0, HEAD_BYTES)?;
        if card::has_head(&there) {
            return Ok(());
        }
        let mut head = [0; HEAD_BYTES];
        card::head(&mut head).expect("room for the head");
        if there.len() == HEAD_BYTES || !head.starts_with(&there) {
            return Err(Trouble("this is no card; it is left as it is", 0));
        }
        self.cut_to(0)?;
        self.put(&head)
    }

    /// What stands at a place, and how many bytes. A card may be longer than memory, so only the record is lent, behind as
    /// many bytes as the head has: at places below that the reader tests the head.
    fn look(&self, at: u64) -> Result<(Entry, u64), Trouble> {
        let lent = [vec![0; HEAD_BYTES], self.get(at, MOST_BYTES)?].concat();
        let there = (lent.len() - HEAD_BYTES) as u64;
        Ok(match card::read(&lent, HEAD_BYTES) {
            Entry::Refused(PAST_END) if !is_short(&lent) => (Entry::Refused(UNSOUND), there),
            Entry::Receipt(receipt, next) => {
                (Entry::Receipt(receipt, next), (next - HEAD_BYTES) as u64)
            }
            entry => (entry, there),
        })
    }

    /// Goes to the end of the card. A short record there was left by a power cut: it is dropped, else readers stop at it.
    fn open(name: &OsStr) -> Result<Self, Trouble> {
        let mut options = OpenOptions::new();
        options.read(true).append(true).create(true); // what is written goes to the end
        let file = options.open(name);
        let card = Self(file.map_err(|_| Trouble("cannot be opened", 0))?);
        card.open_head()?;
        let mut at = HEAD_BYTES as u64;
        loop {
            match card.look(at)? {
                (Entry::Receipt(..), n) => at += n,
                (Entry::End, _) => return Ok(card),
                (Entry::Refused(PAST_END), n) => {
                    println!("card: {n} bytes of a short record, from byte {at} on, are dropped");
                    return card.cut_to(at).map(|()| card);
                }
                _ => {
                    let why = "the record is not sound; the card is left as it is";
                    return Err(Trouble(why, at));
                }
            }
        }
    }
}

/// A record that ends past the card was cut short if its length byte is one that a record has, and no sound record begins
/// behind it: then that byte is another than was written, and what it hides is not to be dropped.
fn is_short(lent: &[u8]) -> bool {
    let mut behind = HEAD_BYTES + 1..lent.len();
    let hides = behind.any(|at| matches!(card::read(lent, at), Entry::Receipt(..)));
    BODIES.contains(&lent[HEAD_BYTES].into()) && !hides
}

/// Where receipts go.
enum Receipts {
    Nowhere, // no card was named
    Onto(Card),
    /// The card failed. No lease and no order is passed on then; all else is.
    Lost,
}

impl Receipts {
    /// Nothing ends here: the call in hand may be a stop, and has further axes to bring to rest.
    fn fail(&mut self, Trouble(why, at): Trouble) {
        eprintln!("card, byte {at}: {why}");
        *self = Self::Lost;
    }

    fn open(&mut self, name: &OsStr) {
        match Card::open(name) {
            Ok(card) => *self = Self::Onto(card),
            Err(trouble) => self.fail(trouble),
        }
    }

    fn put(&mut self, receipt: &Receipt) {
        if let Self::Onto(card) = self {
            if let Err(trouble) = card.put_receipt(receipt) {
                self.fail(trouble);
            }
        }
    }

    const fn are_kept(&self) -> bool {
        !matches!(self, Self::Lost)
    }
}

// the driver ---------------------------------------------------------------------------------------------------------------

struct Motors<'a> {
    speed: [i32; 2], // of the one axis there is
    receipts: &'a mut Receipts,
}

impl Driver for Motors<'_> {
    fn observe(&mut self, axis: u8) -> Result<Observation, DriverError> {
        println!("           observe axis {axis}");
        let (parameters, state) = (self.speed, 0);
        Ok(Observation { parameters, state })
    }

    fn execute(&mut self, capability: u16, parameters: [i32; 2]) -> Result<(), DriverError> {
        self.speed = parameters;
        let [first, second] = parameters;
        println!("           EXECUTE {capability} ({first}, {second})");
        Ok(())
    }

    fn fallback(&mut self, axis: u8, reason: Reason) -> Result<(), DriverError> {
        self.speed = [0, 0];
        let reason = reason.number();
        println!("           fall back axis {axis}, reason {reason}");
        Ok(())
    }

    fn record_receipt(&mut self, receipt: &Receipt) {
        self.receipts.put(receipt); // before the reply, and so before anything else is done
        let (id, reason) = (receipt.receipt_id, receipt.reason.number());
        println!("           record {id}, reason {reason}");
    }
}

// the loop -----------------------------------------------------------------------------------------------------------------

/// The items of a call, until it is answered. What has none and nothing to tell is not printed.
fn settle(stage: &mut Stage, motors: &mut Motors, now: u64, what: &str, first: Answered) {
    if matches!(first, Ok(Answer::Returned | Answer::Unraised)) {
        return;
    }
    println!("{now:4} ms  {what}");
    let told = match stage.settle(first, motors) {
        Ok(Answer::Leased(lease)) => format!("lease {} until {}; ", lease.id, lease.expires_at),
        Ok(Answer::Submitted(receipt)) => {
            let decision = receipt.decision.number();
            format!("receipt {}, decision {decision}; ", receipt.receipt_id)
        }
        Ok(_) => String::new(),
        Err(Refused::Reason(reason)) => format!("refused, reason {}; ", reason.number()),
        Err(refused) => format!("{refused:?}; "),
    };
    let seen = stage.snapshot().map(|s| (s.state.number(), s.epoch));
    let (state, epoch) = seen.unwrap_or_default();
    println!("         = {told}state {state}, epoch {epoch}");
}

struct Board<'a> {
    stage: Stage<'a>,
    motors: Motors<'a>,
}

impl<'a> Board<'a> {
    /// DRIVE and STOP of 01's profile, both on axis 0.
    fn start(
        words: &'a mut [u64; WORDS],
        slots: &mut [Slot; 2],
        receipts: &'a mut Receipts,
    ) -> Self {
        let (stage, speed) = (Stage::lend(words), [0, 0]);
        let motors = Motors { speed, receipts };
        let mut board = Self { stage, motors };
        let number = next_boot_number(slots).unwrap_or(0); // which a start refuses
        board.call(0, "start", |stage| {
            stage.start(&Config::default(), &CAPABILITIES[..2], number, 0, 0)
        });
        board
    }

    fn call(&mut self, now: u64, what: &str, ask: impl FnOnce(&mut Stage) -> Answered) {
        let first = ask(&mut self.stage);
        settle(&mut self.stage, &mut self.motors, now, what, first);
    }

    /// One round of the main loop: the button, then the sensors, which is a tick, too.
    fn serve(&mut self, now: u64, flags: u32) {
        self.call(now, "poll", |stage| stage.poll_estop(BUTTON.raised(), now));
        self.call(now, "update", |stage| stage.update_state(flags, now));
    }

    /// A board that cannot keep receipts begins no work; it goes on to serve the button and the sensors.
    fn may(&self, now: u64, what: &str) -> bool {
        let may = self.motors.receipts.are_kept();
        if !may {
            println!("{now:4} ms  {what}: not passed on, the card failed");
        }
        may
    }

    /// Owner 7 asks for axis 0.
    fn acquire(&mut self, now: u64) {
        if !self.may(now, "acquire") {
            return;
        }
        let request = LeaseRequest {
            owner: 7,
            resource: 0,
            capabilities: 6, // 1 and 2
            duration_ms: 2000,
            limits: CAPABILITIES[0].bounds,
        };
        self.call(now, "acquire", |stage| stage.acquire(&request, now));
    }

    /// Owner 7 orders a drive, in the epoch that it reads.
    fn drive(&self, now: u64, boot_id: u64, lease_id: u64, action_id: u64) -> Action {
        Action {
            boot_id,
            requester: 7,
            lease_id,
            action_id,
            sequence: 1,
            capability: DRIVE,
            based_on_epoch: self.stage.epoch().unwrap_or(0),
            execute_after: 0,
            deadline: now + 100,
            valid_for_ms: 100,
            parameters: [300, -50],
        }
    }

    fn submit(&mut self, now: u64, boot_id: u64, lease_id: u64, action_id: u64) {
        if !self.may(now, "submit") {
            return;
        }
        let order = self.drive(now, boot_id, lease_id, action_id);
        self.call(now, "submit", |stage| stage.submit(&order, 7, now, now));
    }

    /// .. but the mains are cut during the move: its reply never comes.
    fn submit_and_cut(mut self, now: u64, boot_id: u64, lease_id: u64, action_id: u64) {
        if !self.may(now, "submit") {
            return;
        }
        println!("{now:4} ms  submit");
        let order = self.drive(now, boot_id, lease_id, action_id);
        let mut answer = self.stage.submit(&order, 7, now, now);
        if let Ok(Answer::Item(Item::Observe { axis })) = answer {
            answer = self.stage.observed(self.motors.observe(axis));
        }
        if let Ok(Answer::Item(Item::Execute { parameters, .. })) = answer {
            let _ = self.motors.execute(DRIVE, parameters);
        }
    }
}

fn main() -> ExitCode {
    let mut receipts = Receipts::Nowhere;
    let mut words = [0; WORDS];
    let mut slots = [Slot::of(41), Slot::default()]; // of the life before
    let mut board = Board::start(&mut words, &mut slots, &mut receipts);
    if let Some(name) = env::args_os().nth(1) {
        board.motors.receipts.open(&name); // once the axes are at rest, whatever the card is; a start hands out no receipt
    }
    board.acquire(0);
    board.submit(10, 42, 1, 1);
    board.submit(20, 42, 1, 1); // the PC sends it again
    board.serve(40, 0);
    println!("the red button is pressed");
    BUTTON.raise();
    board.serve(80, ESTOP);
    board.call(90, "recover", |stage| stage.recover_local(90));
    println!("the red button is pulled out");
    board.serve(120, 0);
    board.call(130, "recover", |stage| stage.recover_local(130));
    board.acquire(140);
    board.submit_and_cut(150, 42, 2, 2);
    println!("the mains are cut, then once more while a boot number is written");
    words.fill(0x5a5a_5a5a_5a5a_5a5a);
    slots[0].number = 43; // without its checksum
    let mut board = Board::start(&mut words, &mut slots, &mut receipts);
    board.acquire(0);
    board.submit(10, 42, 1, 2); // the PC sends the order of the life before
    board.submit(20, 43, 1, 2); // .. and one of this life
    match receipts.are_kept() {
        true => ExitCode::SUCCESS,
        false => ExitCode::FAILURE,
    }
}
