//! An engine that goes record by record over lent words, or by the functions that the records
//! stand for, and looks at the words on the way. Where it sees something wrong, it writes no
//! output record.

use crate::batch::Run;
use crate::engine::Engine;
use crate::format::layout::{InputKind, OutputKind};
use crate::format::word::{get_words, put_words};
use crate::format::{show, Input, InputWords, Output, OutputWords};
use crate::format::{INPUT_BYTES, INPUT_WORDS, OUTPUT_BYTES, OUTPUT_WORDS};
use crate::host::{plain, Asked, Host, Told, CAPABILITY_FIELDS, FIRST, START_FIELDS, STATE_WORDS};
use crate::host::{ITEM, MALFORMED, OTHER, OTHER_RECORD, SHORT};
use crate::weave::plain_readings;
use definitions::turns::Reading;
use oracle::prng::Prng;
use oracle::runtime_core::{MAX_CAPABILITIES, MAX_RESOURCES};
use std::fmt;
use std::sync::atomic::{AtomicU64, Ordering};
use std::sync::Arc;

/// One start in so many is made by `rolthai_new`, and its life by the functions of its calls.
const BY_FUNCTIONS_EVERY: u64 = 3;

/// In an input of more records than that, the words are looked at after one in so many.
const LONG: usize = 20_000;
const LONG_EVERY: usize = 64;

/// How many receipts are kept at most.
const RECEIPTS: u64 = 64;

/// What stands in a slice before it is written to, and in the words before they are cleared.
const UNTOUCHED: u64 = 0xA5A5_A5A5_A5A5_A5A5;

/// Words of an output slice that are not to be written.
const SPARE: usize = 2;

/// Stands where something is wrong with an answer: no output record.
const WRONG: OutputWords = {
    let mut words = [0; OUTPUT_WORDS];
    words[0] = u64::MAX;
    words
};

/// What was looked at, by all engines that share it; of more lives than are counted, where a
/// thread was ahead of the others.
#[derive(Debug, Default)]
pub struct Tally {
    pub by_record: AtomicU64,
    pub by_function: AtomicU64,
    pub starts: AtomicU64,
    pub readings: AtomicU64,
    pub items: AtomicU64,
    pub left: AtomicU64,
    pub turned_away: AtomicU64,
}

impl Tally {
    fn rows(&self) -> [(&'static str, &AtomicU64); 7] {
        [
            ("answers by rolthai_step", &self.by_record),
            ("answers by the calls' functions", &self.by_function),
            ("starts by rolthai_new", &self.starts),
            ("readings by name and by record", &self.readings),
            ("items looked at", &self.items),
            ("answers that leave every word", &self.left),
            ("bad slices that leave every word", &self.turned_away),
        ]
    }
}

impl fmt::Display for Tally {
    fn fmt(&self, f: &mut fmt::Formatter<'_>) -> fmt::Result {
        for (name, count) in self.rows() {
            let count = count.load(Ordering::Relaxed);
            let mark = if count == 0 { "  HOLE" } else { "" };
            writeln!(f, "  {name:<34} {count:>12}{mark}")?;
        }
        Ok(())
    }
}

fn count(counter: &AtomicU64) {
    counter.fetch_add(1, Ordering::Relaxed);
}

/// Steps lives over words that it lends.
pub struct Stepping {
    host: Box<dyn Host>,
    /// Runs the same input whole, and has to answer the same.
    whole: Option<Box<dyn Engine>>,
    tally: Arc<Tally>,
    state: Vec<u64>,
    /// The words before a record, and those that readings and bad slices are tried on.
    before: Vec<u64>,
    copy: Vec<u64>,
    /// The words of the capabilities for the next start by function.
    listed: Vec<u64>,
    /// The item whose reply is awaited.
    awaited: Option<OutputWords>,
    complaint: Option<String>,
}

/// Or what is wrong.
type Seen<T> = Result<T, String>;

impl Engine for Stepping {
    fn run(&mut self, input: &[u8], output: &mut [u8]) -> usize {
        self.complaint = None;
        let written = self.go(input, output);
        self.beside(input, output, written)
    }

    fn complaint(&self) -> Option<&str> {
        self.complaint.as_deref()
    }
}

impl Stepping {
    pub fn new(host: Box<dyn Host>, whole: Option<Box<dyn Engine>>, tally: Arc<Tally>) -> Self {
        let words = || vec![UNTOUCHED; STATE_WORDS];
        Self {
            host,
            whole,
            tally,
            state: words(),
            before: words(),
            copy: words(),
            listed: Vec::new(),
            awaited: None,
            complaint: None,
        }
    }

    /// The record to write where something is wrong; the first complaint is kept.
    fn wrong(&mut self, why: String) -> OutputWords {
        self.complaint.get_or_insert(why);
        WRONG
    }

    /// The bytes written.
    fn go(&mut self, input: &[u8], output: &mut [u8]) -> usize {
        if let Err(why) = self.clear() {
            self.wrong(why);
            return 0;
        }
        let ways = by_function(input);
        let mut written = 0;
        for (n, record) in input.chunks(INPUT_BYTES).enumerate() {
            let Some(room) = output.get_mut(written..written + OUTPUT_BYTES) else {
                break;
            };
            let answer = if record.len() < INPUT_BYTES {
                self.short(record.len())
            } else {
                let looks = ways.len() <= LONG || n.is_multiple_of(LONG_EVERY);
                self.record(n, &get_words(record), ways[n], looks)
            };
            let answer = answer.unwrap_or_else(|why| self.wrong(why));
            write(&answer, room);
            written += OUTPUT_BYTES;
        }
        written
    }

    /// Holds what was written against the whole run, record by record.
    fn beside(&mut self, input: &[u8], output: &mut [u8], written: usize) -> usize {
        let Some(whole) = self.whole.as_mut() else {
            return written;
        };
        let run = Run::of(whole.as_mut(), input, output.len());
        for (n, room) in output[..written].chunks_mut(OUTPUT_BYTES).enumerate() {
            let stepped: OutputWords = get_words(room);
            let got = run.record(n);
            if stepped != WRONG && got != Some(stepped) {
                let whole = got.map_or("nothing".into(), |words| show::output(&words));
                let stepped = show::output(&stepped);
                let wrong = self.wrong(format!("answered: {stepped}; run whole: {whole}"));
                write(&wrong, room);
            }
        }
        if run.written != written {
            self.wrong(format!("run whole, {} bytes are written", run.written));
        }
        // Too many bytes are a difference, too.
        written.max(run.written)
    }

    /// Nothing of an earlier input is left.
    fn clear(&mut self) -> Seen<()> {
        self.listed.clear();
        self.awaited = None;
        self.state.fill(UNTOUCHED);
        match self.host.ask(&mut self.state, &Asked::Clear) {
            0 => self.is_kept(),
            number => Err(format!("rolthai_clear answers {number}")),
        }
    }

    fn is_kept(&self) -> Seen<()> {
        match self.state[0] {
            FIRST => Ok(()),
            other => Err(format!("the first word is {other}")),
        }
    }

    /// Words that do not fill a record.
    fn short(&mut self, bytes: usize) -> Seen<OutputWords> {
        let record = [0; INPUT_WORDS];
        let few = &record[..bytes / 8];
        self.before.copy_from_slice(&self.state);
        let mut out = [UNTOUCHED; OUTPUT_WORDS];
        let number = self.host.step(&mut self.state, few, &mut out);
        self.is_left(|| "a short record".into())?;
        if number != OTHER_RECORD || out != [UNTOUCHED; OUTPUT_WORDS] {
            return Err(format!("a short record is answered {number}"));
        }
        Ok(Output::Short.words())
    }

    fn record(&mut self, n: usize, words: &InputWords, by: bool, looks: bool) -> Seen<OutputWords> {
        self.before.copy_from_slice(&self.state);
        let got = match by {
            true => self.by_function(n, words)?,
            false => self.by_record(words)?,
        };
        self.is_kept()?;
        self.learn(&got);
        if leaves(&got) {
            count(&self.tally.left);
            self.is_left(|| show::brief_input(words))?;
        }
        if looks {
            let mut rng = Prng::new(n as u64, words[0]);
            self.item()?;
            self.readings(&mut rng)?;
            self.turned_away(&mut rng)?;
        }
        Ok(got)
    }

    /// That the last answer left every word.
    fn is_left(&self, what: impl FnOnce() -> String) -> Seen<()> {
        same(&self.before, &self.state, what)
    }

    fn learn(&mut self, got: &OutputWords) {
        match OutputKind::of(got[0]) {
            Some(kind) if is_item(kind) => {
                let mut item = *got;
                item[1] = 0;
                self.awaited = Some(item);
            }
            Some(
                OutputKind::Started
                | OutputKind::StartRefused
                | OutputKind::Returned
                | OutputKind::Polled
                | OutputKind::Succeeded
                | OutputKind::Leased
                | OutputKind::Refused
                | OutputKind::Settled,
            ) => self.awaited = None,
            _ => {}
        }
    }

    // answers ------------------------------------------------------------------------------------

    fn by_record(&mut self, words: &InputWords) -> Seen<OutputWords> {
        count(&self.tally.by_record);
        stepped(self.host.as_mut(), &mut self.state, words)
    }

    fn by_function(&mut self, n: usize, words: &InputWords) -> Seen<OutputWords> {
        match Input::of(words) {
            Input::Capability(_) => {
                self.listed.extend_from_slice(&words[1..=CAPABILITY_FIELDS]);
                // What is listed by records is forgotten by `rolthai_new`.
                if n.is_multiple_of(2) {
                    self.by_record(words)
                } else {
                    Ok(Output::Listed.words())
                }
            }
            Input::Start(_) => {
                count(&self.tally.starts);
                let capabilities = std::mem::take(&mut self.listed);
                let start = &words[1..=START_FIELDS];
                self.answer(&Asked::New {
                    start,
                    capabilities: &capabilities,
                })
            }
            _ => match Asked::of(words) {
                Some(asked) => {
                    count(&self.tally.by_function);
                    self.answer(&asked)
                }
                None => self.by_record(words),
            },
        }
    }

    /// What a function answers, as the record that says the same.
    fn answer(&mut self, asked: &Asked<'_>) -> Seen<OutputWords> {
        let number = self.host.ask(&mut self.state, asked);
        if let Some(words) = plain(number) {
            return Ok(words);
        }
        match number {
            ITEM | 111 | 113 => {
                let mut words = self.told(Told::Item)?;
                if !OutputKind::of(words[0]).is_some_and(is_item) {
                    let item = show::output(&words);
                    return Err(format!("answered {number}, but rolthai_item tells: {item}"));
                }
                words[1] = if number == ITEM { 0 } else { number.into() };
                Ok(words)
            }
            35 => self.told(Told::AnsweredLease),
            36 => {
                let mut words = [0; OUTPUT_WORDS];
                words[0] = number.into();
                words[1] = self.host.refusal(&self.state).into();
                Ok(words)
            }
            37 => self.told(Told::AnsweredReceipt),
            _ => Err(format!("{asked:?} answers {number}")),
        }
    }

    fn told(&mut self, told: Told) -> Seen<OutputWords> {
        let mut out = [UNTOUCHED; OUTPUT_WORDS + SPARE];
        let number = self.host.tell(&self.state, told, &mut out);
        given(number, &out).map_err(|why| format!("{told:?}: {why}"))
    }

    // what is looked at on the way ---------------------------------------------------------------

    fn item(&mut self) -> Seen<()> {
        count(&self.tally.items);
        let demanded = self.awaited.unwrap_or_else(|| Output::Unawaited.words());
        let got = self.told(Told::Item)?;
        agree("rolthai_item tells", &got, &demanded)
    }

    /// Each reading by its name and by its record, on a copy that the records leave as it is.
    fn readings(&mut self, rng: &mut Prng) -> Seen<()> {
        self.copy.copy_from_slice(&self.state);
        self.before.copy_from_slice(&self.state);
        let axes = (0..=MAX_RESOURCES as u64).chain([u8::MAX.into()]);
        let others = [
            Reading::Capability(rng.range(0, MAX_CAPABILITIES as u64)),
            Reading::Receipt(0),
            Reading::Receipt(rng.range(0, RECEIPTS)),
            Reading::Receipt(rng.draw()),
        ];
        let all = plain_readings()
            .chain(axes.map(Reading::Lease))
            .chain(others);
        for reading in all {
            count(&self.tally.readings);
            let named = self.told(Told::Reading(reading))?;
            let record = Input::Read(reading).words();
            let by_record = stepped(self.host.as_mut(), &mut self.copy, &record)?;
            agree(
                &format!("{reading:?} by its name tells"),
                &named,
                &by_record,
            )?;
        }
        same(&self.state, &self.copy, || "a reading by its record".into())?;
        self.is_left(|| "a reading by its name".into())
    }

    /// Slices that are not as they have to be.
    fn turned_away(&mut self, rng: &mut Prng) -> Seen<()> {
        count(&self.tally.turned_away);
        self.copy.copy_from_slice(&self.state);
        let mut out = [UNTOUCHED; OUTPUT_WORDS];
        let few = rng.index(STATE_WORDS);
        let few = rng.one_of([0, 1, STATE_WORDS - 1, few]);
        let little = rng.one_of([0, 1, OUTPUT_WORDS - 1]);
        let record = [InputKind::Tick.number(); INPUT_WORDS + 1];
        let host = self.host.as_mut();
        let (what, demanded, number) = match rng.below(6) {
            0 => {
                // One word too many, or too few.
                self.copy.push(UNTOUCHED);
                let few = if rng.below(4) == 0 {
                    STATE_WORDS + 1
                } else {
                    few
                };
                let few_words = &mut self.copy[..few];
                let (name, number) = match rng.below(8) {
                    0 => ("rolthai_clear".into(), host.ask(few_words, &Asked::Clear)),
                    1 => ("rolthai_new".into(), host.ask(few_words, &NEW)),
                    _ => any(host, rng, few_words, &mut out),
                };
                let behind = self.copy.pop();
                if behind != Some(UNTOUCHED) {
                    return Err(format!("{name}: a word behind the state is written"));
                }
                (format!("{name} of {few} words"), SHORT, number)
            }
            1 => {
                let first = self.copy[0];
                self.copy[0] = rng.one_of([0, FIRST + 1, FIRST - 1, FIRST ^ (1 << 63)]);
                let (name, number) = any(host, rng, &mut self.copy, &mut out);
                self.copy[0] = first;
                (format!("{name} with another first word"), OTHER, number)
            }
            2 => {
                let length = rng.one_of([0, 1, INPUT_WORDS - 1, INPUT_WORDS + 1]);
                let number = host.step(&mut self.copy, &record[..length], &mut out);
                (format!("a record of {length} words"), OTHER_RECORD, number)
            }
            3 => {
                let record = &record[..INPUT_WORDS];
                let number = host.step(&mut self.copy, record, &mut out[..little]);
                (format!("a record with room for {little}"), SHORT, number)
            }
            4 => {
                let told = a_told(rng);
                let number = host.tell(&self.copy, told, &mut out[..little]);
                (format!("{told:?} with room for {little}"), SHORT, number)
            }
            _ => {
                let record = malformed_slices(rng);
                let asked = record.asked();
                let number = host.ask(&mut self.copy, &asked);
                (format!("{asked:?}"), MALFORMED, number)
            }
        };
        if number != demanded {
            return Err(format!("{what}: answered {number}, not {demanded}"));
        }
        if out != [UNTOUCHED; OUTPUT_WORDS] {
            return Err(format!("{what}: the output slice is written to"));
        }
        same(&self.state, &self.copy, || what)
    }
}

fn write(words: &OutputWords, room: &mut [u8]) {
    let mut bytes = Vec::with_capacity(OUTPUT_BYTES);
    put_words(words, &mut bytes);
    room.copy_from_slice(&bytes);
}

/// For each record whether it is taken by functions: those of a life by its own start, the
/// capabilities by the start that they are for.
fn by_function(input: &[u8]) -> Vec<bool> {
    let records = input.chunks_exact(INPUT_BYTES);
    let records: Vec<InputWords> = records.map(get_words).collect();
    let starts = |words: &InputWords| {
        let is_start = matches!(Input::of(words), Input::Start(_));
        is_start.then(|| Prng::new(words[1], words[2]).below(BY_FUNCTIONS_EVERY) == 0)
    };
    let mut ways = vec![false; records.len()];
    let mut way = false;
    for (words, own) in records.iter().zip(&mut ways) {
        way = starts(words).unwrap_or(way);
        *own = way;
    }
    let mut next = false;
    for (words, own) in records.iter().zip(&mut ways).rev() {
        next = starts(words).unwrap_or(next);
        if words[0] == InputKind::Capability.number() {
            *own = next;
        }
    }
    ways
}

const fn is_item(kind: OutputKind) -> bool {
    matches!(
        kind,
        OutputKind::Observe | OutputKind::Execute | OutputKind::Fallback | OutputKind::Record
    )
}

/// Whether an answer says that nothing was altered.
fn leaves(got: &OutputWords) -> bool {
    match OutputKind::of(got[0]) {
        Some(OutputKind::NoRuntime | OutputKind::Unawaited) => true,
        Some(kind) if is_item(kind) => got[1] != 0,
        Some(kind) => kind.number() >= OutputKind::State.number(),
        None => false,
    }
}

fn stepped(host: &mut dyn Host, state: &mut [u64], record: &[u64]) -> Seen<OutputWords> {
    let mut out = [UNTOUCHED; OUTPUT_WORDS + SPARE];
    let number = host.step(state, record, &mut out);
    given(number, &out).map_err(|why| format!("rolthai_step: {why}"))
}

/// What was written, and nothing behind it.
fn given(number: u32, out: &[u64; OUTPUT_WORDS + SPARE]) -> Seen<OutputWords> {
    let mut words = [0; OUTPUT_WORDS];
    words.copy_from_slice(&out[..OUTPUT_WORDS]);
    if out[OUTPUT_WORDS..] != [UNTOUCHED; SPARE] {
        return Err("words behind the record are written".into());
    }
    if u64::from(number) != words[0] {
        let shown = show::output(&words);
        return Err(format!("answered {number}, and written is: {shown}"));
    }
    Ok(words)
}

fn agree(what: &str, got: &OutputWords, demanded: &OutputWords) -> Seen<()> {
    if got == demanded {
        return Ok(());
    }
    let (got, demanded) = (show::output(got), show::output(demanded));
    Err(format!("{what}: {got}; it has to be: {demanded}"))
}

fn same(before: &[u64], after: &[u64], what: impl FnOnce() -> String) -> Seen<()> {
    let place = before.iter().zip(after).position(|(b, a)| b != a);
    match place {
        None => Ok(()),
        Some(n) => {
            let (before, after) = (before[n], after[n]);
            let what = what();
            Err(format!("{what}: word {n} goes from {before} to {after}"))
        }
    }
}

/// A start without capabilities, with all fields 0.
const NEW: Asked<'static> = Asked::New {
    start: &[0; START_FIELDS],
    capabilities: &[],
};

/// Any function that needs lent words.
fn any(host: &mut dyn Host, rng: &mut Prng, state: &mut [u64], out: &mut [u64]) -> (String, u32) {
    match rng.below(8) {
        0 => ("rolthai_refusal".into(), host.refusal(state)),
        1 => {
            let mut record = [0; INPUT_WORDS];
            record[0] = rng.pick(InputKind::ALL).map_or(0, InputKind::number);
            ("rolthai_step".into(), host.step(state, &record, out))
        }
        2..4 => {
            let told = a_told(rng);
            (format!("{told:?}"), host.tell(state, told, out))
        }
        _ => {
            let mut record = [1; INPUT_WORDS];
            let kind = rng.range(InputKind::Tick.number(), InputKind::Recorded.number());
            let used = InputKind::of(kind).map_or(0, |kind| kind.fields().len());
            record[0] = kind;
            record[1 + used..].fill(0);
            let asked = Asked::of(&record).unwrap_or(Asked::Recorded);
            (format!("{asked:?}"), host.ask(state, &asked))
        }
    }
}

fn a_told(rng: &mut Prng) -> Told {
    let reading = rng.one_of([
        Reading::State,
        Reading::Epoch,
        Reading::BootId,
        Reading::Flags,
        Reading::ReceiptCount,
        Reading::Config,
        Reading::Snapshot,
        Reading::Lease(0),
        Reading::Capability(0),
        Reading::Receipt(0),
    ]);
    let others = [Told::Item, Told::AnsweredLease, Told::AnsweredReceipt];
    match rng.below(4) {
        0 => rng.one_of(others),
        _ => Told::Reading(reading),
    }
}

/// Arguments in slices that are no fields of a record.
struct Slices {
    words: [u64; 3 * CAPABILITY_FIELDS],
    /// How many of the words are each slice.
    lengths: [usize; 2],
    kind: InputKind,
}

fn malformed_slices(rng: &mut Prng) -> Slices {
    let kind = rng.one_of([InputKind::Acquire, InputKind::Submit, InputKind::Start]);
    let used = kind.fields().len();
    let capabilities = CAPABILITY_FIELDS * rng.index(3);
    let mut slices = Slices {
        words: [0; 3 * CAPABILITY_FIELDS],
        lengths: [used, capabilities],
        kind,
    };
    match rng.below(3) {
        // A word too few or too many.
        0 => slices.lengths[0] = rng.one_of([0, used - 1, used + 1]),
        1 if kind == InputKind::Start => slices.lengths[1] += rng.range(1, 12) as usize,
        // A word that no field of 32 bits or less holds: the resource, the capability, the flags.
        _ => {
            let fields = kind.fields().iter();
            let narrow: Vec<usize> = fields
                .enumerate()
                .filter(|(_, field)| field.of.range().1 < u64::MAX)
                .map(|(n, _)| n)
                .collect();
            let n = rng.pick(&narrow).unwrap_or(2);
            slices.words[n] = rng.one_of([1 << 32, u64::MAX]);
        }
    }
    slices
}

impl Slices {
    fn asked(&self) -> Asked<'_> {
        let [first, second] = self.lengths;
        let words = &self.words[..first];
        match self.kind {
            InputKind::Acquire => Asked::Acquire(words),
            InputKind::Submit => Asked::Submit(words),
            _ => Asked::New {
                start: words,
                capabilities: &self.words[..second],
            },
        }
    }
}
