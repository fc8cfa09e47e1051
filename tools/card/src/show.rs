//! A card in words, and as a table for a spreadsheet.

use crate::functions::{Reading, READ};
use oracle::runtime_core::{Decision, Receipt};
use oracle::show::{reason_text, receipt_fields};
use wire::format::layout::RECEIPT;

/// The receipts, a line each; the last line says how much there is, or what ended the reading.
pub fn card(reading: &Reading) -> String {
    format!("{}{}\n", lines(&reading.receipts), last_line(reading))
}

/// The last line alone.
pub fn last_line(reading: &Reading) -> String {
    let count = reading.receipts.len();
    let (receipts, stand) = match count {
        1 => ("receipt", "stands"),
        _ => ("receipts", "stand"),
    };
    let at = reading.at;
    match reading.answer {
        READ => format!("{count} {receipts}, {at} bytes"),
        number => format!(
            "{number} at byte {at}: {}; {count} {receipts} before it {stand}",
            refusal(number)
        ),
    }
}

const fn refusal(number: u32) -> &'static str {
    match number {
        121 => "the head is wrong or short",
        122 => "the record ends past the file",
        _ => "the record is not sound",
    }
}

fn lines(receipts: &[Receipt]) -> String {
    let digits = |r: &Receipt| r.receipt_id.to_string().len();
    let width = receipts.iter().map(digits).max().unwrap_or(0);
    // Where only one boot number comes up, it tells nothing apart.
    let boots = receipts.windows(2).any(|w| w[0].boot_id != w[1].boot_id);
    let line = |r: &Receipt| {
        let what = format!("{:?} {}", r.decision, reason_text(r.reason));
        let mut parts = named(&[("boot", if boots { r.boot_id } else { 0 })]);
        parts.extend(match r.decision {
            Decision::Fallback | Decision::Control => event(r),
            _ => order(r),
        });
        let (id, parts) = (r.receipt_id, parts.join("  "));
        format!("receipt {id:>width$}  {what:<24}  {parts}\n")
    };
    receipts.iter().map(line).collect()
}

/// Those that are not 0, with their names.
fn named(fields: &[(&str, u64)]) -> Vec<String> {
    let stand = fields.iter().filter(|(_, value)| *value != 0);
    stand
        .map(|(name, value)| format!("{name} {value}"))
        .collect()
}

/// A fallback, a grant or a renewal: of an axis.
fn event(r: &Receipt) -> Vec<String> {
    let mut parts = named(&[("principal", r.principal), ("lease", r.lease_id)]);
    parts.push(format!("axis {}", r.resource));
    parts.extend(named(&[("epoch", r.epoch)]));
    parts.extend(time(r));
    parts
}

/// An order: what was asked for, and what was seen of it.
fn order(r: &Receipt) -> Vec<String> {
    let mut parts = named(&[
        ("principal", r.principal),
        ("action", r.action_id),
        ("sequence", r.sequence),
        ("capability", r.capability.into()),
    ]);
    let [x, y] = r.requested;
    let seen = match (r.observed_valid, r.observed) {
        (true, [x, y]) => format!(" seen ({x}, {y})"),
        (false, _) => String::new(),
    };
    parts.push(format!("({x}, {y}){seen}"));
    parts.extend(named(&[
        ("state", r.post_state.into()),
        ("of receipt", r.original_receipt),
    ]));
    // The others say by their decision whether the driver got the order.
    if r.decision == Decision::Failed && !r.dispatched {
        parts.push("not dispatched".into());
    }
    parts.extend(time(r));
    parts
}

/// The last of its times that is set.
fn time(r: &Receipt) -> Option<String> {
    let times = [r.executed_at, r.admitted_at, r.received_at];
    let set = times.into_iter().find(|time| *time != 0);
    set.map(|time| format!("at {time} ms"))
}

/// A line of names, then a line for each receipt. A pair has two columns, as in docs/WIRE.md. No
/// name and no value has a comma in it.
pub fn csv(receipts: &[Receipt]) -> String {
    let names: Vec<&str> = RECEIPT.iter().map(|field| field.name).collect();
    let row = |r: &Receipt| {
        let cells = receipt_fields(r).map(|(name, value)| match name {
            "requested" | "observed" => value.replace(' ', ","),
            _ => value,
        });
        format!("{}\n", cells.join(","))
    };
    let rows: String = receipts.iter().map(row).collect();
    format!("{}\n{rows}", names.join(","))
}
