//! Lives as a picture: a panel for each life, a column for each call, a lane for each axis.

use crate::book::{Book, Held};
use crate::log::{lives, Entry, Life};
use crate::story::{story, Handed, Told};
use oracle::driver::Item;
use oracle::runtime_core::{Decision, Reason, RuntimeState};
use std::fmt::Write;
use wire::format::word::{DECISIONS, STATES};

/// Sizes, in pixels. A letter is taken to be rather too wide, so that no two texts meet.
const LETTER: f64 = 7.0;
const FONT: f64 = 12.0;
const MARGIN: f64 = 16.0;
const LABELS: f64 = 76.0;
const SLOT: f64 = 17.0;
const PAD: f64 = 9.0;
const ROW: f64 = 19.0;
const LANE: f64 = 46.0;
const LEGEND_WIDTH: f64 = 860.0;
const CUT: f64 = 4.0;

const INK: &str = "#222222";
const FAINT: &str = "#6b6b6b";
const LEASE: &str = "#9db8de";
const EXECUTE: &str = "#1a4f9c";
const FALLBACK: &str = "#d98a1f";
const FAILED: &str = "#c62828";

/// The picture of a log as a file of its own.
pub fn picture(log: &[Entry], title: &str) -> String {
    let mut canvas = Canvas::default();
    canvas.text(MARGIN, MARGIN + FONT, 16.0, INK, title);
    let mut top = MARGIN + FONT + 14.0;
    for (n, life) in lives(log).iter().enumerate() {
        top = Panel::new(life).draw(&mut canvas, top, n + 1) + MARGIN;
    }
    let bottom = legend(&mut canvas, top);
    canvas.finish(bottom + MARGIN)
}

/// The shapes so far, and how far to the right they go.
#[derive(Default)]
struct Canvas {
    shapes: String,
    right: f64,
}

impl Canvas {
    fn add(&mut self, right: f64, shape: std::fmt::Arguments<'_>) {
        self.right = self.right.max(right);
        // Writing to a text never fails.
        let _ = writeln!(self.shapes, "{shape}");
    }

    fn rect(&mut self, [x, y, width, height]: [f64; 4], fill: &str) {
        let size = format!("width=\"{width:.1}\" height=\"{height:.1}\"");
        self.add(
            x + width,
            format_args!("<rect x=\"{x:.1}\" y=\"{y:.1}\" {size} fill=\"{fill}\"/>"),
        );
    }

    fn text(&mut self, x: f64, y: f64, size: f64, fill: &str, text: &str) {
        let text = text.replace('&', "&amp;").replace('<', "&lt;");
        let look = format!("font-size=\"{size}\" fill=\"{fill}\"");
        self.add(
            x + width(&text) * size / FONT,
            format_args!("<text x=\"{x:.1}\" y=\"{y:.1}\" {look}>{text}</text>"),
        );
    }

    fn path(&mut self, points: &[[f64; 2]], fill: &str) {
        let point = |[x, y]: &[f64; 2]| format!("{x:.1},{y:.1}");
        let points: Vec<String> = points.iter().map(point).collect();
        let points = points.join(" ");
        self.add(
            0.0,
            format_args!("<polygon points=\"{points}\" fill=\"{fill}\"/>"),
        );
    }

    fn circle(&mut self, x: f64, y: f64, stroke: &str) {
        let look = format!("fill=\"none\" stroke=\"{stroke}\" stroke-width=\"1.8\"");
        self.add(
            0.0,
            format_args!("<circle cx=\"{x:.1}\" cy=\"{y:.1}\" r=\"4\" {look}/>"),
        );
    }

    fn line(&mut self, [x0, y0, x1, y1]: [f64; 4], stroke: &str, thick: f64) {
        let ends = format!("x1=\"{x0:.1}\" y1=\"{y0:.1}\" x2=\"{x1:.1}\" y2=\"{y1:.1}\"");
        self.add(
            x0.max(x1),
            format_args!("<line {ends} stroke=\"{stroke}\" stroke-width=\"{thick}\"/>"),
        );
    }

    fn finish(self, bottom: f64) -> String {
        let (width, height) = (self.right + MARGIN, bottom);
        format!(
            "<svg xmlns=\"http://www.w3.org/2000/svg\" width=\"{width:.0}\" height=\"{height:.0}\" \
             viewBox=\"0 0 {width:.0} {height:.0}\" font-family=\"Helvetica, Arial, sans-serif\">\n\
             <rect width=\"100%\" height=\"100%\" fill=\"#ffffff\"/>\n{}</svg>\n",
            self.shapes
        )
    }
}

fn width(text: &str) -> f64 {
    text.chars().count() as f64 * LETTER
}

const fn state_colour(state: RuntimeState) -> &'static str {
    match state {
        RuntimeState::SafeIdle => "#e3e6ea",
        RuntimeState::Armed => "#bfe3c0",
        RuntimeState::Faulted => "#f6d5a8",
        RuntimeState::Estopped => "#f2b3b3",
    }
}

const fn decision_colour(decision: Decision) -> &'static str {
    match decision {
        Decision::Executed => EXECUTE,
        Decision::Rejected => "#8e44ad",
        Decision::Fallback => FALLBACK,
        Decision::Control => "#5f7d95",
        Decision::Failed => FAILED,
    }
}

/// A call with its place.
struct Column {
    told: Told,
    x: f64,
    width: f64,
}

impl Column {
    fn slot(&self, place: usize) -> f64 {
        self.x + PAD + (place as f64 + 0.5) * SLOT
    }

    /// Its texts: time, call, epoch, answer.
    fn texts(told: &Told) -> [String; 4] {
        let time = told.time().map_or(String::new(), |now| format!("{now} ms"));
        let epoch = told.snapshot.map_or(String::new(), |s| s.epoch.to_string());
        [time, told.name().into(), epoch, told.brief()]
    }
}

struct Panel<'a> {
    life: &'a Life,
    axes: Vec<u8>,
    columns: Vec<Column>,
    right: f64,
}

impl<'a> Panel<'a> {
    fn new(life: &'a Life) -> Self {
        let mut x = MARGIN + LABELS;
        let mut columns = Vec::new();
        for told in story(life) {
            let texts = Column::texts(&told);
            let widest = texts.iter().map(|text| width(text)).fold(0.0, f64::max);
            // One slot more: a lease begins after the last item.
            let slots = (told.items.len() + 1) as f64 * SLOT;
            let width = widest.max(slots) + 2.0 * PAD;
            columns.push(Column { told, x, width });
            x += width;
        }
        Self {
            life,
            axes: life.axes(),
            columns,
            right: x,
        }
    }

    /// Draws the panel; where it ends.
    fn draw(&self, canvas: &mut Canvas, top: f64, number: usize) -> f64 {
        let boot = self.life.opening.boot_id;
        let title = format!("life {number}, boot number {boot}");
        canvas.text(MARGIN, top + FONT, 13.0, INK, &title);
        let top = top + ROW + 4.0;
        let state = top + 2.0 * ROW;
        let lanes = state + ROW + 8.0;
        let receipts = lanes + self.axes.len() as f64 * LANE;
        let bottom = receipts + 3.0 * ROW;
        self.stripes(canvas, top, bottom);
        let rows = [
            ("time", top),
            ("call", top + ROW),
            ("epoch", receipts + ROW),
            ("answer", receipts + 2.0 * ROW),
        ];
        for (n, (label, y)) in rows.into_iter().enumerate() {
            self.row(canvas, label, y, n);
        }
        self.states(canvas, state);
        self.leases(canvas, lanes);
        self.marks(canvas, lanes, receipts);
        self.cut(canvas, top, bottom);
        bottom
    }

    fn label(&self, canvas: &mut Canvas, y: f64, label: &str) {
        canvas.text(MARGIN, y + FONT + 2.0, FONT, FAINT, label);
    }

    /// Every second column is grey.
    fn stripes(&self, canvas: &mut Canvas, top: f64, bottom: f64) {
        for column in self.columns.iter().step_by(2) {
            canvas.rect([column.x, top, column.width, bottom - top], "#f6f6f6");
        }
    }

    fn row(&self, canvas: &mut Canvas, label: &str, y: f64, which: usize) {
        self.label(canvas, y, label);
        for column in &self.columns {
            let text = &Column::texts(&column.told)[which];
            canvas.text(column.x + PAD, y + FONT + 2.0, FONT, INK, text);
        }
    }

    /// The state after each call, in a band; neighbours that are alike are one piece.
    fn states(&self, canvas: &mut Canvas, y: f64) {
        self.label(canvas, y, "state");
        let state = |column: &Column| column.told.snapshot.map(|s| s.state);
        for run in self.columns.chunk_by(|a, b| state(a) == state(b)) {
            let Some(state) = state(&run[0]) else {
                continue;
            };
            let wide: f64 = run.iter().map(|column| column.width).sum();
            canvas.rect([run[0].x, y, wide - 2.0, ROW - 2.0], state_colour(state));
            let name = format!("{state:?}");
            if width(&name) + PAD <= wide {
                canvas.text(run[0].x + PAD, y + FONT + 1.0, FONT, INK, &name);
            }
        }
    }

    /// The column of an entry, and how many of its column's items were handed out by then.
    fn place(&self, at: usize) -> Option<(&Column, usize)> {
        let column = self.columns.iter().find(|column| at <= column.told.last)?;
        let began = column.told.last - column.told.items.len();
        Some((column, at.saturating_sub(began)))
    }

    fn leases(&self, canvas: &mut Canvas, top: f64) {
        for (lane, axis) in self.axes.iter().enumerate() {
            let y = top + lane as f64 * LANE;
            self.label(canvas, y + 8.0, &format!("axis {axis}"));
            canvas.line([MARGIN, y - 3.0, self.right, y - 3.0], "#dddddd", 1.0);
            for (held, from, to) in self.bars(usize::from(*axis)) {
                canvas.rect([from, y + 2.0, to - from, 17.0], LEASE);
                let names = [
                    format!("lease {}, owner {}", held.id, held.owner),
                    format!("lease {}", held.id),
                ];
                let fitting = names.iter().find(|name| width(name) + 8.0 <= to - from);
                if let Some(name) = fitting {
                    canvas.text(from + 4.0, y + 15.0, FONT, INK, name);
                }
            }
        }
    }

    /// The leases of an axis, each from its grant to the fallback that ends it.
    fn bars(&self, axis: usize) -> Vec<(Held, f64, f64)> {
        let mut bars = Vec::new();
        let mut book = Book::default();
        let mut open: Option<(Held, f64)> = None;
        for moment in &self.life.moments {
            book.see(moment);
            let held = book.leases[axis];
            if held.map(|h| h.id) == open.map(|(h, _)| h.id) {
                continue;
            }
            let x = match self.place(moment.at) {
                Some((column, place)) => column.slot(place),
                None => self.right,
            };
            bars.extend(open.take().map(|(held, from)| (held, from, x)));
            open = held.map(|held| (held, x));
        }
        bars.extend(open.map(|(held, from)| (held, from, self.right)));
        bars
    }

    fn marks(&self, canvas: &mut Canvas, lanes: f64, receipts: f64) {
        self.label(canvas, receipts, "receipts");
        for column in &self.columns {
            for (place, handed) in column.told.items.iter().enumerate() {
                let x = column.slot(place);
                let y = match self.lane(&handed.item) {
                    Some(lane) => lanes + lane as f64 * LANE + 31.0,
                    None => receipts + ROW / 2.0,
                };
                mark(canvas, x, y, handed);
            }
        }
    }

    /// The lane of an item; a record has its own.
    fn lane(&self, item: &Item) -> Option<usize> {
        let axis = match item {
            Item::Observe { resource } | Item::Fallback { resource, .. } => *resource,
            Item::Execute { capability, .. } => self.life.capability(*capability)?.resource,
            Item::Record { .. } => return None,
        };
        self.axes.iter().position(|used| *used == axis)
    }

    fn cut(&self, canvas: &mut Canvas, top: f64, bottom: f64) {
        if self.columns.last().is_some_and(|c| c.told.is_cut()) {
            canvas.line([self.right, top, self.right, bottom], FAILED, CUT);
        }
    }
}

/// The sign of an item, red if the driver failed.
fn mark(canvas: &mut Canvas, x: f64, y: f64, handed: &Handed) {
    let colour = |good| if handed.failed() { FAILED } else { good };
    match &handed.item {
        Item::Observe { .. } => canvas.circle(x, y, colour(FAINT)),
        Item::Execute { .. } => {
            let points = [[x, y - 8.0], [x + 8.0, y], [x, y + 8.0], [x - 8.0, y]];
            canvas.path(&points, colour(EXECUTE));
        }
        Item::Fallback { .. } => {
            let points = [[x - 7.0, y - 6.0], [x + 7.0, y - 6.0], [x, y + 7.0]];
            canvas.path(&points, colour(FALLBACK));
        }
        Item::Record { receipt } => {
            let fill = decision_colour(receipt.decision);
            canvas.rect([x - 5.0, y - 5.0, 10.0, 10.0], fill);
        }
    }
}

/// One sign of the legend: draws itself at a place.
type Sign = (String, Box<dyn Fn(&mut Canvas, f64, f64)>);

fn sign(name: &str, draw: impl Fn(&mut Canvas, f64, f64) + 'static) -> Sign {
    (name.into(), Box::new(draw))
}

fn signs() -> Vec<Sign> {
    let mut signs: Vec<Sign> = Vec::new();
    for state in STATES {
        let fill = state_colour(state);
        signs.push(sign(&format!("{state:?}"), move |c, x, y| {
            c.rect([x, y - 7.0, 16.0, 14.0], fill);
        }));
    }
    signs.push(sign("lease", |c, x, y| {
        c.rect([x, y - 7.0, 16.0, 14.0], LEASE);
    }));
    for (name, item) in items() {
        let reply = None;
        signs.push(sign(name, move |c, x, y| {
            mark(c, x + 8.0, y, &Handed { item, reply });
        }));
    }
    signs.push(sign("red: the driver failed", |c, x, y| {
        c.rect([x, y - 3.0, 16.0, 6.0], FAILED);
    }));
    signs.push(sign("mains cut", |c, x, y| {
        c.line([x + 8.0, y - 8.0, x + 8.0, y + 8.0], FAILED, CUT);
    }));
    for decision in DECISIONS {
        let fill = decision_colour(decision);
        signs.push(sign(&format!("receipt: {decision:?}"), move |c, x, y| {
            c.rect([x + 3.0, y - 5.0, 10.0, 10.0], fill);
        }));
    }
    signs
}

/// One item of each kind that has a sign of its own.
const fn items() -> [(&'static str, Item); 3] {
    let (resource, capability, parameters) = (0, 0, [0; 2]);
    let reason = Reason::Ok;
    [
        ("observe", Item::Observe { resource }),
        (
            "execute",
            Item::Execute {
                capability,
                parameters,
            },
        ),
        ("fallback", Item::Fallback { resource, reason }),
    ]
}

/// What the signs mean; where it ends.
fn legend(canvas: &mut Canvas, top: f64) -> f64 {
    let (mut x, mut y) = (MARGIN, top + 14.0);
    for (name, draw) in signs() {
        let wide = 16.0 + 6.0 + width(&name) + 14.0;
        if x + wide > LEGEND_WIDTH {
            (x, y) = (MARGIN, y + ROW + 2.0);
        }
        draw(canvas, x, y);
        canvas.text(x + 22.0, y + 4.0, FONT, INK, &name);
        x += wide;
    }
    y + ROW
}
