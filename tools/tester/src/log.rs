//! What went in and what came out, as a host sees it. Nothing here knows the Rust.

use oracle::driver::Item;
use oracle::runtime_core::{Capability, MAX_RESOURCES};
use wire::format::{Input, Opening, Output};
use wire::turn::fits;

/// One input record with the output record that came for it.
#[derive(Clone, Copy, Debug, PartialEq, Eq)]
pub struct Entry {
    pub input: Input,
    /// None if what came is no output record, or nothing came.
    pub output: Option<Output>,
}

/// An entry with the place that it has in its life.
#[derive(Clone, Copy, Debug)]
pub struct Moment {
    /// Its number in the log.
    pub at: usize,
    pub input: Input,
    pub output: Option<Output>,
    /// The start or the call that it begins or goes on with; none for what is read, listed or
    /// out of place.
    pub under: Option<Input>,
    /// The item whose reply was awaited when the input came.
    pub awaited: Option<Item>,
}

impl Moment {
    /// The item that is handed out here; a reminder is none.
    pub fn item(&self) -> Option<Item> {
        match self.output {
            Some(Output::Item(0, item)) => Some(item),
            _ => None,
        }
    }

    /// Whether a start or a call begins here.
    pub fn begins(&self) -> bool {
        self.under.is_some() && !matches!(self.input, Input::Reply(_))
    }

    /// Whether a start or a call is over with this output.
    pub fn ends(&self) -> bool {
        self.under.is_some() && !matches!(self.output, Some(Output::Item(..)))
    }
}

/// One start with all that follows it up to the next.
#[derive(Clone, Debug)]
pub struct Life {
    pub opening: Opening,
    pub capabilities: Vec<Capability>,
    pub moments: Vec<Moment>,
}

impl Life {
    /// The axes that a capability names, rising.
    pub fn axes(&self) -> Vec<u8> {
        let used = |axis: &u8| self.capabilities.iter().any(|c| c.resource == *axis);
        (0..MAX_RESOURCES as u8).filter(used).collect()
    }

    pub fn capability(&self, id: u16) -> Option<&Capability> {
        self.capabilities.iter().find(|c| c.id == id)
    }

    /// Whether it ends while a reply is awaited.
    pub fn is_cut(&self) -> bool {
        let last = self.moments.iter().rfind(|moment| moment.under.is_some());
        last.is_some_and(|moment| !moment.ends())
    }
}

/// The lives of a log. What comes before the first start belongs to none.
pub fn lives(log: &[Entry]) -> Vec<Life> {
    let mut lives: Vec<Life> = Vec::new();
    let mut listed = Vec::new();
    let mut host = Host::default();
    for (at, entry) in log.iter().enumerate() {
        let moment = host.see(at, entry);
        match entry.input {
            Input::Capability(capability) => listed.push(capability),
            Input::Start(opening) => lives.push(Life {
                opening,
                capabilities: std::mem::take(&mut listed),
                moments: Vec::new(),
            }),
            _ => {}
        }
        if let Some(life) = lives.last_mut() {
            life.moments.push(moment);
        }
    }
    lives
}

/// What a host knows: which call is under way, and which reply is awaited.
#[derive(Default)]
struct Host {
    open: Option<Input>,
    awaited: Option<Item>,
}

impl Host {
    fn see(&mut self, at: usize, entry: &Entry) -> Moment {
        let Entry { input, output } = *entry;
        if matches!(input, Input::Start(_)) {
            *self = Self::default();
        }
        let awaited = self.awaited;
        let under = match input {
            Input::Start(_) => Some(input),
            Input::Call(_) if awaited.is_none() => Some(input),
            Input::Reply(reply) if awaited.is_some_and(|item| fits(&reply, &item)) => self.open,
            _ => None,
        };
        match output {
            Some(Output::Item(0, item)) => self.awaited = Some(item),
            Some(Output::Item(..)) => {}
            _ if under.is_some() => self.awaited = None,
            _ => {}
        }
        if under.is_some() {
            self.open = under.filter(|_| self.awaited.is_some());
        }
        Moment {
            at,
            input,
            output,
            under,
            awaited,
        }
    }
}
