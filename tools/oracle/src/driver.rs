//! The scripted driver: takes its replies from a list and logs every call.

use crate::life::Reply;
use runtime_core::{Driver, DriverError, Observation, Reason, Receipt};

/// A driver call with what it was given.
#[derive(Clone, Copy, Debug, PartialEq, Eq)]
pub enum Item {
    Observe {
        resource: u8,
    },
    Execute {
        capability: u16,
        parameters: [i32; 2],
    },
    Fallback {
        resource: u8,
        reason: Reason,
    },
    Record {
        receipt: Receipt,
    },
}

/// What the driver replied.
#[derive(Clone, Copy, Debug, PartialEq, Eq)]
pub enum Replied {
    /// An observe that succeeded.
    Observed(Observation),
    /// An execute or a fallback that succeeded.
    Done,
    /// An observe, an execute or a fallback that failed.
    Failed,
    /// A record's reply has no content.
    Recorded,
}

/// The payload of the unwinding that leaves a runtime as it is while an item is awaited.
pub struct Awaited;

pub struct ScriptedDriver<'a> {
    replies: std::slice::Iter<'a, Reply>,
    executed: [i32; 2],
    log: Vec<(Item, Replied)>,
    stop_at: usize,
}

impl<'a> ScriptedDriver<'a> {
    /// `executed` are the parameters of the last execute that succeeded, 0 0 before one.
    pub fn new(replies: &'a [Reply], executed: [i32; 2]) -> Self {
        Self {
            replies: replies.iter(),
            executed,
            log: Vec::new(),
            stop_at: usize::MAX,
        }
    }

    /// Unwinds in place of the reply to item `index`.
    pub fn stopping_at(mut self, index: usize) -> Self {
        self.stop_at = index;
        self
    }

    pub fn executed(&self) -> [i32; 2] {
        self.executed
    }

    /// How many replies are not used up.
    pub fn unused(&self) -> usize {
        self.replies.len()
    }

    /// The calls so far, each with its reply.
    pub fn into_log(self) -> Vec<(Item, Replied)> {
        self.log
    }

    fn log(&mut self, item: Item, replied: Replied) {
        self.log.push((item, replied));
    }

    /// The next reply; `Ok` once they are used up.
    fn reply(&mut self) -> Reply {
        self.wait();
        self.replies.next().copied().unwrap_or(Reply::Ok)
    }

    fn wait(&self) {
        if self.log.len() == self.stop_at {
            // No panic hook runs, so nothing is printed.
            std::panic::resume_unwind(Box::new(Awaited));
        }
    }

    fn succeed_or_fail(&mut self, item: Item) -> Result<(), DriverError> {
        let failed = self.reply() == Reply::Fail;
        let (replied, result) = if failed {
            (Replied::Failed, Err(DriverError))
        } else {
            (Replied::Done, Ok(()))
        };
        self.log(item, replied);
        result
    }
}

impl Driver for ScriptedDriver<'_> {
    fn observe(&mut self, resource: u8) -> Result<Observation, DriverError> {
        let item = Item::Observe { resource };
        let seen = match self.reply() {
            Reply::Fail => {
                self.log(item, Replied::Failed);
                return Err(DriverError);
            }
            Reply::See(seen) => seen,
            Reply::Ok => Observation {
                parameters: self.executed,
                state: 0,
            },
        };
        self.log(item, Replied::Observed(seen));
        Ok(seen)
    }

    fn execute(&mut self, capability: u16, parameters: [i32; 2]) -> Result<(), DriverError> {
        self.succeed_or_fail(Item::Execute {
            capability,
            parameters,
        })?;
        self.executed = parameters;
        Ok(())
    }

    fn fallback(&mut self, resource: u8, reason: Reason) -> Result<(), DriverError> {
        self.succeed_or_fail(Item::Fallback { resource, reason })
    }

    fn record_receipt(&mut self, receipt: &Receipt) {
        self.wait();
        self.log(Item::Record { receipt: *receipt }, Replied::Recorded);
    }
}
