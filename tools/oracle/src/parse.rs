//! Reads lives from text: one call to a line, the replies before it, every argument named.

use crate::life::{Call, Counter, Life, Order, Renewal, Reply, Start, Step};
use crate::HAS_COUNTERS;
use runtime_core::profile::CAPABILITIES;
use runtime_core::{
    Action, Bounds, Capability, Config, ExecutionClass, LeaseRequest, Observation, Verification,
};
use std::fmt;

/// What is wrong, and in which line (counted from 1).
#[derive(Clone, Debug, PartialEq, Eq)]
pub struct ParseError {
    pub line: usize,
    pub message: String,
}

impl fmt::Display for ParseError {
    fn fmt(&self, f: &mut fmt::Formatter<'_>) -> fmt::Result {
        write!(f, "{}: {}", self.line, self.message)
    }
}

impl std::error::Error for ParseError {}

/// All lives of a text, at least one.
pub fn parse(text: &str) -> Result<Vec<Life>, ParseError> {
    let mut reader = Reader::default();
    let mut last = 1;
    for (index, text) in text.lines().enumerate() {
        last = index + 1;
        reader.line(text).map_err(|message| ParseError {
            line: last,
            message,
        })?;
    }
    reader.end_life().map_err(|message| ParseError {
        line: last,
        message,
    })?;
    Ok(reader.lives)
}

/// The lives read so far and what the present one has.
#[derive(Default)]
struct Reader {
    begun: bool,
    lives: Vec<Life>,
    config: Option<Config>,
    capabilities: Vec<Capability>,
    replies: Vec<Reply>,
    life: Option<Life>,
}

impl Reader {
    fn line(&mut self, text: &str) -> Result<(), String> {
        let text = text.split('#').next().unwrap_or("");
        let mut words = Words(text.split_whitespace().collect::<Vec<_>>().into_iter());
        let Some(first) = words.0.next() else {
            return Ok(());
        };
        let first_line = !std::mem::replace(&mut self.begun, true);
        match first {
            // It may stand before the first life too.
            "life" if first_line => {}
            "life" => self.end_life()?,
            "config" | "profile" | "capability" => self.before_start(first, &mut words)?,
            "replies" => self.replies.append(&mut words.replies()?),
            "start" => self.start(&mut words)?,
            _ => self.call(first, &mut words)?,
        }
        words.end()
    }

    fn end_life(&mut self) -> Result<(), String> {
        if !self.replies.is_empty() {
            return Err("replies without a call after them".into());
        }
        let life = self.life.take().ok_or("a life without a `start` line")?;
        self.lives.push(life);
        Ok(())
    }

    fn before_start(&mut self, first: &str, words: &mut Words) -> Result<(), String> {
        if self.life.is_some() {
            return Err(format!("`{first}` after `start`"));
        }
        match first {
            "config" if self.config.is_some() => return Err("a second `config` line".into()),
            "config" => self.config = Some(words.config()?),
            "profile" => self.capabilities.extend(CAPABILITIES),
            _ => self.capabilities.push(words.capability()?),
        }
        Ok(())
    }

    fn start(&mut self, words: &mut Words) -> Result<(), String> {
        if self.life.is_some() {
            return Err("a second `start` line in one life".into());
        }
        let start = Start {
            boot_id: words.named("boot_id")?,
            now: words.named("now")?,
            flags: words.named("flags")?,
            config: self.config.take().unwrap_or_default(),
            capabilities: std::mem::take(&mut self.capabilities),
            replies: std::mem::take(&mut self.replies),
        };
        self.life = Some(Life {
            start,
            steps: Vec::new(),
        });
        Ok(())
    }

    fn call(&mut self, first: &str, words: &mut Words) -> Result<(), String> {
        let call = words.call(first)?;
        let life = self
            .life
            .as_mut()
            .ok_or_else(|| format!("`{first}` before `start`"))?;
        life.steps.push(Step {
            replies: std::mem::take(&mut self.replies),
            call,
        });
        Ok(())
    }
}

/// The words of a line that are not read yet.
struct Words<'a>(std::vec::IntoIter<&'a str>);

impl Words<'_> {
    fn end(&mut self) -> Result<(), String> {
        self.0
            .next()
            .map_or(Ok(()), |word| Err(format!("`{word}` is one word too many")))
    }

    fn next(&mut self, wanted: &str) -> Result<&str, String> {
        self.0
            .next()
            .ok_or_else(|| format!("the line ends before {wanted}"))
    }

    fn name(&mut self, name: &str) -> Result<(), String> {
        let word = self.next(&format!("`{name}`"))?;
        if word == name {
            Ok(())
        } else {
            Err(format!("`{word}` stands where `{name}` should"))
        }
    }

    /// A number that `name` is the name of, within the range of its type.
    fn number<T: TryFrom<i128>>(&mut self, name: &str) -> Result<T, String> {
        let word = self.next(&format!("the number of `{name}`"))?;
        let digits = word.strip_prefix('-').unwrap_or(word);
        if digits.is_empty() || !digits.bytes().all(|b| b.is_ascii_digit()) {
            return Err(format!("`{name}`: `{word}` is not a number"));
        }
        let value = word.parse::<i128>().ok();
        value.and_then(|v| T::try_from(v).ok()).ok_or_else(|| {
            let width = std::any::type_name::<T>();
            format!("`{name}`: {word} is not in the range of {width}")
        })
    }

    fn named<T: TryFrom<i128>>(&mut self, name: &str) -> Result<T, String> {
        self.name(name)?;
        self.number(name)
    }

    fn pair(&mut self, name: &str) -> Result<[i32; 2], String> {
        Ok([self.number(name)?, self.number(name)?])
    }

    fn bounds(&mut self, name: &str) -> Result<Bounds, String> {
        let [min, max] = self.pair(name)?;
        Ok(Bounds { min, max })
    }

    fn limit(&mut self) -> Result<Bounds, String> {
        if self.0.as_slice().first() == Some(&"any") {
            self.0.next();
            return Ok(Bounds::ANY);
        }
        self.bounds("limits")
    }

    fn replies(&mut self) -> Result<Vec<Reply>, String> {
        let mut replies = Vec::new();
        while let Some(word) = self.0.next() {
            replies.push(match word {
                "ok" => Reply::Ok,
                "fail" => Reply::Fail,
                "see" => Reply::See(Observation {
                    parameters: self.pair("see")?,
                    state: self.number("see")?,
                }),
                _ => return Err(format!("`{word}` is not one of ok, fail, see")),
            });
        }
        if replies.is_empty() {
            return Err("`replies` without a reply".into());
        }
        Ok(replies)
    }

    fn config(&mut self) -> Result<Config, String> {
        Ok(Config {
            watchdog_ms: self.named("watchdog_ms")?,
            state_ttl_ms: self.named("state_ttl_ms")?,
            max_lease_ms: self.named("max_lease_ms")?,
            max_valid_for_ms: self.named("max_valid_for_ms")?,
            invalid_limit: self.named("invalid_limit")?,
            estop_mask: self.named("estop_mask")?,
        })
    }

    fn capability(&mut self) -> Result<Capability, String> {
        let id = self.named("id")?;
        let resource = self.named("resource")?;
        let class = self.class()?;
        let parameter_count = self.named("parameter_count")?;
        self.name("bounds")?;
        Ok(Capability {
            id,
            resource,
            class,
            parameter_count,
            bounds: [self.bounds("bounds")?, self.bounds("bounds")?],
            require_set: self.named("require_set")?,
            require_clear: self.named("require_clear")?,
            verification: self.verification()?,
        })
    }

    fn class(&mut self) -> Result<ExecutionClass, String> {
        self.name("class")?;
        match self.next("the class")? {
            "stream" => Ok(ExecutionClass::Stream),
            "discrete" => Ok(ExecutionClass::Discrete),
            "control" => Ok(ExecutionClass::Control),
            word => Err(format!("`{word}` is not one of stream, discrete, control")),
        }
    }

    fn verification(&mut self) -> Result<Verification, String> {
        self.name("verification")?;
        match self.next("the verification")? {
            "parameters" => Ok(Verification::Parameters),
            "state" => Ok(Verification::State {
                mask: self.number("state")?,
                value: self.number("state")?,
            }),
            word => Err(format!("`{word}` is not one of parameters, state")),
        }
    }

    fn call(&mut self, first: &str) -> Result<Call, String> {
        match first {
            "tick" => Ok(Call::Tick { now: self.now()? }),
            "emergency_stop" => Ok(Call::EmergencyStop { now: self.now()? }),
            "recover_local" => Ok(Call::RecoverLocal { now: self.now()? }),
            "update_state" => Ok(Call::UpdateState {
                flags: self.named("flags")?,
                now: self.now()?,
            }),
            "poll_estop" => Ok(Call::PollEstop {
                raised: self.named("raised")?,
                now: self.now()?,
            }),
            "acquire" => Ok(Call::Acquire {
                request: self.request()?,
                now: self.now()?,
            }),
            "renew" => Ok(Call::Renew(self.renewal()?)),
            "cancel" => Ok(Call::Cancel {
                owner: self.named("owner")?,
                lease_id: self.named("lease_id")?,
                now: self.now()?,
            }),
            "submit" => Ok(Call::Submit(Order {
                action: self.action()?,
                principal: self.named("principal")?,
                received_at: self.named("received_at")?,
                now: self.now()?,
            })),
            "set" => self.set(),
            _ => Err(format!("`{first}` begins no line of a life")),
        }
    }

    fn now(&mut self) -> Result<u64, String> {
        self.named("now")
    }

    fn request(&mut self) -> Result<LeaseRequest, String> {
        let owner = self.named("owner")?;
        let resource = self.named("resource")?;
        let capabilities = self.named("capabilities")?;
        let duration_ms = self.named("duration_ms")?;
        self.name("limits")?;
        Ok(LeaseRequest {
            owner,
            resource,
            capabilities,
            duration_ms,
            limits: [self.limit()?, self.limit()?],
        })
    }

    fn renewal(&mut self) -> Result<Renewal, String> {
        Ok(Renewal {
            owner: self.named("owner")?,
            lease_id: self.named("lease_id")?,
            renewal: self.named("renewal")?,
            duration_ms: self.named("duration_ms")?,
            now: self.now()?,
        })
    }

    fn action(&mut self) -> Result<Action, String> {
        Ok(Action {
            boot_id: self.named("boot_id")?,
            requester: self.named("requester")?,
            lease_id: self.named("lease_id")?,
            action_id: self.named("action_id")?,
            sequence: self.named("sequence")?,
            capability: self.named("capability")?,
            based_on_epoch: self.named("based_on_epoch")?,
            execute_after: self.named("execute_after")?,
            deadline: self.named("deadline")?,
            valid_for_ms: self.named("valid_for_ms")?,
            parameters: {
                self.name("parameters")?;
                self.pair("parameters")?
            },
        })
    }

    fn set(&mut self) -> Result<Call, String> {
        if !HAS_COUNTERS {
            return Err("`set` needs the build with `--features counters`".into());
        }
        let word = self.next("the counter")?;
        let counter = Counter::ALL.into_iter().find(|c| c.name() == word);
        let names = || Counter::ALL.map(Counter::name).join(", ");
        let counter = counter.ok_or_else(|| format!("`{word}` is not one of {}", names()))?;
        let value = match counter {
            Counter::InvalidCount => self.number::<u16>(counter.name())?.into(),
            _ => self.number(counter.name())?,
        };
        Ok(Call::Set { counter, value })
    }
}
