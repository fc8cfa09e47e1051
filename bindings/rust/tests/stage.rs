//! The wrapper over the archive: case C of 01, what is refused, and what is read.

use rolthai::profile::CAPABILITIES;
use rolthai::{
    Action, Answer, Answered, Bounds, Capability, Config, Decision, Driver, DriverError, Item,
    LeaseRequest, Observation, Reason, Receipt, Refused, Stage, State, OUT_WORDS, RECORD_WORDS,
    WORDS,
};

/// What the driver was asked for, in order.
#[derive(Default)]
struct Script {
    made: Vec<String>,
    failing: bool,
}

impl Script {
    fn done(&self) -> Result<(), DriverError> {
        if self.failing {
            Err(DriverError)
        } else {
            Ok(())
        }
    }
}

impl Driver for Script {
    fn observe(&mut self, resource: u8) -> Result<Observation, DriverError> {
        self.made.push(format!("observe {resource}"));
        self.done()?;
        Ok(Observation {
            parameters: [300, -50],
            state: 0,
        })
    }

    fn execute(&mut self, capability: u16, parameters: [i32; 2]) -> Result<(), DriverError> {
        self.made
            .push(format!("execute {capability} {parameters:?}"));
        self.done()
    }

    fn fallback(&mut self, resource: u8, reason: Reason) -> Result<(), DriverError> {
        self.made.push(format!("fallback {resource} {reason:?}"));
        self.done()
    }

    fn record_receipt(&mut self, receipt: &Receipt) {
        let (id, reason) = (receipt.receipt_id, receipt.reason);
        self.made.push(format!("record {id} {reason:?}"));
    }
}

fn begun(stage: &mut Stage) -> Answered {
    stage.start(&Config::default(), &CAPABILITIES, 42, 0, 0)
}

fn started(stage: &mut Stage, driver: &mut Script) {
    let first = begun(stage);
    assert_eq!(stage.settle(first, driver), Ok(Answer::Started));
}

const REQUEST: LeaseRequest = LeaseRequest {
    owner: 7,
    resource: 0,
    capabilities: 6,
    duration_ms: 2000,
    limits: [Bounds::ANY; 2],
};

const ORDER: Action = Action {
    boot_id: 42,
    requester: 7,
    lease_id: 1,
    action_id: 1,
    sequence: 1,
    capability: 1,
    based_on_epoch: 2,
    execute_after: 0,
    deadline: 100,
    valid_for_ms: 100,
    parameters: [300, -50],
};

fn leased(stage: &mut Stage, driver: &mut Script) {
    started(stage, driver);
    let first = stage.acquire(&REQUEST, 0);
    let answer = stage.settle(first, driver);
    assert!(matches!(answer, Ok(Answer::Leased(lease)) if lease.id == 1));
}

#[test]
fn case_c() {
    let mut words = [u64::MAX; WORDS];
    let mut stage = Stage::lend(&mut words);
    let mut driver = Script::default();
    leased(&mut stage, &mut driver);
    let lease = stage.lease(0).unwrap().unwrap();
    assert_eq!((lease.expires_at, lease.limits), (2000, REQUEST.limits));
    let first = stage.submit(&ORDER, 7, 0, 10);
    let Ok(Answer::Submitted(receipt)) = stage.settle(first, &mut driver) else {
        panic!("the order was not settled");
    };
    assert_eq!(receipt.decision, Decision::Executed);
    assert_eq!((receipt.receipt_id, receipt.requested), (2, [300, -50]));
    assert_eq!(stage.receipt(1), Ok(Some(receipt)));
    let first = stage.submit(&ORDER, 7, 0, 10);
    let Ok(Answer::Submitted(again)) = stage.settle(first, &mut driver) else {
        panic!("the second order was not settled");
    };
    assert_eq!(again.decision, Decision::Rejected);
    assert_eq!(
        (again.reason, again.original_receipt),
        (Reason::Duplicate, 2)
    );
    let made = [
        "fallback 0 Startup",
        "fallback 1 Startup",
        "record 1 LeaseGranted",
        "observe 0",
        "execute 1 [300, -50]",
        "observe 0",
        "record 2 Ok",
        "record 3 Duplicate",
    ];
    assert_eq!(driver.made, made);
}

#[test]
fn readings() {
    let mut words = [0; WORDS];
    let mut stage = Stage::lend(&mut words);
    leased(&mut stage, &mut Script::default());
    let seen = stage.snapshot().unwrap();
    assert_eq!(
        (seen.boot_id, seen.epoch, seen.state),
        (42, 2, State::Armed)
    );
    assert_eq!((seen.active_leases, seen.retained_receipts), (1, 1));
    assert_eq!(stage.state(), Ok(State::Armed));
    assert_eq!((stage.epoch(), stage.boot_id()), (Ok(2), Ok(42)));
    assert_eq!((stage.flags(), stage.receipt_count()), (Ok(0), Ok(1)));
    assert_eq!(stage.config(), Ok(Config::default()));
    for (index, capability) in CAPABILITIES.into_iter().enumerate() {
        assert_eq!(stage.capability(index as u64), Ok(Some(capability)));
    }
    assert_eq!(stage.capability(4), Ok(None));
    assert_eq!((stage.lease(1), stage.lease(8)), (Ok(None), Ok(None)));
    assert_eq!(
        (stage.receipt(1), stage.receipt(u64::MAX)),
        (Ok(None), Ok(None))
    );
}

#[test]
fn out_of_turn() {
    let mut words = [0; WORDS];
    let mut stage = Stage::lend(&mut words);
    let mut driver = Script::default();
    assert_eq!(stage.recorded(), Err(Refused::NoReplyAwaited));
    let first = begun(&mut stage);
    let item = Item::Fallback {
        axis: 0,
        reason: Reason::Startup,
    };
    assert_eq!(first, Ok(Answer::Item(item)));
    assert_eq!(stage.state(), Err(Refused::NoRuntime));
    assert_eq!(stage.tick(0), Err(Refused::ReplyAwaited));
    assert_eq!(stage.emergency_stop(0), Err(Refused::ReplyAwaited));
    assert_eq!(stage.recorded(), Err(Refused::OtherAwaited));
    assert_eq!(stage.executed(Ok(())), Err(Refused::OtherAwaited));
    assert_eq!(stage.item(), Ok(item));
    assert_eq!(stage.settle(first, &mut driver), Ok(Answer::Started));
    assert_eq!(stage.fell_back(Ok(())), Err(Refused::NoReplyAwaited));
    assert_eq!(stage.item(), Err(Refused::NoReplyAwaited));
    assert_eq!(driver.made.len(), 2);
}

#[test]
fn refused_starts() {
    let mut words = [0; WORDS];
    let mut stage = Stage::lend(&mut words);
    let config = Config::default();
    assert_eq!(stage.tick(0), Err(Refused::NoRuntime));
    assert_eq!(stage.snapshot(), Err(Refused::NoRuntime));
    let answer = stage.start(&config, &CAPABILITIES, 0, 0, 0);
    assert_eq!(answer, Err(Refused::InvalidBootId));
    for count in [0, 17, 18, 100] {
        let list = vec![CAPABILITIES[0]; count];
        let answer = stage.start(&config, &list, 1, 0, 0);
        assert_eq!(answer, Err(Refused::InvalidConfig), "{count}");
    }
    let unsound = Capability {
        id: 64,
        ..CAPABILITIES[0]
    };
    let answer = stage.start(&config, &[unsound], 1, 0, 0);
    assert_eq!(answer, Err(Refused::InvalidCapability));
    let answer = stage.start(&config, &[CAPABILITIES[0]; 16], 1, 0, 0);
    assert_eq!(answer, Err(Refused::DuplicateCapability));
    let first = begun(&mut stage);
    let mut driver = Script {
        failing: true,
        ..Script::default()
    };
    assert_eq!(
        stage.settle(first, &mut driver),
        Err(Refused::StartupFailed)
    );
    assert_eq!(driver.made, ["fallback 0 Startup", "fallback 1 Startup"]);
    assert_eq!(stage.tick(0), Err(Refused::NoRuntime));
    started(&mut stage, &mut Script::default());
}

#[test]
fn refused_calls_have_their_reason() {
    let mut words = [0; WORDS];
    let mut stage = Stage::lend(&mut words);
    let mut driver = Script::default();
    started(&mut stage, &mut driver);
    let long = LeaseRequest {
        duration_ms: 2001,
        ..REQUEST
    };
    assert_eq!(
        stage.acquire(&long, 0),
        Err(Refused::Reason(Reason::Invalid))
    );
    assert_eq!(
        stage.cancel(7, 1, 0),
        Err(Refused::Reason(Reason::Authority))
    );
    assert_eq!(
        stage.renew(7, 1, 1, 100, 0),
        Err(Refused::Reason(Reason::Authority))
    );
    let first = stage.acquire(&REQUEST, 0);
    assert!(stage.settle(first, &mut driver).is_ok());
    let first = stage.renew(7, 1, 1, 100, 5);
    let answer = stage.settle(first, &mut driver);
    assert!(matches!(answer, Ok(Answer::Leased(lease)) if lease.expires_at == 105));
    let first = stage.cancel(7, 1, 6);
    assert_eq!(stage.settle(first, &mut driver), Ok(Answer::Succeeded));
    assert_eq!(stage.state(), Ok(State::SafeIdle));
}

#[test]
fn a_stop_and_a_recovery() {
    let mut words = [0; WORDS];
    let mut stage = Stage::lend(&mut words);
    let mut driver = Script::default();
    leased(&mut stage, &mut driver);
    assert_eq!(stage.poll_estop(0, 5), Ok(Answer::Unraised));
    let first = stage.poll_estop(1, 5);
    assert_eq!(stage.settle(first, &mut driver), Ok(Answer::Raised));
    assert_eq!((stage.state(), stage.epoch()), (Ok(State::Estopped), Ok(4)));
    assert_eq!(stage.recover_local(6), Err(Refused::Reason(Reason::Estop)));
    assert_eq!(stage.update_state(0, 6), Ok(Answer::Returned));
    let first = stage.recover_local(6);
    assert_eq!(stage.settle(first, &mut driver), Ok(Answer::Succeeded));
    assert_eq!((stage.state(), stage.epoch()), (Ok(State::SafeIdle), Ok(7)));
    let first = stage.emergency_stop(7);
    assert_eq!(stage.settle(first, &mut driver), Ok(Answer::Returned));
    assert_eq!(stage.state(), Ok(State::Estopped));
}

#[test]
fn steps_by_records() {
    let mut words = [0; WORDS];
    let mut stage = Stage::lend(&mut words);
    let told = |stage: &mut Stage, given: &[u64]| -> [u64; OUT_WORDS] {
        let mut record = [0; RECORD_WORDS];
        record[..given.len()].copy_from_slice(given);
        stage.step(&record).unwrap()
    };
    assert_eq!(told(&mut stage, &[16, 5])[0], 4);
    assert_eq!(told(&mut stage, &[99])[0], 64);
    assert_eq!(told(&mut stage, &[19, 0, 1 << 32])[0], 64);
    assert_eq!(told(&mut stage, &[1, 2, 0, 2])[0], 1);
    let start = [2, 42, 0, 0, 50, 250, 2000, 1000, 32, 1];
    assert_eq!(told(&mut stage, &start)[..4], [18, 0, 0, 27]);
    assert_eq!(told(&mut stage, &[16, 5])[..4], [18, 111, 0, 27]);
    assert_eq!(told(&mut stage, &[34, 1])[0], 2);
    assert_eq!(stage.boot_id(), Ok(42));
    stage.clear();
    assert_eq!(stage.boot_id(), Err(Refused::NoRuntime));
}
