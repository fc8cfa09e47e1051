//! The reference profile (profile.rs of the original): units are mm/s and mrad/s. A platform has a table of its own.

use crate::{Bounds, Capability, ExecutionClass, Verification};

pub const ESTOP: u32 = 1;
pub const OBSTACLE: u32 = 2;
pub const BATTERY_CRITICAL: u32 = 4;
pub const MOTOR_FAULT: u32 = 8;
pub const ARM_MOVING: u32 = 16;
pub const GRIPPER_OPEN: u32 = 1;
pub const DRIVE: u16 = 1;
pub const STOP: u16 = 2;
pub const OPEN: u16 = 3;
pub const CLOSE: u16 = 4;

pub const CAPABILITIES: [Capability; 4] = [
    Capability {
        id: DRIVE,
        resource: 0,
        class: ExecutionClass::Stream,
        parameter_count: 2,
        bounds: [
            Bounds {
                min: -1000,
                max: 1000,
            },
            Bounds {
                min: -2000,
                max: 2000,
            },
        ],
        require_set: 0,
        require_clear: ESTOP | OBSTACLE | BATTERY_CRITICAL | MOTOR_FAULT,
        verification: Verification::Parameters,
    },
    Capability {
        id: STOP,
        resource: 0,
        class: ExecutionClass::Control,
        parameter_count: 0,
        bounds: [Bounds::ZERO; 2],
        require_set: 0,
        require_clear: 0,
        verification: Verification::Parameters,
    },
    gripper(OPEN, GRIPPER_OPEN),
    gripper(CLOSE, 0),
];

const fn gripper(id: u16, value: u32) -> Capability {
    Capability {
        id,
        resource: 1,
        class: ExecutionClass::Discrete,
        parameter_count: 0,
        bounds: [Bounds::ZERO; 2],
        require_set: 0,
        require_clear: ESTOP | ARM_MOVING,
        verification: Verification::State {
            mask: GRIPPER_OPEN,
            value,
        },
    }
}
