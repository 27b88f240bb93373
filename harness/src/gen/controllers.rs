//! Random calls on an interrupt controller that lead to one another.
//!
//! The choices lean towards what is easily missed: levels that are equal, ports
//! that are all pending or not enabled, the first port and the last, a handler
//! address at the end of the bus, a controller that breaks one rule.

use super::beside::{Beside, HostOf};
use crate::call::{Call, Lent, VicCall};
use crate::model::{Config, Controller, Controllers, Paper, CHOICE_SIZE, CONTROLLER_SIZE, PORTS};

pub type ControllerHost = HostOf<CONTROLLER_SIZE>;

/// How often each call is made, in parts of the sum.
type Making = (u64, fn(&mut ControllerHost) -> VicCall);
const MAKINGS: [Making; 6] = [
    (40, ControllerHost::choose),
    (20, ControllerHost::configure),
    (12, ControllerHost::enable),
    (12, ControllerHost::trigger),
    (12, ControllerHost::line),
    (4, ControllerHost::create),
];

impl Beside<CONTROLLER_SIZE> for ControllerHost {
    const BROKEN_IN_100: u64 = 20;

    fn good_create(&mut self) -> Call {
        let vic = Lent::from(self.rng.bytes(CONTROLLER_SIZE));
        let ports = u32::from(self.count());
        self.create_in(vic, ports).into()
    }

    fn good_bytes(&mut self) -> [u8; CONTROLLER_SIZE] {
        self.good_controller().pack()
    }

    fn broken_bytes(&mut self) -> [u8; CONTROLLER_SIZE] {
        self.broken_controller().pack()
    }

    fn any_call(&mut self) -> Call {
        let make = self.rng.weighted(&MAKINGS);
        make(self).into()
    }

    fn lent_to(call: &Call) -> Option<&Lent> {
        match call {
            Call::Vic(call) => Some(call.vic()),
            _ => None,
        }
    }
}

impl ControllerHost {
    /// Any 32-bit number, often a small one or one at an end.
    fn any(&mut self) -> u32 {
        let any = self.rng.number() as u32;
        let small = any % 100;
        self.rng.pick(&[0, 1, 16, small, any, u32::MAX, 1 << 31])
    }

    /// A flag as a number.
    fn flag(&mut self) -> u32 {
        let any = self.any();
        self.rng.pick(&[0, 0, 1, 1, 2, 256, 1 << 31, any])
    }

    fn count(&mut self) -> u8 {
        let any = 1 + self.rng.below(PORTS as u64) as u8;
        self.rng.pick(&[1, 2, 4, any, any, 31, 32, 32])
    }

    fn port(&mut self) -> u32 {
        let ports = u32::from(self.bytes[0]);
        if self.rng.chance(92) {
            return self.rng.below(u64::from(ports.max(1))) as u32;
        }
        let any = self.rng.number() as u32;
        self.rng
            .pick(&[ports, ports + 1, 32, 256, ports + 256, u32::MAX, any])
    }

    fn level(&mut self) -> u16 {
        let any = self.rng.below(64) as u16;
        self.rng.pick(&[0, 1, 2, 3, 62, 63, any])
    }

    fn config(&mut self, level: u16) -> u16 {
        let config = Config {
            zero: 0,
            set: self.rng.below(64) as u16,
            non_maskable: self.rng.chance(50),
            level,
        };
        config.bits()
    }

    /// Bits of the first ports: none, all, one or some.
    fn bits(&mut self, ports: u8) -> u32 {
        let all = (u64::MAX >> (64 - u32::from(ports))) as u32;
        let one = 1 << self.rng.below(u64::from(ports));
        let some = self.rng.number() as u32 & all;
        self.rng.pick(&[0, all, all, one, some, some])
    }

    /// A controller that keeps the rules.
    fn good_controller(&mut self) -> Controller {
        let ports = self.count();
        let mut controller = Controller::fresh(ports, self.any(), self.any());
        controller.lines = self.bits(ports);
        controller.software = self.bits(ports);
        controller.enabled = self.bits(ports);
        let [one, other] = [self.level(), self.level()];
        let levels = self.rng.below(3);
        for port in 0..usize::from(ports) {
            let level = match levels {
                0 => one,
                1 => self.rng.pick(&[one, other]),
                _ => self.level(),
            };
            controller.configs[port] = self.config(level);
        }
        if self.rng.chance(30) {
            self.put_at_the_end(&mut controller);
        }
        controller
    }

    /// Takes the chosen port's handler to the last address of the bus or past it.
    fn put_at_the_end(&mut self, controller: &mut Controller) {
        let Some(port) = Paper.chosen_port(controller) else {
            return;
        };
        let most = u32::MAX as u64 / port.max(1) as u64;
        controller.vector_bytes = self.rng.below(most + 1) as u32;
        let before = port as u64 * u64::from(controller.vector_bytes);
        let address = (1 << 32) - 1 + self.rng.below(2);
        controller.base = (address - before).min(u64::from(u32::MAX)) as u32;
    }

    /// One that breaks the rule of one field, or of some.
    fn broken_controller(&mut self) -> Controller {
        let mut controller = self.good_controller();
        loop {
            self.break_field(&mut controller);
            if self.rng.chance(80) {
                return controller;
            }
        }
    }

    fn break_field(&mut self, controller: &mut Controller) {
        let ports = u32::from(controller.ports);
        let beyond = 1_u64 << ports.min(31).max(self.rng.below(32) as u32);
        let port = self.rng.below(PORTS as u64) as usize;
        match self.rng.below(16) {
            0 => controller.ports = self.rng.pick(&[0, 33, 64, 255]),
            1 => controller.zero = 1 << self.rng.below(24),
            2 => controller.lines |= beyond as u32,
            3 => controller.software |= beyond as u32,
            4 => controller.enabled |= beyond as u32,
            5..=9 => controller.configs[port] |= 1 << self.rng.pick(&[13, 14, 15]),
            _ => {
                controller.ports = controller.ports.min(31);
                let lacks = controller.ports..PORTS as u8;
                let port = lacks.start + self.rng.below(lacks.len() as u64) as u8;
                controller.configs[usize::from(port)] = 1 << self.rng.below(13);
                let has = (1_u64 << controller.ports) as u32 - 1;
                for bits in [
                    &mut controller.lines,
                    &mut controller.software,
                    &mut controller.enabled,
                ] {
                    *bits &= has;
                }
                let next = usize::from(controller.ports);
                for later in (next..PORTS).filter(|&later| later != usize::from(port)) {
                    controller.configs[later] = 0;
                }
            }
        }
    }

    fn create(&mut self) -> VicCall {
        let any = self.rng.number() as u32;
        let vic = Lent::from(self.rng.to_write_over(CONTROLLER_SIZE));
        let ports = self.rng.pick(&[0, 1, 32, 33, 256, 257, 288, u32::MAX, any]);
        self.create_in(vic, ports)
    }

    fn create_in(&mut self, vic: Lent, ports: u32) -> VicCall {
        VicCall::Create {
            vic,
            ports,
            vector_bytes: self.any(),
            base: self.any(),
        }
    }

    fn configure(&mut self) -> VicCall {
        let high = self.rng.number() as u32 & !0x3F;
        let high = self.rng.pick(&[0, 0, 64, high]);
        VicCall::Configure {
            vic: self.lent(),
            port: self.port(),
            level: high | u32::from(self.level()),
            set: self.any(),
            nmi: self.flag(),
        }
    }

    fn enable(&mut self) -> VicCall {
        VicCall::Enable {
            vic: self.lent(),
            port: self.port(),
            on: self.flag(),
        }
    }

    fn trigger(&mut self) -> VicCall {
        VicCall::Trigger {
            vic: self.lent(),
            port: self.port(),
            on: self.flag(),
        }
    }

    fn line(&mut self) -> VicCall {
        VicCall::Line {
            vic: self.lent(),
            port: self.port(),
            up: self.flag(),
        }
    }

    fn choose(&mut self) -> VicCall {
        VicCall::Choose {
            vic: self.lent(),
            answer: Lent::from(self.rng.to_write_over(CHOICE_SIZE)),
        }
    }
}
