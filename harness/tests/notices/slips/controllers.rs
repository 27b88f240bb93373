//! Errors in the interrupt controller.

use super::Slip;
use harness::model::{
    Choice, Config, Controller, Controllers, Paper, CHOICE_SIZE, CONTROLLER_FIELDS,
};

slips! { Controllers;

is_count(ports: u32) -> bool {
    "a controller without ports is taken" => { ports <= 32 }
    "33 ports are taken" => { (1..=33).contains(&ports) }
    "32 ports are refused" => { (1..32).contains(&ports) }
    "the count of ports is cut to a byte" => { (1..=32).contains(&(ports & 0xFF)) }
}

bits_kept(ports: u32, bits: u32) -> bool {
    "bits of ports that are lacking are taken" => { true }
    "one bit too many is taken" => { Paper.bits_kept(ports + 1, bits) }
}

config_kept(ports: u32, port: u32, bits: u16) -> bool {
    "the zero bits of a configuration are not looked at" => { bits == 0 || port < ports }
    "the configuration of the next port is taken" => { Paper.config_kept(ports + 1, port, bits) }
    "a configuration without level is taken of every port" => {
        bits & 0x3F == 0 && bits >> 13 == 0 || Paper.config_kept(ports, port, bits)
    }
}

broken_field(controller: &Controller) -> Option<usize> {
    "the last field that breaks a rule is told" => {
        (1..=CONTROLLER_FIELDS).rfind(|&field| !Paper.field_kept(controller, field))
    }
    "the fields of a controller are counted from 0" => {
        Paper.broken_field(controller).map(|field| field - 1)
    }
    "the zero bits behind the ports are not looked at" => {
        (1..=CONTROLLER_FIELDS).find(|&field| field != 2 && !Paper.field_kept(controller, field))
    }
}

broken_number(field: usize) -> u32 {
    "8 is given without its field" => { 8 }
}

pending(controller: &Controller) -> u32 {
    "the software trigger is forgotten" => { controller.lines & controller.enabled }
    "the line is forgotten" => { controller.software & controller.enabled }
    "line and software trigger are both asked for" => {
        controller.lines & controller.software & controller.enabled
    }
    "the enable is not looked at" => { controller.lines | controller.software }
    "a software trigger needs no enable" => {
        controller.lines & controller.enabled | controller.software
    }
    "a non-maskable port needs no enable" => {
        let non_maskable = |&port: &usize| controller.config(port).non_maskable;
        let masks = (0..32).filter(non_maskable).map(|port| 1 << port);
        (controller.lines | controller.software) & (controller.enabled | masks.sum::<u32>())
    }
}

chosen_port(controller: &Controller) -> Option<usize> {
    "of equal levels the last port is chosen" => {
        let pending = Paper.pending(controller);
        let level = |&port: &usize| controller.config(port).level;
        let asks = |port: &usize| pending >> port & 1 == 1 && level(port) > 0;
        (0..usize::from(controller.ports)).filter(asks).max_by_key(level)
    }
    "the first pending port is chosen" => {
        let pending = Paper.pending(controller);
        let asks = |&port: &usize| pending >> port & 1 == 1 && controller.config(port).level > 0;
        (0..usize::from(controller.ports)).find(asks)
    }
    "the smallest level is chosen" => {
        let pending = Paper.pending(controller);
        let level = |&port: &usize| controller.config(port).level;
        let asks = |port: &usize| pending >> port & 1 == 1 && level(port) > 0;
        (0..usize::from(controller.ports)).filter(asks).min_by_key(level)
    }
    "level 0 is chosen where there is no other" => {
        let pending = Paper.pending(controller);
        let waits = |&port: &usize| pending >> port & 1 == 1;
        Paper.chosen_port(controller).or((0..usize::from(controller.ports)).find(waits))
    }
    "a non-maskable port goes first" => {
        let pending = Paper.pending(controller);
        let asks = |&port: &usize| {
            let config = controller.config(port);
            pending >> port & 1 == 1 && config.level > 0 && config.non_maskable
        };
        (0..usize::from(controller.ports)).find(asks).or(Paper.chosen_port(controller))
    }
    "the last port is never chosen" => {
        let ports = controller.ports - 1;
        Paper.chosen_port(&Controller { ports, ..*controller })
    }
    "level 63 is never chosen" => {
        let mut fewer = *controller;
        for port in (0..32).filter(|&port| controller.config(port).level == 63) {
            fewer.enabled &= !(1 << port);
        }
        Paper.chosen_port(&fewer)
    }
}

handler_address(controller: &Controller, port: usize) -> u64 {
    "the handler address wraps at 32 bits" => {
        Paper.handler_address(controller, port) & 0xFFFF_FFFF
    }
    "ports are counted from 1 in the handler address" => {
        Paper.handler_address(controller, port + 1)
    }
    "the handler address has no base" => {
        port as u64 * u64::from(controller.vector_bytes)
    }
    "base and bytes per vector are exchanged" => {
        port as u64 * u64::from(controller.base) + u64::from(controller.vector_bytes)
    }
}

choice(controller: &Controller) -> Result<Option<Choice>, u32> {
    "the last address is refused" => {
        let choice = Paper.choice(controller)?;
        if choice.is_some_and(|choice| choice.address == u32::MAX) { Err(22) } else { Ok(choice) }
    }
    "21 is given for 22" => {
        Paper.choice(controller).map_err(|_| 21)
    }
    "an address that is too large is told as none chosen" => {
        Paper.choice(controller).or(Ok(None))
    }
}

choice_bytes(choice: Option<Choice>) -> [u8; CHOICE_SIZE] {
    "a port is told where none is chosen" => {
        let mut bytes = Paper.choice_bytes(choice);
        bytes[1] = 1;
        bytes
    }
    "level and register set are exchanged in the answer" => {
        let mut bytes = Paper.choice_bytes(choice);
        bytes.swap(4, 5);
        bytes
    }
    "the flag is not told" => {
        let mut bytes = Paper.choice_bytes(choice);
        bytes[7] = 0;
        bytes
    }
    "the address is told least significant first" => {
        let mut bytes = Paper.choice_bytes(choice);
        bytes[8..].reverse();
        bytes
    }
}

config_bits(level: u32, set: u32, nmi: u32) -> u16 {
    "level and register set are exchanged in the configuration" => {
        Paper.config_bits(set, level, nmi)
    }
    "a level above 63 becomes 63" => { Paper.config_bits(level.min(63), set, nmi) }
    "a register set above 63 becomes 0" => {
        Paper.config_bits(level, if set > 63 { 0 } else { set }, nmi)
    }
    "the upper bits of the level reach the flag" => {
        Paper.config_bits(level, set, nmi) | (level as u16 & 0x40)
    }
    "the flag is taken by its last bit" => { Paper.config_bits(level, set, nmi & 1) }
    "the flag is lost" => {
        let config = Config::of(Paper.config_bits(level, set, nmi));
        Config { non_maskable: false, ..config }.bits()
    }
}

is_on(flag: u32) -> bool {
    "only 1 is on" => { flag == 1 }
    "the last bit of a flag counts" => { flag & 1 == 1 }
}

ported(vic: &[u8], port: u32) -> Result<Controller, u32> {
    "the port behind the last is taken" => {
        Paper.ported(vic, port.saturating_sub(1))
    }
    "22 is given for 21" => {
        Paper.ported(vic, port).map_err(|number| if number == 21 { 22 } else { number })
    }
    "21 comes before 8" => {
        if vic.len() == 88 && port >= u32::from(vic[0]) { Err(21) } else { Paper.ported(vic, port) }
    }
}

set_config(controller: &mut Controller, port: u32, bits: u16) -> () {
    "a configuration enables its port" => {
        Paper.set_config(controller, port, bits);
        Paper.set_enabled(controller, port, true);
    }
    "the configuration of the next port is cleared" => {
        Paper.set_config(controller, port, bits);
        if port < 31 {
            Paper.set_config(controller, port + 1, 0);
        }
    }
}

set_line(controller: &mut Controller, port: u32, up: bool) -> () {
    "a line stays up" => {
        if up { Paper.set_line(controller, port, up) }
    }
    "a line that goes down takes the software trigger along" => {
        Paper.set_line(controller, port, up);
        if !up { Paper.set_software(controller, port, false) }
    }
    "the bits of the lines are counted from the top" => {
        Paper.set_line(controller, u32::from(controller.ports) - 1 - port, up)
    }
}

set_software(controller: &mut Controller, port: u32, on: bool) -> () {
    "the trigger drives the line" => { Paper.set_line(controller, port, on) }
    "a trigger clears those of the other ports" => {
        controller.software = 0;
        Paper.set_software(controller, port, on)
    }
}

set_enabled(controller: &mut Controller, port: u32, on: bool) -> () {
    "the enable is toggled" => {
        controller.enabled ^= u32::from(on) << port;
        if !on { Paper.set_enabled(controller, port, false) }
    }
    "disabling a port clears its trigger" => {
        Paper.set_enabled(controller, port, on);
        if !on { Paper.set_software(controller, port, false) }
    }
}

}
