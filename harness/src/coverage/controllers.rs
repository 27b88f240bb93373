//! What random calls on a controller have reached, and what they must reach. What
//! applies to a call is found here by looking at the bytes, without the model.

use super::counts::number;
use super::{Numbered, Reachable};
use crate::call::{Call, Function, VicCall};
use crate::compare::Answer;
use crate::model::{CHOICE_SIZE, CONTROLLER_SIZE, PORTS};

/// How it came that nothing is told.
#[derive(Clone, Copy, Debug, PartialEq, Eq, PartialOrd, Ord)]
pub enum Silence {
    /// No line is up and nothing triggered.
    NoneRaised,
    /// Some are, and none of these is enabled.
    NoneEnabled,
    /// Some are pending, with level 0 all of them.
    LevelZero,
}

/// One thing that must have been reached.
#[derive(Clone, Copy, Debug, PartialEq, Eq, PartialOrd, Ord)]
pub enum Reached {
    Numbered(Numbered),
    Silent(Silence),
    /// This port was told.
    Told(u8),
    /// .. with this level, of 1 and 63,
    Level(u8),
    /// .. by its line, its software trigger, or both,
    By(bool, bool),
    /// .. with this flag, of ports that has another,
    NonMaskable(bool),
    /// .. with others pending of the same level,
    Tie,
    /// .. with others pending of a lower level before it and behind it,
    Between,
    /// .. though one that is not pending has a larger level,
    LargerNotPending,
    /// .. of so many ports, all of them pending.
    AllPending(u8),
    /// The handler's address was the last of the bus, or one past it.
    LastAddress,
    FirstTooLarge,
    /// .. and 22 would not be so for the first port.
    OnlyChosenTooLarge,
    /// A number of more than 6 bits was given for level or register set.
    Dropped(bool),
    /// A flag was given that is neither 0 nor 1.
    OtherFlag(Function),
    /// A bit was made what it was already.
    Again(Function, bool),
    /// .. and another than it was.
    Changed(Function, bool),
}

const BITS: [(Function, usize); 3] = [
    (Function::VicLine, 12),
    (Function::VicTrigger, 16),
    (Function::VicEnable, 20),
];

fn config(vic: &[u8], port: usize) -> u64 {
    number(vic, 24 + 2 * port, 2)
}

fn level(vic: &[u8], port: usize) -> u64 {
    config(vic, port) % 64
}

fn bit(vic: &[u8], at: usize, port: usize) -> bool {
    number(vic, at, 4) >> port & 1 == 1
}

fn is_raised(vic: &[u8], port: usize) -> bool {
    bit(vic, 12, port) || bit(vic, 16, port)
}

fn is_pending(vic: &[u8], port: usize) -> bool {
    is_raised(vic, port) && bit(vic, 20, port)
}

/// Every field that breaks its rule.
fn broken_fields(vic: &[u8]) -> Vec<usize> {
    if vic.len() != CONTROLLER_SIZE {
        return Vec::new();
    }
    let ports = usize::from(vic[0]);
    let mut broken = Vec::new();
    if !(1..=PORTS).contains(&ports) {
        broken.push(1);
    }
    if number(vic, 1, 3) != 0 {
        broken.push(2);
    }
    for (field, at) in [(5, 12), (6, 16), (7, 20)] {
        if (ports..PORTS).any(|port| bit(vic, at, port)) {
            broken.push(field);
        }
    }
    for port in 0..PORTS {
        let bits = config(vic, port);
        if bits >= 1 << 13 || port >= ports && bits != 0 {
            broken.push(8 + port);
        }
    }
    broken
}

/// The port that a controller tells, by the words: it is pending with a level
/// above 0, and every other such port has a lower level, or the same and a higher
/// index.
fn port_told(vic: &[u8]) -> Option<usize> {
    let asks = |port: &usize| is_pending(vic, *port) && level(vic, *port) > 0;
    let ports = usize::from(vic[0]).min(PORTS);
    let asking: Vec<usize> = (0..ports).filter(asks).collect();
    let told = asking.iter().find(|&&port| {
        asking.iter().all(|&other| {
            let (own, others) = (level(vic, port), level(vic, other));
            others < own || others == own && port <= other
        })
    });
    told.copied()
}

fn handler(vic: &[u8], port: usize) -> u64 {
    port as u64 * number(vic, 4, 4) + number(vic, 8, 4)
}

fn port_given(call: &VicCall) -> Option<u32> {
    match call {
        VicCall::Configure { port, .. }
        | VicCall::Enable { port, .. }
        | VicCall::Trigger { port, .. }
        | VicCall::Line { port, .. } => Some(*port),
        _ => None,
    }
}

/// The numbers of all refusals that apply, in their order; 8 with its field.
fn numbers_applying(call: &VicCall) -> Vec<u32> {
    let vic = call.vic();
    let mut applying = Vec::new();
    let other_answer =
        matches!(call, VicCall::Choose { answer, .. } if answer.len() != CHOICE_SIZE);
    if vic.len() != CONTROLLER_SIZE || other_answer {
        applying.push(7);
    }
    if let VicCall::Create { ports, .. } = call {
        if !(1..=32).contains(ports) {
            applying.push(21);
        }
        return applying;
    }
    if vic.len() != CONTROLLER_SIZE {
        return applying;
    }
    applying.extend(
        broken_fields(vic)
            .first()
            .map(|&field| 8 + 256 * field as u32),
    );
    if port_given(call).is_some_and(|port| port >= u32::from(vic[0])) {
        applying.push(21);
    }
    let chooses = matches!(call, VicCall::Choose { .. });
    if chooses && port_told(vic).is_some_and(|port| handler(vic, port) >> 32 != 0) {
        applying.push(22);
    }
    applying
}

/// The call, where it is one on a controller.
fn on_controller(call: &Call) -> &VicCall {
    match call {
        Call::Vic(call) => call,
        _ => panic!("no call on a controller:\n{call}"),
    }
}

impl Reachable for Reached {
    fn required() -> Vec<Reached> {
        [numbers(), marks(), choices()].concat()
    }

    fn applying(call: &Call) -> Vec<u32> {
        numbers_applying(on_controller(call))
    }

    fn shown(call: &Call, answer: &Answer, reach: &mut dyn FnMut(Reached)) {
        let controller = on_controller(call);
        let broken = broken_fields(controller.vic());
        Numbered::shown(call, answer, &broken, Reached::Numbered, reach);
        let shown = match answer.returned {
            0 => done(controller),
            22 => too_large(controller),
            _ => Vec::new(),
        };
        shown.into_iter().for_each(reach);
    }
}

fn too_large(call: &VicCall) -> Vec<Reached> {
    let vic = call.vic();
    let port = port_told(vic).expect("a port is chosen");
    let mut reached = Vec::new();
    reached.extend((handler(vic, port) == 1 << 32).then_some(Reached::FirstTooLarge));
    reached.extend((handler(vic, 0) >> 32 == 0).then_some(Reached::OnlyChosenTooLarge));
    reached
}

fn done(call: &VicCall) -> Vec<Reached> {
    match call {
        VicCall::Choose { vic, .. } => chosen(vic),
        VicCall::Configure {
            level, set, nmi, ..
        } => {
            let mut reached = Vec::new();
            reached.extend((*level > 63).then_some(Reached::Dropped(true)));
            reached.extend((*set > 63).then_some(Reached::Dropped(false)));
            reached.extend((*nmi > 1).then_some(Reached::OtherFlag(call.function())));
            reached
        }
        VicCall::Enable {
            vic,
            port,
            on: flag,
        }
        | VicCall::Trigger {
            vic,
            port,
            on: flag,
        }
        | VicCall::Line {
            vic,
            port,
            up: flag,
        } => marked(call.function(), vic, *port as usize, *flag),
        _ => Vec::new(),
    }
}

fn marked(function: Function, vic: &[u8], port: usize, flag: u32) -> Vec<Reached> {
    let mut reached = Vec::new();
    reached.extend((flag > 1).then_some(Reached::OtherFlag(function)));
    let at = BITS.iter().find(|(marks, _)| *marks == function);
    let (_, at) = at.expect("the call makes a bit so");
    let on = flag != 0;
    reached.push(if bit(vic, *at, port) == on {
        Reached::Again(function, on)
    } else {
        Reached::Changed(function, on)
    });
    reached
}

fn chosen(vic: &[u8]) -> Vec<Reached> {
    let ports = usize::from(vic[0]);
    let Some(told) = port_told(vic) else {
        let silence = if !(0..ports).any(|port| is_raised(vic, port)) {
            Silence::NoneRaised
        } else if !(0..ports).any(|port| is_pending(vic, port)) {
            Silence::NoneEnabled
        } else {
            Silence::LevelZero
        };
        return vec![Reached::Silent(silence)];
    };
    let own = level(vic, told);
    let pending = |port: &usize| is_pending(vic, *port) && *port != told;
    let others: Vec<usize> = (0..ports).filter(pending).collect();
    let lower = |port: &&usize| level(vic, **port) < own;
    let mut reached = vec![
        Reached::Told(told as u8),
        Reached::By(bit(vic, 12, told), bit(vic, 16, told)),
        Reached::NonMaskable(config(vic, told) >> 6 & 1 == 1),
    ];
    let mut note = |met: bool, point: Reached| reached.extend(met.then_some(point));
    note(own == 1 || own == 63, Reached::Level(own as u8));
    note(
        others.iter().any(|&port| level(vic, port) == own),
        Reached::Tie,
    );
    let before = others.iter().filter(lower).any(|&port| port < told);
    let behind = others.iter().filter(lower).any(|&port| port > told);
    note(before && behind, Reached::Between);
    let larger = (0..ports).any(|port| level(vic, port) > own);
    note(larger, Reached::LargerNotPending);
    let all = others.len() + 1 == ports;
    note(
        all && (ports == 1 || ports == PORTS),
        Reached::AllPending(ports as u8),
    );
    note(handler(vic, told) == (1 << 32) - 1, Reached::LastAddress);
    reached
}

fn numbers() -> Vec<Reached> {
    use Function::*;
    let mut numbers = vec![Numbered::FieldOfSome];
    numbers.extend(Numbered::of_call(VicCreate, &[7, 21], &[(7, 21)]));
    for function in [VicConfigure, VicEnable, VicTrigger, VicLine] {
        numbers.extend(Numbered::of_call(function, &[7, 8, 21], &[(8, 21)]));
    }
    let pairs = [(7, 8), (7, 22), (8, 22)];
    numbers.extend(Numbered::of_call(VicChoose, &[7, 8, 22], &pairs));
    numbers.extend([1, 2, 5, 6, 7].map(Numbered::Field));
    numbers.extend((8..8 + PORTS).map(Numbered::Field));
    numbers.into_iter().map(Reached::Numbered).collect()
}

fn marks() -> Vec<Reached> {
    let mut marks = vec![Reached::OtherFlag(Function::VicConfigure)];
    for (function, _) in BITS {
        marks.push(Reached::OtherFlag(function));
        for flag in [false, true] {
            marks.extend([
                Reached::Again(function, flag),
                Reached::Changed(function, flag),
            ]);
        }
    }
    marks
}

fn choices() -> Vec<Reached> {
    use Reached::*;
    use Silence::*;
    let mut choices = vec![
        Tie,
        Between,
        LargerNotPending,
        LastAddress,
        FirstTooLarge,
        OnlyChosenTooLarge,
    ];
    choices.extend([NoneRaised, NoneEnabled, LevelZero].map(Silent));
    choices.extend((0..PORTS as u8).map(Told));
    choices.extend([1, 63].map(Level));
    choices.extend([(true, false), (false, true), (true, true)].map(|(line, own)| By(line, own)));
    choices.extend([1, PORTS as u8].map(AllPending));
    for flag in [false, true] {
        choices.extend([NonMaskable(flag), Dropped(flag)]);
    }
    choices
}
