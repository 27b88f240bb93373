//! The calls on an interrupt controller as values.

use super::{Argument, Call, Function, Lent};
use crate::model::Controllers;

/// One call with all its arguments, in the order of the C prototypes.
#[derive(Clone, Debug, PartialEq, Eq)]
pub enum VicCall {
    Create {
        vic: Lent,
        ports: u32,
        vector_bytes: u32,
        base: u32,
    },
    Configure {
        vic: Lent,
        port: u32,
        level: u32,
        set: u32,
        nmi: u32,
    },
    Enable {
        vic: Lent,
        port: u32,
        on: u32,
    },
    Trigger {
        vic: Lent,
        port: u32,
        on: u32,
    },
    Line {
        vic: Lent,
        port: u32,
        up: u32,
    },
    Choose {
        vic: Lent,
        answer: Lent,
    },
}

impl From<VicCall> for Call {
    fn from(call: VicCall) -> Call {
        Call::Vic(call)
    }
}

impl VicCall {
    pub fn function(&self) -> Function {
        match self {
            VicCall::Create { .. } => Function::VicCreate,
            VicCall::Configure { .. } => Function::VicConfigure,
            VicCall::Enable { .. } => Function::VicEnable,
            VicCall::Trigger { .. } => Function::VicTrigger,
            VicCall::Line { .. } => Function::VicLine,
            VicCall::Choose { .. } => Function::VicChoose,
        }
    }

    /// The 88 bytes that the call is given.
    pub fn vic(&self) -> &Lent {
        match self {
            VicCall::Create { vic, .. }
            | VicCall::Configure { vic, .. }
            | VicCall::Enable { vic, .. }
            | VicCall::Trigger { vic, .. }
            | VicCall::Line { vic, .. }
            | VicCall::Choose { vic, .. } => vic,
        }
    }

    /// Every argument in the order of the prototype.
    #[rustfmt::skip]
    pub(super) fn arguments(&mut self) -> Vec<Argument<'_>> {
        use Argument::{Lent, Long};
        match self {
            VicCall::Create { vic, ports, vector_bytes, base } =>
                vec![Lent("vic", vic), Long(ports), Long(vector_bytes), Long(base)],
            VicCall::Configure { vic, port, level, set, nmi } =>
                vec![Lent("vic", vic), Long(port), Long(level), Long(set), Long(nmi)],
            VicCall::Enable { vic, port, on } | VicCall::Trigger { vic, port, on } =>
                vec![Lent("vic", vic), Long(port), Long(on)],
            VicCall::Line { vic, port, up } =>
                vec![Lent("vic", vic), Long(port), Long(up)],
            VicCall::Choose { vic, answer } =>
                vec![Lent("vic", vic), Lent("answer", answer)],
        }
    }

    /// Makes the call by a model.
    #[rustfmt::skip]
    pub(super) fn answer(&mut self, model: impl Controllers) -> u32 {
        match self {
            VicCall::Create { vic, ports, vector_bytes, base } =>
                model.sgdma_vic_create(vic, *ports, *vector_bytes, *base),
            VicCall::Configure { vic, port, level, set, nmi } =>
                model.sgdma_vic_configure(vic, *port, *level, *set, *nmi),
            VicCall::Enable { vic, port, on } => model.sgdma_vic_enable(vic, *port, *on),
            VicCall::Trigger { vic, port, on } => model.sgdma_vic_trigger(vic, *port, *on),
            VicCall::Line { vic, port, up } => model.sgdma_vic_line(vic, *port, *up),
            VicCall::Choose { vic, answer } => model.sgdma_vic_choose(vic, answer),
        }
    }
}
