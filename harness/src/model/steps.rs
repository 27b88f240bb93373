//! Steps and runs.

use super::{
    control, descriptor_control, status, Descriptor, Emptying, Fault, Kept, Ledger, Ledgers,
    Machine, Mode, Phase, Registers, Slot, SlotKind, Slots, DESCRIPTOR_SIZE,
};

/// What is lent to a run, and how far it has come in the two streams and in the
/// ledger.
///
/// A beat is two bytes, the most significant first. Only whole beats are lent,
/// and `memory` has the length of the machine's window.
pub struct Ports<'lent> {
    pub memory: &'lent mut [u8],
    pub beats: &'lent [u8],
    pub out: &'lent mut [u8],
    pub ledger: Ledger<'lent>,
    pub taken: usize,
    pub made: usize,
}

impl<'lent> Ports<'lent> {
    pub fn new(
        memory: &'lent mut [u8],
        beats: &'lent [u8],
        out: &'lent mut [u8],
        ledger: Ledger<'lent>,
    ) -> Self {
        Ports {
            memory,
            beats,
            out,
            ledger,
            taken: 0,
            made: 0,
        }
    }

    pub fn has_beat(&self) -> bool {
        2 * self.taken < self.beats.len()
    }

    pub fn has_room(&self) -> bool {
        2 * self.made < self.out.len()
    }

    /// Takes the next input beat.
    pub fn take_beat(&mut self) -> u16 {
        let place = 2 * self.taken;
        self.taken += 1;
        u16::from_be_bytes([self.beats[place], self.beats[place + 1]])
    }

    /// Makes the next output beat.
    pub fn make_beat(&mut self, beat: u16) {
        let place = 2 * self.made;
        self.made += 1;
        self.out[place..place + 2].copy_from_slice(&beat.to_be_bytes());
    }

    /// What a run tells that has come so far, by so many steps.
    pub fn report(&self, reason: Reason, steps: u32) -> Report {
        Report {
            reason,
            steps,
            taken: self.taken as u32,
            made: self.made as u32,
            used: self.ledger.used,
        }
    }
}

/// "An output beat: zero 6, SOP 1, EOP 1, data 8."
pub const OUTPUT_SOP: u16 = 1 << 9;
pub const OUTPUT_EOP: u16 = 1 << 8;

/// "An input beat is 16 bits, most significant first: error 7, EOP 1, data 8."
#[derive(Clone, Copy, Debug, PartialEq, Eq)]
pub struct InputBeat {
    pub errors: u8,
    pub eop: bool,
    pub data: u8,
}

/// Why a run stopped: "0 Rest, 1 Ended, 2 Halted, 3 Faulted, 4 NeedsInput,
/// 5 OutputFull, 6 Budget", and with the ledger "7 LedgerFull".
#[derive(Clone, Copy, Debug, PartialEq, Eq, PartialOrd, Ord)]
pub enum Reason {
    Rest,
    Ended,
    Halted,
    Faulted,
    NeedsInput,
    OutputFull,
    Budget,
    LedgerFull,
}

impl Reason {
    pub const ALL: [Reason; 8] = [
        Reason::Rest,
        Reason::Ended,
        Reason::Halted,
        Reason::Faulted,
        Reason::NeedsInput,
        Reason::OutputFull,
        Reason::Budget,
        Reason::LedgerFull,
    ];
}

/// "It also tells steps, beats taken and beats made", and how many records are
/// used now.
#[derive(Clone, Copy, Debug, PartialEq, Eq)]
pub struct Report {
    pub reason: Reason,
    pub steps: u32,
    pub taken: u32,
    pub made: u32,
    pub used: u32,
}

pub trait Steps: Registers + Slots + Ledgers {
    /// "A run takes steps until one cannot be taken or the budget (32 bits) is
    /// spent, and its answer is the reason found there: .. Budget is given only if
    /// another step was possible."
    fn run(self, machine: &mut Machine, ports: &mut Ports, budget: u32) -> Report {
        let mut steps = 0;
        let reason = loop {
            if steps == budget {
                break self.obstacle(machine, ports).unwrap_or(Reason::Budget);
            }
            if let Err(reason) = self.step(machine, ports) {
                break reason;
            }
            steps += 1;
        };
        ports.report(reason, steps)
    }

    /// One step, or the reason why there is none. A fault is a step.
    #[inline]
    fn step(self, machine: &mut Machine, ports: &mut Ports) -> Result<(), Reason> {
        if let Some(reason) = self.obstacle(machine, ports) {
            return Err(reason);
        }
        self.take_step(machine, ports);
        Ok(())
    }

    /// The step of a machine that has no obstacle before it.
    #[inline]
    fn take_step(self, machine: &mut Machine, ports: &mut Ports) {
        let mut outcome = Ok(());
        match machine.phase {
            Phase::Rest => self.leave_rest(machine),
            Phase::Fetch => outcome = self.fetch(machine, ports.memory),
            Phase::Move => outcome = self.move_byte(machine, ports),
            Phase::WriteBack => self.write_back(machine, ports),
            Phase::Ended | Phase::Halted | Phase::Faulted => unreachable!("each is an obstacle"),
        }
        if let Err(fault) = outcome {
            self.fail(machine, fault);
        }
    }

    /// Why no step can be taken here, if none can.
    #[inline]
    fn obstacle(self, machine: &Machine, ports: &Ports) -> Option<Reason> {
        match machine.phase {
            Phase::Rest => (!machine.runs()).then_some(Reason::Rest),
            Phase::Fetch => None,
            Phase::Move => self.stream_obstacle(machine, ports),
            Phase::WriteBack => self.ledger_obstacle(machine, &ports.ledger),
            Phase::Ended => Some(Reason::Ended),
            Phase::Halted => Some(Reason::Halted),
            Phase::Faulted => Some(Reason::Faulted),
        }
    }

    /// "Mode 1: 13, then no room, no step; .. Mode 2: no beat, no step; then 14,
    /// beat not taken."
    #[inline]
    fn stream_obstacle(self, machine: &Machine, ports: &Ports) -> Option<Reason> {
        match machine.mode {
            Mode::MemoryToMemory => None,
            Mode::MemoryToStream => (!ports.has_room() && self.source_place(machine).is_ok())
                .then_some(Reason::OutputFull),
            Mode::StreamToMemory => (!ports.has_beat()).then_some(Reason::NeedsInput),
        }
    }

    /// "run reason 7 LedgerFull when WriteBack finds no room, no step taken": it is
    /// looked for before anything else in WriteBack, so with RUN 0 too.
    fn ledger_obstacle(self, _machine: &Machine, ledger: &Ledger) -> Option<Reason> {
        let room = self.has_room_for_record(ledger.length(), ledger.used);
        (!room).then_some(Reason::LedgerFull)
    }

    /// "Rest. RUN 0: no step. RUN 1: BUSY 1, go to Fetch."
    fn leave_rest(self, machine: &mut Machine) {
        machine.status |= status::BUSY;
        machine.phase = Phase::Fetch;
    }

    /// "A fault sets BUSY 0, keeps code and address (12: the descriptor's; 10
    /// and 11: the pointer; 13 and 14: the byte's modulo 2^32), writes nothing".
    /// What was kept of the descriptor is dropped: its image fields are zero
    /// outside Move and WriteBack.
    fn fail(self, machine: &mut Machine, fault: Fault) {
        machine.phase = Phase::Faulted;
        machine.status &= !status::BUSY;
        machine.fault_code = fault.code;
        machine.fault_address = fault.address as u32;
        machine.kept = Kept::default();
        self.empty_slot(machine, Emptying::Faulted);
    }

    /// "Fetch. RUN 0: Rest, BUSY 0. Otherwise read 32 bytes at the pointer", where
    /// they were not read ahead.
    fn fetch(self, machine: &mut Machine, memory: &[u8]) -> Result<(), Fault> {
        if !machine.runs() {
            self.go_to_rest(machine);
            return Ok(());
        }
        let found = self.looked_at(machine, memory);
        self.check_found(machine, &found)?;
        self.accept(machine, &self.read_fields(&found.bytes))?;
        if machine.phase == Phase::Move {
            self.read_ahead(machine, memory);
        }
        Ok(())
    }

    /// "misaligned, fault 10; not wholly in the window, fault 11", with "the
    /// pointer" as their address.
    fn check_found(self, machine: &Machine, found: &Slot) -> Result<(), Fault> {
        let address = u64::from(machine.pointer);
        let fault = |code| Err(Fault { code, address });
        match found.kind {
            SlotKind::Misaligned => fault(Fault::MISALIGNED),
            SlotKind::Outside => fault(Fault::DESCRIPTOR_OUTSIDE),
            SlotKind::Descriptor | SlotKind::Empty => Ok(()),
        }
    }

    /// What Fetch does with the descriptor it has read: unowned, the chain ends;
    /// "length 0 in mode 0 or 1, fault 12"; otherwise it is kept.
    fn accept(self, machine: &mut Machine, read: &Descriptor) -> Result<(), Fault> {
        if read.control & descriptor_control::OWNED_BY_HW == 0 {
            self.end_chain(machine, read);
            return Ok(());
        }
        if read.length == 0 && machine.mode != Mode::StreamToMemory {
            return Err(Fault {
                code: Fault::NO_LENGTH,
                address: u64::from(machine.pointer),
            });
        }
        self.keep(machine, read);
        Ok(())
    }

    /// "OWNED 0, set CHAIN_COMPLETED, pend if IE_CHAIN, go to Ended (BUSY stays
    /// 1, pointer stays)"
    fn end_chain(self, machine: &mut Machine, _read: &Descriptor) {
        self.signal(machine, status::CHAIN_COMPLETED, control::IE_CHAIN);
        machine.phase = Phase::Ended;
        self.empty_slot(machine, Emptying::Ended);
    }

    /// "Otherwise keep the fields, set the pointer to next_desc_ptr, go to Move."
    fn keep(self, machine: &mut Machine, read: &Descriptor) {
        machine.kept = Kept {
            address: machine.pointer,
            source: read.source,
            destination: read.destination,
            length: read.length,
            control: read.control,
            ..Kept::default()
        };
        machine.pointer = read.next;
        machine.phase = Phase::Move;
    }

    /// "Mode 0: source outside, 13; destination outside, 14. Mode 1: 13, .. Mode
    /// 2: .. 14, beat not taken."
    #[inline]
    fn move_byte(self, machine: &mut Machine, ports: &mut Ports) -> Result<(), Fault> {
        match machine.mode {
            Mode::MemoryToMemory => {
                let from = self.source_place(machine)?;
                let to = self.destination_place(machine)?;
                ports.memory[to] = ports.memory[from];
            }
            Mode::MemoryToStream => {
                let from = self.source_place(machine)?;
                ports.make_beat(self.output_beat(machine, ports.memory[from]));
            }
            Mode::StreamToMemory => {
                let to = self.destination_place(machine)?;
                let beat = self.input_beat(ports.take_beat());
                ports.memory[to] = beat.data;
                self.gather(machine, beat);
            }
        }
        self.count_byte(machine);
        Ok(())
    }

    /// "Byte i is read at source + i .. without i under the matching FIXED bit."
    #[inline]
    fn source_place(self, machine: &Machine) -> Result<usize, Fault> {
        let kept = &machine.kept;
        self.byte_place(
            machine,
            self.byte_address(kept, kept.source, descriptor_control::READ_FIXED_ADDRESS),
            Fault::SOURCE_OUTSIDE,
        )
    }

    /// ".. and written at destination + i"
    #[inline]
    fn destination_place(self, machine: &Machine) -> Result<usize, Fault> {
        let kept = &machine.kept;
        self.byte_place(
            machine,
            self.byte_address(
                kept,
                kept.destination,
                descriptor_control::WRITE_FIXED_ADDRESS,
            ),
            Fault::DESTINATION_OUTSIDE,
        )
    }

    #[inline]
    fn byte_address(self, kept: &Kept, start: u32, fixed: u8) -> u64 {
        if kept.control & fixed != 0 {
            u64::from(start)
        } else {
            u64::from(start) + u64::from(kept.moved)
        }
    }

    #[inline]
    fn byte_place(self, machine: &Machine, address: u64, code: u8) -> Result<usize, Fault> {
        self.place(machine.window, address, 1)
            .ok_or(Fault { code, address })
    }

    /// "SOP on byte 0 if WRITE_FIXED, EOP on byte L-1 if GENERATE_EOP."
    #[inline]
    fn output_beat(self, machine: &Machine, data: u8) -> u16 {
        let kept = &machine.kept;
        let marked = |bit| kept.control & bit != 0;
        let mut beat = u16::from(data);
        if kept.moved == 0 && marked(descriptor_control::WRITE_FIXED_ADDRESS) {
            beat |= OUTPUT_SOP;
        }
        let last = self.bytes_wanted(machine.mode, kept.length) - 1;
        if kept.moved == last && marked(descriptor_control::GENERATE_EOP) {
            beat |= OUTPUT_EOP;
        }
        beat
    }

    #[inline]
    fn input_beat(self, beat: u16) -> InputBeat {
        InputBeat {
            errors: (beat >> 9) as u8,
            eop: beat & (1 << 8) != 0,
            data: beat as u8,
        }
    }

    /// "Beat errors are gathered by OR." "A byte with an error is moved and
    /// counted."
    #[inline]
    fn gather(self, machine: &mut Machine, beat: InputBeat) {
        machine.kept.errors |= beat.errors;
        machine.kept.eop_seen = beat.eop;
    }

    /// "When L bytes are moved or a taken beat had EOP, go to WriteBack."
    #[inline]
    fn count_byte(self, machine: &mut Machine) {
        let kept = &mut machine.kept;
        kept.moved += 1;
        if kept.moved == self.bytes_wanted(machine.mode, kept.length) || kept.eop_seen {
            machine.phase = Phase::WriteBack;
        }
    }

    /// "Set DESCRIPTOR_COMPLETED; EOP_ENCOUNTERED if the last beat had EOP; ERROR
    /// if errors are not 0." "Records are appended on the WriteBack step".
    fn write_back(self, machine: &mut Machine, ports: &mut Ports) {
        self.write_done_mark(machine, ports.memory);
        self.append(&mut ports.ledger, &self.record(machine));
        let kept = machine.kept;
        self.signal(
            machine,
            status::DESCRIPTOR_COMPLETED,
            control::IE_DESCRIPTOR,
        );
        if kept.eop_seen {
            self.signal(machine, status::EOP_ENCOUNTERED, control::IE_EOP);
        }
        if kept.errors != 0 {
            self.signal(machine, status::ERROR, control::IE_ERROR);
        }
        self.count_descriptor(machine);
        machine.kept = Kept::default();
        self.leave_write_back(machine, kept.errors != 0);
    }

    /// "Write the last four descriptor bytes only: actual, errors, control as
    /// fetched with bit 7 cleared unless PARK."
    fn write_done_mark(self, machine: &Machine, memory: &mut [u8]) {
        let kept = &machine.kept;
        let place = self
            .place(
                machine.window,
                u64::from(kept.address),
                DESCRIPTOR_SIZE as u64,
            )
            .expect("a descriptor that was fetched, or loaded, is in the window");
        let control = self.done_control(machine, memory[place + 31]);
        let mark = self.last_four(kept.moved, kept.errors, control);
        memory[place + 28..place + 32].copy_from_slice(&mark);
    }

    /// "control as fetched with bit 7 cleared unless PARK": what stands in memory
    /// now does not matter, data may have overwritten it.
    fn done_control(self, machine: &Machine, _in_memory: u8) -> u8 {
        if machine.controls(control::PARK) {
            machine.kept.control
        } else {
            machine.kept.control & !descriptor_control::OWNED_BY_HW
        }
    }

    /// "Count: if MAX is 0 it becomes 0; else add 1, and on reaching MAX or more
    /// it becomes 0 and IE_MAX pends."
    fn count_descriptor(self, machine: &mut Machine) {
        let max = machine.max_descriptors();
        if max == 0 {
            machine.count = 0;
        } else if machine.count + 1 >= max {
            machine.count = 0;
            self.pend(machine, control::IE_MAX);
        } else {
            machine.count += 1;
        }
    }

    /// "Then RUN 0: Rest, BUSY 0; errors with STOP_DMA_ER: Halted, BUSY 0; else
    /// Fetch."
    fn leave_write_back(self, machine: &mut Machine, errors: bool) {
        if !machine.runs() {
            self.go_to_rest(machine);
        } else if errors && machine.controls(control::STOP_DMA_ER) {
            machine.phase = Phase::Halted;
            machine.status &= !status::BUSY;
            self.empty_slot(machine, Emptying::Halted);
        } else {
            machine.phase = Phase::Fetch;
        }
    }
}
