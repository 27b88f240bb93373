//! Order 10, tried: random chains that meet its premises, in each of the three
//! modes. What must come of each is worked out here, descriptor by descriptor and
//! without a step, from the text of demand 3 and of the order.

use harness::call::{parties, Party};
use harness::firmware::Firmware;
use harness::gen::Rng;
use harness::model::{control, descriptor_control, offset, Descriptor, Reason};
use std::collections::{BTreeMap, BTreeSet};

const BASE: u32 = 0x1_2000;
const WINDOW: usize = 768;
const CHAINS: u32 = 6_000;
/// How many chains must show each case.
const FEWEST: u32 = 100;
const MOST_OWNED: usize = 5;

/// A window with a chain in it, and what is lent with it.
struct Chain {
    mode: u32,
    control: u32,
    memory: Vec<u8>,
    /// The k owned ones, in order.
    owned: Vec<(u32, Descriptor)>,
    end: u32,
    beats: Vec<u16>,
}

/// What one descriptor moves.
#[derive(Default)]
struct Share {
    count: u16,
    errors: u8,
    eop: bool,
    made: Vec<u16>,
    taken: usize,
}

/// What must come of a chain.
struct Outcome {
    shares: Vec<Share>,
    /// The window with the bytes sent, and no mark.
    data: Vec<u8>,
    /// By which descriptor each byte of the window was written last.
    writers: Vec<Option<usize>>,
    cases: BTreeSet<Case>,
}

/// What chains show, each in the modes that can show it.
#[derive(Clone, Copy, Debug, PartialEq, Eq, PartialOrd, Ord)]
enum Case {
    /// So many descriptors are owned.
    Owned(usize),
    /// STOP_DMA_ER is set, which is free in modes 0 and 1.
    Stop,
    /// One byte is moved, or more than 64.
    OneByte,
    Long,
    /// Several are read at one address, or written there.
    FixedSource,
    FixedDestination,
    /// A byte is read where the descriptor itself has written, or one before it.
    ReadsItsOwn,
    ReadsEarlier,
    /// The beats of a descriptor have SOP, or not; EOP, or not; and are one, or more.
    Beats(bool, bool, bool),
    /// A descriptor of mode 2 has this length, an error, or is ended by EOP or not.
    LengthZero,
    Error,
    EndedByEop(bool),
}

/// What the chains of a mode must show.
fn required(mode: u32) -> Vec<Case> {
    use Case::*;
    let both = [false, true];
    let mut cases: Vec<Case> = (0..=MOST_OWNED).map(Owned).collect();
    cases.push(OneByte);
    match mode {
        0 => cases.extend([
            Stop,
            Long,
            FixedSource,
            FixedDestination,
            ReadsItsOwn,
            ReadsEarlier,
        ]),
        1 => {
            cases.extend([Stop, Long, FixedSource]);
            let marks = both.map(|sop| both.map(|eop| both.map(|one| Beats(sop, eop, one))));
            cases.extend(marks.concat().concat());
        }
        _ => {
            cases.extend([FixedDestination, LengthZero, Error]);
            cases.extend(both.map(EndedByEop));
        }
    }
    cases
}

fn place(address: u32) -> usize {
    (address - BASE) as usize
}

fn has(fields: &Descriptor, flag: u8) -> bool {
    fields.control & flag != 0
}

/// "Byte i is at source + i, without i under the matching FIXED bit."
fn source(fields: &Descriptor, i: u16) -> usize {
    let fixed = has(fields, descriptor_control::READ_FIXED_ADDRESS);
    place(fields.source) + if fixed { 0 } else { usize::from(i) }
}

fn destination(fields: &Descriptor, i: u16) -> usize {
    let fixed = has(fields, descriptor_control::WRITE_FIXED_ADDRESS);
    place(fields.destination) + if fixed { 0 } else { usize::from(i) }
}

impl Chain {
    /// Mode 0: each byte as memory holds it when it is read.
    fn copy(&self, fields: &Descriptor, outcome: &mut Outcome) -> Share {
        let number = outcome.shares.len();
        for i in 0..fields.length {
            let (from, to) = (source(fields, i), destination(fields, i));
            let read = outcome.writers[from].map(|writer| {
                if writer == number {
                    Case::ReadsItsOwn
                } else {
                    Case::ReadsEarlier
                }
            });
            outcome.cases.extend(read);
            outcome.data[to] = outcome.data[from];
            outcome.writers[to] = Some(number);
        }
        Share {
            count: fields.length,
            ..Share::default()
        }
    }

    /// Mode 1: "SOP on byte 0 if WRITE_FIXED, EOP on byte L-1 if GENERATE_EOP."
    fn send(&self, fields: &Descriptor) -> Share {
        let beat = |i: u16| {
            let sop = i == 0 && has(fields, descriptor_control::WRITE_FIXED_ADDRESS);
            let eop = i + 1 == fields.length && has(fields, descriptor_control::GENERATE_EOP);
            let byte = self.memory[source(fields, i)];
            u16::from(sop) << 9 | u16::from(eop) << 8 | u16::from(byte)
        };
        Share {
            count: fields.length,
            made: (0..fields.length).map(beat).collect(),
            ..Share::default()
        }
    }

    /// Mode 2: L beats, a 0 being 65,535, or up to the first EOP.
    fn receive(&self, fields: &Descriptor, beats: &[u16], data: &mut [u8]) -> Share {
        let most = match fields.length {
            0 => 65_535,
            length => length,
        };
        let mut share = Share::default();
        while share.count < most && !share.eop {
            let beat = beats[usize::from(share.count)];
            data[destination(fields, share.count)] = beat as u8;
            share.errors |= (beat >> 9) as u8;
            share.eop = beat >> 8 & 1 == 1;
            share.count += 1;
        }
        share.taken = usize::from(share.count);
        share
    }

    fn outcome(&self) -> Outcome {
        let mut outcome = Outcome {
            shares: Vec::new(),
            data: self.memory.clone(),
            writers: vec![None; WINDOW],
            cases: BTreeSet::from([Case::Owned(self.owned.len())]),
        };
        let mut taken = 0;
        for (_, fields) in &self.owned {
            let share = match self.mode {
                0 => self.copy(fields, &mut outcome),
                1 => self.send(fields),
                _ => self.receive(fields, &self.beats[taken..], &mut outcome.data),
            };
            taken += share.taken;
            outcome.cases.extend(self.cases(fields, &share));
            outcome.shares.push(share);
        }
        outcome
    }

    /// What a descriptor and its share show.
    fn cases(&self, fields: &Descriptor, share: &Share) -> Vec<Case> {
        let flag = |flag: u8| has(fields, flag);
        let read_fixed = flag(descriptor_control::READ_FIXED_ADDRESS);
        let write_fixed = flag(descriptor_control::WRITE_FIXED_ADDRESS);
        let eop = flag(descriptor_control::GENERATE_EOP);
        let one = share.count == 1;
        let mut shown = vec![
            Case::Beats(write_fixed, eop, one),
            Case::EndedByEop(share.eop),
        ];
        let mut note = |met: bool, case: Case| shown.extend(met.then_some(case));
        note(self.control & control::STOP_DMA_ER != 0, Case::Stop);
        note(one, Case::OneByte);
        note(share.count > 64, Case::Long);
        note(read_fixed && !one, Case::FixedSource);
        note(write_fixed && !one, Case::FixedDestination);
        note(fields.length == 0, Case::LengthZero);
        note(share.errors != 0, Case::Error);
        shown
    }
}

impl Outcome {
    /// "2 steps plus, for each of the k, its bytes and 2 more".
    fn steps(&self) -> u32 {
        let each = self.shares.iter().map(|share| u32::from(share.count) + 2);
        2 + each.sum::<u32>()
    }

    /// How many are done after so many steps: the first leaves Rest, and each
    /// takes a Fetch, its bytes and a WriteBack.
    fn done_after(&self, steps: u32) -> usize {
        let mut last = 1;
        let is_done = |share: &&Share| {
            last += u32::from(share.count) + 2;
            last <= steps
        };
        self.shares.iter().take_while(is_done).count()
    }

    fn made(&self) -> Vec<u16> {
        let each = self.shares.iter().flat_map(|share| &share.made);
        each.copied().collect()
    }

    fn taken(&self) -> usize {
        self.shares.iter().map(|share| share.taken).sum()
    }

    /// The last four bytes of the first `done` descriptors are written.
    fn marked(&self, chain: &Chain, before: &[u8], done: usize) -> Vec<u8> {
        let mut memory = before.to_vec();
        for ((address, fields), share) in chain.owned.iter().zip(&self.shares).take(done) {
            let [low, high] = share.count.to_le_bytes();
            let four = [low, high, share.errors, fields.control & 0x7F];
            memory[place(address + 28)..][..4].copy_from_slice(&four);
        }
        memory
    }

    /// "run number 32, descriptor address 32, actual 16, status 8, zero 7, EOP 1".
    fn records(&self, chain: &Chain) -> Vec<[u8; 12]> {
        let mut records = Vec::new();
        for ((address, _), share) in chain.owned.iter().zip(&self.shares) {
            let [a, b, c, d] = address.to_be_bytes();
            let [high, low] = share.count.to_be_bytes();
            let eop = u8::from(share.eop);
            records.push([0, 0, 0, 1, a, b, c, d, high, low, share.errors, eop]);
        }
        records
    }
}

// ---- random chains

/// Six descriptors leave at least 83 bytes of the window in a row, so that data of
/// so many find a place.
const LONGEST: u64 = 80;

/// Aligned addresses of 32 bytes each that do not overlap, in any order.
fn seats(rng: &mut Rng, count: usize) -> Vec<u32> {
    let mut seats: Vec<u32> = Vec::new();
    while seats.len() < count {
        let seat = BASE + 4 * rng.below((WINDOW as u64 - 32) / 4 + 1) as u32;
        if seats.iter().all(|&other| seat.abs_diff(other) >= 32) {
            seats.push(seat);
        }
    }
    seats
}

/// An address of so many bytes in the window and outside the descriptors; every
/// other time it is tried near an earlier one, so that data overlap.
fn data_address(rng: &mut Rng, seats: &[u32], bytes: u32, near: u32) -> u32 {
    let end = BASE + WINDOW as u32;
    loop {
        let first = if rng.chance(50) {
            near - 8 + rng.below(17) as u32
        } else {
            BASE + rng.below(WINDOW as u64) as u32
        };
        let is_off = |&seat: &u32| first + bytes <= seat || seat + 32 <= first;
        if BASE <= first && first + bytes <= end && seats.iter().all(is_off) {
            return first;
        }
    }
}

/// One descriptor's fields but for the next one's address, with its data near what
/// was written last. What a mode does not use is anything.
fn job(rng: &mut Rng, mode: u32, seats: &[u32], near: u32) -> Descriptor {
    let control = rng.number() as u8 | descriptor_control::OWNED_BY_HW;
    let is_set = |flag| control & flag != 0;
    let most = rng.pick(&[9, 9, 9, LONGEST]);
    let length = 1 + rng.below(most) as u32;
    let extent = |flag| if is_set(flag) { 1 } else { length };
    let mut fields = Descriptor {
        source: rng.number() as u32,
        destination: rng.number() as u32,
        length: length as u16,
        control,
        ..Descriptor::default()
    };
    if mode != 2 {
        let extent = extent(descriptor_control::READ_FIXED_ADDRESS);
        fields.source = data_address(rng, seats, extent, near);
    }
    if mode != 1 {
        let near = if mode == 0 { fields.source } else { near };
        let extent = extent(descriptor_control::WRITE_FIXED_ADDRESS);
        fields.destination = data_address(rng, seats, extent, near);
    }
    if mode == 2 && is_set(descriptor_control::WRITE_FIXED_ADDRESS) && rng.chance(20) {
        fields.length = 0;
    }
    fields
}

/// Beats enough for every descriptor: each has one with EOP within forty.
fn beats(rng: &mut Rng, count: usize) -> Vec<u16> {
    let beat = |i: usize, random: u64| {
        let eop = i % 40 == 39 || random >> 32 & 7 == 0;
        let error = if random >> 35 & 3 == 0 { 0xFE00 } else { 0 };
        random as u16 & (0x00FF | error) | u16::from(eop) << 8
    };
    (0..80 * (count + 1))
        .map(|i| beat(i, rng.number()))
        .collect()
}

/// RUN set with PARK clear, and in mode 2 STOP_DMA_ER; every other bit is free.
fn control_for(rng: &mut Rng, mode: u32) -> u32 {
    let stop = if mode == 2 { control::STOP_DMA_ER } else { 0 };
    rng.number() as u32 & !(control::PARK | stop) | control::RUN
}

fn chain(rng: &mut Rng, mode: u32) -> Chain {
    let k = rng.below(MOST_OWNED as u64 + 1) as usize;
    let seats = seats(rng, k + 1);
    let mut memory = rng.bytes(WINDOW);
    memory[place(seats[k] + 31)] &= !descriptor_control::OWNED_BY_HW;
    let mut owned = Vec::new();
    let mut near = BASE + WINDOW as u32 / 2;
    for link in seats.windows(2) {
        let fields = job(rng, mode, &seats, near);
        if mode != 1 {
            near = fields.destination;
        }
        let next = link[1];
        owned.push((link[0], Descriptor { next, ..fields }));
    }
    Chain {
        mode,
        control: control_for(rng, mode),
        memory,
        owned,
        end: seats[k],
        beats: beats(rng, k),
    }
}

// ---- what is tried

/// The calls up to the run: create, the descriptors, pointer, control.
fn started<'party>(party: &'party dyn Party, chain: &mut Chain) -> Firmware<'party> {
    let mut core = Firmware::new(party, chain.mode, BASE, WINDOW);
    core.memory.copy_from_slice(&chain.memory);
    for (address, fields) in &chain.owned {
        core.build(*address, fields);
    }
    chain.memory.copy_from_slice(&core.memory);
    let first = chain
        .owned
        .first()
        .map_or(chain.end, |(address, _)| *address);
    core.write(offset::NEXT_DESCRIPTOR_POINTER, first);
    core.write(offset::CONTROL, chain.control);
    core.lend_records(chain.owned.len());
    core
}

/// Every byte of the window, the pointer and the records at the end.
fn check_end(core: &Firmware, chain: &Chain, outcome: &Outcome) {
    let after = outcome.marked(chain, &outcome.data, chain.owned.len());
    assert!(core.memory == after, "another byte of the window differs");
    assert_eq!(core.read(offset::NEXT_DESCRIPTOR_POINTER), chain.end);
    assert_eq!(core.records(), outcome.records(chain));
}

/// With budget enough, and just room enough: or with more of both.
fn check_at_once(mut core: Firmware, chain: &Chain, outcome: &Outcome, more: u32) {
    let room = outcome.made().len() + more as usize;
    let ran = core.run(&chain.beats, room, outcome.steps() + more);
    assert_eq!(ran.reason, Reason::Ended as u16);
    assert_eq!(ran.steps, outcome.steps());
    assert_eq!(ran.taken as usize, outcome.taken());
    assert_eq!(ran.made, outcome.made());
    assert_eq!(ran.used as usize, chain.owned.len());
    check_end(&core, chain, outcome);
}

/// "Those of the k marked done are the first few of the chain, each with the
/// count": so many after these steps, and each of the others is as it was.
fn check_first_few(core: &Firmware, chain: &Chain, outcome: &Outcome, steps: u32) {
    let few = outcome.marked(chain, &chain.memory, outcome.done_after(steps));
    for (address, _) in &chain.owned {
        let of = |memory: &[u8]| memory[place(*address)..][..32].to_vec();
        assert_eq!(of(&core.memory), of(&few), "not the first few");
    }
}

/// A step at a time: no other reason before the last, and the same at the end.
fn check_step_by_step(mut core: Firmware, chain: &Chain, outcome: &Outcome) {
    let mut taken = 0;
    let mut made = Vec::new();
    for step in 1..=outcome.steps() {
        let room = outcome.made().len() - made.len();
        let ran = core.run(&chain.beats[taken..], room, 1);
        let last = step == outcome.steps();
        let reason = if last { Reason::Ended } else { Reason::Budget };
        assert_eq!((ran.reason, ran.steps), (reason as u16, 1), "step {step}");
        taken += ran.taken as usize;
        made.extend(ran.made);
        check_first_few(&core, chain, outcome, step);
    }
    assert_eq!((taken, made), (outcome.taken(), outcome.made()));
    check_end(&core, chain, outcome);
}

/// Tries random chains of one mode, which must show all that they can.
fn check_mode(party: &dyn Party, mode: u32) {
    let mut rng = Rng::new(1000 + u64::from(mode));
    let mut counts: BTreeMap<Case, u32> = BTreeMap::new();
    for _ in 0..CHAINS {
        let mut chain = chain(&mut rng, mode);
        let core = started(party, &mut chain);
        let outcome = chain.outcome();
        check_at_once(core.clone(), &chain, &outcome, rng.below(3) as u32);
        check_step_by_step(core, &chain, &outcome);
        let count = |case| *counts.entry(case).or_default() += 1;
        outcome.cases.into_iter().for_each(count);
    }
    let mut rare = required(mode);
    rare.retain(|case| counts.get(case).is_none_or(|&count| count < FEWEST));
    assert!(rare.is_empty(), "too seldom: {rare:?} of {counts:?}");
}

#[test]
fn chains_from_memory_to_memory() {
    for party in parties() {
        check_mode(party.as_ref(), 0);
    }
}

#[test]
fn chains_from_memory_to_stream() {
    for party in parties() {
        check_mode(party.as_ref(), 1);
    }
}

#[test]
fn chains_from_stream_to_memory() {
    for party in parties() {
        check_mode(party.as_ref(), 2);
    }
}
