//! A host that makes only good calls, for tests whose figures are known.

use crate::call::{Call, Lent, Party, Told};
use crate::compare::ask;
use crate::model::{
    Descriptor, DESCRIPTOR_ANSWER_SIZE, IMAGE_SIZE, RECORD_SIZE, REPORT_SIZE, VALUE_SIZE,
};

/// What output and ledger are filled with where room is lent: what is not made,
/// and what is not recorded, stays so.
const UNWRITTEN: u8 = 0xEE;

/// A core of one party, with its image, its window and its ledger.
#[derive(Clone)]
pub struct Firmware<'party> {
    party: &'party dyn Party,
    base: u32,
    pub image: Vec<u8>,
    pub memory: Vec<u8>,
    ledger: Vec<u8>,
    used: u32,
}

/// What a run told, with the beats it made.
#[derive(Clone, Debug, PartialEq, Eq)]
pub struct Ran {
    pub reason: u16,
    pub steps: u32,
    pub taken: u32,
    pub made: Vec<u16>,
    /// How many records of the ledger are used now.
    pub used: u32,
}

/// Beats as they are lent: two bytes each, the most significant first.
pub fn stream(beats: &[u16]) -> Vec<u8> {
    beats.iter().flat_map(|beat| beat.to_be_bytes()).collect()
}

fn number(bytes: &[u8]) -> u32 {
    let append = |number, &byte| number << 8 | u32::from(byte);
    bytes.iter().fold(0, append)
}

fn is_unwritten(bytes: &[u8]) -> bool {
    bytes.iter().all(|&byte| byte == UNWRITTEN)
}

/// What a run has told in its report, and the beats it has made.
fn ran(report: &[u8], out: &[u8]) -> Ran {
    let told = Told::of(report);
    let (made, unmade) = out.split_at(2 * told.made as usize);
    assert!(is_unwritten(unmade), "output past the beats made changed");
    Ran {
        reason: told.reason,
        steps: told.steps,
        taken: told.taken,
        made: made.chunks(2).map(|beat| number(beat) as u16).collect(),
        used: told.used,
    }
}

impl<'party> Firmware<'party> {
    /// A fresh core over a window of zeros, with no room for a record.
    pub fn new(party: &'party dyn Party, mode: u32, base: u32, length: usize) -> Self {
        let mut firmware = Firmware {
            party,
            base,
            image: vec![0xFF; IMAGE_SIZE],
            memory: vec![0; length],
            ledger: Vec::new(),
            used: 0,
        };
        let after = firmware.call(Call::Create {
            image: Lent::from(firmware.image.as_slice()),
            mode,
            base: u64::from(base),
            length: length as u64,
        });
        firmware.keep(&after);
        firmware
    }

    /// Makes a call that must be done.
    fn call(&self, call: Call) -> Call {
        let answer = ask(self.party, &call);
        let name = self.party.name();
        assert_eq!(answer.returned, 0, "{name} refused\n{call}");
        assert!(answer.canaries_live, "{name} wrote beside a slice\n{call}");
        answer.after
    }

    fn keep(&mut self, after: &Call) {
        if let Some(image) = after.image() {
            self.image = image.to_vec();
        }
        if let Some(window) = after.window() {
            self.memory = window.to_vec();
        }
    }

    pub fn write(&mut self, offset: u32, value: u32) {
        let after = self.call(Call::WriteRegister {
            image: Lent::from(self.image.as_slice()),
            offset,
            value,
        });
        self.keep(&after);
    }

    pub fn read(&self, offset: u32) -> u32 {
        let after = self.call(Call::ReadRegister {
            image: Lent::from(self.image.as_slice()),
            offset,
            value: Lent::zeros(VALUE_SIZE),
        });
        match after {
            Call::ReadRegister { value, .. } => number(&value),
            _ => unreachable!("a call stays what it is"),
        }
    }

    pub fn build(&mut self, address: u32, fields: &Descriptor) {
        let window = Lent::from(self.memory.as_slice());
        let after = self.call(Call::build(window, u64::from(self.base), address, fields));
        self.keep(&after);
    }

    /// The descriptor as the reader gives it.
    pub fn descriptor(&self, address: u32) -> Descriptor {
        let after = self.call(Call::ReadDescriptor {
            window: Lent::from(self.memory.as_slice()),
            base: u64::from(self.base),
            address,
            answer: Lent::zeros(DESCRIPTOR_ANSWER_SIZE),
        });
        let Call::ReadDescriptor { answer, .. } = after else {
            unreachable!("a call stays what it is");
        };
        Descriptor {
            source: number(&answer[0..4]),
            destination: number(&answer[4..8]),
            next: number(&answer[8..12]),
            length: number(&answer[12..14]) as u16,
            actual: number(&answer[14..16]) as u16,
            status: answer[16],
            control: answer[17],
        }
    }

    /// Lends the runs to come room for so many records more.
    pub fn lend_records(&mut self, more: usize) {
        let length = self.ledger.len() + more * RECORD_SIZE;
        self.ledger.resize(length, UNWRITTEN);
    }

    /// The used records.
    pub fn records(&self) -> &[[u8; RECORD_SIZE]] {
        let (records, _) = self.ledger.as_chunks();
        &records[..self.used as usize]
    }

    /// Runs with these beats and room for so many. The ledger is handed on from
    /// run to run, and the number of its used records.
    pub fn run(&mut self, beats: &[u16], room: usize, budget: u32) -> Ran {
        let after = self.call(Call::Run {
            image: Lent::from(self.image.as_slice()),
            window: Lent::from(self.memory.as_slice()),
            beats: Lent::from(stream(beats)),
            out: Lent::from(vec![UNWRITTEN; 2 * room]),
            ledger: Lent::from(self.ledger.as_slice()),
            used: self.used,
            budget,
            report: Lent::zeros(REPORT_SIZE),
        });
        self.keep(&after);
        let Call::Run {
            out,
            ledger,
            report,
            ..
        } = after
        else {
            unreachable!("a call stays what it is");
        };
        let ran = ran(&report, &out);
        self.keep_ledger(&ledger, ran.used);
        ran
    }

    /// What was recorded before stays, and so do the bytes past the records.
    fn keep_ledger(&mut self, after: &[u8], used: u32) {
        let [old, new] = [self.used, used].map(|records| records as usize * RECORD_SIZE);
        assert_eq!(after[..old], self.ledger[..old], "a record changed");
        assert!(
            is_unwritten(&after[new..]),
            "bytes past the records changed"
        );
        self.ledger.copy_from_slice(after);
        self.used = used;
    }

    /// The fault code and address that the image holds.
    pub fn fault(&self) -> (u8, u32) {
        (self.image[1] & 0x1F, number(&self.image[40..44]))
    }

    /// The bytes at a bus address.
    pub fn bytes(&self, address: u32, count: usize) -> &[u8] {
        let place = (address - self.base) as usize;
        &self.memory[place..place + count]
    }

    /// Puts bytes at a bus address.
    pub fn put(&mut self, address: u32, bytes: &[u8]) {
        let place = (address - self.base) as usize;
        self.memory[place..place + bytes.len()].copy_from_slice(bytes);
    }
}
