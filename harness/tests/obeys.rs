//! Order 9: how long a core takes to obey a cleared RUN, by the model and by the
//! library.

use harness::call::{parties, Call, Lent, Party, Told};
use harness::compare::{ask, drive};
use harness::gen::Rng;
use harness::model::{
    control, offset, status, Image, Reason, IMAGE_SIZE, RECORD_SIZE, REPORT_SIZE, VALUE_SIZE,
};
use std::convert::Infallible;

const CALLS: u64 = 60_000;

/// The most that any core owes: 65,535 bytes and a write-back.
const BOUND: u32 = 65_536;

/// A core with RUN clear, and the window that it was last lent.
struct Core<'party> {
    party: &'party dyn Party,
    image: Vec<u8>,
    window: Vec<u8>,
}

/// "At most 1 in Fetch, at most L - moved + 1 in Move, 1 in WriteBack, 0 elsewhere."
fn owed(image: &Image) -> u32 {
    let whole = match (image.mode, image.kept.length) {
        (2, 0) => 65_535,
        (_, length) => u32::from(length),
    };
    match image.phase {
        1 | 3 => 1,
        2 => whole - u32::from(image.kept.moved) + 1,
        _ => 0,
    }
}

impl Core<'_> {
    fn fields(&self) -> Image {
        let bytes: &[u8; IMAGE_SIZE] = self.image.as_slice().try_into().expect("an image");
        Image::unpack(bytes)
    }

    /// Writes control, with RUN clear. Armed before, it may be a reset.
    fn clear(&mut self, value: u32) {
        let answer = ask(
            self.party,
            &Call::WriteRegister {
                image: Lent::from(self.image.as_slice()),
                offset: offset::CONTROL,
                value: value & !control::RUN,
            },
        );
        assert_eq!(answer.returned, 0, "{} refused a write", self.party.name());
        self.image = answer.after.image().expect("an image").to_vec();
    }

    /// Runs with so many beats, room for as many, and room for so many records.
    fn run(&mut self, beats: u32, records: usize, budget: u32) -> Told {
        let answer = ask(
            self.party,
            &Call::Run {
                image: Lent::from(self.image.as_slice()),
                window: Lent::from(self.window.as_slice()),
                beats: Lent::zeros(2 * beats as usize),
                out: Lent::zeros(2 * beats as usize),
                ledger: Lent::zeros(records * RECORD_SIZE),
                used: 0,
                budget,
                report: Lent::zeros(REPORT_SIZE),
            },
        );
        assert_eq!(answer.returned, 0, "{} refused a run", self.party.name());
        self.image = answer.after.image().expect("an image").to_vec();
        self.window = answer.after.window().expect("a window").to_vec();
        let Call::Run { report, .. } = answer.after else {
            unreachable!("a call stays what it is");
        };
        Told::of(&report)
    }

    fn is_busy(&self) -> bool {
        let answer = ask(
            self.party,
            &Call::ReadRegister {
                image: Lent::from(self.image.as_slice()),
                offset: offset::STATUS,
                value: Lent::zeros(VALUE_SIZE),
            },
        );
        let Call::ReadRegister { value, .. } = answer.after else {
            unreachable!("a call stays what it is");
        };
        value[3] & status::BUSY != 0
    }
}

fn has_obeyed(told: &Told) -> bool {
    [Reason::Rest as u16, Reason::Faulted as u16].contains(&told.reason)
}

/// With a beat and room for each byte that is left, and room for one record.
fn check_supplied(core: &mut Core) -> u32 {
    let owed = owed(&core.fields());
    assert!(owed <= BOUND);
    let told = core.run(owed.saturating_sub(1), 1, BOUND);
    assert!(
        has_obeyed(&told),
        "{}: reason {}",
        core.party.name(),
        told.reason
    );
    assert!(told.steps <= owed, "{} steps of {owed}", told.steps);
    assert!(!core.is_busy());
    owed
}

/// With a few beats in each run, and a record only in the end.
fn check_in_pieces(core: &mut Core, rng: &mut Rng) {
    let owed = owed(&core.fields());
    let mut steps = 0;
    while steps < owed {
        let told = core.run(rng.below(9) as u32, 0, 1 + rng.below(40) as u32);
        steps += told.steps;
        assert!(steps + self::owed(&core.fields()) <= owed);
        if has_obeyed(&told) || told.reason == Reason::LedgerFull as u16 {
            break;
        }
    }
    let told = core.run(owed, 1, BOUND);
    assert!(
        has_obeyed(&told),
        "{}: reason {}",
        core.party.name(),
        told.reason
    );
    assert!(steps + told.steps <= owed);
    assert!(!core.is_busy());
}

/// Every image that a run leaves, and RUN cleared there.
#[test]
fn a_core_obeys_within_what_it_owes() {
    let mut rng = Rng::new(901);
    for party in parties() {
        let mut owing = 0;
        let outcome: Result<(), Infallible> =
            drive(party.as_ref(), 902, CALLS, &mut |_, answer| {
                let (Call::Run { image, window, .. }, 0) = (&answer.after, answer.returned) else {
                    return Ok(());
                };
                let mut core = Core {
                    party: party.as_ref(),
                    image: image.to_vec(),
                    window: window.to_vec(),
                };
                core.clear(rng.below(1 << 32) as u32);
                if owed(&core.fields()) < 200 && rng.chance(50) {
                    check_in_pieces(&mut core, &mut rng);
                } else {
                    owing += u32::from(check_supplied(&mut core) > 0);
                }
                Ok(())
            });
        let Ok(()) = outcome;
        assert!(owing > 500, "only {owing} owed a step");
    }
}
