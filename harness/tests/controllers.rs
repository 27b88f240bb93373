//! The interrupt controller: random calls put to the model and to the library, and
//! cases worked out by hand from its request.

use harness::call::{libraries_or_model, parties, Call, Lent, Party, VicCall};
use harness::compare::{ask, check_done, check_refused};
use harness::coverage::compare_and_cover;
use harness::coverage::controllers::Reached;
use harness::gen::ControllerHost;
use harness::model::{Controller, CHOICE_SIZE, CONTROLLER_SIZE};

const CALLS: u64 = 400_000;
const SEED: u64 = 12;

#[test]
fn random_calls_agree_and_reach_everything() {
    for (party, seed) in libraries_or_model().iter().zip(SEED..) {
        let mut host = ControllerHost::new(seed);
        compare_and_cover::<Reached>(&mut host, party.as_ref(), seed, CALLS);
    }
}

/// A call that must be done, and the controller after it.
fn controller_after(party: &dyn Party, call: VicCall) -> Lent {
    let Call::Vic(after) = check_done(party, &call.into()) else {
        unreachable!("a call stays what it is");
    };
    after.vic().clone()
}

/// What is told of a controller, or the number of the refusal.
fn told(party: &dyn Party, vic: &[u8]) -> Result<[u8; CHOICE_SIZE], u32> {
    let call = Call::from(VicCall::Choose {
        vic: Lent::from(vic),
        answer: Lent::from(vec![0xEE; CHOICE_SIZE]),
    });
    let answer = ask(party, &call);
    let Call::Vic(VicCall::Choose { answer: left, .. }) = &answer.after else {
        unreachable!("a call stays what it is");
    };
    if answer.returned != 0 {
        assert!(answer.after == call, "{} changed bytes", party.name());
        return Err(answer.returned);
    }
    Ok((&**left).try_into().expect("the size is the same"))
}

/// Four ports, 16 bytes per vector, base 0x8000; the levels are 5, 9, 9 and 63.
fn four_ports(party: &dyn Party) -> Lent {
    let mut vic = controller_after(
        party,
        VicCall::Create {
            vic: Lent::from(vec![0xEE; CONTROLLER_SIZE]),
            ports: 4,
            vector_bytes: 16,
            base: 0x8000,
        },
    );
    for (port, level, set, nmi) in [(0, 5, 1, 0), (1, 9, 2, 7), (2, 9, 3, 0), (3, 63, 4, 1)] {
        vic = controller_after(
            party,
            VicCall::Configure {
                vic,
                port,
                level,
                set,
                nmi,
            },
        );
        vic = controller_after(party, VicCall::Enable { vic, port, on: 1 });
    }
    vic
}

fn drive(party: &dyn Party, vic: Lent, port: u32, up: u32) -> Lent {
    controller_after(party, VicCall::Line { vic, port, up })
}

/// The 88 bytes, one by one: nothing is left of what stood there.
#[test]
fn the_bytes_of_a_controller() {
    for party in parties() {
        let vic = four_ports(party.as_ref());
        let mut due = [0; CONTROLLER_SIZE];
        due[0] = 4;
        due[7] = 16;
        due[10] = 0x80;
        due[23] = 0x0F;
        due[24..32].copy_from_slice(&[0, 0x85, 1, 0x49, 1, 0x89, 2, 0x7F]);
        assert_eq!(*vic, due, "{}", party.name());
    }
}

fn trigger(party: &dyn Party, vic: Lent, port: u32, on: u32) -> Lent {
    controller_after(party, VicCall::Trigger { vic, port, on })
}

fn enable(party: &dyn Party, vic: Lent, port: u32, on: u32) -> Lent {
    controller_after(party, VicCall::Enable { vic, port, on })
}

/// Largest level first, then the lowest index; what is served goes down again.
#[test]
#[rustfmt::skip]
fn ports_are_told_in_order_of_level() {
    for party in parties() {
        let party = party.as_ref();
        let mut vic = four_ports(party);
        assert_eq!(told(party, &vic), Ok([0; CHOICE_SIZE]));
        for port in 0..3 {
            vic = drive(party, vic, port, 1);
        }
        vic = trigger(party, vic, 3, 9);
        assert_eq!(told(party, &vic), Ok([0, 1, 0, 3, 63, 4, 0, 1, 0, 0, 0x80, 0x30]));
        vic = trigger(party, vic, 3, 0);
        assert_eq!(told(party, &vic), Ok([0, 1, 0, 1, 9, 2, 0, 1, 0, 0, 0x80, 0x10]));
        vic = drive(party, vic, 1, 0);
        assert_eq!(told(party, &vic), Ok([0, 1, 0, 2, 9, 3, 0, 0, 0, 0, 0x80, 0x20]));
        vic = enable(party, vic, 2, 0);
        assert_eq!(told(party, &vic), Ok([0, 1, 0, 0, 5, 1, 0, 0, 0, 0, 0x80, 0x00]));
        vic = drive(party, vic, 0, 0);
        assert_eq!(told(party, &vic), Ok([0; CHOICE_SIZE]));
    }
}

/// "level 0 never": also where it is non-maskable and the only one.
#[test]
fn level_zero_is_never_told() {
    for party in parties() {
        let mut vic = Controller::fresh(32, 1, 0);
        vic.configs = [0x1FC0; 32];
        [vic.lines, vic.software, vic.enabled] = [u32::MAX; 3];
        assert_eq!(told(party.as_ref(), &vic.pack()), Ok([0; CHOICE_SIZE]));
        vic.configs[31] |= 1;
        let last = [0, 1, 0, 31, 1, 63, 0, 1, 0, 0, 0, 31];
        assert_eq!(told(party.as_ref(), &vic.pack()), Ok(last));
    }
}

/// The address is a whole number: 2^32 - 1 is told, 2^32 is 22, for the chosen
/// port only.
#[test]
fn the_last_address() {
    let rows = [
        (1, 0xFFFF_FFFF, 0, 0, Ok(0)),
        (1, 0, 0xFFFF_FFFF, 0, Ok(0xFFFF_FFFF)),
        (2, 1, 0xFFFF_FFFE, 1, Ok(0xFFFF_FFFF)),
        (2, 1, 0xFFFF_FFFF, 1, Err(22)),
        (2, 1, 0xFFFF_FFFF, 0, Ok(0xFFFF_FFFF)),
        (32, 0xFFFF_FFFF, 0xFFFF_FFFF, 31, Err(22)),
        (32, 138_547_332, 0, 31, Ok(4_294_967_292)),
        (32, 138_547_332, 3, 31, Ok(4_294_967_295)),
        (32, 138_547_332, 4, 31, Err(22)),
        (3, 0x8000_0000, 0, 2, Err(22)),
        (32, 0, 7, 31, Ok(7)),
    ];
    for party in parties() {
        for (ports, vector_bytes, base, port, due) in rows {
            let mut vic = Controller::fresh(ports, vector_bytes, base);
            vic.configs[port] = 1;
            vic.lines = 1 << port;
            vic.enabled = 1 << port;
            let address = told(party.as_ref(), &vic.pack())
                .map(|answer| u32::from_be_bytes(answer[8..].try_into().expect("four bytes")));
            assert_eq!(address, due, "{} on {vic:?}", party.name());
        }
    }
}

/// Each rule broken alone: the byte, what it becomes, and the field told.
const BROKEN: [(usize, u8, u32); 16] = [
    (0, 0, 1),
    (0, 33, 1),
    (0, 255, 1),
    (1, 0x80, 2),
    (3, 1, 2),
    (12, 0x80, 5),
    (15, 0x10, 5),
    (19, 0x10, 6),
    (16, 1, 6),
    (23, 0x1F, 7),
    (20, 0x40, 7),
    (24, 0x20, 8),
    (30, 0x82, 11),
    (33, 1, 12),
    (86, 0x10, 39),
    (87, 1, 39),
];

#[test]
fn the_field_that_spoiled_a_controller() {
    for party in parties() {
        let good = four_ports(party.as_ref());
        for (place, byte, field) in BROKEN {
            let mut vic = good.clone();
            vic[place] = byte;
            let number = 8 + 256 * field;
            assert_eq!(told(party.as_ref(), &vic), Err(number), "byte {place}");
            let call = VicCall::Line {
                vic,
                port: 4,
                up: 1,
            };
            check_refused(party.as_ref(), &call.into(), number);
        }
    }
}

/// The four calls on a port.
#[rustfmt::skip]
fn port_calls(vic: &Lent, port: u32) -> [Call; 4] {
    let vic = || vic.clone();
    [
        VicCall::Configure { vic: vic(), port, level: 1, set: 1, nmi: 1 },
        VicCall::Enable { vic: vic(), port, on: 1 },
        VicCall::Trigger { vic: vic(), port, on: 1 },
        VicCall::Line { vic: vic(), port, up: 1 },
    ].map(Call::from)
}

fn create(vic: Lent, ports: u32) -> Call {
    let (vector_bytes, base) = (4, 0);
    VicCall::Create {
        vic,
        ports,
        vector_bytes,
        base,
    }
    .into()
}

/// Counts that are not 1 to 32, and ports that a controller of four lacks.
#[test]
fn ports_that_there_are_not() {
    for party in parties() {
        for ports in [0, 33, 256, 257, 288, u32::MAX] {
            let vic = Lent::from(vec![0x5A; CONTROLLER_SIZE]);
            check_refused(party.as_ref(), &create(vic, ports), 21);
        }
        let vic = four_ports(party.as_ref());
        for port in [4, 5, 31, 32, 256, u32::MAX] {
            for call in port_calls(&vic, port) {
                check_refused(party.as_ref(), &call, 21);
            }
        }
    }
}

/// 7 where a slice is of another size, whatever else is wrong.
#[test]
fn wrong_sizes_are_refused() {
    let lent = |size| Lent::from(vec![0xFF; size]);
    let choose = |size, answer| {
        Call::from(VicCall::Choose {
            vic: lent(size),
            answer: lent(answer),
        })
    };
    let mut calls = Vec::new();
    for size in [0, 1, 87, 89, 176] {
        calls.extend(port_calls(&lent(size), 40));
        calls.extend([create(lent(size), 0), choose(size, CHOICE_SIZE)]);
    }
    calls.extend([0, 1, 11, 13, 88].map(|answer| choose(CONTROLLER_SIZE, answer)));
    for party in parties() {
        for call in &calls {
            check_refused(party.as_ref(), call, 7);
        }
    }
}
