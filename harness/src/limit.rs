//! The moves of a run and nothing else, by loops written by hand: a run that does
//! the rest as well cannot be much faster.

use crate::bulk::rows::{copy, receive, send, Beat, Received, Row};
use crate::call::Call;
use crate::model::{
    descriptor_control, Descriptor, Descriptors, Images, Machine, Mode, Paper, Windows,
    DESCRIPTOR_SIZE,
};

/// The move of one descriptor.
struct Move {
    from: Row,
    to: Row,
    bytes: usize,
    /// Where the last four bytes of the descriptor stand, which a run writes.
    done_mark: usize,
}

/// The moves of a run that goes to its chain's end.
pub struct Limit {
    mode: Mode,
    moves: Vec<Move>,
}

fn move_of(machine: &Machine, place: usize, fields: &Descriptor) -> Move {
    let base = machine.window.base as u32;
    let row = |address: u32, fixed_bit| Row {
        at: address.wrapping_sub(base) as usize,
        fixed: fields.control & fixed_bit != 0,
    };
    Move {
        from: row(fields.source, descriptor_control::READ_FIXED_ADDRESS),
        to: row(fields.destination, descriptor_control::WRITE_FIXED_ADDRESS),
        bytes: usize::from(Paper.bytes_wanted(machine.mode, fields.length)),
        done_mark: place + DESCRIPTOR_SIZE - 4,
    }
}

/// By itself the loop is compiled as it stands; beside the two others it was not
/// always.
#[inline(never)]
fn receive_apart(memory: &mut [u8], to: Row, beats: &[Beat]) -> Received {
    receive(memory, to, beats)
}

impl Limit {
    /// Of a run of a core that has been pointed at its first descriptor.
    pub fn of(call: &Call) -> Limit {
        let Call::Run { image, window, .. } = call else {
            panic!("only a run moves bytes");
        };
        let image = (&**image).try_into().expect("an image");
        let machine = Paper.load(image).expect("a good image");
        let (mut moves, mut pointer) = (Vec::new(), machine.pointer);
        loop {
            let place = Paper
                .place(machine.window, pointer.into(), DESCRIPTOR_SIZE as u64)
                .expect("a chain in the window");
            let bytes = window[place..].first_chunk().expect("a descriptor");
            let fields = Paper.read_fields(bytes);
            if fields.control & descriptor_control::OWNED_BY_HW == 0 {
                break;
            }
            moves.push(move_of(&machine, place, &fields));
            pointer = fields.next;
        }
        Limit {
            mode: machine.mode,
            moves,
        }
    }

    /// Makes the moves on what is lent to the run, and gives the errors of all the
    /// beats.
    pub fn make(&self, call: &mut Call) -> u8 {
        #[rustfmt::skip]
        let Call::Run { window, beats, out, .. } = call else {
            panic!("only a run moves bytes");
        };
        let (beats, out) = (beats.as_chunks().0, out.as_chunks_mut().0);
        let (mut done, mut errors) = (0, 0);
        for row in &self.moves {
            let end = done + row.bytes;
            done = match self.mode {
                Mode::MemoryToMemory => {
                    copy(window, row.from, row.to, row.bytes);
                    end
                }
                Mode::MemoryToStream => {
                    send(window, row.from, &mut out[done..end]);
                    end
                }
                Mode::StreamToMemory => {
                    let received = receive_apart(window, row.to, &beats[done..end]);
                    errors |= received.errors;
                    done + received.beats
                }
            };
        }
        errors
    }

    /// Whether the moves leave what the run left, but for its done marks.
    pub fn moves_as(&self, call: &Call, ran: &Call) -> bool {
        let mut moved = call.clone();
        self.make(&mut moved);
        let Call::Run { window, out, .. } = &mut moved else {
            return false;
        };
        let Call::Run {
            window: left,
            out: made,
            ..
        } = ran
        else {
            return false;
        };
        for Move { done_mark, .. } in &self.moves {
            let mark = *done_mark..done_mark + 4;
            window[mark.clone()].copy_from_slice(&left[mark]);
        }
        window == left && out == made
    }
}
