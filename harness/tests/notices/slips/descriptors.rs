//! Errors in descriptors, the builder and the reader.

use super::Slip;
use harness::model::{
    descriptor_control, Descriptor, Descriptors, Mode, Paper, Refusal, Window, Windows,
    DESCRIPTOR_SIZE,
};

slips! { Descriptors;

read_fields(bytes: &[u8; DESCRIPTOR_SIZE]) -> Descriptor {
    "the source is read most significant first" => {
        let read = Paper.read_fields(bytes);
        Descriptor { source: read.source.swap_bytes(), ..read }
    }
    "the length is read most significant first" => {
        let read = Paper.read_fields(bytes);
        Descriptor { length: read.length.swap_bytes(), ..read }
    }
    "actual is read most significant first" => {
        let read = Paper.read_fields(bytes);
        Descriptor { actual: read.actual.swap_bytes(), ..read }
    }
    "the destination is read at +4" => {
        let destination = u32::from_le_bytes([bytes[4], bytes[5], bytes[6], bytes[7]]);
        Descriptor { destination, ..Paper.read_fields(bytes) }
    }
}

build(bytes: &mut [u8; DESCRIPTOR_SIZE], descriptor: &Descriptor) -> () {
    "next is built most significant first" => {
        let next = descriptor.next.swap_bytes();
        Paper.build(bytes, &Descriptor { next, ..*descriptor });
    }
    "the builder leaves a reserved byte" => {
        let reserved = bytes[27];
        Paper.build(bytes, descriptor);
        bytes[27] = reserved;
    }
    "the builder leaves actual" => {
        let actual = bytes[29];
        Paper.build(bytes, descriptor);
        bytes[29] = actual;
    }
    "the builder leaves the status" => {
        let status = bytes[30];
        Paper.build(bytes, descriptor);
        bytes[30] = status;
    }
    "the builder drops control bits 3 to 6" => {
        let control = descriptor.control & 0x87;
        Paper.build(bytes, &Descriptor { control, ..*descriptor });
    }
    "the builder sets OWNED" => {
        let control = descriptor.control | descriptor_control::OWNED_BY_HW;
        Paper.build(bytes, &Descriptor { control, ..*descriptor });
    }
}

last_four(actual: u16, status: u8, control: u8) -> [u8; 4] {
    "actual is written most significant first" => {
        Paper.last_four(actual.swap_bytes(), status, control)
    }
    "errors and control change places" => {
        Paper.last_four(actual, control, status)
    }
}

bytes_wanted(mode: Mode, length: u16) -> u16 {
    "length 0 means 65,534" => {
        let wanted = Paper.bytes_wanted(mode, length);
        if length == 0 { wanted.saturating_sub(1) } else { wanted }
    }
}

descriptor_place(window: Window, address: u32) -> Result<usize, Refusal> {
    "builder and reader take a misaligned address" => {
        if !Paper.is_window(window) {
            return Err(Refusal::BadWindow);
        }
        let place = Paper.place(window, u64::from(address), DESCRIPTOR_SIZE as u64);
        place.ok_or(Refusal::Outside)
    }
    "Outside comes before Misaligned" => {
        match Paper.descriptor_place(window, address & !3) {
            Err(Refusal::Outside) => Err(Refusal::Outside),
            _ => Paper.descriptor_place(window, address),
        }
    }
    "Misaligned comes before BadWindow" => {
        if !Paper.is_aligned(window, address) {
            return Err(Refusal::Misaligned);
        }
        Paper.descriptor_place(window, address)
    }
    "builder and reader take any base" => {
        Paper.descriptor_place(Window { base: window.base % (1 << 32), ..window }, address)
    }
}

}
