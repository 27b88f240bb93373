//! The calls of the library, linked, as its header declares them.

use crate::call::{Call, TimerCall, VicCall};
use crate::library::Library;

/// The prototypes: a slice is a pointer and a length.
pub mod c {
    extern "C" {
        pub fn sgdma_create(
            image: *mut u8,
            image_len: usize,
            mode: u32,
            base: u64,
            length: u64,
        ) -> u32;
        pub fn sgdma_read_register(
            image: *const u8,
            image_len: usize,
            offset: u32,
            value: *mut u8,
            value_len: usize,
        ) -> u32;
        pub fn sgdma_write_register(
            image: *mut u8,
            image_len: usize,
            offset: u32,
            value: u32,
        ) -> u32;
        pub fn sgdma_line(
            image: *const u8,
            image_len: usize,
            value: *mut u8,
            value_len: usize,
        ) -> u32;
        pub fn sgdma_run(
            image: *mut u8,
            image_len: usize,
            window: *mut u8,
            window_len: usize,
            beats: *const u8,
            beats_len: usize,
            out: *mut u8,
            out_len: usize,
            ledger: *mut u8,
            ledger_len: usize,
            used: u32,
            budget: u32,
            report: *mut u8,
            report_len: usize,
        ) -> u32;
        pub fn sgdma_build_descriptor(
            window: *mut u8,
            window_len: usize,
            base: u64,
            address: u32,
            source: u32,
            destination: u32,
            next: u32,
            length: u16,
            control: u8,
        ) -> u32;
        pub fn sgdma_read_descriptor(
            window: *const u8,
            window_len: usize,
            base: u64,
            address: u32,
            answer: *mut u8,
            answer_len: usize,
        ) -> u32;
        pub fn sgdma_find_record(
            ledger: *const u8,
            ledger_len: usize,
            used: u32,
            run: u32,
            address: u32,
            answer: *mut u8,
            answer_len: usize,
        ) -> u32;
        pub fn sgdma_move_image(
            from: *const u8,
            from_len: usize,
            to: *mut u8,
            to_len: usize,
        ) -> u32;
        pub fn sgdma_check_chain(
            window: *const u8,
            window_len: usize,
            base: u64,
            pointer: u32,
            answer: *mut u8,
            answer_len: usize,
        ) -> u32;
        pub fn sgdma_mend_chain(
            window: *mut u8,
            window_len: usize,
            base: u64,
            pointer: u32,
            answer: *mut u8,
            answer_len: usize,
        ) -> u32;
        pub fn sgdma_vic_create(
            vic: *mut u8,
            vic_len: usize,
            ports: u32,
            vector_bytes: u32,
            base: u32,
        ) -> u32;
        pub fn sgdma_vic_configure(
            vic: *mut u8,
            vic_len: usize,
            port: u32,
            level: u32,
            set: u32,
            nmi: u32,
        ) -> u32;
        pub fn sgdma_vic_enable(vic: *mut u8, vic_len: usize, port: u32, on: u32) -> u32;
        pub fn sgdma_vic_trigger(vic: *mut u8, vic_len: usize, port: u32, on: u32) -> u32;
        pub fn sgdma_vic_line(vic: *mut u8, vic_len: usize, port: u32, up: u32) -> u32;
        pub fn sgdma_vic_choose(
            vic: *const u8,
            vic_len: usize,
            answer: *mut u8,
            answer_len: usize,
        ) -> u32;
        pub fn sgdma_timer_create(timer: *mut u8, timer_len: usize, period: u32) -> u32;
        pub fn sgdma_timer_read(
            timer: *const u8,
            timer_len: usize,
            offset: u32,
            value: *mut u8,
            value_len: usize,
        ) -> u32;
        pub fn sgdma_timer_write(timer: *mut u8, timer_len: usize, offset: u32, value: u16) -> u32;
        pub fn sgdma_timer_line(
            timer: *const u8,
            timer_len: usize,
            value: *mut u8,
            value_len: usize,
        ) -> u32;
        pub fn sgdma_timer_run(
            timer: *mut u8,
            timer_len: usize,
            ticks: u32,
            value: *mut u8,
            value_len: usize,
        ) -> u32;
        pub fn sgdma_timer_elapsed(
            timer: *const u8,
            timer_len: usize,
            earlier: u32,
            later: u32,
            value: *mut u8,
            value_len: usize,
        ) -> u32;
    }
}

impl Library {
    fn lend(self, bytes: &[u8]) -> *const u8 {
        if self.lends_null_for(bytes) {
            std::ptr::null()
        } else {
            bytes.as_ptr()
        }
    }

    fn lend_mut(self, bytes: &mut [u8]) -> *mut u8 {
        if self.lends_null_for(bytes) {
            std::ptr::null_mut()
        } else {
            bytes.as_mut_ptr()
        }
    }
}

#[rustfmt::skip]
pub(crate) fn answer(library: Library, call: &mut Call) -> u32 {
    // SAFETY: each pointer is lent with the length of its own slice, for the
    // time of the call only, and no two slices of a call overlap.
    unsafe {
        match call {
            Call::Create { image, mode, base, length } =>
                c::sgdma_create(library.lend_mut(image), image.len(), *mode, *base, *length),
            Call::ReadRegister { image, offset, value } =>
                c::sgdma_read_register(library.lend(image), image.len(), *offset,
                                       library.lend_mut(value), value.len()),
            Call::WriteRegister { image, offset, value } =>
                c::sgdma_write_register(library.lend_mut(image), image.len(), *offset, *value),
            Call::Line { image, value } =>
                c::sgdma_line(library.lend(image), image.len(), library.lend_mut(value), value.len()),
            Call::Run { image, window, beats, out, ledger, used, budget, report } =>
                c::sgdma_run(library.lend_mut(image), image.len(),
                             library.lend_mut(window), window.len(),
                             library.lend(beats), beats.len(), library.lend_mut(out), out.len(),
                             library.lend_mut(ledger), ledger.len(), *used,
                             *budget, library.lend_mut(report), report.len()),
            Call::BuildDescriptor {
                window, base, address, source, destination, next, length, control,
            } =>
                c::sgdma_build_descriptor(library.lend_mut(window), window.len(), *base, *address,
                                          *source, *destination, *next, *length, *control),
            Call::ReadDescriptor { window, base, address, answer } =>
                c::sgdma_read_descriptor(library.lend(window), window.len(), *base, *address,
                                         library.lend_mut(answer), answer.len()),
            Call::FindRecord { ledger, used, run, address, answer } =>
                c::sgdma_find_record(library.lend(ledger), ledger.len(), *used, *run, *address,
                                     library.lend_mut(answer), answer.len()),
            Call::MoveImage { from, to } =>
                c::sgdma_move_image(library.lend(from), from.len(), library.lend_mut(to), to.len()),
            Call::CheckChain { window, base, pointer, answer } =>
                c::sgdma_check_chain(library.lend(window), window.len(), *base, *pointer,
                                     library.lend_mut(answer), answer.len()),
            Call::MendChain { window, base, pointer, answer } =>
                c::sgdma_mend_chain(library.lend_mut(window), window.len(), *base, *pointer,
                                    library.lend_mut(answer), answer.len()),
            Call::Vic(call) => answer_controller(library, call),
            Call::Timer(call) => answer_timer(library, call),
        }
    }
}

#[rustfmt::skip]
fn answer_controller(library: Library, call: &mut VicCall) -> u32 {
    // SAFETY: as above.
    unsafe {
        match call {
            VicCall::Create { vic, ports, vector_bytes, base } =>
                c::sgdma_vic_create(library.lend_mut(vic), vic.len(), *ports, *vector_bytes, *base),
            VicCall::Configure { vic, port, level, set, nmi } =>
                c::sgdma_vic_configure(library.lend_mut(vic), vic.len(), *port, *level, *set, *nmi),
            VicCall::Enable { vic, port, on } =>
                c::sgdma_vic_enable(library.lend_mut(vic), vic.len(), *port, *on),
            VicCall::Trigger { vic, port, on } =>
                c::sgdma_vic_trigger(library.lend_mut(vic), vic.len(), *port, *on),
            VicCall::Line { vic, port, up } =>
                c::sgdma_vic_line(library.lend_mut(vic), vic.len(), *port, *up),
            VicCall::Choose { vic, answer } =>
                c::sgdma_vic_choose(library.lend(vic), vic.len(),
                                    library.lend_mut(answer), answer.len()),
        }
    }
}

#[rustfmt::skip]
fn answer_timer(library: Library, call: &mut TimerCall) -> u32 {
    // SAFETY: as above.
    unsafe {
        match call {
            TimerCall::Create { timer, period } =>
                c::sgdma_timer_create(library.lend_mut(timer), timer.len(), *period),
            TimerCall::Read { timer, offset, value } =>
                c::sgdma_timer_read(library.lend(timer), timer.len(), *offset,
                                    library.lend_mut(value), value.len()),
            TimerCall::Write { timer, offset, value } =>
                c::sgdma_timer_write(library.lend_mut(timer), timer.len(), *offset, *value),
            TimerCall::Line { timer, value } =>
                c::sgdma_timer_line(library.lend(timer), timer.len(),
                                    library.lend_mut(value), value.len()),
            TimerCall::Run { timer, ticks, value } =>
                c::sgdma_timer_run(library.lend_mut(timer), timer.len(), *ticks,
                                   library.lend_mut(value), value.len()),
            TimerCall::Elapsed { timer, earlier, later, value } =>
                c::sgdma_timer_elapsed(library.lend(timer), timer.len(), *earlier, *later,
                                       library.lend_mut(value), value.len()),
        }
    }
}
