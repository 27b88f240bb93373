//! Errors in the calls and their refusals.

use super::Slip;
use harness::model::{
    Calls, Descriptor, Ledgers, Machine, Mode, Paper, Phase, Refusal, Report,
    DESCRIPTOR_ANSWER_SIZE, IMAGE_SIZE, REPORT_SIZE, VALUE_SIZE,
};

/// Whether a run on this image with good streams and a good ledger is refused for
/// its window.
fn refused_for_window(image: &[u8], window: &[u8], report: &[u8]) -> bool {
    let [mut image, mut window, mut report] = [image, window, report].map(<[u8]>::to_vec);
    Paper.sgdma_run(
        &mut image,
        &mut window,
        &[],
        &mut [],
        &mut [],
        0,
        0,
        &mut report,
    ) == 4
}

/// Whether a call was refused for its image, whatever field it told.
fn is_bad_image(number: u32) -> bool {
    number % 256 == 8
}

slips! { Calls;

check_mode(mode: u32) -> Result<(), Refusal> {
    "mode 3 is taken" => {
        if mode == 3 { Ok(()) } else { Paper.check_mode(mode) }
    }
    "only the low byte of a mode counts" => {
        Paper.check_mode(mode & 0xFF)
    }
}

sgdma_create(image: &mut [u8], mode: u32, base: u64, length: u64) -> u32 {
    "create refuses BadWindow before BadMode" => {
        let mode_done = Paper.sgdma_create(&mut image.to_vec(), 0, base, length);
        if mode_done == 0 { Paper.sgdma_create(image, mode, base, length) } else { mode_done }
    }
    "create refuses BadMode before BadSize" => {
        if mode > 2 { 2 } else { Paper.sgdma_create(image, mode, base, length) }
    }
    "create reads the image" => {
        let number = Paper.sgdma_create(&mut image.to_vec(), mode, base, length);
        if number == 0 && Paper.sgdma_line(image, &mut [0; VALUE_SIZE]) != 0 {
            return 8;
        }
        Paper.sgdma_create(image, mode, base, length)
    }
    "create takes a longer image" => {
        let size = image.len().min(IMAGE_SIZE);
        Paper.sgdma_create(&mut image[..size], mode, base, length)
    }
}

sgdma_read_register(image: &[u8], offset: u32, value: &mut [u8]) -> u32 {
    "a register read refuses NoRegister before BadImage" => {
        let number = Paper.sgdma_read_register(image, offset, value);
        if is_bad_image(number) && ![0, 4, 8].contains(&offset) { 1 } else { number }
    }
    "a refused register read clears the value" => {
        let number = Paper.sgdma_read_register(image, offset, value);
        if number != 0 {
            value.fill(0);
        }
        number
    }
    "a register read tells no field" => {
        Paper.sgdma_read_register(image, offset, value) % 256
    }
}

sgdma_write_register(image: &mut [u8], offset: u32, value: u32) -> u32 {
    "a register write refuses NoRegister before BadImage" => {
        let number = Paper.sgdma_write_register(image, offset, value);
        if is_bad_image(number) && ![0, 4, 8].contains(&offset) { 1 } else { number }
    }
    "a register write tells no field" => {
        Paper.sgdma_write_register(image, offset, value) % 256
    }
}

sgdma_line(image: &[u8], value: &mut [u8]) -> u32 {
    "the line refuses BadImage before BadSize" => {
        let number = Paper.sgdma_line(image, &mut [0; VALUE_SIZE]);
        if is_bad_image(number) { number } else { Paper.sgdma_line(image, value) }
    }
    "the line tells no field" => {
        Paper.sgdma_line(image, value) % 256
    }
    "the line takes a value of another size" => {
        match Paper.sgdma_line(image, value) {
            7 => Paper.sgdma_line(image, &mut [0; VALUE_SIZE]),
            number => number,
        }
    }
}

sgdma_run(
    image: &mut [u8],
    window: &mut [u8],
    beats: &[u8],
    out: &mut [u8],
    ledger: &mut [u8],
    used: u32,
    budget: u32,
    report: &mut [u8]
) -> u32 {
    "a run refuses OddStream before BadImage" => {
        let odd = beats.len() % 2 + out.len() % 2 != 0;
        let number = Paper.sgdma_run(image, window, beats, out, ledger, used, budget, report);
        if is_bad_image(number) && odd { 9 } else { number }
    }
    "a run refuses OtherWindow before OddStream" => {
        match refused_for_window(image, window, report) {
            true => 4,
            false => Paper.sgdma_run(image, window, beats, out, ledger, used, budget, report),
        }
    }
    "a run refuses OtherWindow before BadLedger" => {
        let number = Paper.sgdma_run(image, window, beats, out, ledger, used, budget, report);
        if number == 19 && refused_for_window(image, window, report) { 4 } else { number }
    }
    "a run refuses BadLedger before OddStream" => {
        let number = Paper.sgdma_run(image, window, beats, out, ledger, used, budget, report);
        if number == 9 && !Paper.is_ledger(ledger.len() as u64, used) { 19 } else { number }
    }
    "a run refuses BadLedger before BadImage" => {
        let number = Paper.sgdma_run(image, window, beats, out, ledger, used, budget, report);
        if is_bad_image(number) && !Paper.is_ledger(ledger.len() as u64, used) { 19 } else { number }
    }
    "a run refuses BadLedger before BadSize" => {
        let number = Paper.sgdma_run(image, window, beats, out, ledger, used, budget, report);
        if number == 7 && !Paper.is_ledger(ledger.len() as u64, used) { 19 } else { number }
    }
    "a run tells no field" => {
        Paper.sgdma_run(image, window, beats, out, ledger, used, budget, report) % 256
    }
    "a run takes a longer report" => {
        let size = report.len().min(REPORT_SIZE);
        let report = &mut report[..size];
        Paper.sgdma_run(image, window, beats, out, ledger, used, budget, report)
    }
    "a refused run clears the report" => {
        let number = Paper.sgdma_run(image, window, beats, out, ledger, used, budget, report);
        if number != 0 {
            report.fill(0);
        }
        number
    }
    "a refused run clears the ledger" => {
        let number = Paper.sgdma_run(image, window, beats, out, ledger, used, budget, report);
        if number != 0 {
            ledger.fill(0);
        }
        number
    }
    "an odd number of input bytes is taken" => {
        let beats = &beats[..beats.len() / 2 * 2];
        Paper.sgdma_run(image, window, beats, out, ledger, used, budget, report)
    }
    "an odd number of output bytes is taken" => {
        let whole = out.len() / 2 * 2;
        let out = &mut out[..whole];
        Paper.sgdma_run(image, window, beats, out, ledger, used, budget, report)
    }
}

check_streams(machine: &Machine, beats: &[u8], out: &[u8]) -> Result<(), Refusal> {
    "odd streams are refused only in the mode that uses them" => {
        match machine.mode {
            Mode::MemoryToMemory => Ok(()),
            Mode::MemoryToStream => Paper.check_streams(machine, &[], out),
            Mode::StreamToMemory => Paper.check_streams(machine, beats, &[]),
        }
    }
}

check_ledger(machine: &Machine, ledger: &[u8], used: u32) -> Result<(), Refusal> {
    "a ledger is looked at only in WriteBack" => {
        match machine.phase {
            Phase::WriteBack => Paper.check_ledger(machine, ledger, used),
            _ => Ok(()),
        }
    }
    "a ledger is looked at only with RUN 1" => {
        if machine.runs() { Paper.check_ledger(machine, ledger, used) } else { Ok(()) }
    }
    "a ledger is looked at only in mode 2" => {
        match machine.mode {
            Mode::StreamToMemory => Paper.check_ledger(machine, ledger, used),
            _ => Ok(()),
        }
    }
    "a ledger is not looked at in Faulted" => {
        match machine.phase {
            Phase::Faulted => Ok(()),
            _ => Paper.check_ledger(machine, ledger, used),
        }
    }
}

check_same_window(machine: &Machine, memory: &[u8]) -> Result<(), Refusal> {
    "a longer window is taken" => {
        let used = memory.len().min(machine.window.length as usize);
        Paper.check_same_window(machine, &memory[..used])
    }
}

report_bytes(report: &Report) -> [u8; REPORT_SIZE] {
    "taken and made change places in the report" => {
        let (taken, made) = (report.made, report.taken);
        Paper.report_bytes(&Report { taken, made, ..*report })
    }
    "made and used change places in the report" => {
        let (made, used) = (report.used, report.made);
        Paper.report_bytes(&Report { made, used, ..*report })
    }
    "the report begins with the reason in its first byte" => {
        let mut bytes = Paper.report_bytes(report);
        bytes.swap(0, 1);
        bytes
    }
}

value_bytes(value: u32) -> [u8; VALUE_SIZE] {
    "values are least significant first" => {
        value.to_le_bytes()
    }
}

answer_bytes(descriptor: &Descriptor) -> [u8; DESCRIPTOR_ANSWER_SIZE] {
    "length and actual change places in the answer" => {
        let (length, actual) = (descriptor.actual, descriptor.length);
        Paper.answer_bytes(&Descriptor { length, actual, ..*descriptor })
    }
}

sgdma_read_descriptor(window: &[u8], base: u64, address: u32, answer: &mut [u8]) -> u32 {
    "the reader refuses Misaligned before BadSize" => {
        let number = Paper.sgdma_read_descriptor(window, base, address, answer);
        if number == 7 && !address.is_multiple_of(4) { 5 } else { number }
    }
}

}
