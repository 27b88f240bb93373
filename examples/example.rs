//! Six samples in two packets, the second with an error and EOP; in slices of five steps, and what the ledger tells.
extern "C" {
    fn sgdma_create(image: *mut u8, image_len: usize, mode: u32, base: u64, length: u64) -> u32;
    fn sgdma_write_register(image: *mut u8, image_len: usize, offset: u32, value: u32) -> u32;
    fn sgdma_build_descriptor(window: *mut u8, window_len: usize, base: u64, address: u32, source: u32, destination: u32,
                              next: u32, length: u16, control: u8) -> u32;
    fn sgdma_run(image: *mut u8, image_len: usize, window: *mut u8, window_len: usize, beats: *const u8, beats_len: usize,
                 out: *mut u8, out_len: usize, ledger: *mut u8, ledger_len: usize, used: u32, budget: u32,
                 report: *mut u8, report_len: usize) -> u32;
}
const RECORD_SIZE: usize = 12; // this and the numbers below as in sgdma.h
const REASON_BUDGET: usize = 6;

fn main() {
    let number = |lent: &[u8]| lent.iter().fold(0, |value, &byte| value << 8 | usize::from(byte));
    let beats = [0, 0x11, 0, 0x22, 0, 0x33, 0, 0x44, 6, 0x55, 1, 0x66];
    let (mut core, mut ram, mut ledger, mut report) = ([0; 85], [0; 256], [0; 2 * RECORD_SIZE], [0; 18]);
    let (mut taken, mut steps, mut reason, mut used) = (0, 0, REASON_BUDGET, 0);
    // SAFETY: every slice is lent with its own length, and no two of them overlap.
    let mut refused = unsafe { sgdma_create(core.as_mut_ptr(), core.len(), 2, 0x1000, ram.len() as u64) }; // stream to memory
    for (at, to) in [(0x1000, 0x1080), (0x1020, 0x1084)] {
        refused |= unsafe { sgdma_build_descriptor(ram.as_mut_ptr(), ram.len(), 0x1000, at, 0, to, at + 32, 4, 0x80) }; // owned
    }
    refused |= unsafe { sgdma_write_register(core.as_mut_ptr(), core.len(), 8, 0x1000) }; // the pointer
    refused |= unsafe { sgdma_write_register(core.as_mut_ptr(), core.len(), 4, 1 << 5) }; // control: RUN
    while refused == 0 && reason == REASON_BUDGET {
        let left: &[u8] = &beats[2 * taken..];
        refused = unsafe {
            sgdma_run(core.as_mut_ptr(), core.len(), ram.as_mut_ptr(), ram.len(), left.as_ptr(), left.len(), std::ptr::null_mut(), 0,
                      ledger.as_mut_ptr(), ledger.len(), used as u32, 5, report.as_mut_ptr(), report.len())
        };
        (reason, used) = (number(&report[0..2]), number(&report[14..18]));
        (steps, taken) = (steps + number(&report[2..6]), taken + number(&report[6..10]));
    }
    println!("refused {refused}, reason {reason}, {steps} steps, {taken} beats, the last 0x{:02X}", ram[0x85]);
    for r in ledger.chunks(RECORD_SIZE).take(used) {
        println!("run {}: descriptor 0x{:X}, {} bytes, errors 0x{:02X}, EOP {}", number(&r[..4]), number(&r[4..8]), number(&r[8..10]), r[10], r[11]);
    }
    std::process::exit(i32::from(refused != 0));
}
