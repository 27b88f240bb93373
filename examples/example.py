"""Six samples in two packets, the second with an error and EOP; in slices of five steps, and what the ledger tells."""

from sgdma import *  # the names of the header
from sgdma import Record, Refused, number_at

BEATS = bytes([0, 0x11, 0, 0x22, 0, 0x33, 0, 0x44, 6, 0x55, 1, 0x66])


def main() -> int:
    core, ram = bytearray(SGDMA_IMAGE_SIZE), bytearray(256)
    ledger, report = bytearray(2 * SGDMA_RECORD_SIZE), bytearray(SGDMA_REPORT_SIZE)
    taken = steps = used = refused = 0
    reason = SGDMA_REASON_BUDGET
    try:
        sgdma_create(core, SGDMA_MODE_STREAM_TO_MEMORY, 0x1000, len(ram))
        for at, to in ((0x1000, 0x1080), (0x1020, 0x1084)):
            sgdma_build_descriptor(ram, 0x1000, at, 0, to, at + SGDMA_DESCRIPTOR_SIZE, 4, SGDMA_DESC_OWNED_BY_HW)
        sgdma_write_register(core, SGDMA_REGISTER_NEXT_DESCRIPTOR_POINTER, 0x1000)
        sgdma_write_register(core, SGDMA_REGISTER_CONTROL, SGDMA_CONTROL_RUN)
        while reason == SGDMA_REASON_BUDGET:
            sgdma_run(core, ram, BEATS[2 * taken :], bytearray(), ledger, used, 5, report)
            reason = number_at(report, SGDMA_REPORT_REASON_AT, 2)
            steps += number_at(report, SGDMA_REPORT_STEPS_AT, 4)
            taken += number_at(report, SGDMA_REPORT_TAKEN_AT, 4)
            used = number_at(report, SGDMA_REPORT_USED_AT, 4)
    except Refused as why:
        refused = why.number
    print(f"refused {refused}, reason {reason}, {steps} steps, {taken} beats, the last 0x{ram[0x85]:02X}")
    for place in range(used):
        r = Record.at(ledger, place)
        print(f"run {r.run}: descriptor 0x{r.descriptor:X}, {r.actual} bytes, errors 0x{r.status:02X}, EOP {r.eop:d}")
    return refused


if __name__ == "__main__":
    raise SystemExit(main())
