#!/usr/bin/env python3
"""wave.py WAVE REPORTS VIEW SYSTEM: reads a VCD file of the board back and holds it against what the model reported.

At each tick the beats and records of every core are the sums of its reports, a step in Move is a byte moved, and BUSY, phase, moved
bytes and records fit together by the rules of the core; each access of the reports stands in the wave at its tick, and no other. What
the firmware read in status and wrote to control and pointer is what the wave shows there, and the line goes up with a record under
its enables, and down with a write that clears it. Every signal of the saved view is one of the wave, and what the view shows in place
of a phase's number, or of the address of a core's register, is its name. SYSTEM is the header with the addresses of the cores.
"""

import re
import sys
from typing import Dict, Iterator, List, Set, Tuple

State = Dict[str, int]
REST, FETCH, MOVE, WRITE_BACK, ENDED, HALTED, FAULTED = range(7)
PHASES = ("Rest", "Fetch", "Move", "WriteBack", "Ended", "Halted", "Faulted")

# Registers by the bytes from a core's base, and the bits that are looked at.
STATUS, CONTROL, POINTER = 0, 16, 32
REGISTERS = {STATUS: "status", CONTROL: "control", POINTER: "next_descriptor_pointer"}
STATUS_BITS = ("error", "eop_encountered", "descriptor_completed", "chain_completed", "busy")
IE_DESCRIPTOR, IE_GLOBAL, RUN, CLEAR_INTERRUPT = 1 << 2, 1 << 4, 1 << 5, 1 << 31


def parse(path: str) -> Tuple[List[str], Iterator[Tuple[int, State]]]:
    """The names of the signals, and the state at the end of each time."""
    names: Dict[str, str] = {}
    scopes: List[str] = []
    with open(path, encoding="ascii") as file:
        text = file.read()
    head, body = text.split("$enddefinitions $end\n")
    for line in head.splitlines():
        word = line.split()
        if word[0] == "$scope":
            scopes.append(word[2])
        elif word[0] == "$upscope":
            scopes.pop()
        elif word[0] == "$var":
            names[word[3]] = ".".join([*scopes, word[4]])
    return list(names.values()), states(body, names)


def states(body: str, names: Dict[str, str]) -> Iterator[Tuple[int, State]]:
    state: State = {}
    time = None
    for line in body.splitlines():
        if line.startswith("#"):
            if time is not None:
                yield time, dict(state)
            time = int(line[1:])
        elif line.startswith("b"):
            value, name = line[1:].split()
            state[names[name]] = int(value, 2)
        else:
            state[names[line[1:]]] = int(line[0])
    if time is not None:
        yield time, dict(state)


def reports(path: str) -> Iterator[Tuple[str, List[int]]]:
    """The kind of each line and its numbers, which stand before its names."""
    with open(path, encoding="ascii") as file:
        for line in file:
            kind, *rest = line.split()
            yield kind, [int(number, 0) for number in (rest if kind == "step" else rest[:4])]


def hold(fact: bool, *what: object) -> None:
    if not fact:
        sys.exit("wave: " + " ".join(map(str, what)))


def hold_core(tick: int, core: str, before: State, now: State) -> None:
    """What fits together in a core, whatever it does."""
    see = {name.rsplit(".", 1)[1]: value for name, value in now.items() if name.startswith(core + ".")}
    phase, place = see["phase"], (core, "at tick", tick)
    hold(see["busy"] == (phase in (FETCH, MOVE, WRITE_BACK, ENDED)), *place, "BUSY does not fit phase", phase)
    hold(see["moved"] == 0 or phase in (MOVE, WRITE_BACK), *place, "bytes in hand in phase", phase)
    hold(see["run"] == 1 or phase not in (ENDED, HALTED), *place, "RUN is 0 in phase", phase)
    for name in ("beats_in", "beats_out", "records"):
        hold(see[name] >= before.get(core + "." + name, 0), *place, name, "goes back")
    if see["records"] > before.get(core + ".records", 0):
        hold(before[core + ".phase"] == WRITE_BACK, *place, "a record without WriteBack")


class Core:
    """A core by what was reported of it and what the firmware wrote to it, against what the wave shows."""

    def __init__(self, name: str, base: int, wave: Dict[int, State]) -> None:
        self.name, self.base, self.wave = name, base, wave
        self.taken = self.made = self.control = 0

    def at(self, tick: int, signal: str) -> int:
        return self.wave[tick][f"{self.name}.{signal}"]

    def hold(self, fact: bool, tick: int, what: str) -> None:
        hold(fact, self.name, "at tick", tick, what)

    def step(self, tick: int, steps: int, taken: int, made: int, used: int) -> None:
        self.taken += taken
        self.made += made
        self.hold((self.at(tick, "beats_in"), self.at(tick, "beats_out")) == (self.taken, self.made), tick, "shows other beats")
        self.hold(self.at(tick, "records") == used, tick, "shows other records")
        if self.at(tick - 1, "phase") == MOVE and self.at(tick, "phase") in (MOVE, WRITE_BACK):
            self.hold(self.at(tick, "moved") == self.at(tick - 1, "moved") + steps, tick, "moved other than a byte a step")
        if used > self.at(tick - 1, "records") and self.control & IE_GLOBAL and self.control & IE_DESCRIPTOR:
            self.hold(self.at(tick, "line") == 1, tick, "leaves the line down at a record")

    def access(self, kind: str, tick: int, offset: int, value: int) -> None:
        if (kind, offset) == ("read", STATUS):
            shown = sum(self.at(tick, name) << bit for bit, name in enumerate(STATUS_BITS))
            self.hold(shown == value, tick, f"shows status {shown:#x}, and {value:#x} was read")
        elif (kind, offset) == ("write", POINTER):
            self.hold(self.at(tick, "pointer") == value, tick, "shows another pointer than was written")
        elif (kind, offset) == ("write", CONTROL):
            self.control = value
            self.hold(self.at(tick, "run") == bool(value & RUN), tick, "shows another RUN than was written")
            self.hold(not value & CLEAR_INTERRUPT or self.at(tick, "line") == 0, tick, "keeps the line up when it is cleared")


def hold_reports(path: str, wave: Dict[int, State], cores: List[Core]) -> int:
    accesses: Dict[int, int] = {}
    for kind, (tick, *numbers) in reports(path):
        if kind == "step":
            core, _, *counts = numbers
            cores[core].step(tick, *counts)
            continue
        address, value, line = numbers
        now = wave[tick]
        seen = [now["board.firmware." + name] for name in ("address", "value", "source_line")]
        hold(seen == [address, value, line] and now["board.firmware." + kind] == 1, kind, "at tick", tick, "shows", seen)
        accesses[tick] = accesses.get(tick, 0) + 1
        for core in cores:
            core.access(kind, tick, address - core.base, value)
    for tick, now in wave.items():
        hold(now["board.firmware.read"] + now["board.firmware.write"] == accesses.get(tick, 0), "accesses at tick", tick)
    return sum(accesses.values())


def hold_view(path: str, names: List[str]) -> None:
    """The signals of the view, and the names that it shows of the phases."""
    with open(path, encoding="ascii") as file:
        text = file.read()
    shown = re.findall(r"^board\.[\w.]+", text, re.MULTILINE)
    hold(bool(shown), path, "shows no signal")
    for name in shown:
        hold(name in names, path, "has", name, "which the wave lacks")
    for phases in re.findall(r"^\^\d+ (board/\S+)\n\S+\.phase", text, re.MULTILINE):
        with open(phases, encoding="ascii") as file:
            hold(file.read().splitlines() == [f"{number} {name}" for number, name in enumerate(PHASES)], phases, "has other phases")


def hold_registers(path: str, accessed: Set[int], cores: List[Core]) -> None:
    """Each address that was accessed has a name, and a core's register its own."""
    with open(path, encoding="ascii") as file:
        names = {int(address, 16): name for address, name in (line.strip().split(" ", 1) for line in file)}
    hold(set(names) == accessed, path, "names other addresses than were accessed")
    for core in cores:
        for offset, register in REGISTERS.items():
            due = f"{register} {core.name.rsplit('.', 1)[1]}"
            hold(names.get(core.base + offset, due) == due, path, "has another name for", due)


def main() -> None:
    wave_path, reports_path, view, system = sys.argv[1:]
    names, times = parse(wave_path)
    cores = sorted({name.rsplit(".", 1)[0] for name in names if name.endswith(".phase")})
    wave: Dict[int, State] = {}
    before: State = {}
    for tick, now in times:
        for core in cores:
            hold_core(tick, core, before, now)
        wave[tick] = before = now
    hold(list(wave) == list(range(len(wave))), "ticks are left out")
    with open(system, encoding="ascii") as file:
        bases = dict(re.findall(r"#define (SGDMA_\d+)_BASE (0x[0-9A-F]+)u", file.read()))
    named = [Core(core, int(bases[core.rsplit(".", 1)[1].upper()], 0), wave) for core in cores]
    accesses = hold_reports(reports_path, wave, named)
    hold(accesses == before["board.firmware.accesses"] > 0, accesses, "accesses are reported")
    hold_view(view, names)
    accessed = {numbers[1] for kind, numbers in reports(reports_path) if kind != "step"}
    hold_registers(re.sub(r"reports$", "registers", reports_path), accessed, named)
    print(f"{len(wave)} ticks, {len(names)} signals, {accesses} accesses are as they were reported")


if __name__ == "__main__":
    main()
