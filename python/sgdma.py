"""The C calls of the proved SG-DMA model, from Python, by the names of the header.

The calls and the constants are those of sgdma.h, which is read when this module is imported: what it declares is here. A slice that C
lends as a pointer and a length is one bytes-like object; one that a call writes to is a bytearray, or another writable buffer. A call
returns None, or raises Refused; a refused call has changed no byte. help(sgdma_run) shows what the header says of a call.

>>> core, ram = bytearray(SGDMA_IMAGE_SIZE), bytearray(256)
>>> ledger, report = bytearray(SGDMA_RECORD_SIZE), bytearray(SGDMA_REPORT_SIZE)
>>> sgdma_create(core, SGDMA_MODE_STREAM_TO_MEMORY, 0x1000, len(ram))
>>> sgdma_build_descriptor(ram, 0x1000, 0x1000, 0, 0x1080, 0x1020, 64, SGDMA_DESC_OWNED_BY_HW)
>>> sgdma_write_register(core, SGDMA_REGISTER_NEXT_DESCRIPTOR_POINTER, 0x1000)
>>> sgdma_write_register(core, SGDMA_REGISTER_CONTROL, SGDMA_CONTROL_RUN)
>>> sgdma_run(core, ram, bytes.fromhex("0011 0022 0033 0144"), b"", ledger, 0, 100, report)
Traceback (most recent call last):
    ...
TypeError: sgdma_run writes to out: it must be a writable buffer
>>> sgdma_run(core, ram, bytes.fromhex("0011 0022 0033 0144"), bytearray(), ledger, 0, 100, report)
>>> number_at(report, SGDMA_REPORT_REASON_AT, 2) == SGDMA_REASON_ENDED, ram[0x80:0x84].hex()
(True, '11223344')
>>> Record.at(ledger, 0)
Record(run=1, descriptor=4096, actual=4, status=0, eop=True)

An image is moved to the edition of another size, and back where its slot is empty:

>>> first, again = bytearray(SGDMA_IMAGE_SIZE_FIRST), bytearray(SGDMA_IMAGE_SIZE)
>>> sgdma_move_image(core, first)
>>> sgdma_move_image(first, again)
>>> again[:-4] == core[:-4], number_at(core, SGDMA_IMAGE_RUN_NUMBER_AT, 4), number_at(again, SGDMA_IMAGE_RUN_NUMBER_AT, 4)
(True, 1, 0)

What is refused, by a call or before it is made:

>>> sgdma_read_register(core, 12, bytearray(SGDMA_VALUE_SIZE))
Traceback (most recent call last):
    ...
sgdma.Refused: SGDMA_NO_REGISTER (1): offset is not 0, 4 or 8
>>> core[4] = 0xFF
>>> try:
...     sgdma_line(core, bytearray(SGDMA_VALUE_SIZE))
... except Refused as refused:
...     print(refused.number, refused.name, refused.field, refused.field_name)
8 SGDMA_BAD_IMAGE 9 SGDMA_FIELD_CONTROL
>>> vic = bytearray(SGDMA_VIC_SIZE)
>>> sgdma_vic_create(vic, 4, 0, 0)
>>> vic[24 + 2 * 9] = 1  # of port 9, which it lacks
>>> sgdma_vic_choose(vic, bytearray(SGDMA_VIC_ANSWER_SIZE))
Traceback (most recent call last):
    ...
sgdma.Refused: SGDMA_BAD_IMAGE (8): field 17 SGDMA_VIC_FIELD_FIRST_CONFIG + 9
>>> sgdma_timer_create(bytearray(SGDMA_TIMER_SIZE), 1 << 32)
Traceback (most recent call last):
    ...
OverflowError: sgdma_timer_create: period is not a number of 32 bits
>>> lent = memoryview(bytearray(SGDMA_TIMER_SIZE))
>>> sgdma_timer_line(lent, lent[:SGDMA_VALUE_SIZE])
Traceback (most recent call last):
    ...
ValueError: sgdma_timer_line: two slices overlap
"""

import argparse
import ctypes
import ctypes.util
import inspect
import keyword
import os
import re
import sys
from pathlib import Path
from typing import Any, Callable, Dict, Iterator, List, NamedTuple, NoReturn, Optional, Set, Tuple, Union

Readable = Union[bytes, bytearray, memoryview]
Writable = Union[bytearray, memoryview]

_HERE = Path(__file__).resolve().parent


def _stop(why: str) -> NoReturn:
    """What this module stands on is missing: a command says so and ends, and an import fails."""
    if __name__ == "__main__":
        print(f"sgdma: {why}", file=sys.stderr)
        sys.exit(2)
    raise ImportError(why)


def _first_of(variable: str, places: List[Path]) -> Optional[Path]:
    """The file that the environment names, or the first of these that there is."""
    named = os.environ.get(variable)
    if named:
        return Path(named)
    return next((place for place in places if place.exists()), None)


def _header() -> str:
    beside = [_HERE.parent / "include/sgdma.h", Path("/usr/local/include/sgdma.h"), Path("/usr/include/sgdma.h")]
    path = _first_of("SGDMA_HEADER", beside)
    if path is None:
        _stop("no sgdma.h: name it in SGDMA_HEADER")
    try:
        return path.read_text(encoding="ascii")
    except OSError as why:
        _stop(f"no sgdma.h: {why}")


def _library(edition: int) -> ctypes.CDLL:
    path = _first_of("SGDMA_LIBRARY", [_HERE.parent / f"target/c/libsgdma.so.{edition}"])
    name = str(path) if path else ctypes.util.find_library("sgdma")
    if name is None:
        _stop("no libsgdma.so: 'make shared' makes it, or name it in SGDMA_LIBRARY")
    try:
        return ctypes.CDLL(name)
    except OSError as why:
        _stop(f"no libsgdma.so: {why}")


def _constants(text: str) -> Dict[str, int]:
    """Every constant of the header that is a number, in order."""
    found: Dict[str, int] = {}
    for name, value in re.findall(r"^#define (SGDMA_\w+) +(\S+)", text, re.MULTILINE):
        bit = re.fullmatch(r"SGDMA_BIT\((\d+)\)", value)
        number = re.fullmatch(r"(?:UINT32_C\()?(0x[0-9A-Fa-f]+|\d+)\)?", value)
        if bit:
            found[name] = 1 << int(bit.group(1))
        elif number:
            found[name] = int(number.group(1), 0)
    return found


def _refusals(text: str) -> Dict[int, Tuple[str, str]]:
    """The name of each refusal, and what the header says of it. They stand behind SGDMA_DONE."""
    rows = re.findall(r"^#define (SGDMA_\w+) +UINT32_C\((\d+)\) +/\* (.*) \*/$", text[text.index("#define SGDMA_DONE ") :], re.MULTILINE)
    return {int(number): (name, meaning) for name, number, meaning in rows}


_TEXT = _header()
_CONSTANTS = _constants(_TEXT)
_REFUSALS = _refusals(_TEXT)


class Refused(Exception):
    """A call was refused: the number and its name; where it is SGDMA_BAD_IMAGE, the field that is wrong, else 0, and its name."""

    def __init__(self, call: str, returned: int) -> None:
        self.number = returned & 255
        self.field = returned >> 8
        self.name, meaning = _REFUSALS.get(self.number, ("?", "a refusal that the header lacks"))
        self.field_name = _field_name(call, self.field)
        super().__init__(f"{self.name} ({self.number}): " + (f"field {self.field} {self.field_name}" if self.field else meaning))


def _field_name(call: str, field: int) -> str:
    """The field's name in the table of what the call is lent: a core, a controller or a timer."""
    kind = next((kind for kind in ("VIC", "TIMER") if call.startswith(f"sgdma_{kind.lower()}_")), "")
    start = f"SGDMA_{kind}_FIELD_" if kind else "SGDMA_FIELD_"
    named = {value: name for name, value in _CONSTANTS.items() if name.startswith(start)}
    if kind == "VIC" and field > max(named):  # those of the ports, of which the first alone has a name
        return f"{named[max(named)]} + {field - max(named)}"
    return named.get(field, "")


class _Parameter(NamedTuple):
    name: str
    kind: str  # "in", "out", or the width of a number in bits

    def passed(self, call: str, value: Any) -> List[Any]:
        """The C arguments of a value."""
        if self.kind.isdigit():
            if not 0 <= value < 1 << int(self.kind):
                raise OverflowError(f"{call}: {self.name} is not a number of {self.kind} bits")
            return [getattr(ctypes, f"c_uint{self.kind}")(value)]
        view = memoryview(value).cast("B")
        if self.kind == "out" and view.readonly:
            raise TypeError(f"{call} writes to {self.name}: it must be a writable buffer")
        array = ctypes.c_uint8 * len(view)
        return [array.from_buffer_copy(view) if view.readonly else array.from_buffer(view), ctypes.c_size_t(len(view))]


def _parameters(declared: str) -> Iterator[_Parameter]:
    for part in re.split(r",\s*", declared.strip()):
        pointer = re.fullmatch(r"(const )?uint8_t \*(\w+)", part)
        number = re.fullmatch(r"uint(\d+)_t (\w+)", part)
        if pointer:
            yield _Parameter(pointer.group(2), "in" if pointer.group(1) else "out")
        elif number:
            yield _Parameter(number.group(2), number.group(1))


def _must_be_apart(call: str, arguments: List[Any]) -> None:
    """The slices lent to one call do not overlap: no call can see it, so it is looked at here."""
    spans = sorted((ctypes.addressof(a), len(a)) for a in arguments if isinstance(a, ctypes.Array) and len(a))
    for (first, length), (second, _) in zip(spans, spans[1:]):
        if first + length > second:
            raise ValueError(f"{call}: two slices overlap")


def _python_name(name: str) -> str:
    """The header's name of a parameter, where Python has it free."""
    return name + "_" if keyword.iskeyword(name) else name


def _call(library: ctypes.CDLL, name: str, parameters: List[_Parameter], text: str) -> Callable[..., None]:
    function = getattr(library, name)
    function.restype = ctypes.c_uint32
    annotations = {"in": Readable, "out": Writable}
    signature = inspect.Signature([
        inspect.Parameter(_python_name(p.name), inspect.Parameter.POSITIONAL_OR_KEYWORD, annotation=annotations.get(p.kind, int)) for p in parameters
    ])

    def call(*values: Any, **named: Any) -> None:
        bound = signature.bind(*values, **named).arguments
        arguments = [c for p in parameters for c in p.passed(name, bound[_python_name(p.name)])]
        _must_be_apart(name, arguments)
        returned = function(*arguments)
        if returned:
            raise Refused(name, returned)

    call.__name__ = call.__qualname__ = name
    call.__doc__ = text
    setattr(call, "__signature__", signature)
    return call


def _calls(text: str, library: ctypes.CDLL) -> Dict[str, Callable[..., None]]:
    """Each call that the header declares, with the comment before it."""
    declaration = re.compile(r"/\*((?:[^*]|\*(?!/))*)\*/\s*uint32_t (sgdma_\w+)\(([^)]*)\);")
    return {
        name: _call(library, name, list(_parameters(declared)), re.sub(r"^ \* ?", "", comment, flags=re.MULTILINE).strip())
        for comment, name, declared in declaration.findall(text)
    }


_CALLS = _calls(_TEXT, _library(_CONSTANTS["SGDMA_EDITION"]))
globals().update(_CONSTANTS)
globals().update(_CALLS)


class _Unfit(Exception):
    """What a command was given will not do: why."""


def number_at(lent: Readable, at: int, size: int) -> int:
    """A number of so many bytes in lent bytes, the most significant first."""
    return int.from_bytes(memoryview(lent)[at : at + size], "big")


class Record(NamedTuple):
    """A record of a ledger: what was written back."""

    run: int
    descriptor: int
    actual: int
    status: int
    eop: bool

    @classmethod
    def at(cls, ledger: Readable, place: int) -> "Record":
        size = _CONSTANTS["SGDMA_RECORD_SIZE"]
        lent = memoryview(ledger)[size * place : size * (place + 1)]
        names = (("RUN", 4), ("DESCRIPTOR", 4), ("ACTUAL", 2), ("STATUS", 1))
        numbers = [number_at(lent, _CONSTANTS[f"SGDMA_RECORD_{name}_AT"], width) for name, width in names]
        flags = lent[_CONSTANTS["SGDMA_RECORD_FLAGS_AT"]]
        return cls(*numbers, eop=bool(flags & _CONSTANTS["SGDMA_RECORD_EOP"]))


def _verdict(record: Record, memory: Readable, base: int, later: Set[int]) -> Tuple[str, bool]:
    """What a dump of the memory says of a record, and whether it is to be marked."""
    answer = bytearray(_CONSTANTS["SGDMA_DESCRIPTOR_ANSWER_SIZE"])
    try:
        _CALLS["sgdma_read_descriptor"](memory, base, record.descriptor, answer)
    except Refused:
        return "NO DESCRIPTOR there", True
    if record.descriptor in later:
        return "a later one is there", False
    later.add(record.descriptor)
    if answer[_CONSTANTS["SGDMA_ANSWER_DESC_CONTROL_AT"]] & _CONSTANTS["SGDMA_DESC_OWNED_BY_HW"]:
        return "owned in memory", False
    actual = number_at(answer, _CONSTANTS["SGDMA_ANSWER_ACTUAL_BYTES_TRANSFERRED_AT"], 2)
    if (actual, answer[_CONSTANTS["SGDMA_ANSWER_DESC_STATUS_AT"]]) == (record.actual, record.status):
        return "as in memory", False
    return "CONTRADICTED by memory", True


def _records_in(path: Path) -> List[Record]:
    """All records of a file, which holds nothing else."""
    ledger, size = path.read_bytes(), _CONSTANTS["SGDMA_RECORD_SIZE"]
    if len(ledger) % size:
        raise _Unfit(f"{path}: SGDMA_BAD_LEDGER: it has {len(ledger)} bytes, which are no whole records of {size}")
    return [Record.at(ledger, place) for place in range(len(ledger) // size)]


def _dump_in(path: Path, base: int) -> bytearray:
    """The dump of a window that begins at this bus address."""
    dump = bytearray(path.read_bytes())
    if len(dump) > min(_CONSTANTS["SGDMA_WINDOW_LENGTH_MAX"], (1 << 32) - base):
        raise _Unfit(
            f"{path}: SGDMA_BAD_WINDOW: it has {len(dump)} bytes at 0x{base:04X}; a window has at most 65,536 and ends "
            "at 4,294,967,296: cut out the part with the descriptors, and give its address as the base"
        )
    return dump


def _show_ledger(options: argparse.Namespace) -> int:
    """The sub-command ledger; 1 where a record is marked."""
    if options.memory is not None and options.base is None:
        raise _Unfit("--memory needs --base, the bus address at which the dump begins")
    if options.base is not None and options.memory is None:
        raise _Unfit("--base needs --memory, the dump that begins there")
    records = _records_in(options.file)
    verdicts = [("", False)] * len(records)
    held = options.memory is not None
    if held:
        memory = _dump_in(options.memory, options.base)
        later: Set[int] = set()
        verdicts = [_verdict(record, memory, options.base, later) for record in reversed(records)][::-1]
    width = max([3] + [len(str(record.run)) for record in records])
    print(f"    ledger  {'run':>{width}}  descriptor  bytes  errors  EOP" + ("  memory" if held else ""))
    for place, (record, (verdict, _)) in enumerate(zip(records, verdicts), 1):
        address = f"0x{record.descriptor:04X}"
        eop = "yes" if record.eop else "no"
        row = f"    {place:6}  {record.run:{width}}  {address:>10}  {record.actual:5}    0x{record.status:02X}  {eop:3}  {verdict}"
        print(row.rstrip())
    marked = sum(marked for _, marked in verdicts)
    counted = "1 record" if len(records) == 1 else f"{len(records)} records"
    print(f"    {counted}, {marked} marked" if held else f"    {counted}, not held against memory")
    return 1 if marked else 0


def editions() -> Dict[int, int]:
    """The size of the image of each edition: a later one is larger.

    >>> editions()[SGDMA_EDITION] == SGDMA_IMAGE_SIZE, editions()[1] == SGDMA_IMAGE_SIZE_FIRST
    (True, True)
    """
    sizes = sorted(value for name, value in _CONSTANTS.items() if name.startswith("SGDMA_IMAGE_SIZE"))
    return dict(enumerate(sizes, 1))


class Checked(NamedTuple):
    """What a check tells of a chain: where it is sound, how many descriptors are owned and where the end is; else where and why not.

    >>> ram = bytearray(96)
    >>> sgdma_build_descriptor(ram, 0x1000, 0x1000, 0, 0, 0x1040, 1, SGDMA_DESC_OWNED_BY_HW)
    >>> print(Checked.of(ram, 0x1000, 0x1000))
    sound: 1 owned, and the end at 0x1040
    >>> print(Checked.of(ram, 0x1000, 0x1044))
    not sound: at position 0, 0x1044: its 32 bytes are not in the window
    """

    verdict: int
    position: int
    address: int

    @classmethod
    def of(cls, memory: Readable, base: int, pointer: int) -> "Checked":
        answer = bytearray(_CONSTANTS["SGDMA_CHECK_SIZE"])
        _CALLS["sgdma_check_chain"](memory, base, pointer, answer)
        names = (("VERDICT", 2), ("POSITION", 4), ("ADDRESS", 4))
        return cls(*(number_at(answer, _CONSTANTS[f"SGDMA_CHECK_{name}_AT"], size) for name, size in names))

    def sound(self) -> bool:
        return self.verdict == _CONSTANTS["SGDMA_CHAIN_SOUND"]

    def __str__(self) -> str:
        if self.sound() and not self.position:
            return f"sound: none owned, 0x{self.address:04X} is the end; what lies behind it is not looked at"
        if self.sound():
            return f"sound: {self.position} owned, and the end at 0x{self.address:04X}"
        causes = {
            _CONSTANTS["SGDMA_CHAIN_MISALIGNED"]: "it is not a multiple of 4",
            _CONSTANTS["SGDMA_CHAIN_OUTSIDE"]: "its 32 bytes are not in the window",
            _CONSTANTS["SGDMA_CHAIN_OVERLAPS"]: "it overlaps an earlier descriptor",
        }
        return f"not sound: at position {self.position}, 0x{self.address:04X}: {causes[self.verdict]}"


def _dump_of(options: argparse.Namespace) -> bytearray:
    """The dump, once it is said where it and its chain are taken to be: an address meant as another is seen."""
    dump = _dump_in(options.dump, options.base)
    to = f" to 0x{options.base + len(dump) - 1:04X}" if dump else ""
    print(f"{len(dump)} bytes at 0x{options.base:04X}{to}, the chain from 0x{options.pointer:04X}")
    return dump


def _check(options: argparse.Namespace) -> int:
    """The sub-command check; 1 where the chain is not sound."""
    checked = Checked.of(_dump_of(options), options.base, options.pointer)
    print(checked)
    return 0 if checked.sound() else 1


def _mend(options: argparse.Namespace) -> int:
    """The sub-command mend; where the chain is sound, or there is nothing to keep, no file is written, and none from before stays."""
    if options.mended.exists() and options.mended.samefile(options.dump):
        raise _Unfit(f"{options.mended}: it is the dump itself, which stays as it is")
    memory = _dump_of(options)
    answer = bytearray(_CONSTANTS["SGDMA_MEND_SIZE"])
    if options.mended.is_file():
        options.mended.unlink()
    print(Checked.of(memory, options.base, options.pointer))
    try:
        _CALLS["sgdma_mend_chain"](memory, options.base, options.pointer, answer)
    except Refused as refused:
        if refused.name != "SGDMA_NOTHING_TO_KEEP":
            raise
        print(f"refused: {refused.number}, nothing to keep: no file is written")
        return 1
    if not number_at(answer, _CONSTANTS["SGDMA_MEND_MENDED_AT"], 2):
        print("nothing to mend: no file is written")
        return 0
    address = number_at(answer, _CONSTANTS["SGDMA_MEND_ADDRESS_AT"], 4)
    old, new = (answer[_CONSTANTS[f"SGDMA_MEND_{name}_AT"]] for name in ("OLD", "NEW"))
    control = address + _CONSTANTS["SGDMA_DESCRIPTOR_DESC_CONTROL_AT"]
    print(f"mended: 0x{address:04X} is the end now: its control, at 0x{control:04X}, is 0x{new:02X} and was 0x{old:02X}")
    options.mended.write_bytes(memory)
    print(f"the mended dump is {options.mended}")
    print(Checked.of(memory, options.base, options.pointer))
    return 0


def _move_image(options: argparse.Namespace) -> int:
    """The sub-command move-image; where it is refused no file is written."""
    image, moved = options.image.read_bytes(), bytearray(editions()[options.edition])
    try:
        _CALLS["sgdma_move_image"](image, moved)
    except Refused as refused:
        raise _Unfit(f"{options.image}: {refused}; it has {len(image)} bytes") from refused
    options.moved.write_bytes(moved)
    print(f"    {options.moved}: edition {options.edition}, {len(moved)} bytes")
    return 0


def _address(text: str) -> int:
    """A number of 32 bits, decimal or with 0x before it; a 0 before a decimal one means nothing."""
    hexadecimal = re.fullmatch("0[xX][0-9A-Fa-f]+", text)
    number = int(text, 16 if hexadecimal else 10) if hexadecimal or re.fullmatch("[0-9]+", text) else None
    if number is None or number >= 1 << 32:
        raise argparse.ArgumentTypeError(f"must be an address of the bus, decimal or with 0x: '{text}'")
    return number


def _add_chain(command: argparse.ArgumentParser) -> None:
    """A dump, and where its chain begins."""
    command.add_argument("dump", type=Path, help="a dump of the window")
    command.add_argument("--base", type=_address, required=True, help="the bus address at which the dump begins")
    command.add_argument("--pointer", type=_address, required=True, help="the bus address at which the chain begins")


def _parser() -> argparse.ArgumentParser:
    parser = argparse.ArgumentParser(
        prog="python3 -m sgdma",
        description="The proved SG-DMA model, on files.",
        epilog="Each ends with 0, or with 1 where it has found something wrong; with 2 where a file or what it holds is refused.",
    )
    commands = parser.add_subparsers(dest="command", required=True)
    ledger = commands.add_parser("ledger", help="a saved ledger as a table")
    ledger.add_argument("file", type=Path, help="records of a ledger, and nothing else")
    ledger.add_argument("--memory", type=Path, help="a dump of the window: a record that its descriptor contradicts is marked")
    ledger.add_argument("--base", type=_address, help="the bus address at which the dump begins")
    ledger.set_defaults(run=_show_ledger)
    check = commands.add_parser("check", help="a chain in a dump of the memory, whether it is sound")
    _add_chain(check)
    check.set_defaults(run=_check)
    mend = commands.add_parser("mend", help="the good front part of a chain in a dump of the memory")
    _add_chain(mend)
    mend.add_argument("mended", type=Path, help="where the mended dump is written")
    mend.set_defaults(run=_mend)
    move = commands.add_parser("move-image", help="the image of a core, moved to another edition")
    move.add_argument("image", type=Path, help="the image; its size tells its edition")
    move.add_argument("moved", type=Path, help="where the moved image is written")
    move.add_argument("--edition", type=int, choices=sorted(editions()), default=_CONSTANTS["SGDMA_EDITION"], help="the newest where not given")
    move.set_defaults(run=_move_image)
    return parser


def main() -> int:
    options = _parser().parse_args()
    try:
        return options.run(options)
    except (Refused, OSError, _Unfit) as why:
        print(f"{options.command}: {why}", file=sys.stderr)
        return 2


if __name__ == "__main__":
    sys.exit(main())
