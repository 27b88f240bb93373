#!/usr/bin/env python3
"""The commands of the module sgdma on files: what they write and print, and how they end. The module and its library are on the path."""

import os
import subprocess
import sys
import tempfile
import unittest
from pathlib import Path
from typing import Tuple

import sgdma as s


def started() -> bytearray:
    """A core in Rest at a chain of one, with RUN written."""
    core = bytearray(s.SGDMA_IMAGE_SIZE)
    s.sgdma_create(core, s.SGDMA_MODE_STREAM_TO_MEMORY, 0x1000, 64)
    s.sgdma_write_register(core, s.SGDMA_REGISTER_NEXT_DESCRIPTOR_POINTER, 0x1000)
    s.sgdma_write_register(core, s.SGDMA_REGISTER_CONTROL, s.SGDMA_CONTROL_RUN)
    return core


def after(steps: int) -> bytearray:
    """The core after so many steps without a beat: two are taken, and then it has read ahead."""
    core, ram = started(), bytearray(64)
    s.sgdma_build_descriptor(ram, 0x1000, 0x1000, 0, 0x1000, 0x1020, 4, s.SGDMA_DESC_OWNED_BY_HW)
    s.sgdma_run(core, ram, b"", bytearray(), bytearray(), 0, steps, bytearray(s.SGDMA_REPORT_SIZE))
    return core


class Commands(unittest.TestCase):
    def setUp(self) -> None:
        room = tempfile.TemporaryDirectory()
        self.addCleanup(room.cleanup)
        self.room = Path(room.name)

    def file(self, name: str, content: bytes) -> Path:
        path = self.room / name
        path.write_bytes(content)
        return path

    def run_command(self, *arguments: object) -> Tuple[int, str, str]:
        ran = subprocess.run([sys.executable, "-m", "sgdma", *map(str, arguments)], capture_output=True, text=True, check=False)
        return ran.returncode, ran.stdout, ran.stderr

    def test_help_names_the_commands(self) -> None:
        ended, told, _ = self.run_command("--help")
        self.assertEqual(ended, 0)
        for command in ("check", "ledger", "mend", "move-image"):
            self.assertIn(f"    {command} ", told)

    def test_what_the_module_needs_is_told(self) -> None:
        for variable, what in (("SGDMA_LIBRARY", "libsgdma.so"), ("SGDMA_HEADER", "sgdma.h")):
            without = {**os.environ, variable: str(self.room / "none")}
            ran = subprocess.run([sys.executable, "-m", "sgdma", "--help"], capture_output=True, text=True, check=False, env=without)
            self.assertEqual((ran.returncode, ran.stdout), (2, ""))
            self.assertTrue(ran.stderr.startswith(f"sgdma: no {what}: "), ran.stderr)
            self.assertEqual(ran.stderr.count("\n"), 1)

    def test_an_image_is_moved_back_and_forward(self) -> None:
        image, old, new = self.file("image", started()), self.room / "old", self.room / "new"
        self.assertEqual(self.run_command("move-image", image, old, "--edition", 1), (0, f"    {old}: edition 1, 44 bytes\n", ""))
        self.assertEqual(self.run_command("move-image", old, new), (0, f"    {new}: edition 2, 85 bytes\n", ""))
        self.assertEqual(new.read_bytes(), bytes(started()[:-4]) + bytes(4))  # in run 0

    def refused(self, content: bytes, told: str, *arguments: object) -> None:
        """Nothing is written, and the refusal is told by its name and number."""
        moved = self.room / "moved"
        image = self.file("image", content)
        ended, _, said = self.run_command("move-image", image, moved, *arguments)
        self.assertEqual(ended, 2)
        self.assertTrue(said.startswith(f"move-image: {image}: {told}"), said)
        self.assertTrue(said.endswith(f"; it has {len(content)} bytes\n"), said)
        self.assertFalse(moved.exists())

    def test_refusals_are_told(self) -> None:
        self.refused(after(2), "SGDMA_SLOT_HELD (15): ", "--edition", 1)
        self.refused(bytes(45), "SGDMA_BAD_SIZE (7): ")
        spoiled = started()
        spoiled[3] = 0xFF
        self.refused(spoiled, "SGDMA_BAD_IMAGE (8): field 8 SGDMA_FIELD_COUNT")

    def dump(self, *links: Tuple[int, int]) -> Path:
        """A dump of 96 bytes at 0x1000, in which each of these descriptors is owned and leads to another."""
        memory = bytearray(96)
        for address, to in links:
            s.sgdma_build_descriptor(memory, 0x1000, address, 0, 0, to, 1, s.SGDMA_DESC_OWNED_BY_HW | s.SGDMA_DESC_GENERATE_EOP)
        return self.file("dump", memory)

    def checked(self, dump: Path, pointer: int, must: int, told: str) -> None:
        said = f"96 bytes at 0x1000 to 0x105F, the chain from 0x{pointer:04X}\n{told}\n"
        self.assertEqual(self.run_command("check", dump, "--base", "0x1000", "--pointer", pointer), (must, said, ""))

    def test_an_address_is_decimal_or_with_0x(self) -> None:
        sound = self.dump((0x1000, 0x1020))
        for pointer in ("-4096", " 4096", "4_096", "0o10000", "0x", "4294967296"):
            ended, _, said = self.run_command("check", sound, "--base", "0x1000", f"--pointer={pointer}")
            self.assertEqual(ended, 2)
            self.assertIn(f"--pointer: must be an address of the bus, decimal or with 0x: '{pointer}'\n", said)
        self.assertIn("the chain from 0x2710\n", self.run_command("check", sound, "--base", "0x1000", "--pointer", "010000")[1])

    def test_a_chain_is_checked(self) -> None:
        sound = self.dump((0x1000, 0x1040), (0x1040, 0x1020))
        self.checked(sound, 4096, 0, "sound: 2 owned, and the end at 0x1020")
        self.checked(sound, 0x1020, 0, "sound: none owned, 0x1020 is the end; what lies behind it is not looked at")
        self.checked(self.dump((0x1000, 0x1040), (0x1040, 0x1000)), 4096, 1, "not sound: at position 2, 0x1000: it overlaps an earlier descriptor")
        self.checked(self.dump((0x1000, 0x1042)), 4096, 1, "not sound: at position 1, 0x1042: it is not a multiple of 4")
        self.checked(self.dump((0x1000, 0x1044)), 4096, 1, "not sound: at position 1, 0x1044: its 32 bytes are not in the window")
        ended, _, said = self.run_command("check", sound, "--base", 0xFFFFFFF0, "--pointer", 0)
        self.assertEqual(ended, 2)
        self.assertTrue(said.startswith(f"check: {sound}: SGDMA_BAD_WINDOW: it has 96 bytes at 0xFFFFFFF0; a window has"), said)

    def test_a_chain_is_mended(self) -> None:
        at = ("--base", "0x1000", "--pointer", 4096)
        back, mended = self.dump((0x1000, 0x1040), (0x1040, 0x1000)), self.room / "mended"
        before = bytearray(back.read_bytes())
        ended, told, _ = self.run_command("mend", back, mended, *at)
        self.assertEqual((ended, told.splitlines()[2]), (0, "mended: 0x1040 is the end now: its control, at 0x105F, is 0x01 and was 0x81"))
        self.assertEqual(told.splitlines()[4], "sound: 1 owned, and the end at 0x1040")
        self.assertEqual(back.read_bytes(), before)
        before[0x5F] = 0x01
        self.assertEqual(mended.read_bytes(), before)

    def test_the_dump_itself_stays(self) -> None:
        back, link = self.dump((0x1000, 0x1040), (0x1040, 0x1000)), self.room / "link"
        link.symlink_to(back)
        before = back.read_bytes()
        for to in (back, link):
            ended, _, said = self.run_command("mend", back, to, "--base", 0x1000, "--pointer", 0x1000)
            self.assertEqual((ended, said), (2, f"mend: {to}: it is the dump itself, which stays as it is\n"))
        self.assertEqual(back.read_bytes(), before)

    def test_what_is_not_mended_is_not_written(self) -> None:
        sound = self.dump((0x1000, 0x1040))
        told = {0x1000: (0, "nothing to mend: no file is written"), 0x1002: (1, "refused: 23, nothing to keep: no file is written")}
        for pointer, must in told.items():
            before = self.file("mended", b"from before")
            ended, said, _ = self.run_command("mend", sound, before, "--base", 0x1000, "--pointer", pointer)
            self.assertEqual((ended, said.splitlines()[2]), must)
            self.assertFalse(before.exists())

    def test_a_file_that_is_not_there(self) -> None:
        ended, _, said = self.run_command("ledger", self.room / "none")
        self.assertEqual(ended, 2)
        self.assertIn("No such file", said)

    def test_a_ledger_in_part(self) -> None:
        part = self.file("part", bytes(30))
        told = f"ledger: {part}: SGDMA_BAD_LEDGER: it has 30 bytes, which are no whole records of 12\n"
        self.assertEqual(self.run_command("ledger", part), (2, "", told))

    def test_a_dump_has_its_address(self) -> None:
        ledger, dump = self.file("ledger", bytes(s.SGDMA_RECORD_SIZE)), self.file("dump", bytes(32))
        told = "ledger: --memory needs --base, the bus address at which the dump begins\n"
        self.assertEqual(self.run_command("ledger", ledger, "--memory", dump), (2, "", told))
        told = "ledger: --base needs --memory, the dump that begins there\n"
        self.assertEqual(self.run_command("ledger", ledger, "--base", 0), (2, "", told))

    def test_a_dump_that_is_no_window(self) -> None:
        ledger, dump = self.file("ledger", bytes(s.SGDMA_RECORD_SIZE)), self.file("dump", bytes(s.SGDMA_WINDOW_LENGTH_MAX + 1))
        ended, _, said = self.run_command("ledger", ledger, "--memory", dump, "--base", 0)
        self.assertEqual(ended, 2)
        self.assertTrue(said.startswith(f"ledger: {dump}: SGDMA_BAD_WINDOW: it has 65537 bytes at 0x0000; a window has"), said)
        self.assertEqual(self.run_command("ledger", ledger, "--memory", dump, "--base", "4G")[0], 2)


if __name__ == "__main__":
    unittest.main()
