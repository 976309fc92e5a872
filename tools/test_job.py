#!/usr/bin/env python3
"""Tests of tools/job: python3 tools/test_job.py

Every example packs to its job; every job, whole or damaged, survives show and pack; and where the expected line is a
file refusal, show breaks off with the same number at the same byte. The stored vectors' jobs too.
"""

import importlib.machinery
import importlib.util
import pathlib
import random
import struct
import subprocess
import sys
import unittest

sys.dont_write_bytecode = True
HERE = pathlib.Path(__file__).resolve().parent
EXAMPLES = HERE.parent / "examples"
LOADER = importlib.machinery.SourceFileLoader("job", str(HERE / "job"))
job = importlib.util.module_from_spec(importlib.util.spec_from_loader("job", LOADER))
LOADER.exec_module(job)


def again(data):
    lines, _ = job.show(data)
    return job.pack("\n".join(lines))


def refusal(data):
    found = job.show(data)[1]
    return found and found[:2]


def expected_refusal(path):
    """The number and offset where a file refusal is expected, None where the file is whole."""
    words = path.with_suffix(".expected").read_text().split()
    if words[0] == "refused" and int(words[1]) > 10:
        return int(words[1]), int(words[2])
    return None


JOBS = sorted(EXAMPLES.glob("*.job"))
B2 = (EXAMPLES / "b2.job").read_bytes()
FIELDS_OF_B2 = [0, 4, 8, 31, 50, 113, 164]


class Examples(unittest.TestCase):
    def test_there_are_jobs(self):
        self.assertGreaterEqual(len(JOBS), 40)

    def test_texts_pack_to_their_jobs(self):
        texts = sorted(path for path in EXAMPLES.glob("*.txt") if path.name != "finders.txt")
        self.assertGreaterEqual(len(texts), 30)
        for text in texts:
            with self.subTest(text.name):
                self.assertEqual(job.pack(text.read_text()), text.with_suffix(".job").read_bytes())

    def test_jobs_survive_show_and_pack(self):
        for path in JOBS:
            with self.subTest(path.name):
                self.assertEqual(again(path.read_bytes()), path.read_bytes())

    def test_jobs_break_off_where_expected(self):
        for path in JOBS:
            with self.subTest(path.name):
                self.assertEqual(refusal(path.read_bytes()), expected_refusal(path))

    def test_every_file_refusal_has_an_example(self):
        numbers = {found[0] for found in map(expected_refusal, JOBS) if found}
        self.assertEqual(numbers, set(range(11, 18)))

    def test_b2_has_the_stated_size(self):
        self.assertEqual(len(B2), 167)


class Damage(unittest.TestCase):
    def test_every_cut_of_b2_is_12_at_the_field_it_cuts(self):
        for size in range(len(B2)):
            at = max(f for f in FIELDS_OF_B2 if f <= size)
            with self.subTest(size=size):
                self.assertEqual(refusal(B2[:size]), (12, at))
                self.assertEqual(again(B2[:size]), B2[:size])

    def test_changed_bytes_survive(self):
        chance = random.Random(1)
        jobs = [path.read_bytes() for path in JOBS if 0 < path.stat().st_size < 5000]
        for _ in range(3000):
            data = bytearray(chance.choice(jobs))
            for _ in range(chance.randint(1, 3)):
                data[chance.randrange(len(data))] = chance.choice([0, 1, 2, 6, 7, 255, chance.randrange(256)])
            self.assertEqual(again(bytes(data)), bytes(data), data.hex())

    def test_arbitrary_bytes_survive(self):
        chance = random.Random(2)
        for _ in range(3000):
            data = bytes(chance.choice([0, 1, 2, 3, 5, 6, 7, 12, 255]) for _ in range(chance.randrange(40)))
            self.assertEqual(again(data), data, data.hex())


def stored_jobs():
    """Job and expected lines of each stored vector that came to its end (oracle/README.md says how they stand)."""
    data = (HERE.parent / "crates/replay/data/jobs.bin").read_bytes()
    word = lambda at: struct.unpack_from("<Q", data, at)[0]
    at = 32
    for _ in range(word(16)):
        size, lines, failed = word(at + 8), word(at + 16), word(at + 24)
        start = at + 32 + (size + 7) // 8 * 8
        if not failed:
            yield data[at + 32 : at + 32 + size], data[start : start + lines].decode()
        at += 8 * word(at)


class Stored(unittest.TestCase):
    """This reader and the oracle's must break off alike."""

    def test_stored_jobs_break_off_as_the_oracle_says(self):
        seen = 0
        for data, lines in stored_jobs():
            words = lines.split()
            wanted = None
            if words[0] == "refused" and int(words[1]) > 10:
                wanted = int(words[1]), int(words[2])
            self.assertEqual(refusal(data), wanted, data[:200].hex())
            self.assertEqual(again(data), data)
            seen += 1
        self.assertGreaterEqual(seen, 400)


class Floats(unittest.TestCase):
    def test_bits_survive(self):
        chance = random.Random(3)
        words = [0, 1 << 63, 0x7FF << 52, 0xFFF << 52, 0x7FF8 << 48, 0x7FF << 52 | 1, 0xFFF4000000ABCDEF, 1]
        words += [chance.getrandbits(64) for _ in range(2000)]
        for word in words:
            data = struct.pack("<Q", word)
            self.assertEqual(job.float_bytes(job.float_text(data)), data, hex(word))


class Texts(unittest.TestCase):
    def test_what_cannot_be_packed_names_its_line(self):
        for text in ["version", "version 256", "mode other", "settings 1 2 3 4", "minimum x", "minimum bits:7ff8",
                     "query -1", "items\n1", "estimates\n1 2 3", "3 4", "end\n5", "field", "field 100 00", "bytes 0",
                     "zeros", "tag 1", "query 18446744073709551616"]:
            with self.subTest(text):
                with self.assertRaisesRegex(job.TextError, "^line [12]: "):
                    job.pack(text)

    def test_a_field_that_is_too_long_is_told(self):
        with self.assertRaises(job.TextError):
            job.pack("query\n" + "1\n" * 8192)

    def test_the_commands(self):
        run = lambda *words, **more: subprocess.run([HERE / "job", *words], capture_output=True, **more)
        self.assertEqual(run("pack", input=(EXAMPLES / "b2.txt").read_bytes()).stdout, B2)
        self.assertEqual(run("show", EXAMPLES / "b2.job").returncode, 0)
        damaged = run("show", "-", input=B2[:-1])
        self.assertEqual(damaged.returncode, 1)
        self.assertIn(b"# breaks off here: refused 12 164: the header is cut", damaged.stdout)
        self.assertEqual(run("pack", input=b"nothing").returncode, 2)
        self.assertEqual(run().returncode, 2)
        self.assertEqual(run("--help").returncode, 0)


if __name__ == "__main__":
    unittest.main()
