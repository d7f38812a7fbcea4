"""Tests of the program with all edits: what it tells of the functions that it calls, and which program is taken; and of the sum that is noted for edits."""

import importlib.machinery
import importlib.util
import os
import shutil
import subprocess
import sys
import tempfile
import types
import unittest
import unittest.mock

from hunting import switched

TOP = os.path.dirname(os.path.dirname(os.path.dirname(os.path.abspath(__file__))))
# It asks for two edits, one of them twice, and ends as a program of the kit does that can start threads: without C's destructors.
MAIN = """#include <unistd.h>
unsigned kothaysu_edit(unsigned number);
int main(void) { _exit((int)(kothaysu_edit(3) + 2 * kothaysu_edit(700) + 4 * kothaysu_edit(3))); }
"""


def load(path):
    loader = importlib.machinery.SourceFileLoader(os.path.basename(path), path)
    module = importlib.util.module_from_spec(importlib.util.spec_from_loader(loader.name, loader))
    loader.exec_module(module)
    return module


mutants = load(f"{TOP}/tools/mutants")
sys.path.insert(0, f"{TOP}/tools/lib")
import checks


class Noted(unittest.TestCase):
    """The sum of the code over which expensive edits were refused."""

    def sum_over(self, source, spec):
        with tempfile.TemporaryDirectory(prefix="test-tools-") as room:
            for path, text in (("low/src/lib.rt", source), ("low/specs/Lib.antt", spec), ("high/src/lib.rt", "fn high() {}\n"), ("high/must-fail-dear/one.edit", "old: a\n")):
                os.makedirs(os.path.dirname(f"{room}/crates/{path}"), exist_ok=True)
                with open(f"{room}/crates/{path}", "w", encoding="utf-8") as it:
                    it.write(text)
            return checks.sum_of_tried(room, {"high": ["low"], "low": []}, "high")

    def test_it_is_of_code_and_not_of_comments(self):
        """A comment and a module of tests change nothing that an edit shows; a line of code does, in a source and in a definition."""
        plain = self.sum_over("fn low() {}\n", "one = 1\n")
        self.assertEqual(plain, self.sum_over("//! A head.\n    // a line\nfn low() {}\n#[cfg(test)]\nmod tests;\n", "-- a number\none = 1\n"))
        self.assertNotEqual(plain, self.sum_over("fn low() { }\n", "one = 1\n"))
        self.assertNotEqual(plain, self.sum_over("fn low() {}\n", "one = 2\n"))


class Told(unittest.TestCase):
    @unittest.skipUnless(shutil.which("cc"), "no C compiler")
    def test_what_is_called_is_told_however_the_program_ends(self):
        with tempfile.TemporaryDirectory(prefix="test-tools-") as room:
            for name, text in (("edit", switched.CHOICE), ("main", MAIN)):
                with open(f"{room}/{name}.c", "w", encoding="utf-8") as it:
                    it.write(text)
            subprocess.run(["cc", "-O2", "-o", f"{room}/program", f"{room}/edit.c", f"{room}/main.c"], check=True)
            for edit, status in (("0", 0), ("3", 5), ("700", 2)):
                ran = subprocess.run([f"{room}/program"], env={**os.environ, switched.VARIABLE: edit, switched.REACHED: f"{room}/told-{edit}"})
                self.assertEqual(ran.returncode, status)
                with open(f"{room}/told-{edit}", encoding="utf-8") as it:
                    self.assertEqual(sorted(map(int, it.read().split())), [3, 700])

    def test_a_program_that_tells_nothing_is_refused(self):
        pool = types.SimpleNamespace(starmap=lambda *_, **__: [set(), set()])
        with self.assertRaises(mutants.Wrong):
            mutants.called(pool, None, "program", 2)
        pool.starmap = lambda *_, **__: [set(), {3}]
        self.assertEqual(mutants.called(pool, None, "program", 2), [set(), {3}])

    def test_a_case_that_fails_without_an_edit_ends_the_hunt(self):
        """What ends it is an Exception: the parent of a pool never hears of a worker that ends by a SystemExit."""
        case = types.SimpleNamespace(answer=lambda program: None, faults=lambda answer, is_whole: ["another report"])
        with unittest.mock.patch.object(mutants, "SUITE", [case]), self.assertRaisesRegex(Exception, "another report"):
            mutants.calls_of_case("program", 0)

    def test_the_program_is_the_one_of_these_edits(self):
        """One that a room has from an earlier time is not taken."""
        build = unittest.mock.Mock(program="kept", make=lambda: mutants.kept.KEPT)
        with tempfile.TemporaryDirectory(prefix="test-tools-") as room, unittest.mock.patch.object(mutants.switched, "make"), unittest.mock.patch.object(mutants.kept, "Build", return_value=build), unittest.mock.patch.dict(os.environ):
            with open(f"{room}/committee", "w", encoding="utf-8") as it:
                it.write("another one")
            path, wanted = mutants.edited(room, "committee")
        self.assertEqual(path, "kept")
        self.assertGreater(len(wanted), 100)
