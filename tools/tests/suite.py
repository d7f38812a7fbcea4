"""Tests of conformance/run and of ./test, over cases and parts of their own."""

import glob
import importlib.machinery
import importlib.util
import os
import shutil
import stat
import subprocess
import tempfile
import unittest
import unittest.mock
import xml.etree.ElementTree

import parts

TOP = os.path.dirname(os.path.dirname(os.path.dirname(os.path.abspath(__file__))))


def load(path):
    loader = importlib.machinery.SourceFileLoader(os.path.basename(path), path)
    module = importlib.util.module_from_spec(importlib.util.spec_from_loader(loader.name, loader))
    loader.exec_module(module)
    return module


runner = load(f"{TOP}/test")


class Suite(unittest.TestCase):
    """conformance/run in a copy, without the rest of the repository."""

    def setUp(self):
        self.room = tempfile.mkdtemp(prefix="test-tools-")
        self.addCleanup(shutil.rmtree, self.room)
        for name in ("run", "list"):
            shutil.copy(f"{TOP}/conformance/{name}", self.room)
        self.write("rules.txt", "## One\none: What holds.\n")
        for ending, text in (("schedule", "1 2\n"), ("report", "run\n1 2\n"), ("status", "0\n"), ("about", "It shows.\nrules: one\n")):
            self.write(f"folder/good.{ending}", text)
        self.write("program", "#!/bin/sh\necho $*; cat\n")
        os.chmod(f"{self.room}/program", stat.S_IRWXU)
        subprocess.run([f"{self.room}/list", "--write"], check=True, stdout=subprocess.DEVNULL)

    def write(self, path, text):
        os.makedirs(os.path.dirname(f"{self.room}/{path}"), exist_ok=True)
        with open(f"{self.room}/{path}", "w", encoding="utf-8") as it:
            it.write(text)

    def ran(self, *words):
        ran = subprocess.run([f"{self.room}/run", *words, f"{self.room}/program"], capture_output=True, text=True)
        return ran.returncode, ran.stdout.splitlines()

    def test_all_is_well(self):
        self.assertEqual(self.ran(), (0, ["1 passed, 0 failed"]))

    def test_another_report_or_status(self):
        self.write("folder/good.report", "run\n1 3\n")
        self.assertEqual(self.ran(), (1, ["folder/good: another report", "-1 3", "+1 2", "failed: folder/good", "0 passed, 1 failed"]))
        self.write("folder/good.status", "3\n")
        self.assertEqual(self.ran()[1][0], "folder/good: status 0, wanted 3")

    def test_a_second_report(self):
        """Where the rules leave two reports open either is taken, and the first one is told if it is neither."""
        self.write("folder/good.report", "run\n1 3\n")
        self.write("folder/good.or", "run\n1 2\n")
        self.assertEqual(self.ran(), (0, ["1 passed, 0 failed"]))
        self.write("folder/good.or", "run\n1 4\n")
        self.assertEqual(self.ran(), (1, ["folder/good: another report", "-1 3", "+1 2", "failed: folder/good", "0 passed, 1 failed"]))

    def test_words_of_a_case(self):
        self.write("folder/good.args", "one\ntwo\n")
        self.write("folder/good.report", "one two\n1 2\n")
        self.assertEqual(self.ran(), (0, ["1 passed, 0 failed"]))

    def test_some_commands_alone(self):
        """A case whose command the program has not is left out; it would fail."""
        for ending, text in (("schedule", "1\n"), ("report", "another\n"), ("status", "0\n"), ("about", "It shows.\nrules: one\n"), ("args", "check\n1\n")):
            self.write(f"folder/other.{ending}", text)
        subprocess.run([f"{self.room}/list", "--write"], check=True, stdout=subprocess.DEVNULL)
        self.assertEqual(self.ran("--only", "run,make"), (0, ["1 passed, 0 failed"]))
        self.assertEqual(self.ran("--only", "run,check")[1][-1], "1 passed, 1 failed")

    def test_the_suite_is_whole(self):
        """Files that are missing, rules that are unknown or have no case, and cases outside the folders are failures."""
        self.write("folder/more.schedule", "1\n")
        self.assertIn("suite: folder/more: has no .report", self.ran()[1])
        os.remove(f"{self.room}/folder/more.schedule")
        self.write("flat.schedule", "1\n")
        self.assertIn("suite: flat.schedule: stands in no folder", self.ran()[1])
        os.remove(f"{self.room}/flat.schedule")
        self.write("rules.txt", "## One\none: What holds.\ntwo: What also holds.\n")
        self.assertIn("suite: rule two: no case shows it", self.ran()[1])
        self.assertEqual(self.ran()[1][-1], "1 passed, 1 failed")

    def more(self, case, **files):
        """Writes another case."""
        for ending, text in {"schedule": "1\n", "report": "run\n1\n", "status": "0\n", "about": "It shows.\nrules: one\n", **files}.items():
            self.write(f"{case}.{ending.replace('_', '.')}", text)
        subprocess.run([f"{self.room}/list", "--write"], check=True, stdout=subprocess.DEVNULL)

    def test_cases_of_another_program(self):
        self.more("second/case", program="inspect\n", report="another\n")
        self.assertEqual(self.ran(), (0, ["1 passed, 0 failed"]))
        self.assertEqual(self.ran("--of", "inspect")[1][-2:], ["failed: second/case", "0 passed, 1 failed"])

    def test_a_journal_is_laid_and_looked_at(self):
        """It lies in a folder of the case alone, and what is left there is compared byte for byte."""
        self.write("program", '#!/bin/sh\nls; cat journal; cat >> journal\n')
        os.remove(f"{self.room}/folder/good.schedule")
        for ending in ("report", "status", "about"):
            os.remove(f"{self.room}/folder/good.{ending}")
        self.more("log/kept", args="run\nin\njournal\n", journal="a\n", report="journal\na\n", journal_after="a\n1\n")
        self.assertEqual(self.ran(), (0, ["1 passed, 0 failed"]))
        self.assertEqual(self.ran("--only", "run"), (1, ["0 passed, 0 failed"]))
        self.assertEqual(self.ran("--only", "run,in"), (0, ["1 passed, 0 failed"]))
        self.write("log/kept.journal.after", "a\n2\n")
        self.assertEqual(self.ran()[1][0], "log/kept: another journal: 4 bytes, wanted 4; they differ from byte 2 on")
        self.write("program", "#!/bin/sh\nls; cat journal; rm journal\n")
        self.assertEqual(self.ran()[1][0], "log/kept: no journal is left, wanted 4 bytes")
        self.write("log/kept.journl", "")
        self.assertIn("suite: log/kept.journl: no file of a case has this ending", self.ran()[1])

    def test_a_folder_of_ones_own(self):
        with tempfile.TemporaryDirectory() as own:
            for name, report in (("flat", "run\n1\n"), ("below/case", "run\n2\n")):
                os.makedirs(os.path.dirname(f"{own}/{name}"), exist_ok=True)
                for ending, text in (("schedule", "1\n"), ("report", report)):
                    with open(f"{own}/{name}.{ending}", "w", encoding="utf-8") as it:
                        it.write(text)
            self.assertEqual(self.ran("--folder", own)[1], ["below/case: another report", "-2", "+1", "failed: below/case", "1 passed, 1 failed"])
            self.assertEqual(self.ran("--folder", own, "--cases", "flat"), (0, ["1 passed, 0 failed"]))
        self.assertEqual(self.ran("--folder", own)[0], 2)

    def test_a_whole_difference_and_junit(self):
        self.write("folder/good.report", "run\n1 3\nmore\n")
        lines = self.ran("--diff", "--junit", f"{self.room}/it.xml")[1]
        self.assertEqual(lines[:-2], ["folder/good: another report", "--- wanted", "+++ written", "@@ -1,3 +1,2 @@", " run", "-1 3", "-more", "+1 2"])
        top = xml.etree.ElementTree.parse(f"{self.room}/it.xml").getroot()
        self.assertEqual((top.get("tests"), top.get("failures")), ("1", "1"))
        self.assertEqual([(it.get("classname"), it.get("name"), it.find("failure") is not None) for it in top], [("folder", "good", True)])

    def test_a_program_that_is_not_there(self):
        ran = subprocess.run([f"{self.room}/run", "/nowhere/program"], capture_output=True, text=True)
        self.assertEqual((ran.returncode, ran.stdout, ran.stderr), (2, "", "/nowhere/program is not a program\n"))

    def test_a_wrong_option_is_named(self):
        ran = subprocess.run([f"{self.room}/run", "--bogus", "x"], capture_output=True, text=True)
        self.assertEqual((ran.returncode, ran.stdout, ran.stderr.splitlines()[-1]), (2, "", "conformance/run: unrecognized arguments: --bogus"))


class Parts(unittest.TestCase):
    """./test over parts of its own, and the table of its parts."""

    def ran(self, table, stands="proved", words=()):
        """The status and the lines of a run over this table, each row a name, a shell text, the programs and what is run on an unproved build."""
        rows = []
        with tempfile.TemporaryDirectory() as room:
            for place, (name, text, *more) in enumerate(table):
                with open(f"{room}/{place}", "w", encoding="utf-8") as it:
                    it.write(f"#!/bin/sh\n{text}\n")
                os.chmod(f"{room}/{place}", stat.S_IRWXU)
                rows.append(parts.Part(name, (str(place),), *more))
            said = []
            with unittest.mock.patch.object(parts, "PARTS", rows), unittest.mock.patch.object(runner, "TOP", room):
                with unittest.mock.patch.object(runner, "standing", lambda name: stands), unittest.mock.patch.object(runner, "print", lambda *it, **_: said.append(str(it[0])), create=True):
                    status = runner.main(list(words))
        return status, "\n".join(said).splitlines()

    def test_parts_are_summed(self):
        """The last line of a part counts; one that has none counts as one."""
        status, lines = self.ran([("one", "echo a; echo 3 passed, 0 failed"), ("two", "echo fine"), ("three", "echo 4 passed, 0 failed, 2 skipped")])
        self.assertEqual((status, lines[-1]), (0, "8 passed, 0 failed, 2 skipped"))
        self.assertEqual(sorted(line.split()[:2] for line in lines[:-1]), [["ok", "one"], ["ok", "three"], ["ok", "two"]])

    def test_what_failed_is_named(self):
        status, lines = self.ran([("one", "echo it is wrong; echo 3 passed, 1 failed; exit 1"), ("two", "echo boom; exit 3"), ("three", "echo 1 passed, 0 failed; exit 1"), ("four", "true")])
        self.assertEqual((status, lines[-1]), (1, "5 passed, 3 failed"))
        self.assertEqual(sorted(lines[-2].removeprefix("failed: ").split(", ")), ["one", "three", "two"])
        self.assertIn("    it is wrong", lines)

    def test_unproved_builds_are_said_and_slow_parts_are_no_pass(self):
        table = [("fast", "echo 1 passed, 0 failed", ("committee",)), ("slow", "exit 1", ("committee",), parts.NOT_RUN)]
        status, lines = self.ran(table, "UNPROVED")
        self.assertEqual((status, lines[-1]), (0, "1 passed, 0 failed, 1 skipped"))
        self.assertTrue(any("fast" in line and "UNPROVED" in line for line in lines))
        self.assertTrue(any(line.startswith("not run  slow") for line in lines))
        self.assertEqual(self.ran(table)[0], 1)
        status, lines = self.ran(table, "missing")
        self.assertEqual((status, lines[-1]), (1, "0 passed, 0 failed, 2 skipped"))

    def test_some_parts(self):
        self.assertEqual(self.ran([("one", "true"), ("two", "false")], words=["one"]), (0, unittest.mock.ANY))
        self.assertEqual(self.ran([("one", "true")], words=["three"]), (2, ["test: no part has three in its name (./test --list)"]))
        for words in (["one", "--jobs", "2"], ["--jobs", "2", "one"]):
            self.assertEqual(self.ran([("one", "true"), ("two", "false")], words=words)[0], 0)
        for words in (["--jobs"], ["--jobs", "0"], ["--jobs", "one"]):
            self.assertEqual(self.ran([("one", "true")], words=words)[0], 2)

    def test_each_row_names_a_tool(self):
        """Each part is a file that can be run, and those that come before all proofs need no program."""
        for part in parts.PARTS:
            for words in (part.words, part.unproved or part.words):
                self.assertTrue(words == parts.NOT_RUN or os.access(f"{TOP}/{words[0]}", os.X_OK), part.name)
            self.assertFalse(part.early and part.programs, part.name)


class Uses(unittest.TestCase):
    """Each tool says its use where it is given no words or is asked, and none ends in a traceback."""

    def tools(self):
        found = [it for it in glob.glob(f"{TOP}/tools/*") if os.path.isfile(it) and os.access(it, os.X_OK)]
        return sorted([*found, f"{TOP}/conformance/run", f"{TOP}/conformance/list", *(f"{TOP}/conformance/{it}.py" for it in ("chains", "generate", "journals", "many"))])

    def ran(self, tool, *words):
        start = ["python3", tool] if tool.endswith(".py") else [tool]
        ran = subprocess.run([*start, *words], stdin=subprocess.DEVNULL, capture_output=True, text=True, timeout=300, cwd="/")
        self.assertNotIn("Traceback", ran.stdout + ran.stderr, (tool, words))
        return ran

    def test_no_words(self):
        for tool in self.tools():
            ran = self.ran(tool)
            self.assertEqual((ran.returncode, ran.stdout), (2, ""), tool)
            self.assertIn("usage", ran.stderr, tool)
            self.assertIn("usage", self.ran(tool, "--help").stdout + self.ran(tool, "--help").stderr, tool)

    def test_words_that_name_nothing(self):
        for tool in self.tools():
            for words in (["--no-such-word"], ["/nowhere/a"], ["/nowhere/a", "/nowhere/b"], ["/nowhere/a", "/nowhere/b", "/nowhere/c"]):
                self.assertNotEqual(self.ran(tool, *words).returncode, 0, (tool, words))
        for tool in ("prove", "test"):
            self.assertEqual(self.ran(f"{TOP}/{tool}", "--no-such-word").returncode, 2)
            self.assertIn("usage", self.ran(f"{TOP}/{tool}", "--help").stdout)
