"""Tests of the pages: their links lead somewhere, and they stay as short as they are meant to be."""

import contextlib
import glob
import importlib.machinery
import importlib.util
import io
import os
import tempfile
import unittest
import unittest.mock

import manual
import programs

TOP = manual.TOP
MADE = ("docs/DEFINITIONS.md", "docs/CRATES.md")
MOST_BY_HAND, MOST_README, MOST_DEFINITIONS = 194_000, 7_500, 31_000


def tool(name):
    """A tool as a module."""
    loader = importlib.machinery.SourceFileLoader(name, f"{TOP}/tools/{name}")
    module = importlib.util.module_from_spec(importlib.util.spec_from_loader(name, loader))
    loader.exec_module(module)
    return module


def pages():
    """The pages of the repository, from its top."""
    patterns = ("*.md", "docs/*.md", "conformance/*.md", "editors/*.md", "baseline/*.md", "crates/*/README.md", "bindings/*/README.md")
    return sorted(os.path.relpath(it, TOP) for pattern in patterns for it in glob.glob(f"{TOP}/{pattern}"))


class Pages(unittest.TestCase):
    def test_links_lead_somewhere(self):
        """Each link is to a file that is kept, and to a heading that it has."""
        self.assertEqual([fault for path in pages() if path != "conformance/RULES.md" for fault in manual.broken_links(path)], [])

    def test_a_broken_link_is_found(self):
        self.assertTrue(manual.broken_links_in("docs/X.md", "[a](NOWHERE.md)"))
        self.assertTrue(manual.broken_links_in("docs/X.md", "[a](WORDS.md#nowhere)"))
        self.assertEqual(manual.broken_links_in("docs/X.md", "[a](WORDS.md#who), [b](https://example.org/c)"), [])

    def test_how_much_is_written_by_hand(self):
        """A reader can read it all: the README and the pages of docs/ that no tool writes."""
        sizes = {path: os.path.getsize(f"{TOP}/{path}") for path in ("README.md", *(it for it in pages() if it.startswith("docs/") and it not in MADE))}
        self.assertLessEqual(sizes["README.md"], MOST_README)
        self.assertLessEqual(sum(sizes.values()), MOST_BY_HAND, sizes)


class ReadingOrder(unittest.TestCase):
    """The page of definitions is one to read from top to bottom."""

    @classmethod
    def setUpClass(cls):
        cls.made = tool("pages")
        cls.files = [path for _, names in cls.made.READ for path in cls.made.files(names)]

    def test_each_file_stands_once_and_says_what_it_has(self):
        self.assertEqual(len(self.files), len(set(self.files)))
        self.assertEqual([it for it in self.files if not self.made.head(it, "--")], [])

    def test_a_file_stands_below_those_that_it_uses(self):
        late = {path: sorted(self.made.uses(path) & set(self.files[at:])) for at, path in enumerate(self.files)}
        self.assertEqual({path: found for path, found in late.items() if found}, {}, "READ of tools/pages names these too late")

    def test_all_crates_of_theorems_are_there(self):
        crates = {it for it in os.listdir(f"{TOP}/crates") if it.endswith("_law")}
        self.assertEqual(set(self.made.LAWS), crates)
        self.assertEqual([it for it in self.made.LAWS if not self.made.theorems(it)], [])

    def test_it_is_short(self):
        self.assertLessEqual(os.path.getsize(f"{TOP}/docs/DEFINITIONS.md"), MOST_DEFINITIONS)


class Layers(unittest.TestCase):
    def test_each_crate_stands_in_one_layer(self):
        listed = [it for _, names in tool("pages").LAYERS for it in names.split()]
        self.assertEqual(sorted(listed), sorted(programs.uses(TOP)))


class SpeedPage(unittest.TestCase):
    def setUp(self):
        self.speed = tool("speed")
        with open(self.speed.PAGE) as file:
            self.page = file.read()

    def test_the_page_has_a_row_for_each_schedule(self):
        """The marks stand in it, and what stands between them is a table of the schedules, in their order."""
        between = self.page.split(self.speed.BEGIN)[1].split(self.speed.END)[0].splitlines()
        self.assertEqual(between[:2], self.speed.HEAD)
        wanted = [self.speed.in_words(f"({letter}) {name}") for letter, name, _, _ in self.speed.known()]
        self.assertEqual([line.split(" | ")[0].removeprefix("| ") for line in between[2:]], wanted)

    def test_rows_replace_what_stands_between_the_marks(self):
        row = self.speed.page_row("(d) transfers 10000", [(0.96, 152 * 1024), (0.64, 119 * 1024)])
        written = self.speed.written_into(self.page, [row])
        self.assertIn("\n| 10,000 transfers, each voted for by three members, certified, sent and run at once | 0.96 s | 0.64 s | 1.5 | 152 MB | 119 MB | 1.3 |\n", written)
        self.assertNotIn("`make 2000`", written)
        self.assertEqual(written.split(self.speed.BEGIN)[0], self.page.split(self.speed.BEGIN)[0])
        self.assertEqual(written.split(self.speed.END)[1], self.page.split(self.speed.END)[1])

    def test_a_page_without_its_marks_is_not_written(self):
        for page in (self.page.replace(self.speed.BEGIN, ""), self.page.replace(self.speed.END, ""), self.page + self.speed.BEGIN):
            self.assertIsNone(self.speed.written_into(page, []))

    def written_by(self, texts, *words):
        """The status of a run over stubs of two programs, and the page that it leaves."""
        rows = [("a", "make 2000", ["make", "2000"], None)]
        with tempfile.TemporaryDirectory() as room:
            page = f"{room}/SPEED.md"
            for path, text in ((page, self.page), (f"{room}/a", f"#!/bin/sh\n{texts[0]}\n"), (f"{room}/b", f"#!/bin/sh\n{texts[1]}\n")):
                with open(path, "w") as file:
                    file.write(text)
                os.chmod(path, 0o755)
            quiet = contextlib.redirect_stdout(io.StringIO()), contextlib.redirect_stderr(io.StringIO())
            with unittest.mock.patch.object(self.speed, "PAGE", page), unittest.mock.patch.object(self.speed, "known", lambda: rows), quiet[0], quiet[1]:
                status = self.speed.main([f"{room}/a", f"{room}/b", "--runs", "1", *words])
            with open(page) as file:
                return status, file.read()

    def test_a_whole_run_writes_the_page(self):
        status, page = self.written_by(("echo $2", "echo $2"), "--write")
        self.assertEqual(status, 0)
        self.assertEqual(len(page.split(self.speed.BEGIN)[1].split(self.speed.END)[0].splitlines()), 3)

    def test_what_does_not_write_the_page(self):
        """A run without the word, of programs that differ, or of a part of the schedules."""
        self.assertEqual(self.written_by(("echo $2", "echo $2")), (0, self.page))
        self.assertEqual(self.written_by(("echo $2", "echo 3"), "--write"), (1, self.page))
        self.assertEqual(self.written_by(("echo $2", "echo $2"), "--write", "--only", "a"), (2, self.page))
