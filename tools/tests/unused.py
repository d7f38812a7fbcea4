"""Tests of tools/unused over small trees: what is found unused, and by which ways a name is found."""

import importlib.machinery
import importlib.util
import os
import tempfile
import unittest
import unittest.mock

import calls
import lemmas
import surface

TOP = os.path.dirname(os.path.dirname(os.path.dirname(os.path.abspath(__file__))))


def load(path):
    loader = importlib.machinery.SourceFileLoader(os.path.basename(path), path)
    module = importlib.util.module_from_spec(importlib.util.spec_from_loader(loader.name, loader))
    loader.exec_module(module)
    return module


unused = load(f"{TOP}/tools/unused")

CODE = """//! One crate. A comment that names all_forgotten.
ghost use Rattle.one.specs.Words.{cited};
ghost use Rattle.one.specs.Words as words;

mod parts;

pub use parts::{helper, served};

#[tactic(auto, using(crate::proofs::Lists::handed))]
pub fn served(n: u8) -> u8
    ensures { result ≡ words.by_alias (cited n) }
{
    helper(n)
}
"""
LISTS = """-- Lists.
use Rattle.one.specs.Words.{cited}

pub handed : (n : ℕ) → n ≡ n
handed n = helps n

-- only `handed` names it
helps : (n : ℕ) → n ≡ n
helps zero = refl
helps (suc n) = ap suc (helps n)

-- nothing names it but itself
pub all_forgotten : (n : ℕ) → n ≡ n
unfolding cited
all_forgotten zero = refl
all_forgotten (suc n) = ap suc (
  all_forgotten n
)

-- ---- a block

module _ (n : ℕ) (small : below n) where
  -- only what is unused names it
  pub left_over : n ≡ n
  left_over = only_left n

  pub elsewhere : n ≡ n
  elsewhere = refl

only_left : (n : ℕ) → n ≡ n
only_left n = refl

below : ℕ → Type 0
below n = n ≡ n

pub ruleset both = (in_a_set, handed)

in_a_set : (n : ℕ) → n ≡ n
in_a_set n = refl

record Kept (n : ℕ) : Type 0 where
  pub left_over : n ≡ n
  pub in_a_set : n ≡ n

pub by_whole_path : (n : ℕ) → n ≡ n
by_whole_path n = refl

pub renamed : (n : ℕ) → n ≡ n
renamed n = refl
"""
WORDS = """-- Words.
pub use Rattle.one.specs.Below.{passed_on}

abbrev pub cited : ℕ → ℕ
cited n = n

unfoldable pub by_alias : ℕ → ℕ
by_alias n = n

abbrev pub imported_only : ℕ → ℕ
imported_only n = n

data Choice : Type 0 where
  first : Choice
"""
ANSWERS = """use Rattle.one.proofs.Lists.{elsewhere, renamed as other, both}
use Rattle.one.specs.Words.{imported_only, passed_on}
use Rattle.one.proofs.served.Goals as goal

aside : (n : ℕ) → n ≡ n
aside n = refl

near : (n : ℕ) → n ≡ n
near n = refl

pub returns : goal.returns
returns c = grind (arith, both, elsewhere c.n, other, near, Rattle.one.proofs.Lists.by_whole_path, passed_on)
"""
TREE = {
    "crates.txt": "one: wire\ntwo: one\nrules_tests: one\n",
    "crates/one/src/lib.rt": CODE,
    "crates/one/specs/Lib.antt": "pub mod Words\npub mod Below\n",
    "crates/one/specs/Words.antt": WORDS,
    "crates/one/specs/Below.antt": "abbrev pub passed_on : ℕ → ℕ\npassed_on n = n\n\nabbrev pub far_below : ℕ → ℕ\nfar_below n = n\n",
    "crates/one/proofs/Lib.antt": "pub mod Lists\n",
    "crates/one/proofs/Lists.antt": LISTS,
    "crates/one/proofs/served/Answers.antt": ANSWERS,
}
PARTS = """//! Parts.
/// Helps.
pub fn helper(n: u8) -> u8
    ensures { result ≡ n }
{
    own(n)
}

pub fn own(n: u8) -> u8 { n }

/// Nothing calls it, but a clause above names a definition of its name.
pub fn cited(n: u8) -> u8 { n }

pub fn tried(n: u8) -> u8 { n }

pub fn in_the_manual(n: u8) -> u8 { n }

pub fn put_text(n: u8) -> u8 { n }

/// A theorem.
pub fn all_is_well()
    ensures { (n : ℕ) → n ≡ n }
{}

pub const LIMIT: u8 = 3;

pub const TOLD: u8 = 4;

pub struct Shown {
    pub inner: Inner,
}

pub struct Inner {
    hidden: Hidden,
}

pub struct Hidden {
    n: u8,
}

impl Shown {
    pub fn inside(&self) -> u8 {
        self.outside() + LIMIT
    }

    pub fn outside(&self) -> u8 {
        self.inner.hidden.n
    }
}
"""
ABOVE = """//! Another crate.
ghost use Rattle.one.specs.Words.{cited};

use one::{Shown, helper, served};

fn all(shown: &Shown) -> u8
    ensures { result ≡ cited 3 }
{
    served(helper(shown.outside()))
}
"""
CALLS = {
    **TREE,
    "crates/one/src/parts.rt": PARTS,
    "crates/two/src/lib.rt": ABOVE,
    "crates/two/proofs/Told.antt": "told : ℕ\ntold = one.TOLD\n",
    "crates/rules_tests/src/lib.rt": "use one::tried;\n\nfn test() { tried(3); }\n",
    "docs/PAGE.md": "A user calls `in_the_manual(n)`.\n",
    "README.md": "`inside` is a method of another type.\n",
    "crates/one/README.md": "`in_the_manual` is for users.\n",
}


def made(files, room):
    for path, text in files.items():
        os.makedirs(os.path.dirname(f"{room}/{path}"), exist_ok=True)
        with open(f"{room}/{path}", "w", encoding="utf-8") as it:
            it.write(text)
    return room


def rules(files):
    with tempfile.TemporaryDirectory(prefix="test-tools-") as room:
        return [(it.path.removeprefix("crates/one/"), it.line, it.name) for it in unused.lemmas_unused(made(files, room))]


class Lemmas(unittest.TestCase):
    def test_what_nothing_names_is_found_and_what_only_that_names(self):
        """Used are: by a tactic's list, in a clause by an alias, in a set, under another name, by a whole path, passed on by a module,
        in the head of a block. A field of a record, a comment and an import do not name what is called the same."""
        self.assertEqual(
            rules(TREE),
            [
                ("specs/Below.antt", 4, "far_below"),
                ("specs/Words.antt", 10, "imported_only"),
                ("proofs/Lists.antt", 13, "all_forgotten"),
                ("proofs/Lists.antt", 24, "left_over"),
                ("proofs/Lists.antt", 30, "only_left"),
                ("proofs/Lists.antt", 41, "Kept"),
                ("proofs/served/Answers.antt", 5, "aside"),
            ],
        )

    def test_a_definition_that_code_cites_is_used_and_so_is_what_it_names(self):
        """`far_below` is in a clause now; of what answers it is known by the list of modules."""
        files = {**TREE, "crates/one/src/lib.rt": CODE.replace("words.by_alias", "Rattle.one.specs.Below.far_below"), "crates/one/proofs/Lib.antt": "pub mod Lists\npub mod served\n"}
        found = [name for _, _, name in rules(files)]
        self.assertNotIn("far_below", found)
        self.assertIn("by_alias", found)

    def test_a_file_that_a_module_lists_answers_nothing(self):
        files = {**TREE, "crates/one/proofs/Lib.antt": "pub mod Lists\npub mod Answers\n", "crates/one/proofs/Answers.antt": "pub returns : ℕ\nreturns = 3\n"}
        self.assertIn(("proofs/Answers.antt", 1, "returns"), rules(files))

    def test_a_mutual_block_stays_whole(self):
        """None of its functions is listed, nor what they name."""
        block = "\nmutual\n  even : ℕ → Bool\n  even (suc n) = odd n\n\n  odd : ℕ → Bool\n  odd n = only_left n\n"
        found = [name for _, _, name in rules({**TREE, "crates/one/proofs/Lists.antt": LISTS + block})]
        self.assertEqual([name for name in found if name in ("even", "odd", "only_left", "left_over")], ["left_over"])

    def test_a_declaration_has_its_comment_and_all_its_lines(self):
        file = lemmas.File("Lists.antt", "one.proofs.Lists", LISTS)
        lines = {it.name: (it.head + 1, it.start + 1, it.end) for it in file.declared}
        self.assertEqual(lines["all_forgotten"], (12, 13, 18))
        self.assertEqual(lines["left_over"], (23, 24, 25))
        self.assertEqual(lines["Kept"], (41, 41, 43))


class Calls(unittest.TestCase):
    def found(self, files):
        with tempfile.TemporaryDirectory(prefix="test-tools-") as room, unittest.mock.patch.object(surface, "NAMES", {"put_text"}):
            return [(it.name, it.says) for it in unused.calls_unused(made(files, room))]

    def test_what_no_other_crate_names_is_found(self):
        """A clause, a test, and a page that names another method so, do not count; a type that a public one shows stays public."""
        self.assertEqual(
            self.found(CALLS),
            [
                ("own", "only its own crate uses it"),
                ("cited", "nothing uses it"),
                ("tried", "only tests use it"),
                ("Shown::inside", "nothing uses it"),
                ("LIMIT", "only its own crate uses it"),
                ("Hidden", "only its own crate uses it"),
            ],
        )

    def test_the_public_surface_has_to_be_there(self):
        """A call of the list that is public no more is said."""
        self.assertIn(("put_text", "part of the public surface, and public nowhere"), self.found({**CALLS, "crates/one/src/parts.rt": PARTS.replace("pub fn put_text", "fn put_text")}))

    def test_a_public_item_of_tests_theorems_and_programs_is_no_matter(self):
        files = {**CALLS, "crates.txt": CALLS["crates.txt"] + "some_law: one\nprogram: one\n", "crates/some_law/src/lib.rt": "pub fn alone(n: u8) -> u8 { n }\n", "crates/program/src/main.rt": "pub fn apart(n: u8) -> u8 { n }\n"}
        self.assertEqual(self.found(files), self.found(CALLS))


class Text(unittest.TestCase):
    def test_what_runs_has_no_clause_and_no_import_of_one(self):
        text = calls.running(CODE)
        self.assertNotIn("by_alias", text)
        self.assertNotIn("cited", text)
        self.assertNotIn("handed", text)
        self.assertIn("helper(n)", text)

    def test_the_type_of_an_impl(self):
        for says, name in (("<'a> Reader<'a> ", "Reader"), ("<J: Job<Value = Seq<u8>>> Wire for Plan<J>\nwhere J: Drop ", "Plan"), (" fmt::Display for Digest ", "Digest")):
            self.assertEqual(calls.named_type(says), name)
