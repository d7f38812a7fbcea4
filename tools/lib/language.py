"""The language of schedules, as far as the tools have to know it: the form of each line, how its words are written, and what each
command and native takes."""

import os
import re
from collections import namedtuple

FORMS = {
    "member": "member STAKE honest, or member STAKE faulty", "coin": "coin NAME OWNER BALANCE", "counter": "counter NAME VALUE", "cap": "cap NAME OWNER CURRENCY",
    "tx": "tx NAME SENDER EPOCH REF BUDGET, then inputs, then commands", "vote": "vote M T", "fvote": "fvote M T, and origin words", "cert": "cert T M, and more members",
    "writers": "writers N", "order": "order T, order end M, or order commit", "see": "see M N", "close": "close M", "end": "end M", "turn": "turn M",
    "ack": "ack M T, or ack M T ! for a faulty member", "final": "final T M, and more members",
    "send": "send M T", "run": "run M WORKERS", "show": "show M", "stop": "stop M kept, or stop M lost", "restart": "restart M", "raw": "raw M vote HEX, or raw M hold HEX",
}
Native = namedtuple("Native", "ways takes gives codes")
# How a parameter is taken: the letter in the manual, and in words.
WAYS = {
    "Number": ("n", "the number of {}"), "ByValue": ("v", "{} (used up)"), "Coins": ("v", "{} (used up)"),
    "ByMut": ("m", "{} (to be changed)"), "ByRef": ("r", "{} (to be read)"),
}
ROW = re.compile(r'(?m)^((?: *// .*\n)+) *\(\s*b"(\w+)",\s*&\[([^\]]*)\],?\s*\),$')


def natives_in(text):
    """The natives of the sources' table, by name: the ways and the words of what each takes, what it gives, and what its codes say."""
    found = {}
    for comment, name, modes in ROW.findall(text):
        takes, gives, *codes = (it.strip() for it in " ".join(it.strip().removeprefix("//") for it in comment.splitlines()).split("|"))
        found[name] = Native(re.findall(r"Mode::(\w+)", modes), takes.split(", "), gives, codes)
    return found


with open(f"{os.path.dirname(os.path.abspath(__file__))}/../../crates/chain_types/src/natives.rt", encoding="utf-8") as source:
    TABLE = natives_in(source.read())
# What each native takes, in order, and what its codes mean.
NATIVES = {name: (", ".join(WAYS[way][1].format(it) for way, it in zip(native.ways, native.takes)), native.codes) for name, native in TABLE.items()}
# And what the other commands take.
SIGNATURES = {
    "split": "a coin (to be changed), the number of each amount",
    "merge": "a coin (to be changed), each coin that goes into it (used up)",
    "transfer": "each object (given away), an address",
    "vec": "a kind, each object of that kind (used up)",
    **{name: takes for name, (takes, _) in NATIVES.items()},
}
COMMANDS = list(SIGNATURES)
VECTORS = ["coin", "cap", "counter", "vault", "key", "limit"]
NAME, NUMBER, BYTE = "[a-z][a-z0-9_]{0,15}", "[0-9]+", "[0-9a-f]{2}"
OBJECT = rf"{NAME}(\.{NUMBER})?@{NUMBER}"
ARGUMENT = rf"gas|i{NUMBER}|r{NUMBER}(\.{NUMBER})?"
NO_NAME, NO_BYTES = "not a name (a lower-case letter, and then at most 15 lower-case letters, digits or _)", "not bytes (two lower-case hexadecimal digits each)"
# How a word of each kind is written, and what is said of another one.
KINDS = {
    "name": (NAME, NO_NAME), "sender": (rf"{NAME}\??", NO_NAME), "number": (NUMBER, "not a number"), "bytes": (f"({BYTE})+", NO_BYTES), "any bytes": (f"({BYTE})*", NO_BYTES),
    "reference": (f"{OBJECT}!?", "not a reference such as g0@1"), "object": (OBJECT, "not a reference such as c0@1, without a !"), "origin": (f"-|{NAME}", "neither - nor the name of a transaction"),
}
INPUTS = {"n": "number", "a": "name", "x": "any bytes", "o": "reference", "i": "reference", "s": "object", "r": "object"}
# What the words after the first word of a line are: a kind, or one of the words between bars; and what more may stand there.
PLACES = {
    "member": "number honest|faulty", "coin": "name name number", "counter": "name number", "cap": "name name number", "writers": "number",
    "tx": "name sender number reference number", "vote": "number name", "fvote": "number name", "cert": "name number", "final": "name number",
    "send": "number name", "order": "name", "order end": "end number", "see": "number number", "run": "number number", "close": "number",
    "end": "number", "turn": "number", "ack": "number name", "show": "number", "stop": "number kept|lost", "restart": "number", "raw": "number vote|hold bytes",
}
MORE = {"fvote": "origin", "cert": "number", "final": "number", "ack": "!"}


def commands_of(line):
    """The command words of a `tx` line, each as its name and its arguments."""
    words = [it for it in line.words[6:] if it.endswith(")")]
    return [(name, inside[:-1].split(",") if inside != ")" else []) for name, _, inside in (it.partition("(") for it in words)]


def inputs_of(line):
    """The input words of a `tx` line."""
    return [it for it in line.words[6:] if it[1:2] == ":"]
