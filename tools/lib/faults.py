"""What is wrong with a text that is not a schedule, in words: by the line and the cause that its refusal names."""

import difflib
import re

import schedules
from language import ARGUMENT, COMMANDS, FORMS, INPUTS, KINDS, MORE, NATIVES, PLACES, VECTORS
from meanings import short

# What some editors put before a text, and how to take it out.
MARK, WITHOUT_MARK = b"\xef\xbb\xbf", "save it without the mark, or make such a copy: tail -c +4 FILE > COPY"


def names_before(lines, number):
    """The objects and the transactions that lines before this one name."""
    before = [it for it in lines if it.number < number and len(it.words) > 1]
    return [it.words[1] for it in before if it.word in ("coin", "counter", "cap")], [it.words[1] for it in before if it.word == "tx"]


def near(name, known):
    close = difflib.get_close_matches(name.lower(), known, 1)
    return f"; perhaps {close[0]} is meant" if close else ""


def unknown_name(line, lines):
    """The first name of a line that no earlier line made."""
    objects, txs = names_before(lines, line.number)
    if line.word == "tx":
        for word in line.words[4:]:
            named = re.fullmatch(r"(?:[oisr]:)?([\w.]+)@\d+!?", word)
            if named and "." in named[1] and named[1].split(".")[0] not in txs:
                return f"no line before it makes the transaction {named[1].split('.')[0]}{near(named[1].split('.')[0], txs)}"
            if named and "." not in named[1] and named[1] not in objects:
                return f"no set-up line makes {named[1]}{near(named[1], objects)}"
    for name in [line.tx, *(line.words[3:] if line.word == "fvote" else [])]:
        if name and name != "-" and name not in txs:
            return f"no line before it makes the transaction {name}{near(name, txs)}"
    return "a name in it is not made by an earlier line"


def bad_byte(line, lines):
    """What is wrong with a line that has a byte which no line may have, and what to change."""
    if line.text.endswith("\r") and all(32 <= ord(it) <= 126 for it in line.text[:-1]):
        count = sum(it.text.endswith("\r") for it in lines)
        return f"the file has Windows line ends: a carriage return stands before the line feed, in {count} lines in all", "save it with line feeds only, or make such a copy: tr -d '\\r' < FILE > COPY"
    if line.number == 1 and line.text.startswith(MARK.decode("latin-1")):
        return "the file begins with a byte order mark, three bytes before its first word", WITHOUT_MARK
    at = next((place for place, byte in enumerate(line.text, 1) if not 32 <= ord(byte) <= 126), 0)
    what = {"\t": ", a tab: write a space for it", "\r": ", a carriage return"}.get(line.text[at - 1], "") if at else ""
    return "it holds a byte that is not a printable ASCII character", f"its character {at} is byte {ord(line.text[at - 1]):02x} in hexadecimal{what}" if at else ""


def bad_number(line):
    zero = next((it for it in re.findall(r"(?<![\w])\d+", line.text) if len(it) > 1 and it[0] == "0"), None)
    great = next((it for it in re.findall(r"\d+", line.text) if int(it) >= 1 << 64), None)
    if zero:
        return f"{zero} has a leading zero"
    return f"{great} has more than 64 bits" if great else "a number is out of range here: see the limits in docs/SCHEDULES.md"


def bad_place(kind, word):
    """What is wrong with a word that is to be of this kind, or one of the words between bars."""
    if kind in KINDS:
        return None if re.fullmatch(KINDS[kind][0], word) else f"{short(word)} is {KINDS[kind][1]}"
    allowed = kind.split("|")
    return None if word in allowed else f"{short(word)} is not {' or '.join(allowed)}{near(word, allowed) if allowed[1:] else ''}"


def bad_command(word, inputs, gas):
    """What is wrong with a word that is to be a command, after these inputs and with this gas coin."""
    name, _, inside = word.partition("(")
    if name not in COMMANDS:
        return f"the word {short(name)} is {'not a command' if '(' in word else 'neither an input nor a command'}{near(name, COMMANDS)}"
    if not inside.endswith(")"):
        return f"the word {short(word)} has no parentheses around its arguments"
    args = inside[:-1].split(",") if inside != ")" or name not in NATIVES else []
    if name == "vec" and args[0] not in VECTORS:
        return f"the word {short(args[0])} of vec is not a kind of object{near(args[0], VECTORS)}" if args[0] else "the kind of object in vec is missing"
    bad = next((it for it in args[name == "vec" :] if not re.fullmatch(ARGUMENT, it)), None)
    if bad is None:
        return None
    if not bad:
        return f"an argument of {name} is missing"
    return f"the word {short(bad)} of {name} is not an argument such as gas, i0, r0 or r0.1{near(bad, ['gas']) or f'; {how_named(bad, inputs, gas)}'}"


def how_named(bad, inputs, gas):
    """How that is named which somebody wrote as an argument: by the gas coin, or by an input that is there or is to be added."""
    named, is_input = bad.partition("@")[0], bad[1:2] == ":" and bad[0] in INPUTS
    if named == gas:
        return "the gas coin is named gas"
    place = next((at for at, it in enumerate(inputs) if bad == it or named == it[2:].partition("@")[0]), None)
    if place is not None:
        return f"it is input {place}, which is named i{place}"
    if is_input:
        return f"inputs stand before all commands: write {short(bad)} there, and i{len(inputs)} here"
    if bad.isdigit():
        return f"a number is named by its input: write n:{short(bad)} before the commands, and i{len(inputs)} here"
    if re.fullmatch(rf"{KINDS['name'][0]}(\.\d+)?(@\d+!?)?", bad) and ("@" in bad or "." in bad):
        return f"an object is named by its input: write o:{short(bad) if '@' in bad else short(bad) + '@V'} before the commands, and i{len(inputs)} here"
    if re.fullmatch(KINDS["name"][0], bad):
        return f"a user is named by an input such as a:{bad}, an object by one such as o:{bad}@1: write it before the commands, and i{len(inputs)} here"
    return "gas is the gas coin, i0 the first input, r0 the result of the first command, r0.1 its second result"


def bad_block(line):
    """What is wrong with the first bad one of the words of a `tx` line that are to be inputs and then commands."""
    is_after, inputs, gas = False, [], line.words[4].partition("@")[0]
    for word in line.words[6:]:
        letter, _, rest = word.partition(":")
        if "(" in word or ":" not in word:
            why, is_after = bad_command(word, inputs, gas), True
        elif is_after:
            why = f"the word {short(word)} stands after a command, and inputs stand before all commands"
        elif letter not in INPUTS:
            why = f"the word {short(word)} is not an input, which begins with {', '.join(f'{it}:' for it in INPUTS)}"
        else:
            why = bad_place(INPUTS[letter], rest)
            why = why and f"the word {short(word)} is not an input, since {why if rest else f'nothing stands after {letter}:'}"
            inputs.append(word)
        if why:
            return why
    return None


def bad_word(line):
    """What is wrong with the first word of a line that its form does not allow; none if there are too few words to tell."""
    is_end = line.word == "order" and line.words[2:] and difflib.get_close_matches(line.words[1], ["end"])
    kinds, words = PLACES["order end" if is_end else line.word].split(" "), line.words[1:]
    if len(words) < len(kinds):
        return None
    more = words[len(kinds) :]
    if line.word in MORE:
        kinds += [MORE[line.word]] * len(more)
    why = next((it for it in map(bad_place, kinds, words) if it), None)
    if why is None and line.word == "tx":
        return bad_block(line)
    if why is None and len(words) > len(kinds):
        why = f"{short(words[len(kinds)])} is one too many"
    return why and f"the word {why}; the form is: {FORMS[line.word]}"


def bad_form(line):
    known = [*schedules.SETUP, *schedules.OF_MEMBER, "tx", "cert", "order", "final"]
    if line.text != line.text.strip() or "  " in line.text:
        return "there is a space too many"
    if re.search(r"\([^)]* ", line.text):
        return "there is a space inside parentheses"
    if line.word not in known:
        return f"no line begins with {line.word}{near(line.word, known)}"
    word = bad_word(line)
    if word:
        return word
    if any(len(it) > 16 for it in re.findall(r"[a-z][a-z0-9_]*", line.text) if it not in NATIVES):
        return "a name has more than 16 characters"
    return f"the form is: {FORMS[line.word]}; compare word by word with docs/SCHEDULES.md"


def order_of(line, lines):
    if line.word == "cap":
        return f"an earlier cap has currency {line.words[3]}"
    return "a second `writers` line" if line.word == "writers" else "name the members in ascending order, each once"


def role_of(line):
    if line.word == "ack":
        return "leave the ! out: only a faulty member's acknowledgement is spoiled"
    if line.word == "end":
        return "a faulty member states nothing itself: `order end` makes its End"
    return "write fvote for a faulty member, and the other lines for honest ones"


def no_member(schedule, lines):
    """Why no line makes a member."""
    other = next((it for it in lines if it.text.lower().lstrip().startswith("member")), None)
    if schedule.startswith(MARK):
        return ["The file begins with a byte order mark, three bytes before its first word.", f"    What to change: {WITHOUT_MARK}."]
    if other:
        return [f"No line begins with `member` and a space; line {other.number} begins with `{other.text[:20]}`.", "    What to change: write `member 1 honest`, in lower case, with nothing before it and one space between words."]
    return ["No line begins with `member` and a space.", "    What to change: begin with `member 1 honest`, once for each member."]


def explain_refusal(schedule, number, cause):
    """What was wrong with a text that is not a schedule."""
    if cause == 1:
        return ["The text has more than 16,777,216 bytes.", "    What to change: make several schedules."]
    lines = schedules.lines_of(schedule)
    if cause == 2:
        return no_member(schedule, lines)
    line = next(it for it in lines if it.number == number)
    members = [it for it in lines if it.word == "member" and it.number < number]
    first = next((it.number for it in lines if not it.is_setup), 0)
    why = {
        3: lambda: bad_byte(line, lines),
        4: lambda: ("it has none of the forms of a line", bad_form(line)),
        5: lambda: ("a number in it is bad", bad_number(line)),
        6: lambda: ("it belongs to the set-up, and stands after an event", f"move it above line {first}"),
        7: lambda: ("it is the 65th member", "there may be 64"),
        8: lambda: ("it is the 65,536th transaction", "make several schedules"),
        9: lambda: ("its name is taken", f"line {next((it.number for it in lines if it.number < number and len(it.words) > 1 and it.words[1] == line.words[1] and (it.word == 'tx') == (line.word == 'tx')), 0)} has it"),
        10: lambda: ("it names what is not there yet", unknown_name(line, lines)),
        11: lambda: ("it names a member that is not there", f"there are {len(members)}, which count from 0"),
        12: lambda: ("the member has the other role", role_of(line)),
        13: lambda: ("its order is bad", order_of(line, lines)),
    }[cause]()
    shown = line.text if len(line.text) <= 160 else f"{line.text[:157]}..."
    return ["The text is not a schedule, and nothing was run.", f"line {number}: {shown}", f"    {why[0][:1].upper()}{why[0][1:]} (cause {cause}).", f"      What to change: {why[1]}."]
