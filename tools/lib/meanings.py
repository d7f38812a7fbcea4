"""What the lines of a report mean, in words, and of what was refused what to change."""

import re

import language

SHAPES = {
    1: ("it has more than 131,072 bytes", "split it up"),
    2: ("it has no command", "give it one"),
    3: ("it has more than 1,024 commands", "split it up"),
    4: ("it has more than 256 inputs", "split it up"),
    5: ("it names one object twice", "name the object once, and use that input in several places"),
    6: ("an argument names an input that is not there", "inputs count from i0, and the gas coin is none of them"),
    7: ("an argument names a result of a command that is not earlier", "commands count from r0"),
    8: ("a split has no amounts, a merge no sources or a transfer no values", "give it one"),
    9: ("it calls a native that does not exist", f"natives have the numbers 0 to {len(language.NATIVES) - 1}"),
    10: ("its budget is below its cost", "the cost is 1000, and 100 more for each command"),
    11: ("it names version 0 or one that is too great", "versions go from 1 to 4611686018427387902"),
    12: ("a command has more than 512 arguments", "split it up"),
    13: ("the certificate does not have one origin for each object", "give each `fvote` one origin word for each object, or none at all"),
}
CAUSES = {
    1: ("a value was used up by an earlier command", "use what the other command gave, or use it once"),
    2: ("there is no such result", "write rN.K if a command gives several"),
    3: ("bytes have the wrong length", "a number is 8 bytes, an address 32"),
    4: ("a value is of the wrong kind", "{takes}"),
    5: ("something is given away that can only be lent", "only `transfer` can give the gas coin away, and nothing a shared or an immutable object"),
    6: ("something would be changed that can only be read", "name it with s: if it is shared; a frozen object stays as it is"),
    7: ("a command names one value twice", "name it once"),
    8: ("more is split off than the coin shows", "the gas coin shows its balance less the budget"),
    9: ("the merged coin would pass 64 bits", "merge less"),
    10: ("coins of two currencies are merged", "merge coins of one currency"),
    11: ("the native takes another number of arguments", "{takes}"),
    12: ("a result is left over at the end", "transfer it, or use it up"),
}
WIRE = {1: "the bytes end inside it", 2: "it is neither 0 nor 1", 3: "it is encoded with more bytes than it needs", 4: "it has more than 32 bits", 5: "it is too long", 6: "no variant has this number", 7: "bytes are left over after it", 8: "it is not UTF-8"}

LOCKED = (
    "the vote of member {M} stays with {1} until the epoch ends. Certify this one with votes of others. If neither gets a quorum, the version "
    "stays locked until the next epoch. If {1} is executed, name the version that it writes, if the sender owns it then"
)

# What the ending of a line means, and what to change; `{0}` and so on are the parts that the pattern finds. {M} is the member, {T}
# the transaction of the line.
ENDINGS = [
    (r"made", "the transaction has its name now; nothing is sent yet", ""),
    (r"voted(.*)", "member {M} votes for it; its objects come from {origins}", ""),
    (r"again( .+)", "member {M} gives the vote again that it gave before; its objects come from {origins}", ""),
    (r"again", "member {M} has it already", ""),
    (r"halted (\S+) (\S+)", "member {M} met a fork of {0} and {1}, and takes nothing any more", "nothing mends a fork: `./inspect blame` names the members that sealed both"),
    (r"malformed at (\d+) why (\d)", "these bytes do not encode a value: at byte {0}, {wire}", "see docs/FORMATS.md"),
    (r"wrong epoch had (\d+) want (\d+)", "it is made for epoch {0}, and member {M} is in epoch {1}", "{epoch_hint}"),
    (r"closed", "member {M} is closed: it takes nothing new in this epoch except by the sequence", ""),
    (r"(?:invalid|shape) (\d+)", "the transaction itself is at fault: {shape}", "{shape_hint}"),
    (r"unsealed", "the sender's seal is not accepted", "a ? after the sender spoils the seal"),
    (r"absent (\S+)", "member {M} does not hold {0}", "look at the version: it may come from a transaction that this member has not executed"),
    (r"consumed (\S+) by (\S+)", "{0} is gone: {1} was executed here, and consumed it", "name the version that {1} wrote"),
    (r"wrong digest (\S+)", "{0} has another digest here", "a ! after the version spoils it; without one, a member must hold the version when the line is run"),
    (r"wrong owner (\S+)", "somebody other than the sender owns {0}", "have its owner send the transaction"),
    (r"wrong kind (\S+)", "{0} is of another kind than the line says", "pay gas with an owned coin of currency 0; o: is for owned, i: for frozen objects, s: and r: for objects shared since that version"),
    (r"poor gas had (\d+) want (\d+)", "the gas coin holds {0}, and the budget is {1}", "lower the budget, or pay with another coin"),
    (r"locked (\S+) by (\S+)", "member {M} voted for {1} in this epoch, which consumes {0} too", LOCKED),
    (r"down", "member {M} is down", "a `restart` line starts it again"),
    (r"full", "member {M} can keep no more records", ""),
    (r"stopped", "member {M} stopped at its record, and nobody got an answer", "a `restart` line starts it again"),
    (r"no vote of (\d+)", "member {0} gave no vote for {T}", "have it vote; if it refused, the line of its `vote` says why; if it stopped at its vote, `restart` it and ask again"),
    (r"short (\d+) of (\d+)", "stake {0} of {1} is not more than two thirds", "name more members that voted, or ask more for their votes"),
    (r"differ (\d+) (\d+)", "the votes of {0} and {1} name different origins", "leave one of them out"),
    (r"formed by(.*)", "there is a certificate of {T} now, by members{0}", ""),
    (r"no certificate", "there is no certificate of {T} under this name", "a `cert` line forms it; if there is one, that line says why it did not"),
    (r"held", "member {M} holds the certificate now", ""),
    (r"order", "the members of the certificate do not ascend, or one is unknown", "let them ascend"),
    (r"short stake (\d+) of (\d+)", "its members have {0} of {1}, no quorum", ""),
    (r"bad seal (\d+)", "the seal of member {0} is not accepted", ""),
    (r"fork (\S+) (\S+) (\S+)", "{1} and {2} are both certified and consume {0}: a fork, and member {M} is halted", "a third of the stake or more is faulty, or a seal was forged: `./inspect blame` names the members that sealed both"),
    (r"executed 0", "nothing was ready", "if it holds one that it has not executed, that waits until what it comes from is executed here, and, if it names a shared object, until it has its place in the sequence"),
    (r"executed (\d+)", "it executed {0}:", ""),
    (r"epoch (\d+) objects (\d+)", "in epoch {0} member {M} has {1} objects:", ""),
    (r"armed (kept|lost)", "member {M} will stop at its next record, which will be {0}", ""),
    (r"records (\d+)", "member {M} is up again, as its {0} records left it", ""),
    (r"bad record (\d+)", "record {0} of member {M} is not one that it would have written; the run ends here", ""),
    (r"entry (\d+)", "it is entry {0} of the sequence", ""),
    (r"not taken", "it is of another epoch than the open one", "make the transaction with the open epoch"),
    (r"no statement", "member {M} has not said that it is done", "an `end` line has it say so"),
    (r"nothing", "there was no entry to take", ""),
    (r"admitted ?(.*) dropped (.+)", "member {M} admitted {0}, and dropped {1}, which can never be executed", "what is named with s: or r: must be shared"),
    (r"admitted ?(.*)", "member {M} admitted {0}: which versions to read is fixed now", ""),
    (r"dropped ?(.*)", "member {M} dropped {0}, which can never be executed", "what is named with s: or r: must be shared"),
    (r"pending (\S+) on (\S+)", "{0} waits in the sequence until {1} is admitted", "let {1} stand in the sequence too"),
    (r"deferred (\S+) on (\S+)", "{0} waits for a mark: {1} has as many writers as the limit allows", "an `order commit` line that leaves room admits it"),
    (r"commit admitted (.+) dropped (.+)", "a mark; after it member {M} admitted {0}, and dropped {1}, which can never be executed", ""),
    (r"commit admitted (.+)", "a mark; after it member {M} admitted {0}", ""),
    (r"commit dropped (.+)", "a mark; after it member {M} dropped {0}, which can never be executed", ""),
    (r"commit", "a mark: whatever was admitted since the last one becomes a checkpoint", ""),
    (r"end of (\d+) weight (\d+) of (\d+), epoch ended", "member {0} is done with the epoch: the Ends counted so far have stake {1} of {2}, and the epoch has ended", ""),
    (r"end of (\d+) weight (\d+) of (\d+)", "member {0} is done with the epoch: the Ends counted so far have stake {1} of {2}", ""),
    (r"ignored certificate", "the entry is ignored: its certificate is not valid", "a `send` line says what is wrong with the certificate"),
    (r"ignored repeat", "the entry is ignored: it was in the sequence before", ""),
    (r"ignored (\w+)", "the entry is ignored: {0}", ""),
    (r"said", "member {M} said it", ""),
    (r"not closed", "member {M} is not closed", "a `close` line closes it"),
    (r"waits (\S+)", "member {M} waits for {0}", ""),
    (r"not ended", "member {M} has not seen the end of its epoch", ""),
    (r"epoch (\d+) reverted (\d+)", "member {M} is in epoch {0} now, and took {1} transactions back", ""),
    (r"not executed", "member {M} has not executed it", ""),
    (r"no ack of (\d+)", "member {0} has not acknowledged it", ""),
    (r"final by(.*)", "it is final, by members{0}", ""),
]
# The endings that mean something else after this word.
OWN = [
    ("close", r"closed", "member {M} is closed now: it gives no new vote, and takes no certificate except by the sequence", ""),
    ("close", r"again", "member {M} was closed already", ""),
    ("order end", r"entry (\d+)", "the End of member {M} is entry {0} of the sequence", ""),
    ("order end", r"no statement", "member {M} has not said its End", "an `end` line has it say so, once it is closed"),
    ("order end", r"not taken", "the End that member {M} said last is of another epoch than the open one", "the open epoch takes an End that is said after the member's turn"),
    ("end", r"said", "member {M} says its End: it is done with the epoch", ""),
    ("end", r"waits (\S+)", "member {M} holds {0}, and has not seen it in the sequence", "an `order {0}` line puts it there, and a `see` line hands it to the member"),
    ("turn", r"not ended", "member {M} has not seen the end of its epoch", "`order end` lines with Ends of a quorum end it, and a `see` line hands them to the member"),
    ("turn", r"waits (\S+)", "member {M} admitted {0}, and has not executed it", "a `run` line executes it"),
    ("turn", r"epoch (\d+) reverted 0", "member {M} is in epoch {0} now; it took nothing back", ""),
    ("turn", r"epoch (\d+) reverted (\d+)", "member {M} is in epoch {0} now, and took {1} back, since no checkpoint has it:", ""),
    ("ack", r"said", "member {M} acknowledges the effects of {T}", ""),
    ("ack", r"not executed", "member {M} has not executed {T} in its present epoch", "a `send` or `see` line hands it the certificate, and a `run` line executes it; after its turn it acknowledges nothing of the epoch before"),
    ("final", r"no ack of (\d+)", "member {0} has not acknowledged {T}", "an `ack` line has it do so, once it has executed it"),
    ("final", r"short (\d+) of (\d+)", "stake {0} of {1} is not more than two thirds, so {T} is not final by these", "name more members that acknowledged it"),
    ("final", r"differ (\d+) (\d+)", "members {0} and {1} acknowledged different effects of {T}", "look for who is faulty: honest members do not differ under the run assumptions"),
    ("final", r"final by(.*)", "{T} is final, by members{0}: no end of the epoch takes it back", ""),
]
INNER = [
    (r"  (\S+) done v(\d+) gas (\d+)", "{0} is done: all that it wrote has version {1}, and it paid {2}", ""),
    (r"  (\S+) failed at (\d+) cause (\d+) v(\d+) gas (\d+)", "{0} failed at command {1}{command} since {cause}; it only paid {4} and raised versions", "{cause_hint}"),
    (r"  (\S+) aborted at (\d+) code (\d+) v(\d+) gas (\d+)", "{0}: command {1}{command} aborted with code {2}{code}; it only paid {4} and raised versions", "{code_hint}"),
    (r"  (\S+) absent (\S+)", "{0} cannot be executed: {1} is not there, or another transaction made it", "its votes named origins that are not true"),
    (r"  (\S+) unfit", "{0} cannot be executed: an object does not fit it", "its votes passed what no honest member would"),
    (r"  (\S+) v(\d+) frozen (.*)", "{0}, version {1}, frozen: {2}", ""),
    (r"  (\S+) v(\d+) shared (\d+) (.*)", "{0}, version {1}, shared since version {2}: {3}", ""),
    (r"  checkpoint (\d+): last", "checkpoint {0}, the last of the epoch, is empty", ""),
    (r"  checkpoint (\d+):(.*) last", "checkpoint {0}, the last of the epoch, has{1}", ""),
    (r"  checkpoint (\d+):(.*)", "checkpoint {0} has{1}", ""),
    (r"  reverted (\S+)", "{0} was taken back", ""),
    (r"  (\S+) v(\d+) (\S+) (.*)", "{0}, version {1}, of {2}: {3}", ""),
]
# The answers that are not refusals.
FINE = ("made", "voted", "again", "formed", "held", "executed", "epoch", "armed", "records", "closed", "said", "entry", "admitted", "commit", "end of", "final")


def epoch_hint(parts, member):
    """What to change if the epochs of a transaction and a member differ: the one of the two that is behind."""
    if len(parts) < 2 or not (parts[0].isdigit() and parts[1].isdigit()):
        return ""
    if int(parts[0]) > int(parts[1]):
        return f"member {member} has not turned yet: once epoch {parts[1]} has ended, `see`, `run` and `turn` lines take it on to epoch {parts[0]}"
    return f"make the transaction with epoch {parts[1]}"


def command_of(name, place, txs):
    """The command of a transaction at a place, as its word, its name and what is said of it; none if they are not known."""
    commands = language.commands_of(txs[name]) if name in txs else []
    if not place.isdigit() or int(place) >= len(commands):
        return None
    return commands[int(place)]


def names_of_command(parts, txs):
    """What is said of the command that failed: the word, what it takes, and what the code of its native means."""
    found = command_of(parts[0], parts[1], txs) if len(parts) > 2 else None
    if found is None:
        return {"command": "", "takes": "see what the command takes in docs/SCHEDULES.md", "code": "", "code_hint": "look up the code at the native in docs/SCHEDULES.md"}
    name, args = found
    aborts, code = language.NATIVES.get(name, ("", []))[1], int(parts[2]) if parts[2].isdigit() else 0
    means = aborts[code - 1] if 0 < code <= len(aborts) else ""
    word = short(f"{name}({','.join(args)})")
    takes = f"{name} takes {language.SIGNATURES[name]}" if name in language.SIGNATURES else "see what the command takes in docs/SCHEDULES.md"
    return {"command": f", {word},", "takes": f"{takes}; a number is 8 bytes, such as n:5, and an address 32, such as a:bob", "code": f": {means}" if means else "", "code_hint": takes}


def short(word):
    """A word, or its beginning and a sign that it goes on."""
    return word if len(word) <= 40 else f"{word[:37]}..."


def told(text, hint, found, event, txs):
    """The words of a pattern, filled with what it found."""
    parts = [it or "" for it in found.groups()]
    last = parts[-1] if parts else ""
    number = int(last) if last.isdigit() else 0
    shape, cause = SHAPES.get(number, ("", "")), CAUSES.get(int(parts[2]) if len(parts) > 2 and parts[2].isdigit() else 0, ("", ""))
    origins = ", ".join(dict.fromkeys("the opening of the epoch" if it == "-" else it for it in parts[0].split())) if parts else ""
    names = {"origins": origins, "M": event.member, "T": event.tx, "wire": WIRE.get(number, ""), "shape": shape[0], "shape_hint": shape[1], "cause": cause[0], "epoch_hint": epoch_hint(parts, event.member)}
    names.update(names_of_command(parts, txs))
    names["cause_hint"] = cause[1].format(**names)
    said = text if text.startswith("{") else text[:1].upper() + text[1:]
    return said.format(*parts, **names), hint.format(*parts, **names)


def last_or_last(line):
    """What a checkpoint's line means that ends in `last`, if a transaction has that name; none if it means one thing."""
    found = re.fullmatch(r"  checkpoint (\d+):(.*) last", line)
    if found is None or "last" in found[2].split(" "):
        return None
    first, second = (f"has{found[2]} and", f"has only{found[2]}") if found[2] else ("has", "is empty")
    return f"Checkpoint {found[1]} {first} the transaction last; or it is the last of the epoch, and {second}", ""


def words_for(line, event, txs=None):
    """What a line of the report means, and what to change; none if no pattern fits. `txs` has the `tx` lines so far by their names."""
    txs = txs or {}
    if "last" in txs and last_or_last(line):
        return last_or_last(line)
    if line.startswith("  "):
        table, text = INNER, line
    else:
        word, text = "order end" if event.is_order_end else event.word, line.partition(": ")[2]
        table = [it[1:] for it in OWN if it[0] == word] + ENDINGS
    for pattern, said, hint in table:
        found = re.fullmatch(pattern, text)
        if found:
            return told(said, hint, found, event, txs)
    return None


def is_refusal(line):
    """Whether the line says that something was not done."""
    if line.startswith("  "):
        return re.match(r"  \S+ (failed|aborted|absent|unfit)\b", line) is not None
    head, _, text = line.partition(": ")
    return not text.startswith(FINE) or (text == "closed" and not head.startswith("close "))


def sentences(event, txs, waiting=(), refusals=False):
    """What is said of an event: sentences, each with what to change, if anything. `waiting` has what waits after a run."""
    found = [words_for(line, event, txs) or (line.strip(), "") for line in event.said if not refusals or is_refusal(line)]
    if waiting and event.answer == "executed 0" and found:
        found[0] = found[0][0], ""
    return found + [(text, hint) for _, text, hint in waiting]
