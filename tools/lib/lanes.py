"""The members as lanes over the events of a run: which mark an answer has, and where it stands. For tools/draw and tools/view."""

import re

import pictures
import schedules

COLUMN, LANE, MARK, WORD = 40, 46, 9, 8
# How an answer looks: its first word, its letter and its kind.
LOOKS = {
    "voted": ("V", "taken"), "again": ("v", "again"), "held": ("H", "taken"), "locked": ("L", "refused"), "fork": ("F", "fault"), "halted": ("F", "fault"),
    "stopped": ("■", "stop"), "down": ("–", "idle"), "armed": ("s", "stop"), "records": ("↻", "stop"), "epoch": ("o", "idle"), "nothing": ("–", "idle"),
    "said": ("e", "taken"), "admitted": ("A", "taken"), "commit": ("m", "all"), "end": ("e", "taken"), "pending": ("w", "warn"), "deferred": ("w", "warn"),
    "waits": ("w", "warn"), "dropped": ("×", "refused"), "ignored": ("i", "idle"),
}
# How an answer looks that means something else after this word.
OWN = {("close", "closed"): ("c", "taken"), ("close", "again"): ("c", "again"), ("ack", "said"): ("a", "all")}
# Answers of which two words say what they are; of others one does.
TWO_WORDS = ("wrong", "poor", "no", "bad", "short", "not", "invalid", "shape")
# What the marks in the lanes mean: the kind, the letter (E, S and # stand before a number), one such letter and its words.
MEANINGS = [
    ("idle", "", "", "transaction made"), ("taken", "V", "V", "voted"), ("again", "v", "v", "the same again"), ("refused", "×", "×", "refused"), ("refused", "L", "L", "locked"),
    ("fault", "f", "f", "faulty vote"), ("all", "C", "C", "certificate"), ("certified", "", "", "member that is named"), ("unwanted", "", "", "named in vain"),
    ("taken", "H", "H", "held"), ("done", "E", "E2", "executed 2"), ("warn", "E", "E2", "executed 2, not all done"), ("all", "#", "#0", "entry 0"), ("taken", "S", "S2", "saw 2 entries"),
    ("warn", "S", "S2", "saw 2, one waits"), ("refused", "S", "S2", "saw 2, one dropped"), ("idle", "S", "S2", "saw 2, one ignored"), ("taken", "A", "A", "admitted"),
    ("all", "m", "m", "a mark"), ("idle", "i", "i", "ignored"), ("warn", "w", "w", "waits"), ("taken", "c", "c", "closed"), ("again", "c", "c", "closed before"),
    ("taken", "e", "e", "End"), ("done", "t", "t", "turned"), ("all", "a", "a", "acknowledged"), ("all", "✓", "✓", "final"), ("fault", "F", "F", "fork, halted"),
    ("stop", "s", "s", "stop armed"), ("stop", "■", "■", "stopped"), ("idle", "–", "–", "down, nothing"), ("stop", "↻", "↻", "restart"), ("idle", "o", "o", "shown"),
]


def meaning_of(kind, letter):
    """The kind and the letter by which the meanings name a mark: a number is left out."""
    return kind, re.sub(r"^([ES#])\d+$", r"\1", letter)


def look_of_entries(event):
    """The letter, the kind and a word for the entries that a member took: how many, and what stands out among them."""
    answers = [it.partition(": ")[2].split(" ")[0] for it in schedules.entries(event)]
    looks = [LOOKS[it] for it in answers]
    order = [place for kinds in (("stop", "fault"), ("refused", "warn"), ("idle",)) for place, (_, kind) in enumerate(looks) if kind in kinds] or [0]
    letter, kind = looks[order[0]]
    word = answers[order[0]] if kind in ("warn", "refused", "idle", "fault") else ""
    if len(looks) == 1 or kind in ("stop", "fault"):
        return letter, kind, word
    return f"S{len(looks)}", "taken" if kind == "all" else kind, word


def look_of(event):
    """The letter, the kind and a word for what a member answered."""
    answer = event.answer.split(" ")
    if event.word == "fvote":
        return "f", "fault", ""
    if schedules.entries(event):
        return look_of_entries(event)
    if (event.word, event.answer) in OWN:
        return *OWN[event.word, event.answer], ""
    if event.word == "turn" and answer[0] == "epoch":
        return "t", "done", f"epoch {answer[1]}" + (f", {answer[3]} reverted" if answer[3] != "0" else "")
    if event.word == "run" and answer[0] == "executed":
        failed = sum(how != "done" for _, how, *_ in schedules.executions(event))
        if answer[1] == "0":
            return "–", "idle", ""
        return f"E{answer[1]}", "warn" if failed else "done", f"{failed} failed" if failed else ""
    if answer[0] in LOOKS:
        letter, kind = LOOKS[answer[0]]
        return letter, kind, answer[0] if kind in ("warn", "fault", "refused") else answer[1] if answer[0] == "armed" and answer[1:] else ""
    return "×", "refused", refused_word(event)


def refused_word(event):
    """What a refusal is, in one word or two."""
    answer = event.answer.split(" ")
    return " ".join(answer[: 2 if answer[0] in TWO_WORDS else 1])


def is_refused(event):
    """Whether a certificate, an entry or finality was asked for in vain."""
    return not event.answer.startswith({"cert": "formed", "final": "final", "order": "entry"}[event.word])


def words_of(event):
    """The words below the mark of an event, one below another."""
    if event.word in ("cert", "final", "order"):
        return [event.answer] if is_refused(event) else []
    if event.word == "tx":
        return []
    word = look_of(event)[2]
    built = [it.split(" ")[1].rstrip(":") for it in schedules.checkpoints(event)]
    return ([word] if word else []) + ([f"cp {built[0]}" + (f"-{built[-1]}" if built[1:] else "")] if built else [])


class Column:
    """Events that stand below one another, since they differ only in their member; how wide they are, and which epoch ends there."""

    def __init__(self, event):
        self.events, self.ended = [event], None

    first = property(lambda self: self.events[0])

    def takes(self, event):
        """Whether an event may stand here too."""
        first = self.first
        if first.word != event.word or self.ended is not None or event.word in ("cert", "final", "order"):
            return False
        return event.word == "tx" or event.tx == first.tx and event.member is not None and event.member not in [it.member for it in self.events]

    @property
    def title(self):
        first = self.first
        if first.word == "tx" and len(self.events) > 1:
            return f"{len(self.events)} tx"
        if first.text == "order commit" or first.is_order_end:
            return first.text.removeprefix("order ")
        return f"{first.word} {first.tx}" if first.tx else " ".join([first.word] + [it for it in first.words[2:3] if not it[:1].isdigit()])

    @property
    def wide(self):
        words = [pictures.width_of(word, WORD) + 8 for it in self.events for word in words_of(it)]
        marks = [pictures.width_of(look_of(it)[0], 10) + 10 for it in self.events if it.word not in ("tx", "cert", "final", "order")]
        ended = [pictures.width_of(self.end_word, 9) + 12] if self.ended is not None else []
        return max([COLUMN, *words, *marks, *ended])

    @property
    def end_word(self):
        return f"epoch {self.ended} ends"


def columns_of(events, ends):
    """The events in columns. `ends` has for the line of an event the epoch that ends there."""
    found = []
    for event in events:
        if found and found[-1].takes(event):
            found[-1].events.append(event)
        else:
            found.append(Column(event))
        found[-1].ended = ends.get(event.number, found[-1].ended)
    return found


def strips_of(columns, most):
    """The columns in rows that are no wider than this, but for one that is by itself."""
    found, wide = [], 0
    for column in columns:
        if not found or wide + column.wide > most:
            found.append([])
            wide = 0
        found[-1].append(column)
        wide += column.wide
    return found or [[]]


def left_of(members):
    """How much room the names of the members take."""
    return 100 + max([pictures.width_of(named(it), 9) for it in members], default=0)


def named(member):
    return f"stake {member.stake}{'' if member.is_honest else ' faulty'}"


def head_of(columns):
    """How much room the turned titles of the columns take."""
    return 30 + max([pictures.width_of(it.title, 10) * 0.72 for it in columns], default=0)


def draw_names(picture, members, made):
    """The names of the lanes."""
    picture.text(10, made + 4, "transactions", 11, pictures.GREY)
    for place, member in enumerate(members, 1):
        picture.text(10, made + LANE * place + 4, f"member {member.number}", 12, pictures.INK if member.is_honest else "fault", bold=True)
        picture.text(92, made + LANE * place + 4, named(member), 9, pictures.GREY)


def draw_lanes(picture, members, columns, down, left, made):
    """Draws the lanes of the members, from this side on and below this row. `down` has the members that are down, and is changed."""
    right, bottom = left + sum(it.wide for it in columns), made + LANE * len(members)
    lane = {it.number: made + LANE * place for place, it in enumerate(members, 1)}
    picture.line(left - 10, made, right, made, pictures.PALE, 1)
    since, pieces, x = {it: left for it in lane}, [], left
    for column in columns:
        middle = x + column.wide / 2
        pieces.append(pictures.Picture())
        pieces[-1].line(middle, made - 8, middle, bottom, pictures.PALE, 0.5)
        pieces[-1].text(middle - 2, made - 14, column.title, 10, turned=-50)
        for event in column.events:
            draw_event(pieces[-1], event, middle, made, lane)
            if event.member in lane and changes(event, down):
                draw_lane(picture, since[event.member], middle, lane[event.member], event.word == "restart")
                since[event.member] = middle
        x += column.wide
        if column.ended is not None:
            pieces[-1].line(x, made - 8, x, bottom + 26, pictures.INK, 1.5, "6 3")
            pieces[-1].text(x - 4, bottom + 34, column.end_word, 9, anchor="end")
    for member, start in since.items():
        draw_lane(picture, start, right, lane[member], member in down)
    for piece in pieces:
        picture.take(piece)
    return bottom + 40


def draw_lane(picture, start, end, y, is_down):
    picture.line(start, y, end, y, pictures.PALE if is_down else pictures.GREY, 1 if is_down else 1.5, "2 3" if is_down else None)


def changes(event, down):
    """Whether a member goes down with an event, or is up again. `down` is changed."""
    was = event.member in down
    if any(it.endswith(": stopped") for it in event.said):
        down.add(event.member)
    if event.word == "restart":
        down.discard(event.member)
    return (event.member in down) != was


def told_of(event):
    """What is told of a mark: the line of the schedule, and the beginning of what it gave."""
    said = event.said if len(event.said) <= 30 else event.said[:29] + [f"… and {len(event.said) - 29} lines more"]
    return f"line {event.number}: {pictures.cut(event.text, 200)}\n" + "\n".join(said)


def draw_event(picture, event, x, made, lane):
    """Draws one event in its column."""
    told = told_of(event)
    if event.word == "tx":
        picture.mark(x, made, "idle", told, size=4, line=event.number)
    elif event.word in ("cert", "final"):
        draw_certificate(picture, event, x, made, lane, told)
    elif event.word == "order":
        picture.mark(x, made, *(("refused", told, "×") if is_refused(event) else ("all", told, f"#{event.answer.removeprefix('entry ')}")), line=event.number)
    elif event.member in lane:
        letter, kind, _ = look_of(event)
        picture.mark(x, lane[event.member], kind, told, letter, line=event.number)
    for place, word in enumerate(words_of(event)):
        y = made if event.word in ("cert", "final", "order") else lane.get(event.member, made)
        kind = look_of(event)[1] if y != made else "refused"
        picture.text(x, y + 20 + 9 * place, word, WORD, "all" if word.startswith("cp ") else kind, "middle")


def draw_certificate(picture, event, x, made, lane, told):
    """Draws a bar over the members that a certificate or finality names."""
    refused = is_refused(event)
    members = [int(it) for it in event.words[2:] if it.isdigit() and int(it) in lane]
    if members:
        picture.line(x, made + (25 if refused else 0), x, lane[max(members)], "refused" if refused else "all", 2, "3 3" if refused else None)
    for number in members:
        picture.mark(x, lane[number], "unwanted" if refused else "certified", told, size=4, line=event.number)
    picture.mark(x, made, "refused" if refused else "all", told, "×" if refused else "C" if event.word == "cert" else "✓", line=event.number)
