"""Makes a schedule smaller as long as it still shows something: for tools/shrink and tools/hunt."""


class Search:
    """What is asked of schedules, lists of lines. `holds` says of each of several whether it still shows it; `at_once` how many it is asked at a time."""

    def __init__(self, holds, say=lambda said: None, at_once=1):
        self.holds, self.say, self.at_once, self.tries = holds, say, at_once, 0

    def first(self, candidates):
        """The first of several schedules that shows it; none where none does."""
        at_once = self.at_once or len(candidates) or 1
        for begin in range(0, len(candidates), at_once):
            some = candidates[begin : begin + at_once]
            self.tries += len(some)
            for lines, has in zip(some, self.holds(some)):
                if has:
                    return lines
        return None


def without_parts(lines, size):
    """The lists without some neighbouring lines, as many as size; the last ones are tried first, since what comes early is needed more."""
    places = range(0, len(lines), size)
    return [lines[:at] + lines[at + size :] for at in reversed(places)]


def shorter_ends(lines):
    """The lists in which one `tx` line lacks its last word, or one word in the middle of its commands and inputs."""
    found = []
    for place, line in enumerate(lines):
        words = line.split(" ")
        if words[0] == "tx":
            found += [[*lines[:place], " ".join(words[:at] + words[at + 1 :]), *lines[place + 1 :]] for at in reversed(range(6, len(words)))]
    return found


def narrowed(lines, search, ways):
    """Goes on as long as one of the ways gives a smaller schedule that shows it."""
    smaller = search.first(ways(lines))
    while smaller is not None:
        lines = smaller
        search.say(f"{len(lines)} lines, {search.tries} tried")
        smaller = search.first(ways(lines))
    return lines


def shrink(lines, search):
    """The smallest schedule that these steps find, or none where the first one does not show it."""
    lines = [line for line in lines if line and not line.startswith("#")]
    if search.first([lines]) is None:
        return None
    size = max(len(lines) // 2, 1)
    while size > 1:
        lines = narrowed(lines, search, lambda it, size=size: without_parts(it, size))
        size //= 2
    before = None
    while before != lines:
        before = lines
        lines = narrowed(lines, search, lambda it: without_parts(it, 1))
        lines = narrowed(lines, search, shorter_ends)
    return lines
