"""Why a call has no answer."""

from dataclasses import dataclass

WIRE_FAULTS = {
    1: "the input ends inside the item",
    2: "a bool byte is neither 0 nor 1",
    3: "a ULEB128 of more than one byte ends in a zero byte",
    4: "the fifth byte of a ULEB128 is above 0x0f",
    5: "a length is above 2147483647",
    6: "there is no variant of this number",
    7: "bytes are left over",
}

LINK_FAULTS = {
    1: "it has another number",
    2: "it has another parent",
    3: "it has another epoch",
    4: "its members do not ascend or are not known",
    5: "its seals are not those of a quorum",
    6: "one of its seals is not accepted",
}


class KothaysuError(Exception):
    """What each of the errors below is."""


class TooLarge(KothaysuError):
    """There are more than 16,777,216 bytes."""

    def __str__(self) -> str:
        return "there are more than 16777216 bytes"


@dataclass
class Malformed(KothaysuError):
    """The bytes spell no such value."""

    at: int
    why: int

    def __str__(self) -> str:
        return f"the bytes are wrong at offset {self.at}: {WIRE_FAULTS.get(self.why, self.why)}"


@dataclass
class NoCommittee(KothaysuError):
    """The stakes are not those of a committee: 1 to 64, none of them zero."""

    cause: int
    member: int

    def __str__(self) -> str:
        causes = {1: "there are no stakes", 2: "there are more than 64 stakes", 3: f"member {self.member} has no stake"}
        return causes[self.cause]


@dataclass
class BadLink(KothaysuError):
    """A link of the chain is not certified."""

    place: int
    cause: int

    def __str__(self) -> str:
        return f"link {self.place} is bad: {LINK_FAULTS.get(self.cause, self.cause)}"


class NotIncluded(KothaysuError):
    """No checkpoint of the chain lists the transaction."""

    def __str__(self) -> str:
        return "no checkpoint of the chain lists the transaction"


@dataclass
class Shape(KothaysuError):
    """The certificate's transaction has an invalid shape, or there is not one origin for each object (13)."""

    fault: int

    def __str__(self) -> str:
        return f"the transaction has fault {self.fault} of its shape"


class Order(KothaysuError):
    """The members do not ascend, repeat, or are not known."""

    def __str__(self) -> str:
        return "the members do not ascend, repeat, or are not known"


@dataclass
class ShortStake(KothaysuError):
    """The members are not a quorum."""

    weight: int
    total: int

    def __str__(self) -> str:
        return f"the members have {self.weight} of {self.total} of the stake, which is not more than two thirds"


@dataclass
class BadSeal(KothaysuError):
    """A seal is not accepted."""

    member: int

    def __str__(self) -> str:
        return f"the seal of member {self.member} is not accepted"


@dataclass
class NoAcknowledgement(KothaysuError):
    """A statement is not an acknowledgement."""

    place: int

    def __str__(self) -> str:
        return f"statement {self.place} is not an acknowledgement"


@dataclass
class Differ(KothaysuError):
    """Two members acknowledge two things."""

    a: int
    b: int

    def __str__(self) -> str:
        return f"members {self.a} and {self.b} acknowledge two things"


class NoRivals(KothaysuError):
    """The certificates are not of two transactions of one epoch that consume one version."""

    def __str__(self) -> str:
        return "the certificates are not of two transactions of one epoch that consume one version"


def of_answer(code: int, cause: int, first: int, second: int) -> Exception:
    """The error of an answer whose code is not 0."""
    if code == 1:
        return MemoryError("memory was refused")
    known = {
        2: lambda: TooLarge(),
        3: lambda: Malformed(first, cause),
        4: lambda: NoCommittee(cause, first),
        5: lambda: BadLink(first, cause),
        6: lambda: NotIncluded(),
        7: lambda: Shape(cause),
        8: lambda: Order(),
        9: lambda: ShortStake(first, second),
        10: lambda: BadSeal(first),
        11: lambda: NoAcknowledgement(first),
        12: lambda: Differ(first, second),
        13: lambda: NoRivals(),
    }
    return known[code]() if code in known else KothaysuError(f"code {code}")
