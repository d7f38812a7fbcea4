"""The calls, by ctypes."""

import ctypes
import ctypes.util
import os
from dataclasses import dataclass
from typing import List, Sequence, Tuple, Union

from . import errors

VERSION = 100
SHORT_BUFFER = 14


class _Answer(ctypes.Structure):
    _fields_ = [("code", ctypes.c_uint32), ("cause", ctypes.c_uint32), ("first", ctypes.c_uint64), ("second", ctypes.c_uint64)]


class _Bytes32(ctypes.Structure):
    _fields_ = [("bytes", ctypes.c_uint8 * 32)]


class _Seal(ctypes.Structure):
    _fields_ = [("at", ctypes.c_uint64), ("length", ctypes.c_uint64), ("member", ctypes.c_uint32), ("seal", ctypes.c_uint8 * 32)]


class _Final(ctypes.Structure):
    _fields_ = [("epoch", ctypes.c_uint64), ("tx", _Bytes32), ("effects", _Bytes32)]


class _Version(ctypes.Structure):
    _fields_ = [("id", _Bytes32), ("version", ctypes.c_uint64)]


@dataclass(frozen=True)
class Seal:
    """A seal of a member on the bytes of a statement. The 32 bytes are a seal, or stand for a real signature."""

    member: int
    statement: bytes
    seal: bytes


@dataclass(frozen=True)
class Accepted:
    """Accepted is exactly each of these seals. In the order of the list that they come from a look-up is one step."""

    seals: Sequence[Seal]


@dataclass(frozen=True)
class Keyed:
    """Accepted is the keyed seal under this secret of 32 bytes, as in the program."""

    secret: bytes


@dataclass(frozen=True)
class Final:
    """The effects of a transaction that a quorum acknowledged in an epoch: they are final."""

    epoch: int
    tx: bytes
    effects: bytes


@dataclass(frozen=True)
class Blame:
    """The members who sealed two certificates, and the first version that both consume."""

    members: List[int]
    object_id: bytes
    version: int


Seals = Union[Accepted, Keyed]


def _library() -> ctypes.CDLL:
    """The shared library, of the version that belongs to this module."""
    beside = os.path.join(os.path.dirname(os.path.abspath(__file__)), "libkothaysu.so")
    named = os.environ.get("KOTHAYSU_LIBRARY")
    at = named or (beside if os.path.exists(beside) else ctypes.util.find_library("kothaysu"))
    if not at:
        raise ImportError("libkothaysu.so is neither at $KOTHAYSU_LIBRARY, nor beside the module, nor where the system looks")
    library = ctypes.CDLL(at)
    if library.kothaysu_version() != VERSION:
        raise ImportError(f"{at} is of version {library.kothaysu_version()}, and this module of {VERSION}")
    return library


_LIBRARY = _library()


def _bytes(given: bytes) -> tuple:
    """A lent buffer as two arguments: its first byte and its length. An empty one has an address too."""
    given = bytes(given)
    return ctypes.c_char_p(given), ctypes.c_size_t(len(given))


def _bytes32(given: bytes) -> _Bytes32:
    if len(given) != 32:
        raise ValueError(f"32 bytes are wanted, and these are {len(given)}")
    return _Bytes32((ctypes.c_uint8 * 32)(*given))


def _stakes(stakes: Sequence[int]) -> tuple:
    for stake in stakes:
        if not 0 <= stake < 2**32:
            raise ValueError(f"a stake is 0 to 4294967295, and not {stake}")
    return (ctypes.c_uint32 * max(1, len(stakes)))(*stakes), ctypes.c_size_t(len(stakes))


def _rows(seals: Sequence[Seal]) -> tuple:
    """Seals as four arguments: rows and their number, statements and their length. Equal neighbours share a statement."""
    rows = (_Seal * max(1, len(seals)))()
    statements, at, last = bytearray(), 0, None
    for row, it in zip(rows, seals):
        if it.statement != last:
            at, last = len(statements), it.statement
            statements += it.statement
        row.at, row.length, row.member = at, len(it.statement), it.member
        row.seal[:] = _bytes32(it.seal).bytes
    return (rows, ctypes.c_size_t(len(seals)), *_bytes(statements))


def _call(name: str, *arguments) -> _Answer:
    """Calls a function of the library, and raises the error of its answer unless its code is 0."""
    answer = _Answer()
    getattr(_LIBRARY, name)(*arguments, ctypes.byref(answer))
    if answer.code != 0:
        raise errors.of_answer(answer.code, answer.cause, answer.first, answer.second)
    return answer


def _call_with_seals(name: str, stakes: Sequence[int], given: bytes, seals: Seals, *outputs) -> _Answer:
    if isinstance(seals, Keyed):
        return _call(f"{name}_keyed", *_stakes(stakes), *_bytes(given), ctypes.byref(_bytes32(seals.secret)), *outputs)
    return _call(name, *_stakes(stakes), *_bytes(given), *_rows(seals.seals), *outputs)


def _list(name: str, given: bytes) -> List[Seal]:
    """The seals that a function of the library lists: asked once for the sizes, and once for the rows."""
    answer = _Answer()
    function = getattr(_LIBRARY, name)
    rows, statements = (_Seal * 1)(), ctypes.create_string_buffer(1)
    function(*_bytes(given), rows, ctypes.c_size_t(0), statements, ctypes.c_size_t(0), ctypes.byref(answer))
    if answer.code == SHORT_BUFFER:
        count, length = answer.first, answer.second
        rows, statements = (_Seal * max(1, count))(), ctypes.create_string_buffer(max(1, length))
        function(*_bytes(given), rows, ctypes.c_size_t(count), statements, ctypes.c_size_t(length), ctypes.byref(answer))
    if answer.code != 0:
        raise errors.of_answer(answer.code, answer.cause, answer.first, answer.second)
    text = statements.raw
    return [Seal(row.member, text[row.at : row.at + row.length], bytes(row.seal)) for row in rows[: answer.first]]


def version() -> int:
    """10,000 for each major version, 100 for each minor one, 1 for each patch."""
    return _LIBRARY.kothaysu_version()


def seals_of_chain(chain: bytes) -> List[Seal]:
    """The seals of a chain, each on what its member states of the checkpoint."""
    return _list("kothaysu_chain_seals", chain)


def seals_of_certificate(certificate: bytes) -> List[Seal]:
    """The seals of a certificate, each on the vote of its member."""
    return _list("kothaysu_certificate_seals", certificate)


def seals_of_acknowledgements(acknowledgements: bytes) -> List[Seal]:
    """The seals of a list of sealed statements."""
    return _list("kothaysu_final_seals", acknowledgements)


def check_chain(stakes: Sequence[int], chain: bytes, seals: Seals) -> int:
    """The number of links of a certified chain.

    Raises NoCommittee, TooLarge, Malformed or BadLink.
    """
    return _call_with_seals("kothaysu_check_chain", stakes, chain, seals).first


def find_transaction(chain: bytes, tx: bytes) -> Tuple[int, bytes]:
    """The number of the first checkpoint that lists the transaction, and the digest of its effects there.

    It does not tell whether the chain is certified. Raises TooLarge, Malformed or NotIncluded.
    """
    effects = _Bytes32()
    answer = _call("kothaysu_find_transaction", *_bytes(chain), ctypes.byref(_bytes32(tx)), ctypes.byref(effects))
    return answer.first, bytes(effects.bytes)


def check_certificate(stakes: Sequence[int], certificate: bytes, seals: Seals) -> Tuple[bytes, int]:
    """The digest of the transaction of a valid certificate, and its epoch.

    Raises NoCommittee, TooLarge, Malformed, Shape, Order, ShortStake or BadSeal.
    """
    tx = _Bytes32()
    answer = _call_with_seals("kothaysu_check_certificate", stakes, certificate, seals, ctypes.byref(tx))
    return bytes(tx.bytes), answer.first


def check_final(stakes: Sequence[int], acknowledgements: bytes, seals: Seals) -> Final:
    """What a quorum acknowledges in a list of sealed statements, whose members ascend.

    Raises NoCommittee, TooLarge, Malformed, NoAcknowledgement, Order, ShortStake, Differ or BadSeal.
    """
    found = _Final()
    _call_with_seals("kothaysu_check_final", stakes, acknowledgements, seals, ctypes.byref(found))
    return Final(found.epoch, bytes(found.tx.bytes), bytes(found.effects.bytes))


def _digest(name: str, given: bytes) -> bytes:
    digest = _Bytes32()
    _call(name, *_bytes(given), ctypes.byref(digest))
    return bytes(digest.bytes)


def transaction_digest(transaction: bytes) -> bytes:
    """The digest of a transaction. Raises TooLarge or Malformed."""
    return _digest("kothaysu_transaction_digest", transaction)


def object_digest(of: bytes) -> bytes:
    """The digest of an object. Raises TooLarge or Malformed."""
    return _digest("kothaysu_object_digest", of)


def effects_digest(effects: bytes) -> bytes:
    """The digest of the effects of a transaction. Raises TooLarge or Malformed."""
    return _digest("kothaysu_effects_digest", effects)


def blame(one: bytes, other: bytes) -> Blame:
    """Who sealed two certificates of two transactions of one epoch that consume one version.

    It does not tell whether the certificates are valid; if both are, none of these members is honest, unless a seal is
    forged or digests collide. Raises TooLarge, Malformed (of the first certificate, and then of the second) or NoRivals.
    """
    answer, at, room = _Answer(), _Version(), 64
    while True:
        members = (ctypes.c_uint32 * room)()
        _LIBRARY.kothaysu_blame(*_bytes(one), *_bytes(other), members, ctypes.c_size_t(room), ctypes.byref(at), ctypes.byref(answer))
        if answer.code != SHORT_BUFFER:
            break
        room = answer.first
    if answer.code != 0:
        raise errors.of_answer(answer.code, answer.cause, answer.first, answer.second)
    return Blame(list(members[: answer.first]), bytes(at.id.bytes), at.version)
