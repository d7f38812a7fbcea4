"""What one who trusts the stakes of a committee alone finds out from bytes.

    import kothaysu
    links = kothaysu.check_chain([1, 1, 1, 1], chain, kothaysu.Keyed(secret))
    number, effects = kothaysu.find_transaction(chain, tx)

Each function calls one of `kothaysu.h`. Where that answers a code other than 0 an exception is raised whose class and
fields say which and where. Values are bytes as docs/FORMATS.md says. Seals are judged by `Keyed`, a secret, or by
`Accepted`, those seals that the caller has verified: `seals_of_chain`, `seals_of_certificate` and
`seals_of_acknowledgements` list the seals that bytes have.

The shared library is looked for at $KOTHAYSU_LIBRARY, beside this file, and then where the system finds libraries.
"""

from .client import (
    Accepted,
    Blame,
    Final,
    Keyed,
    Seal,
    blame,
    check_certificate,
    check_chain,
    check_final,
    effects_digest,
    find_transaction,
    object_digest,
    seals_of_acknowledgements,
    seals_of_certificate,
    seals_of_chain,
    transaction_digest,
    version,
)
from .errors import (
    BadLink,
    BadSeal,
    Differ,
    KothaysuError,
    Malformed,
    NoAcknowledgement,
    NoCommittee,
    NoRivals,
    NotIncluded,
    Order,
    Shape,
    ShortStake,
    TooLarge,
)

__all__ = [
    "Accepted",
    "BadLink",
    "BadSeal",
    "Blame",
    "Differ",
    "Final",
    "Keyed",
    "KothaysuError",
    "Malformed",
    "NoAcknowledgement",
    "NoCommittee",
    "NoRivals",
    "NotIncluded",
    "Order",
    "Seal",
    "Shape",
    "ShortStake",
    "TooLarge",
    "blame",
    "check_certificate",
    "check_chain",
    "check_final",
    "effects_digest",
    "find_transaction",
    "object_digest",
    "seals_of_acknowledgements",
    "seals_of_certificate",
    "seals_of_chain",
    "transaction_digest",
    "version",
]
