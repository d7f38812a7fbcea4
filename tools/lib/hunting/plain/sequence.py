"""What a member makes of the certificates in one sequence: which are admitted, in which order, with which versions of shared objects."""

from .tx import BOUND


class Admission:
    """The certificates of one epoch's sequence. `opening` answers the version of an object that was shared when the epoch opened."""

    def __init__(self, limit, opening):
        self.limit, self.opening = limit, opening
        self.admitted, self.pending, self.since_mark = {}, [], []
        self.current, self.writers = {}, {}

    def push(self, certificate):
        self.pending.append(certificate)
        return self.settle()

    def cut(self):
        found, self.since_mark = self.since_mark, []
        return found

    def mark(self):
        self.writers = {}
        return self.settle()

    def missing(self, certificate):
        """The first origin that is not admitted, or none."""
        return next((it for it in certificate.origins if it is not None and it not in self.admitted), None)

    def full_for(self, certificate):
        """The first object that the certificate writes and that has as many writers as the limit allows, or none."""
        written = [it.id for it in certificate.tx.shared if it.how == "s"]
        return next((it for it in written if self.limit is not None and self.writers.get(it, 0) >= self.limit), None)

    def settle(self):
        """Takes the first that waits for nothing, again and again: the admitted and the dropped ones."""
        admitted, dropped = [], []
        free = self.first_free()
        while free is not None:
            self.pending.remove(free)
            assigned = self.assign(free)
            (admitted if assigned is not None else dropped).append(free.tx.digest)
            if assigned is not None:
                self.admit(free, assigned)
            free = self.first_free()
        return admitted, dropped

    def first_free(self):
        return next((it for it in self.pending if self.missing(it) is None and self.full_for(it) is None), None)

    def assign(self, certificate):
        """The version and the writer of each shared object, or none where the certificate is dropped."""
        found = []
        for named, origin in zip(certificate.tx.named, certificate.origins):
            if named.how in ("s", "r"):
                first = (named.version, origin) if origin is not None else (self.opening(named.id), None)
                found.append(self.current.get(named.id, first))
        if any(version is None for version, _ in found):
            return None
        return found if version_of(certificate.tx, found) < BOUND else None

    def admit(self, certificate, assigned):
        tx, version = certificate.tx, version_of(certificate.tx, assigned)
        for named, given in zip(tx.shared, assigned):
            self.current[named.id] = (version, tx.digest) if named.how == "s" else given
            if named.how == "s":
                self.writers[named.id] = self.writers.get(named.id, 0) + 1
        self.admitted[tx.digest] = assigned
        self.since_mark.append(tx.digest)


def version_of(tx, assigned):
    """The version that a transaction makes where its shared objects are assigned these."""
    return 1 + max([version for version, _ in assigned] + [it.version for it in tx.named if it.digest is not None])
