"""The versions of one epoch that a member has: who made each, and who consumed it."""


class Version:
    def __init__(self, it, producer):
        self.it, self.producer, self.consumer = it, producer, None


class Store:
    def __init__(self, objects):
        self.opening = {it.id: it for it in objects}
        self.versions = {(it.id, it.version): Version(it, None) for it in objects}
        self.live, self.changes = dict(self.opening), []

    def get(self, key):
        return self.versions.get(key)

    def producer(self, key):
        """Which transaction of this epoch made a version; none where the epoch opened with it, or with a later one of a shared object."""
        return self.versions[key].producer if key in self.versions else None

    def has(self, id):
        """Whether any version of the object is held, also where it was deleted."""
        return id in self.live

    def opening_shared(self, id):
        it = self.opening.get(id)
        return it.version if it is not None and it.owner[0] == "shared" else None

    def live_objects(self):
        return [it for it in self.live.values() if it is not None]

    def write(self, tx, written, deleted):
        for key in tx.consumed:
            if key in self.versions:
                self.versions[key].consumer = self.versions[key].consumer or tx.digest
        for it in written:
            self.versions[it.id, it.version] = Version(it, tx.digest)
            self.live[it.id] = it
        for id in deleted:
            self.live[id] = None
        self.changes.append((tx.digest, written, deleted))

    def turned(self, kept):
        """The store of the next epoch, which opens with what the kept transactions left, and the others, the oldest first."""
        objects = dict(self.opening)
        for digest, written, deleted in self.changes:
            if digest in kept:
                objects.update({it.id: it for it in written})
                for id in deleted:
                    objects.pop(id, None)
        return Store(objects.values()), [digest for digest, _, _ in self.changes if digest not in kept]
