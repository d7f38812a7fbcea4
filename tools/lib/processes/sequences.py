"""The one sequence of each epoch: entries that are numbered from 0 and never change. A file under a lock keeps it, or etcd does."""

import base64
import fcntl
import json
import os
import time
import urllib.error
import urllib.request

SECONDS = 10
PATIENCE = 60


class FileSequence:
    """A file with a line `EPOCH ENTRY` for each entry, in hexadecimal, which one process at a time may read or lengthen."""

    def __init__(self, path):
        self.path = path
        open(path, "ab").close()

    def entries(self, it, epoch):
        """The entries of an epoch. A last line that was not written to its end is none."""
        lines = [line.rstrip(b"\n").split(b" ") for line in it if line.endswith(b"\n")]
        return [bytes.fromhex(entry.decode()) for of, entry in lines if int(of) == epoch]

    def add(self, epoch, entry):
        """Adds an entry to the sequence of an epoch. Answers its number."""
        with open(self.path, "r+b") as it:
            fcntl.flock(it, fcntl.LOCK_EX)
            found = self.entries(it, epoch)
            it.seek(0)
            whole = it.read()
            it.truncate(whole.rfind(b"\n") + 1)
            it.seek(0, os.SEEK_END)
            it.write(f"{epoch} {entry.hex()}\n".encode())
            it.flush()
            os.fsync(it.fileno())
            return len(found)

    def since(self, epoch, number):
        """The entries of an epoch from a number on."""
        with open(self.path, "rb") as it:
            fcntl.flock(it, fcntl.LOCK_SH)
            return self.entries(it, epoch)[number:]


class EtcdSequence:
    """Keys `kothaysu/COMMITTEE/EPOCH/NUMBER` of etcd, through the JSON gateway of its version 3.

    An entry is added by a transaction that demands that its key has no version yet; who loses tries the next number. etcd's writes
    of one key are linearizable, and that is all that the members need: one sequence. Any of its nodes may be asked.
    """

    def __init__(self, urls, committee):
        self.urls, self.committee = list(urls), committee
        self.next = {}

    def asked(self, what, body):
        """What a node answers, and whether it was the first one asked; the next node is tried if one does not answer."""
        until, first = time.monotonic() + PATIENCE, True
        while True:
            try:
                data = json.dumps(body).encode()
                request = urllib.request.Request(f"{self.urls[0]}/v3/kv/{what}", data, {"Content-Type": "application/json"})
                with urllib.request.urlopen(request, timeout=SECONDS) as it:
                    return json.load(it), first
            except (OSError, ValueError) as fault:
                if time.monotonic() > until:
                    raise OSError(f"etcd at {', '.join(self.urls)}: {fault}") from None
                self.urls, first = [*self.urls[1:], self.urls[0]], False
                time.sleep(0.05)

    def key(self, epoch, number):
        return base64.b64encode(f"kothaysu/{self.committee}/{epoch:020}/{number:020}".encode()).decode()

    def add(self, epoch, entry):
        """Adds an entry to the sequence of an epoch. Answers its number.

        A node may end after it did what was asked and before it says so. Then the same is asked again; if it lost, and what stands
        under the number has the bytes of this entry, it is this entry, or one that says the same at the same place.
        """
        value = base64.b64encode(entry).decode()
        while True:
            number = self.next.get(epoch, 0)
            key = self.key(epoch, number)
            absent = {"key": key, "target": "VERSION", "result": "EQUAL", "version": "0"}
            put, read = {"requestPut": {"key": key, "value": value}}, {"requestRange": {"key": key}}
            said, first = self.asked("txn", {"compare": [absent], "success": [put], "failure": [read]})
            self.next[epoch] = number + 1
            if said.get("succeeded"):
                return number
            if not first and said["responses"][0]["response_range"]["kvs"][0].get("value", "") == value:
                return number

    def since(self, epoch, number):
        """The entries of an epoch from a number on."""
        said, _ = self.asked("range", {"key": self.key(epoch, number), "range_end": self.key(epoch + 1, 0)})
        return [base64.b64decode(it.get("value", "")) for it in said.get("kvs", [])]
