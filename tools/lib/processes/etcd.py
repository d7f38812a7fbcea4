"""etcd on loopback: one node or a cluster of three, each in a folder of its own; a node may be killed and started again."""

import concurrent.futures
import json
import os
import shutil
import socket
import subprocess
import sys
import time
import urllib.request

sys.path.insert(0, os.path.dirname(os.path.dirname(os.path.abspath(__file__))))
import kept

PATIENCE = 120
SIGKILL = 9


def free_port():
    """A port of loopback that nobody listens at."""
    with socket.socket() as it:
        it.bind(("127.0.0.1", 0))
        return it.getsockname()[1]


class Node:
    """One node of etcd."""

    def __init__(self, name, folder):
        self.name, self.folder = name, folder
        self.url, self.peer = (f"http://127.0.0.1:{free_port()}" for _ in range(2))
        self.child = None

    def start(self, cluster):
        """Starts it, or starts it again over its folder."""
        words = ["etcd", "--name", self.name, "--data-dir", f"{self.folder}/{self.name}", "--logger", "zap", "--initial-cluster", cluster]
        words += ["--listen-client-urls", self.url, "--advertise-client-urls", self.url]
        words += ["--listen-peer-urls", self.peer, "--initial-advertise-peer-urls", self.peer]
        with open(f"{self.folder}/{self.name}.log", "ab") as log:
            how = {"stdin": subprocess.DEVNULL, "stdout": log, "stderr": log}
            self.child = subprocess.Popen(words, preexec_fn=kept.dies_with_parent(SIGKILL), **how)

    def status(self):
        """What it says of itself; none if it does not answer."""
        try:
            request = urllib.request.Request(f"{self.url}/v3/maintenance/status", b"{}", {"Content-Type": "application/json"})
            with urllib.request.urlopen(request, timeout=2) as it:
                return json.load(it)
        except (OSError, ValueError):
            return None

    def leads(self):
        """Whether it is the leader, by its own word."""
        said = self.status()
        return said is not None and said["header"]["member_id"] == said.get("leader")


class Etcd:
    """The nodes that this run started."""

    def __init__(self, count, folder):
        if not shutil.which("etcd"):
            raise OSError("there is no `etcd` on the PATH (Debian: apt-get install etcd-server)")
        os.makedirs(folder, exist_ok=True)
        self.nodes = [Node(f"n{place}", folder) for place in range(count)]
        self.cluster = ",".join(f"{it.name}={it.peer}" for it in self.nodes)
        self.kills = 0
        # The system ends a node with the thread that started it, so one thread that stays starts them all.
        self.starter = concurrent.futures.ThreadPoolExecutor(1)
        for node in self.nodes:
            self.start(node)
        self.wait()

    def start(self, node):
        self.starter.submit(node.start, self.cluster).result()

    def urls(self):
        return [it.url for it in self.nodes]

    def wait(self):
        """Waits until there is a leader."""
        until = time.monotonic() + PATIENCE
        while not any(it.leads() for it in self.nodes):
            if time.monotonic() > until:
                raise OSError(f"etcd has no leader after {PATIENCE} seconds; {self.nodes[0].folder} has its logs")
            time.sleep(0.1)

    def kill_leader(self):
        """Kills the leader as kill -9 does, and starts it again."""
        for node in self.nodes:
            if node.leads():
                node.child.kill()
                node.child.wait()
                self.kills += 1
                self.start(node)
                return

    def stop(self):
        """Ends all nodes."""
        for node in self.nodes:
            node.child.kill()
            node.child.wait()
