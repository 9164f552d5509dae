#!/usr/bin/env python3
"""A cluster of three etcd members on free ports of this machine, for tests, benches and trials.

usage: tests/etcd.py FOLDER [--members N] [--quota BYTES]

It starts the members, prints the cluster's address as `etcd://HOST:PORT,HOST:PORT,HOST:PORT`, and then takes a command a
line: `kill K`, `start K`, `status`, `quit`. K counts the members from 0. At the end of the input, and at an interrupt, it
kills all members that it started. FOLDER keeps their data and their logs.
"""
import argparse
import json
import os
import shutil
import subprocess
import sys
import urllib.request

from systems import Skipped, free_ports, until

# Milliseconds between heartbeats, and until a follower stands for election.
HEARTBEAT, ELECTION = 50, 500


class Cluster:
    """Members that were started, each by its place. `Popen` objects stand in `members`, `None` for one that is down."""

    def __init__(self, folder, members=3, quota=None):
        self.program = shutil.which("etcd")
        if self.program is None:
            raise Skipped("etcd isn't installed (Debian's etcd-server)")
        os.makedirs(folder, exist_ok=True)
        self.folder, self.quota = folder, quota
        self.clients, self.peers = free_ports(members), free_ports(members)
        self.members = [None] * members

    def __enter__(self):
        for k in range(len(self.members)):
            self.start(k)
        self.wait()
        return self

    def __exit__(self, *_):
        for k in range(len(self.members)):
            self.kill(k)

    @property
    def address(self):
        """The cluster's address, with all members."""
        return "etcd://" + ",".join(f"127.0.0.1:{port}" for port in self.clients)

    def start(self, k):
        """Starts a member that is down."""
        if self.members[k] is not None:
            return
        peers = ",".join(f"m{i}=http://127.0.0.1:{port}" for i, port in enumerate(self.peers))
        client, peer = (f"http://127.0.0.1:{ports[k]}" for ports in (self.clients, self.peers))
        command = [
            self.program, "--name", f"m{k}", "--data-dir", os.path.join(self.folder, f"m{k}"),
            "--listen-client-urls", client, "--advertise-client-urls", client,
            "--listen-peer-urls", peer, "--initial-advertise-peer-urls", peer,
            "--initial-cluster", peers, "--initial-cluster-state", "new",
            "--heartbeat-interval", str(HEARTBEAT), "--election-timeout", str(ELECTION),
        ]
        if self.quota is not None:
            command += ["--quota-backend-bytes", str(self.quota)]
        with open(os.path.join(self.folder, f"m{k}.log"), "ab") as log:
            self.members[k] = subprocess.Popen(command, stdin=subprocess.DEVNULL, stdout=log, stderr=log)

    def kill(self, k):
        """Kills a member at once, as a crash does. Its data stay."""
        if self.members[k] is not None:
            self.members[k].kill()
            self.members[k].wait()
            self.members[k] = None

    def ask(self, k, path, body, timeout=2):
        """What a member answers to a call, as JSON; `None` if it doesn't."""
        request = urllib.request.Request(f"http://127.0.0.1:{self.clients[k]}{path}", json.dumps(body).encode())
        try:
            with urllib.request.urlopen(request, timeout=timeout) as response:
                return json.load(response)
        except (OSError, ValueError):
            return None

    def leader(self):
        """The place of the member that leads, or `None`."""
        for k, member in enumerate(self.members):
            status = self.ask(k, "/v3/maintenance/status", {}) if member else None
            if status and status.get("leader") == status["header"]["member_id"]:
                return k
        return None

    def wait(self, members=None):
        """Waits until one of these members, or of all, reads what all have agreed on."""
        asked = range(len(self.members)) if members is None else members
        until(f"an etcd in {self.folder} answers", lambda: any(self.ask(k, "/v3/kv/range", {"key": "YQ=="}) for k in asked))


def obey(cluster, line):
    """Follows a command. Returns whether there may be more."""
    words = line.split()
    if words[:1] == ["quit"]:
        return False
    if words == ["status"]:
        up = [k for k, member in enumerate(cluster.members) if member]
        print("up", *up, "leader", cluster.leader(), flush=True)
    elif len(words) == 2 and words[0] in ("kill", "start") and words[1].isdigit() and int(words[1]) < len(cluster.members):
        (cluster.kill if words[0] == "kill" else cluster.start)(int(words[1]))
        print("done", flush=True)
    elif words:
        print("unknown command", flush=True)
    return True


def main():
    parser = argparse.ArgumentParser(description=__doc__.splitlines()[0])
    parser.add_argument("folder")
    parser.add_argument("--members", type=int, default=3)
    parser.add_argument("--quota", type=int)
    given = parser.parse_args()
    try:
        with Cluster(given.folder, given.members, given.quota) as cluster:
            print(cluster.address, flush=True)
            for line in sys.stdin:
                if not obey(cluster, line):
                    break
    except Skipped as error:
        sys.exit(f"{error}")
    except KeyboardInterrupt:
        pass


if __name__ == "__main__":
    main()
