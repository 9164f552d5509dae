#!/usr/bin/env python3
"""Two nodes and three clients as processes, over a relay that loses, doubles and delays datagrams. Nodes and clients are killed at
random moments and begun again.

In the end all that the clients were told is held against a plain replay of the blocks, and `scoop audit` has to explain the
journals of all parties, and to find each change of `journals.py` to these.

usage: tests/storm.py PROGRAM [--seed N] [--seconds S] [--key] [--etcd]

With --etcd the stores are in an etcd of three members, of which one at a time is killed and started again. A node has two
addresses. It is often begun again at the other one while its first process still runs, which then has to end with
`store: TakenOver`.
"""
import argparse
import os
import random
import signal
import tempfile
import threading
import time

import systems
from etcd import Cluster
from journals import changed
from replay import BALANCE, CLASS, DEPOSIT, START, TICKET, WITHDRAW, Block, Entry, faults
from systems import PATIENCE, Ended, Relay, System, run, test

# Handlers and their nodes.
HANDLERS = {1: 1, 2: 2, 3: 1, 4: 2}
NODES = [1, 2]
CLIENTS = {7: 1, 8: 4, 9: 2}


class Node:
    """A node with its lives. Over an etcd each life has a journal of its own, since two may run at once."""

    def __init__(self, storm, number):
        self.storm, self.number, self.lives, self.party, self.taken = storm, number, 0, None, None
        self.journal = storm.system.path(f"node-{number}.journal")
        self.journals = [self.journal]

    def begin(self):
        self.lives += 1
        if self.storm.cluster and self.lives > 1:
            self.journals.append(f"{self.journal}.{self.lives}")
        options = ["--history", "2000", "--journal", self.journals[-1], *self.storm.store(self.lives > 1)]
        self.party = self.storm.system.node(self.number, *options)

    def begin_elsewhere(self):
        """Begins it at its other address while this life still runs."""
        self.end_taken()
        self.taken = self.party
        self.begin()

    def end_taken(self):
        """Kills an earlier life that heard nothing since, or looks why it ended."""
        taken, self.taken = self.taken, None
        if taken is None:
            return
        if taken.process.poll() is None:
            taken.kill()
        elif taken.process.returncode == 3 and "store: TakenOver" in taken.notes():
            self.storm.counts["taken over"] += 1
        elif not self.was_cut_off(taken):
            self.storm.errors.append(f"a life that was taken over: {taken}")

    def was_cut_off(self, party):
        """Whether it ended since no member of the etcd had answered in time."""
        is_so = self.storm.cluster is not None and party.process.returncode == 3 and "store: Unreachable" in party.notes()
        if is_so:
            self.storm.counts["cut off"] += 1
        return is_so

    def look(self):
        """Begins it again if it was cut off from the etcd, as its operator would."""
        if self.party.process.poll() is None:
            return
        if self.was_cut_off(self.party):
            self.begin()
        else:
            self.storm.errors.append(f"a node ended: {self.party}")

    def end(self):
        """Ends it, and puts the journals of all lives into the first one."""
        self.end_taken()
        self.party.kill()
        if len(self.journals) > 1:
            texts = []
            for path in filter(os.path.exists, self.journals):
                with open(path, "rb") as file:
                    texts.append(file.read())
            with open(self.journal, "wb") as first:
                first.writelines(text[:text.rfind(b"\n") + 1] for text in texts)


class Client(threading.Thread):
    """A client that does random blocks, life after life, and keeps what it was told."""

    def __init__(self, storm, number):
        super().__init__(daemon=True)
        self.storm, self.number, self.party, self.has_run, self.blocks = storm, number, None, False, []
        self.random, self.lock = random.Random(storm.seed * 1000 + number), threading.Lock()
        self.options = ["--journal", storm.system.path(f"client-{number}.journal")]
        self.journal = self.options[1]

    def run(self):
        try:
            while not self.storm.is_over:
                self.live()
            # Killed while it locked or in its last block, it would leave others waiting for it.
            if self.party.process.returncode == -signal.SIGKILL:
                self.asks("")
        except Exception as error:
            self.storm.errors.append(f"client {self.number}: {error}")
            self.party.kill()

    def live(self):
        """One life, until it is killed or the storm is over."""
        with self.lock:
            self.party = self.storm.system.client(self.number, *self.options, *self.storm.store(self.has_run))
        try:
            self.block()
            while not self.storm.is_over:
                self.block()
            self.party.end()
        except Ended:
            self.party.process.wait(PATIENCE)
            self.party.kill()
        status = self.party.process.returncode
        # Purses refuse some withdrawals, which the client's status reports.
        if status not in (0, -signal.SIGKILL) and not (status == 1 and ": refused, the first of " in self.party.notes()):
            raise AssertionError(f"it ended: {self.party}")

    def kill(self):
        """Kills it, if it has run: its incarnation is stored before it greets, and it greets before it answers."""
        with self.lock:
            if self.has_run and self.party.process.poll() is None:
                self.party.process.send_signal(signal.SIGKILL)
                self.storm.counts["clients killed"] += 1

    def block(self):
        handlers = self.random.sample(sorted(HANDLERS), self.random.randint(1, 3))
        reply = self.party.ask("reserve " + " ".join(map(str, handlers)), "reserved ")
        self.has_run = True
        block = Block(reply.split()[1], handlers)
        self.blocks.append(block)
        for h in handlers:
            self.command(block, "query", h, TICKET)
        for _ in range(self.random.randint(0, 4)):
            kind, operation = self.random.choice([("query", BALANCE), ("query", WITHDRAW), ("call", DEPOSIT), ("query", DEPOSIT),
                                                  ("call", WITHDRAW)])
            amount = None if operation == BALANCE else self.random.randint(0, 60)
            self.command(block, kind, self.random.choice(handlers), operation, amount)
        if len(handlers) > 1:
            amount = self.random.randint(1, 30)
            if self.command(block, "query", handlers[0], WITHDRAW, amount) != "refused":
                self.command(block, "call", handlers[1], DEPOSIT, amount)
        self.party.ask("end", "ended")
        block.is_ended = True

    def command(self, block, kind, handler, operation, amount=None):
        """Logs a command, and returns the answer of a query. What is asked and not answered may have run or not."""
        entry = Entry(handler, operation, amount)
        block.entries.append(entry)
        line = f"{kind} {handler} {operation}" + ("" if amount is None else f" {amount}")
        reply = self.party.ask(line, "answer " if kind == "query" else f"logged {handler} ")
        if kind == "query":
            entry.answer = reply.split()[1]
        return entry.answer

    def asks(self, lines):
        """A life of these lines alone, which cuts the block of a killed one. Returns its answers."""
        # Over an etcd on a loaded disk each commit may take seconds.
        ran = self.storm.system.asks(self.number, lines, *self.options, *self.storm.store(True), patience=2 * PATIENCE)
        if ran.status != 0:
            raise AssertionError(f"client {self.number}: {ran}")
        return [line.split()[1] for line in ran.output.splitlines() if line.startswith("answer ")]


class Storm:
    """A storm of this many seconds, whose chances hang on the seed."""

    def __init__(self, seed, seconds, is_sealed=False, cluster=None):
        self.seed, self.seconds, self.cluster, self.random = seed, seconds, cluster, random.Random(seed)
        self.relay_random, self.down, self.is_over, self.errors = random.Random(seed), None, False, []
        self.place = cluster and f"{cluster.address}/storm-{seed}-{os.getpid()}"
        names = ["passed", "lost", "doubled", "delayed", "nodes killed", "clients killed"]
        names += ["begun elsewhere", "taken over", "cut off", "members killed"] if cluster else []
        self.counts = dict.fromkeys(names, 0)
        handlers = {h: (n, "purse", [0, START]) for h, n in HANDLERS.items()}
        clients = {c: {"batch": batch} for c, batch in CLIENTS.items()}
        self.system = System(handlers, clients, CLASS, Relay(self.fate, keeps=False), 2 if cluster else 1)
        if is_sealed:
            self.system.make_key()
        self.nodes = [Node(self, n) for n in NODES]
        self.clients = [Client(self, c) for c in CLIENTS]

    def fate(self, _):
        """Loses, doubles and delays a twentieth of the datagrams each."""
        chance = self.relay_random.random()
        copies = 0 if chance < 0.05 else 2 if chance < 0.1 else 1
        delays = [self.relay_random.uniform(0.001, 0.3) if self.relay_random.random() < 0.05 else 0 for _ in range(copies)]
        for name, count in (("passed", copies), ("lost", copies == 0), ("doubled", copies == 2), ("delayed", sum(map(bool, delays)))):
            self.counts[name] += count
        return delays

    def store(self, has_run):
        """The options of a party's store in the etcd. In files the system names a store for each."""
        return ["--store" if has_run else "--new", self.place] if self.cluster else []

    def rage(self):
        """Kills parties until the time is over or something is wrong."""
        end = time.monotonic() + self.seconds
        while time.monotonic() < end and not self.errors:
            time.sleep(self.random.uniform(0.1, 2.0))
            party = self.random.choice(self.nodes + self.clients + ([None] if self.cluster else []))
            if party is None:
                self.turn_member()
            elif isinstance(party, Client):
                party.kill()
            elif self.cluster and self.random.random() < 0.6:
                party.begin_elsewhere()
                self.counts["begun elsewhere"] += 1
            else:
                party.party.kill()
                self.counts["nodes killed"] += 1
                time.sleep(self.random.choice([0, 0, self.random.uniform(0, 0.5)]))
                party.end_taken()
                party.begin()
            for node in self.nodes:
                node.look()

    def turn_member(self):
        """Kills a member of the etcd, or starts the one that is down and waits for it."""
        if self.down is None:
            self.down = self.random.randrange(len(self.cluster.members))
            self.cluster.kill(self.down)
            self.counts["members killed"] += 1
        else:
            self.cluster.start(self.down)
            self.cluster.wait([self.down])
            self.down = None

    def run(self):
        """Runs it, and prints what came. Fails with all that is wrong."""
        with self.system:
            for node in self.nodes:
                node.begin()
            for client in self.clients:
                client.start()
            self.rage()
            last = self.calm()
            if not self.errors:
                self.errors += faults(HANDLERS, [block for client in self.clients for block in client.blocks], last)
                self.audit()
            blocks = [block for client in self.clients for block in client.blocks]
            ended = sum(block.is_ended for block in blocks)
            print(f"seed {self.seed}: {len(blocks)} blocks, {ended} ended;", ", ".join(f"{n} {name}" for name, n in self.counts.items()))
            if not (self.errors or ended):
                self.errors.append("no block has ended: a storm that shows nothing")
            if self.errors:
                raise AssertionError("\n  ".join(["what is wrong:", *self.errors[:20]]))

    def calm(self):
        """Ends the clients, cuts what killed ones left, and ends the nodes. Returns the words of each handler."""
        self.is_over = True
        for client in self.clients:
            client.join(PATIENCE)
            if client.is_alive():
                self.errors.append(f"it hangs: {client.party}")
                client.party.kill()
        for node in self.nodes:
            node.look()
        last = {} if self.errors else self.read()
        for node in self.nodes:
            node.end()
        return last

    def read(self):
        for client in self.clients:
            client.asks("")
        lines = "reserve " + " ".join(map(str, HANDLERS)) + "\n"
        lines += "".join(f"query {h} {TICKET}\nquery {h} {BALANCE}\n" for h in HANDLERS) + "end\n"
        numbers = list(map(int, self.clients[0].asks(lines)))
        return {h: (numbers[2 * place] - 1, numbers[2 * place + 1]) for place, h in enumerate(HANDLERS)}

    def audit(self):
        """The journals have an explanation, and no changed ones have."""
        journals = [party.journal for party in self.nodes + self.clients]
        ran = self.explain(journals)
        print(ran.output, end="")
        if ran.status != 0:
            self.errors.append(f"the audit doesn't explain the journals: {ran}")
            return
        found = 0
        for place, path in enumerate(journals):
            with open(path, "rb") as file:
                text = file.read()
            for name, lines in changed(text, self.random):
                with open(path + ".changed", "wb") as file:
                    file.write(lines)
                ran = self.explain(journals[:place] + [path + ".changed"] + journals[place + 1:])
                print(f"{os.path.basename(path)}, {name}: {ran.output.strip() or ran.notes.strip()}")
                found += ran.status in (1, 3)
                if ran.status not in (1, 3):
                    self.errors.append(f"the audit of {path} doesn't find {name}: {ran}")
        if found == 0:
            self.errors.append("no journal was long enough for a change")

    def explain(self, journals):
        return run("audit", "--system", self.system.file("node", 1), *journals, patience=2 * PATIENCE)


@test
def a_storm_of_kills_and_losses_is_right_and_explained():
    Storm(1, 30).run()


@test
def a_sealed_storm_is_right_and_explained():
    Storm(2, 30, is_sealed=True).run()


def over_etcd(seed, seconds, is_sealed=False):
    with tempfile.TemporaryDirectory(prefix="etcd-") as folder, Cluster(folder) as cluster:
        Storm(seed, seconds, is_sealed, cluster).run()


@test
def a_storm_over_an_etcd_is_right_and_explained():
    over_etcd(3, 30)


def main():
    parser = argparse.ArgumentParser(description=__doc__, formatter_class=argparse.RawDescriptionHelpFormatter)
    parser.add_argument("program")
    parser.add_argument("--seed", type=int, default=1)
    parser.add_argument("--seconds", type=float, default=300)
    parser.add_argument("--key", action="store_true")
    parser.add_argument("--etcd", action="store_true")
    given = parser.parse_args()
    systems.SCOOP = os.path.abspath(given.program)
    if given.etcd:
        over_etcd(given.seed, given.seconds, given.key)
    else:
        Storm(given.seed, given.seconds, given.key).run()


if __name__ == "__main__":
    main()
