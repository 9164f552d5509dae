"""The commands of running.rows and reopening.rows: clients beside a node, over UDP."""
import os
import pty
import re
import socket
import subprocess
import time

from systems import (HELLO, LOCK, LOG, OPEN, PATIENCE, UNLOCK, Ended, Ran, Relay, System, frame_of, free_ports, holds, run, same,
                     table)

# More polls than a case takes. At its end the test uses them up by datagrams that the node drops.
TURNS = "10000"
# A note of a party on a loaded machine.
WAITS = re.compile(r"^scoop: waiting for handlers .*\n(hint: .*\n)?", re.M)
# The hint about a client's end, before its last line. `RuntimeError::advice` has a clause for its text.
HINT = re.compile(r"hint: .*\n(scoop: .*\n)\Z")


def first_note(ran):
    """The first text on standard error."""
    return ran.notes.split("\n")[0].removeprefix("scoop: ")


def told(ran):
    """What a client printed, what it wrote on standard error, and its status, or `done`."""
    notes = WAITS.sub("", ran.notes)
    if ran.status == 0:
        return ran.output + notes + "done"
    return ran.output + HINT.sub(r"\1", notes) + f"status {ran.status}"


def lines_of(text):
    """Lines that are separated by semicolons."""
    return "".join(line.removeprefix(" ") + "\n" for line in text.split(";"))


class Running(System):
    """Node 1 has the accounts 1, with 100, and 2, with 0. It runs until the case ends, and clients come to it over a relay. All is
    sealed. Node 2 has an address of no machine, and two of this one.

    - `client C [typed|pauses]: LINE; LINE..` runs client 7 or 8 with these lines, piped or at a terminal. If it pauses, client 8 runs
      the same lines after its first one. It answers what they print and note, and how they end.
    - `asked` answers how many different datagrams clients have sent to handlers.
    - `pause FAILED LEAST` answers whether the client waited LEAST microseconds or more after that many failed tries.
    - `opens node` and `opens client` start node 1 and client 7 beside themselves, and answer the note.
    - `stands` starts node 2 once more, and answers the place of its address.
    """

    options, is_reopened = [], False

    def __init__(self):
        self.places, self.times = ["192.0.2.1:9", *(f"127.0.0.1:{port}" for port in free_ports(2))], {}
        super().__init__({1: (1, "account", [100]), 2: (1, "account", [0])}, {7: {"batch": 4}, 8: {}},
                         table("node", number=2, address=self.places), Relay(self.passes))

    def __enter__(self):
        super().__enter__()
        self.make_key()
        self.serving = self.begin(self.words("node", 1, ["--turns", TURNS, "--log", "off", *self.options]), subprocess.DEVNULL)
        same("the node's line", self.serving.line(), f"node 1 at 127.0.0.1:{self.port}: handlers 1 2")
        return self

    @property
    def port(self):
        return self.ports["node", 1][0]

    def passes(self, data):
        """The relay's fate of a datagram, which is noted."""
        self.times.setdefault(data, time.monotonic())
        return [0]

    def sent(self):
        """The time and kind of each different datagram that came from clients, in order."""
        sent = ((at, frame_of(data).kind) for data, at in list(self.times.items()))
        return sorted(it for it in sent if it[1] in (HELLO, LOCK, OPEN, UNLOCK, LOG))

    def ends(self):
        """Uses up the node's turns, and checks all that it printed after its first line."""
        begun = time.monotonic()
        with socket.socket(socket.AF_INET, socket.SOCK_DGRAM) as out:
            while self.serving.process.poll() is None:
                holds("the node's turns are over in time", time.monotonic() < begun + PATIENCE)
                for _ in range(100):
                    out.sendto(b"", ("127.0.0.1", self.port))
                time.sleep(0.002)
        ran = self.serving.end()
        reopened = ran.output.count("node 1 reopened\n")
        holds("it reopens again and again if its history is short", reopened > 1 if self.is_reopened else reopened == 0, ran)
        same("the end of the node", ran, Ran(0, "node 1 reopened\n" * reopened + "node 1 closed\n", ""))

    def do_client(self, words):
        who, _, text = words.partition(":")
        number, *how = who.split()
        ways = {(): self.pipes, ("typed",): self.types, ("pauses",): self.pauses}
        return ways[tuple(how)](int(number), lines_of(text))

    def pipes(self, number, lines):
        return told(self.asks(number, lines))

    def types(self, number, lines):
        ours, theirs = pty.openpty()
        try:
            client = self.client(number, stdin=theirs)
            # Control-D ends the input.
            os.write(ours, lines.encode() + b"\x04")
            return told(client.end())
        finally:
            os.close(ours)
            os.close(theirs)

    def pauses(self, number, lines):
        first, rest = lines.split("\n", 1)
        client = self.client(number)
        reply = client.ask(first)
        other = told(self.asks(8, lines))
        return f"{reply}\n{told(client.end(rest))}\n{other}"

    def do_asked(self, _):
        return str(len(self.sent()))

    def do_pause(self, words):
        failed, least = map(int, words.split())
        sent = self.sent()
        # Each try locks one handler. The datagram before that was answered before the pause.
        place = [place for place, (_, kind) in enumerate(sent) if kind == LOCK][failed]
        return "yes" if (sent[place][0] - sent[place - 1][0]) * 1_000_000 >= least else "no"

    def do_opens(self, kind):
        number = {"node": 1, "client": 7}[kind]
        if kind == "client":
            self.client(number).ask("reserve 1", "reserved")
        return first_note(run(*self.words(kind, number, ["--new", self.path("other.db")])[1:]))

    def do_stands(self, _):
        node = self.begin(self.words("node", 2, ["--new", self.path(f"{len(self.parties)}.db")]), subprocess.DEVNULL)
        try:
            return str(1 + [f"node 2 at {place}: handlers" for place in self.places].index(node.line()))
        except Ended:
            return first_note(node.end())


class Reopening(Running):
    """The same beside a node whose history is full after six entries."""

    options, is_reopened = ["--history", "6"], True
