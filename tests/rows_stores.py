"""The commands of nodes.rows and members.rows: a node's store, and parties over the member of an etcd."""
import os
import re
import socket
import subprocess
import time

from member import Member, Memory, Script
from rows_running import first_note
from systems import System, free_ports, run, same

# A call over a member may take five seconds.
LIMIT = 6
# `Lock 1 7.1.1`, of a client that hasn't greeted.
LOCK_FRAME = bytes.fromhex("5351010300000001000000070000000100000001000000000000")


class Nodes(System):
    """A store, and a node of cells.

    - `serve WORD..` makes the store, and serves for one turn a node whose handlers 1, 2 .. are cells with these words. It answers `ok`
      if the node said that it was ready. `resume WORD..` is the same for a node that goes on with the store.
    - `dropped` serves a node over a new store, which hears a Lock that it drops, and answers why the node ended.
    - `stored H` answers the word of a handler in the store.
    - `new` takes another store. `unnamed` removes the text beside the store, which names its owner.
    - `client` makes a store that has no handlers: that of client 7.
    - `number N` runs a node with this number, which the file lacks, and answers the text.
    - `ask` runs client 7 over the store, and answers why it ended.
    - `emptied N` takes a store in an etcd, in which nothing of the handlers stands any more after N loads. `disowned` takes one in
      which no owner stands any more after the first put of a handler.
    """

    def __init__(self):
        super().__init__({1: (1, "cell", [0])}, {7: {}})
        self.stores, self.members = 0, []
        self.do_new("")

    def ends(self):
        for member in self.members:
            member.end()

    def do_new(self, _):
        self.stores += 1
        self.store = self.path(f"{self.stores}.db")

    def do_unnamed(self, _):
        os.remove(self.store + ".system")

    def do_client(self, _):
        ran = self.asks(7, "", "--new", self.store, "--turns", "1")
        same("a client without a node", (ran.status, first_note(ran)), (3, "link: TurnsOver"))

    def do_number(self, number):
        path = self.file("node", 1)
        ran = run("node", number, "--system", path, "--volatile", "--turns", "1")
        same("its status", ran.status, 1)
        return first_note(ran).replace(path, "FILE")

    def do_ask(self, _):
        ran = self.asks(7, "", "--store", self.store, "--turns", "1")
        same("its status", ran.status, 3)
        return last_note(ran, self.store)

    def do_emptied(self, loads):
        self.takes(Memory(int(loads)))

    def do_disowned(self, _):
        self.takes(Memory(disowns=True))

    def takes(self, memory):
        self.members.append(Member(memory))
        self.store = f"etcd://127.0.0.1:{self.members[-1].port}/bank"

    def do_serve(self, words):
        return self.serves("--new", words)

    def do_resume(self, words):
        return self.serves("--store", words)

    def serves(self, option, words):
        self.handlers = {number: (1, "cell", [int(word)]) for number, word in enumerate(words.split(), 1)}
        ran = run(*self.words("node", 1, [option, self.store, "--turns", "1"])[1:])
        handlers = " ".join(map(str, self.handlers))
        ready = f"node 1 at 127.0.0.1:{self.ports['node', 1][0]}: handlers {handlers}\nnode 1 closed\n"
        return "ok" if ran.result == (0, ready) else last_note(ran, self.store)

    def do_dropped(self, _):
        self.handlers = {1: (1, "cell", [0])}
        node = self.begin(self.words("node", 1, ["--new", self.store, "--turns", "1000"]), subprocess.DEVNULL)
        node.expect("node 1 at ")
        with socket.socket(socket.AF_INET, socket.SOCK_DGRAM) as out:
            out.sendto(LOCK_FRAME, ("127.0.0.1", self.ports["node", 1][0]))
        return last_note(node.end(), self.store)

    def do_stored(self, handler):
        return re.search(rf"^handler {handler}: words (\d+)$", run("store", self.store).output, re.M)[1]


def last_note(ran, store):
    """The last text on standard error, which says why a party over this store ended."""
    notes = [line for line in ran.notes.splitlines() if line.startswith("scoop: ")]
    return notes[-1].removeprefix("scoop: ").replace(store, "STORE")


class Members(System):
    """The member of an etcd that follows a script. Node 1 of the system has handler 1, and client 7 uses it.

    - `answers STATUS BODY`, `tells PART BODY` (to a request that has PART), `cuts-off`, `closes`, `waits MS` and `hangs` (on this
      request and all after it) add to the script. `body NAME BODY` names a body: `@NAME` stands for it. `blank NAME N BODY` does so with
      N spaces before it.
    - Each command below begins with the script, and clears it. If it ended early, or more was asked, the answer says so.
    - `look` prints what stands under the name `bank`. `look N` does so over N members, of which only the last is there.
    - `create` and `adopt` run node 1 for one turn, over a new store or the old one.
    - `begin N` runs client 7 over a new store above incarnation N, and `resume` over the old one, each beside a new node 1. They
      answer the incarnation in the name of its block.
    - `timed COMMAND` answers too whether the command ended within six seconds. `gone COMMAND` has no member.
    """

    def __init__(self):
        super().__init__({1: (1, "cell", [4])}, {7: {}})
        self.script, self.bodies = Script(), {}
        self.member = Member(self.script)
        self.port = self.member.port

    def ends(self):
        self.member.end()

    def body(self, text):
        return self.bodies[text[1:]] if text.startswith("@") else text

    def do_body(self, words):
        name, _, text = words.partition(" ")
        self.bodies[name] = text

    def do_blank(self, words):
        name, count, text = words.split(" ", 2)
        self.bodies[name] = " " * int(count) + text

    def do_answers(self, words):
        status, _, text = words.partition(" ")
        self.script.acts.append(("answers", int(status), self.body(text)))

    def do_tells(self, words):
        part, _, text = words.partition(" ")
        self.script.acts.append(("tells", part, self.body(text)))

    def do_waits(self, words):
        self.script.acts.append(("waits", int(words)))

    def do_cuts_off(self, _):
        self.script.acts.append(("cuts-off",))

    def do_closes(self, _):
        self.script.acts.append(("closes",))

    def do_hangs(self, _):
        self.script.acts.append(("hangs",))

    def answer(self, ran, place, status=3):
        """The answer of a party that ran: what it printed, or why it ended, and what came otherwise than in the script."""
        same("its status", ran.status, ran.status and status)
        said = last_note(ran, place) if ran.status else ran.output.removesuffix("\n")
        return "\n".join([said, *self.script.ended()])

    def place(self, gone=0):
        """The text of the store's place, with so many members before that one which aren't there."""
        members = [*free_ports(gone), self.port]
        return "etcd://" + ",".join(f"127.0.0.1:{port}" for port in members) + "/bank"

    def do_look(self, words):
        gone = int(words or 1) - 1
        place = self.place(gone)
        return self.answer(run("store", place), place, status=2 if gone > 7 else 3)

    def do_create(self, _):
        return self.serves("--new")

    def do_adopt(self, _):
        return self.serves("--store")

    def serves(self, option):
        place = self.place()
        return self.answer(run(*self.words("node", 1, [option, place, "--turns", "1"])[1:]), place)

    def do_begin(self, last):
        return self.runs("--new", "--after", last)

    def do_resume(self, _):
        return self.runs("--store")

    def runs(self, option, *more):
        place, node = self.place(), self.node(1, "--volatile")
        ran = self.asks(7, "reserve 1\nend\n", option, place, *more)
        node.kill()
        inc = re.fullmatch(r"reserved 7\.(\d+)\.1\nended\n", ran.output)
        return self.answer(ran._replace(output=inc[1] if inc else ran.output), place)

    def do_timed(self, words):
        begun = time.monotonic()
        answer = self.does(words)
        return f"{answer} {'yes' if time.monotonic() - begun < LIMIT else 'no'}"

    def do_gone(self, words):
        self.port, kept = free_ports(1)[0], self.port
        answer = self.does(words)
        self.port = kept
        return answer

    def does(self, command):
        name, _, words = command.partition(" ")
        return getattr(self, "do_" + name)(words)
