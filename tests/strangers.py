"""What a system refuses: datagrams of other systems and lives, changed ones, unknown clients, open keys, stores of others."""
import hashlib
import os
import socket
import struct

from systems import Relay, System, equal_to, free_ports, holds, run, same, test, until

LINES = "reserve 1\ncall 1 set 5\nquery 1 get\nend\n"
HEAD = '[system]\nname = "bank"\nlife = 1\n'


class Sealed(System):
    """A node with a cell, and a client."""

    def __init__(self, relay=None):
        super().__init__({1: (1, "cell", [0])}, {7: {}}, HEAD, relay)
        self.make_key()
        self.serving = None

    def serves(self, file, *options):
        """The node ends, and begins anew with this file."""
        if self.serving:
            self.serving.kill()
        self.serving = self.node(1, *options, file=file)

    def is_answered(self, file, *options):
        ran = self.asks(7, LINES, *options, file=file)
        same("the client's status and replies", (ran.status, ran.output.splitlines()[1:]), (0, ["logged 1 1", "answer 5", "ended"]))

    def counts(self, name, wanted):
        """The node comes to this count."""
        until(f"{name} is {wanted}", lambda: self.shown(1)["counts"][name], equal_to(wanted))

    def send(self, datagrams):
        with socket.socket(socket.AF_INET, socket.SOCK_DGRAM) as out:
            for data in datagrams:
                out.sendto(data, ("127.0.0.1", self.ports["node", 1][0]))


def recorded():
    """The different datagrams of a client's run to a node, whose system and key stay."""
    system = Sealed(Relay())
    system.serves(system.file("node", 1), "--volatile")
    system.is_answered(system.file("client", 7))
    to_node = [data for data in system.relay.kept if data[3] in (1, 3, 6, 8, 10)]
    holds("a client sends a greeting, a Lock, an Open, an Unlock and a Log at least", len(to_node) >= 5, len(to_node))
    return system, to_node


def refuses(change_file=lambda text: text, changes=(lambda data: data,)):
    """A node of a changed file refuses and counts each of the recorded datagrams, changed, and serves its client all the same."""
    system, datagrams = recorded()
    with system:
        file = system.write("changed.toml", change_file(system.text()))
        system.serves(file, "--volatile")
        sent = [change(data) for change in changes for data in datagrams]
        system.send(sent)
        system.counts("seal_refused", len(sent))
        system.is_answered(file, "--new", system.path("again.db"))
        same("the refused datagrams in the end", system.shown(1)["counts"]["seal_refused"], len(sent))


@test
def datagrams_of_an_older_life_are_refused():
    refuses(lambda text: text.replace("life = 1\n", "life = 2\n"))


@test
def datagrams_of_another_system_are_refused():
    refuses(lambda text: text.replace('"bank"', '"shop"'))


@test
def a_changed_byte_is_refused():
    refuses(changes=[lambda data: data[:9] + bytes([data[9] ^ 1]) + data[10:]])


@test
def a_cut_tag_is_refused():
    refuses(changes=[lambda data: data[:-1], lambda data: data[:-16]])


@test
def invented_clients_are_dropped_and_counted():
    with Sealed() as system:
        system.key = None
        file = system.file("node", 1)
        system.serves(file, "--volatile")
        # A greeting by the table of frames: version 1, kind 1, handler 1, its client, incarnation 1, no block, no entry, no body.
        system.send([b"SQ" + struct.pack(">BBIIIIIH", 1, 1, 1, 100 + k, 1, 0, 0, 0) for k in range(64)])
        system.counts("unknown_client_messages", 64)
        system.is_answered(file)


@test
def a_key_that_others_can_read_is_refused():
    with Sealed() as system:
        os.chmod(system.key, 0o644)
        ran = run(*system.words("node", 1, ["--volatile"])[1:])
        same("the node's status and output", ran.result, (1, ""))
        for wanted in (f"scoop: {system.key}: others can read this key\n", f"chmod 600 {system.key}"):
            holds(f"it says {wanted!r}", wanted in ran.notes, ran.notes)


@test
def a_new_key_is_its_owners_alone_and_overwrites_nothing():
    with Sealed() as system:
        same("its rights", oct(os.stat(system.key).st_mode & 0o777), "0o600")
        with open(system.key) as file:
            before = file.read()
        holds("64 hex digits and a line feed", len(before) == 65 and before[64] == "\n" and bytes.fromhex(before), before)
        ran = run("key", system.key)
        same("the status and output of a second call", ran.result, (1, ""))
        holds("it says why", f"scoop: {system.key}: there is already such a file\n" in ran.notes, ran.notes)
        with open(system.key) as file:
            same("the key after that", file.read(), before)


def sums(store):
    """The content of a store, its log and the text beside it."""
    found = {}
    for end in ("", "-wal", ".system"):
        with open(store + end, "rb") as file:
            found[end] = hashlib.sha256(file.read()).hexdigest()
    return found


@test
def a_store_of_another_owner_is_refused_and_stays():
    with Sealed() as system:
        store, text = system.path("node-1.db"), system.text()
        system.serves(system.file("node", 1))
        system.is_answered(system.file("client", 7))
        system.serving.kill()
        before = sums(store)
        others = {
            "another node": ("2", text.replace("number = 1\naddress", "number = 2\naddress").replace("node = 1", "node = 2")),
            "another system": ("1", text.replace('"bank"', '"shop"')),
            "another life": ("1", text.replace("life = 1\n", "life = 2\n")),
            "another class": ("1", text.replace('"cell"', '"counter"')),
        }
        for case, (number, changed) in others.items():
            ran = run("node", number, "--system", system.write("other.toml", changed), "--store", store, "--key", system.key)
            same(f"{case}: status and output", ran.result, (3, ""))
            for wanted in (f"scoop: {store}: it is the store of another owner\n", "asks for"):
                holds(f"{case}: it says {wanted!r}", wanted in ran.notes, ran.notes)
            same(f"{case}: the store after that", sums(store), before)


@test
def a_store_without_its_text_goes_on_with_a_note():
    with Sealed() as system:
        store = system.path("node-1.db")
        system.serves(system.file("node", 1))
        system.is_answered(system.file("client", 7))
        system.serving.kill()
        os.remove(store + ".system")
        system.serves(system.file("node", 1))
        wanted = f"scoop: {store}.system: it was missing, and names the store's owner from now on\n"
        holds(f"it says {wanted!r}", wanted in system.serving.notes(), system.serving.notes())
        system.is_answered(system.file("client", 7))


@test
def a_store_that_another_program_has_open_is_refused():
    with Sealed() as system:
        system.serves(system.file("node", 1))
        # Its own addresses are in use too, so the second node has others.
        system.ports["node", 1], system.statuses[1] = free_ports(1), free_ports(1)[0]
        ran = run(*system.words("node", 1, [])[1:])
        same("the status and output of a second node", ran.result, (3, ""))
        for wanted in ("scoop: store: Refused\n", "has it open", "end that one"):
            holds(f"it says {wanted!r}", wanted in ran.notes, ran.notes)
