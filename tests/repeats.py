"""A waiting client repeats what it sent. The node's link answers these repeats, and its handler hears none of them."""
import socket
import struct

from systems import HELLO, LOCK, LOCKED, LOG, LOGGED, OPEN, OPENED, UNLOCK, UNLOCKED, WELCOME, System, equal_to, same, test, until

PLAYED = 8


class Held(System):
    """A node with a cell of 5, client 7, and a socket that plays client 8, datagram by datagram."""

    def __init__(self):
        super().__init__({1: (1, "cell", [5])}, {7: {}, PLAYED: {}})
        self.socket = socket.socket(socket.AF_INET, socket.SOCK_DGRAM)
        self.socket.bind(("127.0.0.1", self.ports["client", PLAYED][0]))
        self.socket.settimeout(0.5)
        self.node(1)
        self.waiting = self.client(7)
        # It is ready once it answers, though there is nothing to end.
        same("the reply to `end` without a block", self.waiting.ask("end"), "refused NoBlock")

    def plays(self, kind, reply, block=0, number=0, body=b""):
        """Sends a message until its reply comes."""
        frame = b"SQ" + struct.pack(">BBIIIIIH", 1, kind, 1, PLAYED, 1, block, number, len(body)) + body

        def reply_kind():
            self.socket.sendto(frame, ("127.0.0.1", self.ports["node", 1][0]))
            try:
                return self.socket.recv(2048)[3]
            except socket.timeout:
                return None

        until(f"a reply of kind {reply} to one of kind {kind}", reply_kind, equal_to(reply))

    def counts(self):
        """Datagrams that came to the node, and messages that its handler heard."""
        counts = self.shown(1)["counts"]
        return counts["datagrams_received"], sum(counts["heard"].values())

    def comes_to(self, count):
        until(f"{count} datagrams came to the node", lambda: self.counts()[0], lambda came: came >= count)

    def hears_no_repeats(self, line):
        """The client waits for the reply to this line. It repeats its datagram at least ten times, and the handler hears none."""
        before, _ = self.counts()
        self.waiting.tell(line + "\n")
        self.comes_to(before + 3)
        came, heard = self.counts()
        self.comes_to(came + 10)
        same("messages that the handler heard meanwhile", self.counts()[1] - heard, 0)


@test
def the_repeats_of_a_client_that_waits_for_a_lock_are_not_heard():
    with Held() as system:
        system.plays(HELLO, WELCOME)
        system.plays(LOCK, LOCKED, 1)
        system.hears_no_repeats("reserve 1")
        system.plays(UNLOCK, UNLOCKED, 1)
        system.waiting.expect("reserved 7.1.1")


@test
def the_repeats_of_a_client_that_waits_for_an_answer_are_not_heard():
    with Held() as system:
        system.plays(HELLO, WELCOME)
        for kind, reply in ((LOCK, LOCKED), (OPEN, OPENED), (UNLOCK, UNLOCKED)):
            system.plays(kind, reply, 1)
        system.waiting.ask("reserve 1", "reserved 7.1.1")
        system.hears_no_repeats("query 1 get")
        # The end of the block in front.
        system.plays(LOG, LOGGED, 1, 1, b"\x03")
        system.waiting.expect("answer 5")
