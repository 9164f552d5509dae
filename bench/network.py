#!/usr/bin/env python3
"""Measures a system behind a proxy that delays and loses: python3 bench/network.py [--program PATH] [--blocks N] [CASE ..]

A case is RTT:LOSS, in milliseconds and percent; without one these are 100:0, 100:5 and 10:5. Two nodes have a cell each, and
one client sets both in each block. The script prints the round trips of a block, and the datagrams from the client and to
it, each also as a multiple of the different ones, which are those that are due. `--beside` adds a client on the loopback
that works on the same handlers at the same time.
"""
import argparse, os, shutil, statistics, subprocess, sys, tempfile, time

from shared import free_ports
from proxy import Proxy

TOP = os.path.dirname(os.path.dirname(os.path.abspath(__file__)))
FAR, NEAR = 11, 12


def system_text(nodes, clients, head, batch):
    text = head
    for n, port in nodes.items():
        text += f'[[node]]\nnumber = {n}\naddress = "127.0.0.1:{port}"\n'
        text += f'[[handler]]\nnumber = {n}\nnode = {n}\nclass = "cell"\nwords = [0]\n'
    for c, port in clients.items():
        text += f'[[client]]\nnumber = {c}\naddress = "127.0.0.1:{port}"\nbatch = {batch}\n'
    return text


class Network:
    """Nodes and clients, of which the far one and the nodes reach each other through a proxy."""

    def __init__(self, program, rtt, loss, head, batch, options):
        self.program, self.folder, self.options = program, tempfile.mkdtemp(prefix="network"), list(options)
        self.ports = p = free_ports(7)
        self.proxy = Proxy({p[4]: p[0], p[5]: p[1], p[6]: p[2]}, rtt, loss)
        self.proxy.start()
        self.near = self.write("near", system_text({1: p[0], 2: p[1]}, {FAR: p[6], NEAR: p[3]}, head, batch))
        self.far = self.write("far", system_text({1: p[4], 2: p[5]}, {FAR: p[2], NEAR: p[3]}, head, batch))
        self.nodes = [self.start("node", n, self.near) for n in (1, 2)]

    def write(self, name, text):
        path = os.path.join(self.folder, name + ".toml")
        with open(path, "w") as f:
            f.write(text)
        return path

    def start(self, what, number, file):
        words = [self.program, what, str(number), "--system", file] + self.options
        words += ["--new", os.path.join(self.folder, f"client-{number}.db")] if what == "client" else ["--volatile"]
        party = subprocess.Popen(words, stdin=subprocess.PIPE, stdout=subprocess.PIPE, stderr=subprocess.DEVNULL)
        if what == "client":
            # it has greeted once it answers, though there is nothing to end
            party.stdin.write(b"end\n")
            party.stdin.flush()
        party.stdout.readline()
        return party

    def counts(self):
        ports = self.ports[4:]
        came = [self.proxy.came[p] for p in ports]
        kinds = [len(self.proxy.kinds[p]) for p in ports]
        return came[0] + came[1], came[2], kinds[0] + kinds[1], kinds[2]

    def end(self):
        self.proxy.stopped = True
        self.proxy.join()
        for node in self.nodes:
            node.kill()
            node.wait()
        shutil.rmtree(self.folder)


def block(client):
    """Seconds of one joint block of this client."""
    begun = time.perf_counter()
    client.stdin.write(b"reserve 1 2\ncall 1 set 1\ncall 2 set 1\nend\n")
    client.stdin.flush()
    for wanted in [b"reserved", b"logged", b"logged", b"ended"]:
        line = client.stdout.readline()
        if not line.startswith(wanted):
            sys.exit(f"a block failed: {line}")
    return time.perf_counter() - begun


def measure(program, rtt, loss, count, *words):
    network = Network(program, rtt, loss, *words)
    client = network.start("client", FAR, network.far)
    time.sleep(0.3)
    before = network.counts()
    taken = [1000 * block(client) / rtt for _ in range(count)]
    out, back, due_out, due_back = (b - a for a, b in zip(before, network.counts()))
    client.kill()
    client.wait()
    network.end()
    print(f"{rtt:g} ms, {loss:g} % loss: {statistics.mean(taken):.1f} round trips a block (median {statistics.median(taken):.1f}); "
          f"{out / count:.1f} datagrams out, {out / due_out:.2f} times the due ones; {back / count:.1f} back, {back / due_back:.2f} times")
    sys.stdout.flush()


def beside(program, rtt, seconds, *words):
    """A client behind the proxy and one on the loopback, on the same handlers: the blocks that each gets."""
    network = Network(program, rtt, 0, *words)
    import threading
    counts = {}

    def work(number, file):
        client = network.start("client", number, file)
        counts[number], until = 0, time.perf_counter() + seconds
        while time.perf_counter() < until:
            block(client)
            counts[number] += 1
        client.kill()
        client.wait()

    threads = [threading.Thread(target=work, args=a) for a in ((FAR, network.far), (NEAR, network.near))]
    for t in threads:
        t.start()
    for t in threads:
        t.join()
    network.end()
    print(f"together for {seconds} s: {counts[FAR]} blocks behind {rtt:g} ms, {counts[NEAR]} on the loopback")


def main():
    parser = argparse.ArgumentParser()
    parser.add_argument("--program", default=os.path.join(TOP, "crates/scoop/out/scoop"))
    parser.add_argument("--blocks", type=int, default=40)
    parser.add_argument("--batch", type=int, default=4, help="the most calls that a client sends in one datagram")
    parser.add_argument("--head", default="", help="text at the head of the system's file, as its [system]")
    parser.add_argument("--key", help="the file of a key")
    parser.add_argument("--beside", type=float, metavar="SECONDS")
    parser.add_argument("cases", nargs="*", default=["100:0", "100:5", "10:5"])
    given = parser.parse_args()
    program, options = os.path.abspath(given.program), ["--key", given.key] if given.key else []
    for case in given.cases:
        rtt, loss = (float(x) for x in case.split(":"))
        measure(program, rtt, loss, given.blocks, given.head, given.batch, options)
    if given.beside:
        beside(program, 100, given.beside, given.head, given.batch, options)


if __name__ == "__main__":
    main()
