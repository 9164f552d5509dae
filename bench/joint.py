#!/usr/bin/env python3
"""Measures running systems: python3 bench/joint.py [--program PATH] [--blocks N] [--journals | --pairs | --etcd | --erlang]

Two nodes as processes of their own, with a cell each, and clients that set both cells in each of their blocks: how many
blocks a second one client gets and eight get together, with the record in memory and in a file; how many blocks with one
query, and how many queries, a second one client gets; what one client gets while a flood of repeated datagrams comes to one
node; and beside them bare round trips of a datagram between two processes, and the same joint blocks in Erlang
(`erlang_joint.escript`), where `escript` is there. `--etcd` puts the nodes' records into an etcd of three members, which it starts
(`tests/etcd.py`), beside records in files. On a machine that others use too, take the best of
several runs.
"""
import argparse, itertools, multiprocessing, os, re, shutil, socket, struct, subprocess, sys, tempfile, threading, time

from shared import Cluster, free_ports

TOP = os.path.dirname(os.path.dirname(os.path.abspath(__file__)))
NODES, CLIENTS = [1, 2], range(11, 20)
# Each system in an etcd has a name of its own there.
NAMES = itertools.count(1)


class System:
    """Two nodes, with their record in memory, in files or in an etcd at this address, and this many pairs of handlers, one of
    each pair on each node. All parties may write journals."""

    def __init__(self, program, in_file, journals=False, pairs=1, batch=1, etcd=None):
        self.program, self.folder, self.journals = program, tempfile.mkdtemp(prefix="joint"), journals
        name = f"joint-{next(NAMES)}"
        ports = free_ports(len(NODES) + len(CLIENTS))
        self.ports = ports
        text = ""
        for n in NODES:
            text += f'[[node]]\nnumber = {n}\naddress = "127.0.0.1:{ports[n - 1]}"\n'
            for pair in range(pairs):
                text += f'[[handler]]\nnumber = {2 * pair + n}\nnode = {n}\nclass = "cell"\nwords = [0]\n'
        for i, c in enumerate(CLIENTS):
            text += f'[[client]]\nnumber = {c}\naddress = "127.0.0.1:{ports[2 + i]}"\nbatch = {batch}\n'
        self.file = os.path.join(self.folder, "system.toml")
        with open(self.file, "w") as f:
            f.write(text)
        self.nodes = []
        for n in NODES:
            words = [program, "node", str(n), "--system", self.file]
            if etcd:
                words += ["--new", f"{etcd}/{name}"]
            else:
                words += ["--new", os.path.join(self.folder, f"node-{n}.db")] if in_file else ["--volatile"]
            words += self.journal(f"node-{n}")
            node = subprocess.Popen(words, stdout=subprocess.PIPE, stderr=subprocess.DEVNULL)
            node.stdout.readline()
            self.nodes.append(node)

    def journal(self, name):
        return ["--journal", os.path.join(self.folder, f"{name}.journal")] if self.journals else []

    def run_clients(self, clients, lines, pairs=1):
        """How long the clients take together for these lines of pair 0, the time in which they begin left out. With several pairs
        each client has its own."""
        begun = []
        for place, c in enumerate(clients):
            first = 2 * (place % pairs) + 1
            words = [self.program, "client", str(c), "--system", self.file]
            words += ["--new", os.path.join(self.folder, f"client-{c}.db")] + self.journal(f"client-{c}")
            p = subprocess.Popen(words, stdin=subprocess.PIPE, stdout=subprocess.PIPE)
            # it has greeted once its first block has ended
            p.stdin.write(f"reserve {first} {first + 1}\nend\n".encode())
            p.stdin.flush()
            p.stdout.readline(), p.stdout.readline()
            begun.append(p)
        start = time.perf_counter()
        readers = [
            threading.Thread(target=p.communicate, args=(lines(2 * (place % pairs) + 1),)) for place, p in enumerate(begun)
        ]
        for r in readers:
            r.start()
        for r in readers:
            r.join()
        taken = time.perf_counter() - start
        if any(p.returncode for p in begun):
            sys.exit("a client failed")
        return taken

    def end(self):
        for node in self.nodes:
            node.kill()
            node.wait()
        shutil.rmtree(self.folder)


def blocks(count):
    """Joint blocks that set both cells of the pair that begins with this handler."""
    return lambda h: f"reserve {h} {h + 1}\ncall {h} set 1\ncall {h + 1} set 1\nend\n".encode() * count


def asking(count):
    """Blocks over two handlers with one query, whose answer travels as the reply to the repeated question."""
    return lambda h: b"reserve 1 2\nquery 1 get\nend\n" * count


def queries(count):
    return lambda h: b"reserve 1\n" + b"query 1 get\n" * count + b"end\n"


def flood(port, stopped, counted):
    """Sends one greeting again and again, as fast as it goes. Nobody is at the client's address."""
    out = socket.socket(socket.AF_INET, socket.SOCK_DGRAM)
    data = b"SQ" + struct.pack(">BBIIIIIH", 1, 1, 1, 19, 1, 0, 0, 0)
    while not stopped.is_set():
        out.sendto(data, ("127.0.0.1", port))
        counted[0] += 1


def echo(port):
    """Sends back what comes, for ever."""
    back = socket.socket(socket.AF_INET, socket.SOCK_DGRAM)
    back.bind(("127.0.0.1", port))
    while True:
        data, address = back.recvfrom(2048)
        back.sendto(data, address)


def round_trips(count):
    """How long so many round trips of 26 bytes take, to another process and back."""
    [port] = free_ports(1)
    other = multiprocessing.Process(target=echo, args=(port,), daemon=True)
    other.start()
    out = socket.socket(socket.AF_INET, socket.SOCK_DGRAM)
    out.settimeout(0.1)
    begun, left = None, count
    while left > 0:
        out.sendto(bytes(26), ("127.0.0.1", port))
        try:
            out.recv(2048)
        except OSError:
            continue
        if begun is None:
            begun = time.perf_counter()
        else:
            left -= 1
    taken = time.perf_counter() - begun
    other.kill()
    return taken


def tell(what, count, taken):
    print(f"{what:55} {count / taken:9.0f} a second")
    sys.stdout.flush()


def journals(program, count):
    """What journals cost: joint blocks with and without them, in turn, five times."""
    for some in (1, 8):
        best = [0, 0]
        for _ in range(5):
            for with_them in (0, 1):
                system = System(program, False, bool(with_them))
                taken = system.run_clients(list(CLIENTS)[:some], blocks(count // some))
                best[with_them] = max(best[with_them], count // some * some / taken)
                system.end()
        for with_them, what in ((0, "without"), (1, "with")):
            print(f"joint blocks, {some} clients, {what} journals, best of 5: {best[with_them]:.0f} a second")
        print(f"    journals cost {100 - 100 * best[1] / best[0]:.1f} %")
        sys.stdout.flush()


def pairs(program, count, etcd=None):
    """Joint blocks in files, and in an etcd if there is one, of one client and of eight with a pair of handlers each, in turn,
    five times."""
    places = {"in files": None, **({"over etcd": etcd} if etcd else {})}
    rates = {(where, some): [] for where in places for some in (1, 8)}
    for _ in range(5):
        for (where, some), found in rates.items():
            system = System(program, True, pairs=8, etcd=places[where])
            taken = system.run_clients(list(CLIENTS)[:some], blocks(count // some), pairs=8)
            found.append(count // some * some / taken)
            system.end()
    for (where, some), found in rates.items():
        found.sort()
        print(f"joint blocks {where}, {some} clients, a pair each: best {found[-1]:.0f} a second, median {found[2]:.0f}")
    for where in places:
        one, eight = rates[where, 1], rates[where, 8]
        print(f"    {where} eight do {eight[-1] / one[-1]:.2f} times as many (medians {eight[2] / one[2]:.2f})")


def over_etcd(program, count):
    """Joint blocks over an etcd of three members, beside those in files."""
    folder = tempfile.mkdtemp(prefix="etcd")
    with Cluster(folder) as cluster:
        pairs(program, count, cluster.address)
    shutil.rmtree(folder)


def rate_in_erlang(some, count):
    words = ["escript", os.path.join(TOP, "bench/erlang_joint.escript"), str(some), str(count // some)]
    told = subprocess.run(words, check=True, capture_output=True, text=True).stdout
    return int(re.search(r"clients: (\d+) joint", told).group(1))


def erlang(program, count):
    """Joint blocks in memory beside Erlang's `global:trans`, in turn, five times: with one entry in a Log, and with up to four."""
    for some in (1, 8):
        rates = {"batch 1": [], "batch 4": [], "Erlang": []}
        for _ in range(5):
            for batch in (1, 4):
                system = System(program, False, batch=batch)
                taken = system.run_clients(list(CLIENTS)[:some], blocks(count // some))
                rates[f"batch {batch}"].append(count // some * some / taken)
                system.end()
            rates["Erlang"].append(rate_in_erlang(some, count // (1 if some == 1 else 4)))
        for what, found in rates.items():
            found.sort()
            print(f"joint blocks in memory, {some} clients, {what}: best {found[-1]:.0f} a second, median {found[2]:.0f}")
        peer = rates["Erlang"]
        for what in ("batch 1", "batch 4"):
            found = rates[what]
            print(f"    {what} does {found[-1] / peer[-1]:.2f} times as many as Erlang (medians {found[2] / peer[2]:.2f})")
        sys.stdout.flush()


def main():
    parser = argparse.ArgumentParser()
    parser.add_argument("--program", default=os.path.join(TOP, "crates/scoop/out/scoop"))
    parser.add_argument("--blocks", type=int, default=500)
    parser.add_argument("--journals", action="store_true", help="measures what journals cost, and nothing else")
    parser.add_argument("--pairs", action="store_true", help="measures clients with handlers of their own over files, and nothing else")
    parser.add_argument("--etcd", action="store_true", help="measures the same over an etcd of three members too, and nothing else")
    parser.add_argument("--erlang", action="store_true", help="measures beside Erlang's global:trans, and nothing else")
    given = parser.parse_args()
    program, count = os.path.abspath(given.program), given.blocks
    if given.journals:
        return journals(program, count)
    if given.pairs:
        return pairs(program, count)
    if given.etcd:
        return over_etcd(program, count)
    if given.erlang:
        return erlang(program, count)
    for in_file in (False, True):
        where = "file" if in_file else "memory"
        for some in (1, 8):
            system = System(program, in_file)
            clients = list(CLIENTS)[:some]
            taken = system.run_clients(clients, blocks(count // some))
            tell(f"joint blocks, {some} clients, record in {where}", count // some * some, taken)
            system.end()
        system = System(program, in_file)
        taken = system.run_clients([11], asking(count))
        tell(f"joint blocks with one query, 1 client, record in {where}", count, taken)
        system.end()
        system = System(program, in_file)
        taken = system.run_clients([11], queries(count))
        tell(f"queries in one block, 1 client, record in {where}", count, taken)
        system.end()
    system = System(program, False)
    stopped, counted = threading.Event(), [0]
    flooding = threading.Thread(target=flood, args=(system.ports[0], stopped, counted))
    flooding.start()
    start = time.perf_counter()
    taken = system.run_clients([11], blocks(count // 5))
    stopped.set()
    flooding.join()
    tell("joint blocks, 1 client, record in memory, in a flood", count // 5, taken)
    print(f"    of {counted[0] / (time.perf_counter() - start):.0f} datagrams a second")
    system.end()
    tell("bare round trips of a datagram, one at a time", count * 10, round_trips(count * 10))
    if shutil.which("escript"):
        for some in ("1", "8"):
            subprocess.run(["escript", os.path.join(TOP, "bench/erlang_joint.escript"), some, str(count // int(some))], check=True)


if __name__ == "__main__":
    main()
