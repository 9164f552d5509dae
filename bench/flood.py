#!/usr/bin/env python3
"""Measures a client beside a flood: python3 bench/flood.py --program PATH [--seconds N] [--in-file] [--senders N]

A node has a cell. One client sets it in each of its blocks, first alone, and then while another party of the file sends the
node one greeting again and again, as fast as it can: by `sendmmsg`, 64 datagrams in a call. Prints the client's blocks a second, quiet and
in the flood, as a share of the quiet rate, the datagrams a second, and what became of them. The flood's replies go to a
socket that nobody reads. On a machine that others use too, take the best of several runs.
"""
import argparse, ctypes, json, multiprocessing, os, shutil, socket, struct, subprocess, sys, tempfile, time, urllib.request

from shared import free_ports

CLIENT, FLOODING = 7, 8


def greeting():
    return b"SQ" + struct.pack(">BBIIIIIH", 1, 1, 1, FLOODING, 1, 0, 0, 0)


class Vector(ctypes.Structure):
    _fields_ = [("base", ctypes.c_char_p), ("len", ctypes.c_size_t)]


class Header(ctypes.Structure):
    _fields_ = [("name", ctypes.c_void_p), ("name_len", ctypes.c_uint32), ("vectors", ctypes.POINTER(Vector)), ("count", ctypes.c_size_t),
                ("control", ctypes.c_void_p), ("control_len", ctypes.c_size_t), ("flags", ctypes.c_int), ("sent", ctypes.c_uint32)]


def flood(port, counted):
    """Sends the greeting, 64 datagrams in a call, until it is killed."""
    out = socket.socket(socket.AF_INET, socket.SOCK_DGRAM)
    out.connect(("127.0.0.1", port))
    data, calls = greeting(), ctypes.CDLL(None, use_errno=True)
    headers = (Header * 64)()
    for h in headers:
        h.vectors, h.count = ctypes.pointer(Vector(data, len(data))), 1
    while True:
        sent = calls.sendmmsg(out.fileno(), headers, 64, 0)
        counted.value += max(sent, 0)


class System:
    """A node with a cell, and the addresses of two clients."""

    def __init__(self, program, in_file):
        self.program, self.folder = program, tempfile.mkdtemp(prefix="flood")
        self.port, self.status, own, other = free_ports(4)
        self.sink = socket.socket(socket.AF_INET, socket.SOCK_DGRAM)
        self.sink.bind(("127.0.0.1", other))
        self.file = os.path.join(self.folder, "system.toml")
        with open(self.file, "w") as f:
            f.write(f'[[node]]\nnumber = 1\naddress = "127.0.0.1:{self.port}"\nstatus = "127.0.0.1:{self.status}"\n')
            f.write('[[handler]]\nnumber = 1\nnode = 1\nclass = "cell"\nwords = [0]\n')
            for number, port in ((CLIENT, own), (FLOODING, other)):
                f.write(f'[[client]]\nnumber = {number}\naddress = "127.0.0.1:{port}"\n')
        words = [program, "node", "1", "--system", self.file]
        words += ["--new", os.path.join(self.folder, "node.db")] if in_file else ["--volatile"]
        self.node = subprocess.Popen(words, stdout=subprocess.PIPE, stderr=subprocess.DEVNULL)
        self.node.stdout.readline()
        words = [program, "client", str(CLIENT), "--system", self.file, "--new", os.path.join(self.folder, "client.db")]
        self.client = subprocess.Popen(words, stdin=subprocess.PIPE, stdout=subprocess.PIPE)

    def blocks(self, seconds):
        """The client's blocks a second for so long, and the longest block."""
        done, longest, begun = 0, 0, time.perf_counter()
        now = begun
        while now < begun + seconds:
            self.client.stdin.write(b"reserve 1\ncall 1 set 1\nend\n")
            self.client.stdin.flush()
            for wanted in (b"reserved", b"logged", b"ended"):
                line = self.client.stdout.readline()
                if not line.startswith(wanted):
                    sys.exit(f"a block failed: {line}")
            last, now = now, time.perf_counter()
            done, longest = done + 1, max(longest, now - last)
        return done / (now - begun), longest

    def counts(self):
        with urllib.request.urlopen(f"http://127.0.0.1:{self.status}/status.json") as page:
            return json.load(page)["counts"]

    def end(self):
        for party in (self.client, self.node):
            party.kill()
            party.wait()
        shutil.rmtree(self.folder)


def measure(program, seconds, in_file, senders):
    system = System(program, in_file)
    system.blocks(0.5)
    quiet, longest = system.blocks(seconds)
    print(f"quiet: {quiet:.0f} blocks a second, the longest took {1000 * longest:.0f} ms")
    counted = [multiprocessing.Value("Q", lock=False) for _ in range(senders)]
    flooding = [multiprocessing.Process(target=flood, args=(system.port, c), daemon=True) for c in counted]
    for f in flooding:
        f.start()
    time.sleep(0.5)
    before, sent, begun = system.counts(), sum(c.value for c in counted), time.perf_counter()
    flooded, longest = system.blocks(seconds)
    taken, sent = time.perf_counter() - begun, sum(c.value for c in counted) - sent
    for f in flooding:
        f.kill()
        f.join()
    after = system.counts()
    system.end()
    print(f"in a flood of {sent / taken:.0f} datagrams a second: {flooded:.0f} blocks a second, {100 * flooded / quiet:.0f} % of the quiet rate, "
          f"the longest took {1000 * longest:.0f} ms")
    for name in after:
        if isinstance(after[name], int) and after[name] != before[name]:
            print(f"    {name}: {(after[name] - before[name]) / taken:.0f} a second")


if __name__ == "__main__":
    words = argparse.ArgumentParser(description=__doc__, formatter_class=argparse.RawDescriptionHelpFormatter)
    words.add_argument("--program", required=True)
    words.add_argument("--seconds", type=float, default=5)
    words.add_argument("--in-file", action="store_true")
    words.add_argument("--senders", type=int, default=1)
    given = words.parse_args()
    measure(os.path.abspath(given.program), given.seconds, given.in_file, given.senders)
