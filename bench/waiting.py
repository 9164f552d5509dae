#!/usr/bin/env python3
"""Measures waiting clients: python3 bench/waiting.py --program PATH [--waiters N] [--blocks N] [--in-file]

One node has an account. Clients wait for a balance that isn't there, each as a process of its own. One more client
reserves the account again and again, and pays at the end what the others wait for. Prints how long that client waits
for a block, how many tries a second a waiter makes, and how long the waiters take to see the payment.
"""
import argparse, os, random, shutil, statistics, subprocess, tempfile, time

from shared import free_ports

WANTED = 1000000


class System:
    """A node with an account, and clients."""

    def __init__(self, program, count, in_file):
        self.program, self.folder = program, tempfile.mkdtemp(prefix="waiting")
        ports = free_ports(count + 1)
        text = f'[[node]]\nnumber = 1\naddress = "127.0.0.1:{ports[0]}"\n'
        text += '[[handler]]\nnumber = 1\nnode = 1\nclass = "account"\nwords = [0]\n'
        for c in range(1, count + 1):
            text += f'[[client]]\nnumber = {c}\naddress = "127.0.0.1:{ports[c]}"\n'
        self.file = os.path.join(self.folder, "system.toml")
        with open(self.file, "w") as f:
            f.write(text)
        words = [program, "node", "1", "--system", self.file]
        words += ["--new", os.path.join(self.folder, "node.db")] if in_file else ["--volatile"]
        self.node = subprocess.Popen(words, stdout=subprocess.PIPE, stderr=subprocess.DEVNULL)
        self.node.stdout.readline()

    def client(self, number):
        words = [self.program, "client", str(number), "--system", self.file]
        words += ["--new", os.path.join(self.folder, f"client-{number}.db")]
        return subprocess.Popen(words, stdin=subprocess.PIPE, stdout=subprocess.PIPE)

    def end(self):
        self.node.kill()
        self.node.wait()
        shutil.rmtree(self.folder)


def does(client, line):
    """The answer to a line."""
    client.stdin.write(line.encode() + b"\n")
    client.stdin.flush()
    return client.stdout.readline().decode().strip()


def pays(client, amount):
    """One block. Returns how many seconds passed until it was open."""
    start = time.perf_counter()
    assert does(client, "reserve 1").startswith("reserved")
    opened = time.perf_counter() - start
    assert does(client, f"call 1 deposit {amount}").startswith("logged")
    assert does(client, "end") == "ended"
    return opened


def measure(system, waiters, blocks):
    payer = system.client(waiters + 1)
    pays(payer, 0)
    waiting = [system.client(c) for c in range(1, waiters + 1)]
    for client in waiting:
        assert does(client, f"reserve 1 when 1 balance least {WANTED} tries 1000000") == "noted"
    start = time.perf_counter()
    for client in waiting:
        client.stdin.write(b"end\n")
        client.stdin.flush()
    times = []
    for _ in range(blocks):
        time.sleep(random.uniform(0.02, 0.1))
        times.append(1000 * pays(payer, 1))
    elapsed = time.perf_counter() - start
    pays(payer, WANTED)
    paid = time.perf_counter()
    seen, tries = [], []
    for client in waiting:
        tries.append(int(client.stdout.readline().split()[1]))
        seen.append(1000 * (time.perf_counter() - paid))
    for client in waiting + [payer]:
        client.communicate()
    times.sort()
    print(f"{waiters} waiters, {blocks} blocks beside them in {elapsed:.1f} s")
    print(f"a block opens after {statistics.median(times):.1f} ms in the median, {times[-1]:.1f} ms at most")
    print(f"a waiter makes {max(tries) / elapsed:.1f} tries a second at most")
    print(f"the last waiter sees the payment after {max(seen):.0f} ms")


if __name__ == "__main__":
    words = argparse.ArgumentParser(description=__doc__, formatter_class=argparse.RawDescriptionHelpFormatter)
    words.add_argument("--program", required=True)
    words.add_argument("--waiters", type=int, default=8)
    words.add_argument("--blocks", type=int, default=100)
    words.add_argument("--in-file", action="store_true")
    given = words.parse_args()
    system = System(given.program, given.waiters + 1, given.in_file)
    try:
        measure(system, given.waiters, given.blocks)
    finally:
        system.end()
