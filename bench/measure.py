#!/usr/bin/env python3
"""Measures the program by itself: python3 bench/measure.py [--program PATH] [--rounds N] [--scale F] [--work NAME ..]
[--beside PATH]

Makes its inputs from fixed seeds, runs the program on each in turn for several rounds, and prints a row for each: the
lines or events of the input, the least and the median time for one of them, the processor time and the peak of memory.
On a machine that others use too, trust the least times. --keep FOLDER leaves the inputs, --store adds a run over a file.
--beside runs another program in turn with this one, compares their output, and prints its time by this one's, by the least
and the median times: above 1, this one is faster.
"""
import argparse
import os
import random
import statistics
import struct
import subprocess
import sys
import tempfile
import time

TOP = os.path.dirname(os.path.dirname(os.path.abspath(__file__)))
HELLO, LOCK, OPEN, UNLOCK, LOG = 1, 3, 6, 8, 10
ACCOUNT = ['answer', '--class', 'account', '--word', '1000', '--words']


# ---- frames, as docs/PROTOCOL.md has them

def frame(kind, client, inc=1, block=0, number=0, body=b'', version=1, handler=1):
    return b'SQ' + struct.pack('>BBIIIIIH', version, kind, handler, client, inc, block, number, len(body)) + body


def entry(operation=None, *arguments, query=False):
    """A call, a query, or the end of a block where no operation is given."""
    if operation is None:
        return b'\x03'
    return struct.pack('>BHB', 2 if query else 1, operation, len(arguments)) + b''.join(
        struct.pack('>Q', argument) for argument in arguments)


DEPOSIT, WITHDRAW, BALANCE = 1, 2, 3


# ---- the inputs

def locks(count, chance):
    """Clients ask one handler for its lock and give it back; some find it busy, some messages come twice or late."""
    clients = range(1, 65)
    lines = [frame(HELLO, client) for client in clients]
    block, holder, late = dict.fromkeys(clients, 0), None, []
    while len(lines) < count:
        client = chance.choice(clients)
        if holder is None:
            block[client] += 1
            holder = client
            sent = frame(LOCK, client, block=block[client])
        elif chance.random() < 0.7:
            sent = frame(UNLOCK, holder, block=block[holder])
            holder = None
        elif client != holder:
            sent = frame(LOCK, client, block=block[client] + 1)
        else:
            continue
        lines.append(sent)
        if chance.random() < 0.05:
            late.append(sent)
        if late and chance.random() < 0.05:
            lines.append(late.pop(chance.randrange(len(late))))
    return lines[:count]


def blocks(count, chance):
    """Whole blocks with calls and a query, half of them in batches."""
    clients = range(1, 61)
    lines = [frame(HELLO, client) for client in clients]
    block = dict.fromkeys(clients, 0)
    while len(lines) < count:
        client = chance.choice(clients)
        block[client] += 1
        at = dict(client=client, block=block[client])
        lines += [frame(kind, **at) for kind in (LOCK, OPEN, UNLOCK)]
        entries = [entry(DEPOSIT, chance.randrange(100)), entry(WITHDRAW, chance.randrange(100)),
                   entry(BALANCE, query=True)]
        if chance.random() < 0.5:
            lines.append(frame(LOG, number=1, body=b'\x03' + b''.join(entries), version=2, **at))
            asked = lines[-1]
        else:
            lines += [frame(LOG, number=n, body=e, **at) for n, e in enumerate(entries, 1)]
            asked = lines[-1]
        lines += [asked, frame(LOG, number=4, body=entry(), **at)]
    return lines[:count]


def odd(count, chance):
    """Frames cut, lengthened, changed, foreign, early or repeated."""
    good = locks(1 + count // 4, chance) + blocks(1 + count // 4, chance)
    lines = []
    for _ in range(count):
        sent = bytearray(chance.choice(good))
        kind = chance.randrange(6)
        if kind == 0:
            del sent[chance.randrange(len(sent)):]
        elif kind == 1:
            sent += bytes(chance.randrange(1, 40))
        elif kind < 5:
            sent[chance.randrange(len(sent))] = chance.randrange(256)
        lines.append(bytes(sent))
    return lines


def world(count, chance):
    """Joint blocks of clients over handlers of three nodes, with restarts and messages that come again."""
    lines = ['handler %d %d account 1000' % (1 + h % 3, h) for h in range(1, 9)]
    lines += ['client %d %d' % (c, 1 + c % 4) for c in range(1, 9)]
    placed = len(lines)
    lines += ['trip %d %d' % (c, h) for c in range(1, 9) for h in range(1, 9)]
    while len(lines) - placed < count:
        client = chance.randrange(1, 9)
        pair = sorted(chance.sample(range(1, 9), 2))
        both = ['trip %d %d' % (client, h) for h in pair]
        lines.append('reserve %d %d %d' % (client, *pair))
        lines += both * 3
        for h in pair:
            lines.append('call %d %d %d %d' % (client, h, chance.choice((DEPOSIT, WITHDRAW)), chance.randrange(50)))
        lines += both + ['run %d' % h for h in pair]
        lines.append('query %d %d %d' % (client, pair[0], BALANCE))
        lines += [both[0], 'run %d' % pair[0], both[0], 'end %d' % client] + both + ['run %d' % h for h in pair]
        if chance.random() < 0.1:
            lines.append('take %d' % chance.randrange(1, 200))
        if chance.random() < 0.01:
            lines.append('restart node %d' % chance.randrange(1, 4))
    return lines[:placed + count]


# ---- running

class Input:
    def __init__(self, name, arguments, lines, folder):
        self.name, self.arguments, self.units = name, arguments, len(lines)
        self.path = os.path.join(folder, name)
        with open(self.path, 'w') as file:
            file.writelines((line if isinstance(line, str) else line.hex()) + '\n' for line in lines)


def run(program, given, arguments):
    """Seconds, processor seconds and KiB of one run."""
    with open(given.path) as lines:
        start = time.perf_counter()
        child = subprocess.Popen([program] + arguments, stdin=lines, stdout=subprocess.DEVNULL)
        _, status, used = os.wait4(child.pid, 0)
        wall = time.perf_counter() - start
    child.returncode = os.waitstatus_to_exitcode(status)
    if child.returncode != 0:
        sys.exit('%s: the program ended with status %d' % (given.name, child.returncode))
    return wall, used.ru_utime + used.ru_stime, used.ru_maxrss


def row(name, units, runs):
    walls = [wall for wall, _, _ in runs]
    print('| %s | %d | %.0f | %.0f | %.0f | %.1f |' % (
        name, units, min(walls) / units * 1e9, statistics.median(walls) / units * 1e9,
        min(cpu for _, cpu, _ in runs) / units * 1e9, max(peak for _, _, peak in runs) / 1024), flush=True)


def beside(given, program, other, rounds):
    """Runs of both programs in turn, the first one changing. Ends where their outputs differ."""
    runs = [[], []]
    for number in range(rounds):
        for which in (0, 1) if number % 2 else (1, 0):
            runs[which].append(run((program, other)[which], given, given.arguments))
    outputs = {output(it, given) for it in (program, other)}
    if len(outputs) > 1:
        sys.exit('%s: the programs print other lines' % given.name)
    return runs


def output(program, given):
    with open(given.path) as lines:
        return subprocess.run([program] + given.arguments, stdin=lines, capture_output=True, check=True).stdout


def compare(name, ours, others):
    walls = [[wall for wall, _, _ in runs] for runs in (ours, others)]
    print('| %s, other by this | | %.3f | %.3f | %.3f | |' % (
        name, min(walls[1]) / min(walls[0]), statistics.median(walls[1]) / statistics.median(walls[0]),
        min(cpu for _, cpu, _ in others) / min(cpu for _, cpu, _ in ours)), flush=True)


def main():
    parser = argparse.ArgumentParser(description=__doc__, formatter_class=argparse.RawDescriptionHelpFormatter)
    parser.add_argument('--program', default=os.path.join(TOP, 'crates', 'scoop', 'out', 'scoop'))
    parser.add_argument('--rounds', type=int, default=5)
    parser.add_argument('--scale', type=float, default=1.0)
    parser.add_argument('--work', nargs='*', default=['locks', 'blocks', 'odd', 'world'])
    parser.add_argument('--beside')
    parser.add_argument('--keep')
    parser.add_argument('--store', action='store_true')
    options = parser.parse_args()
    kinds = {'locks': (locks, 900_000, ACCOUNT), 'blocks': (blocks, 250_000, ACCOUNT),
             'odd': (odd, 300_000, ACCOUNT), 'world': (world, 64_000, ['world'])}
    with tempfile.TemporaryDirectory() as folder:
        folder = options.keep or folder
        os.makedirs(folder, exist_ok=True)
        print('| Input | Lines | Least ns a line | Median ns | Processor ns | Peak MiB |\n|---|---|---|---|---|---|')
        for name in options.work:
            make, count, arguments = kinds[name]
            given = Input(name, arguments, make(int(count * options.scale), random.Random(name)), folder)
            if options.beside:
                ours, others = beside(given, options.program, options.beside, options.rounds)
                row(name, given.units, ours)
                compare(name, ours, others)
            else:
                row(name, given.units, [run(options.program, given, arguments) for _ in range(options.rounds)])
        if options.store:
            given = Input('stored', ACCOUNT, blocks(int(5_000 * options.scale), random.Random('stored')), folder)
            runs = []
            for number in range(options.rounds):
                store = os.path.join(folder, 'store.%d' % number)
                runs.append(run(options.program, given, ACCOUNT + ['--new', store]))
            row('blocks over a file', given.units, runs)


if __name__ == '__main__':
    main()
