#!/usr/bin/env python3
"""Measures what checks cost: python3 bench/cost.py [--until PID | --for SECONDS] [--out FILE]

Looks twice a second at the prover's processes of this machine while a gate or a build runs, and prints a row for each
crate: processor seconds of its proof, of its tests and of its mutations, and the peak of memory of one process. Other
runs on the same machine are counted too. Ctrl-C ends it early.
"""
import argparse
import os
import time
from collections import defaultdict

TICKS = os.sysconf('SC_CLK_TCK')
PAGE = os.sysconf('SC_PAGE_SIZE')
PROVER = '/rattle'


def kind_of(folder, words):
    """What the process checks: a mutation stands in a folder of its own, which the gate makes."""
    if '/rt-edit-' in folder:
        return 'mutations'
    return 'tests' if '--test' in words else 'proof'


def look(seen):
    for pid in filter(str.isdigit, os.listdir('/proc')):
        try:
            with open(f'/proc/{pid}/cmdline', 'rb') as it:
                words = it.read().decode(errors='replace').split('\0')
            if not words[0].endswith(PROVER) or '--crate-name' not in words:
                continue
            folder = os.readlink(f'/proc/{pid}/cwd')
            with open(f'/proc/{pid}/stat') as it:
                fields = it.read().rsplit(') ', 1)[1].split()
        except OSError:
            continue
        name = words[words.index('--crate-name') + 1]
        seconds = (int(fields[11]) + int(fields[12])) / TICKS
        key = (pid, fields[19])
        old = seen.get(key, (name, kind_of(folder, words), 0, 0))
        seen[key] = (*old[:2], max(old[2], seconds), max(old[3], int(fields[21]) * PAGE))


def rows(seen):
    sums, peaks = defaultdict(lambda: defaultdict(float)), defaultdict(int)
    for name, kind, seconds, memory in seen.values():
        sums[name][kind] += seconds
        peaks[name] = max(peaks[name], memory)
    order = sorted(sums, key=lambda it: -sum(sums[it].values()))
    yield '| Crate | Proof, s | Tests, s | Mutations, s | Peak, MB |'
    yield '|---|---|---|---|---|'
    for name in order:
        parts = [f'{sums[name][kind]:.0f}' for kind in ('proof', 'tests', 'mutations')]
        yield f'| {name} | {" | ".join(parts)} | {peaks[name] / 1e6:.0f} |'
    whole = sum(sum(it.values()) for it in sums.values())
    yield f'together {whole:.0f} s, {whole / 60:.0f} processor minutes'


def main():
    flags = argparse.ArgumentParser(description=__doc__, formatter_class=argparse.RawDescriptionHelpFormatter)
    flags.add_argument('--until', type=int, help='ends when this process has ended')
    flags.add_argument('--for', type=float, dest='seconds', help='ends after this many seconds')
    flags.add_argument('--out', help='writes the rows to this file too, every minute')
    given = flags.parse_args()
    seen, began, written = {}, time.monotonic(), 0
    try:
        while not (given.until and not os.path.exists(f'/proc/{given.until}')):
            look(seen)
            now = time.monotonic() - began
            if given.seconds and now > given.seconds:
                break
            if given.out and now > written + 60:
                written = now
                with open(given.out, 'w', encoding='utf-8') as it:
                    it.write('\n'.join(rows(seen)) + '\n')
            time.sleep(0.5)
    except KeyboardInterrupt:
        pass
    print('\n'.join(rows(seen)))


if __name__ == '__main__':
    main()
