#!/usr/bin/env python3
"""Refuses each allocation of a store's calls in turn: python3 tests/refused.py [--work FOLDER] [--coarse N] [CALL ..]

`rt try` builds the program tests/refused.rt.txt, and runs it once for each refused allocation. To find a call's
allocations in a run, each N-th one is refused first. Then each one is refused, from before the first that the call
answered to past the last. A row for each call tells how its runs came out. A run that came out badly is printed, and
then the status is 1.

CALL is create, adopt, migrate, put, load or next; without one, all six are made. --work FOLDER leaves all that was printed
there. It takes half an hour of processor time for all six.
"""
import argparse
import collections
import os
import shutil
import subprocess
import sys
import tempfile

TOP = os.path.dirname(os.path.dirname(os.path.abspath(__file__)))
CALLS = ['create', 'adopt', 'migrate', 'put', 'load', 'next']
USES = '\nrefused: scoop_message scoop_handler scoop_record sqlite anyhow\n'
# The allocation that is refused, counted from the program's start. The program first makes so many that it is the wanted
# one of the call.
REFUSED = 10_000
# More than any of these runs makes after those.
MANY = 1_600

# How a run may come out. In the first the program itself couldn't read its file.
UNREAD, ABSORBED, WANTED, BAD = 'not begun', 'answered all the same', 'answered OutOfMemory', 'BAD'


def program():
    """The text of the program."""
    with open(os.path.join(TOP, "tests", "refused.rt.txt")) as text:
        return text.read()


def build_tree(folder):
    """A repository of the program and the crates below it: the program's folder."""
    crates = os.path.join(folder, 'crates')
    shutil.copytree(os.path.join(TOP, 'crates'), crates, ignore=shutil.ignore_patterns('out', 'proofs'), dirs_exist_ok=True)
    source = os.path.join(crates, 'refused', 'src')
    os.makedirs(source, exist_ok=True)
    with open(os.path.join(TOP, 'crates.txt')) as known, open(os.path.join(folder, 'crates.txt'), 'w') as listed:
        listed.write(known.read() + USES)
    with open(os.path.join(source, 'main.rt'), 'w') as main:
        main.write(program())
    return os.path.join(crates, 'refused')


def run(crate, log, trials):
    """What each trial printed, last its status, by call and number of the allocation that is refused."""
    found, lines = {}, []
    with tempfile.TemporaryDirectory(prefix='refused-') as cases, open(log, 'w') as kept:
        for call, number in trials:
            with open(os.path.join(cases, '%s-%05d' % (call, number)), 'w') as case:
                case.write('%d %d\n' % (CALLS.index(call), REFUSED - number))
        words = ['rt', 'try', '--fail-alloc', str(REFUSED), '--cases', cases, '--', '{}']
        child = subprocess.Popen(words, cwd=crate, text=True, stdout=subprocess.PIPE, stderr=subprocess.STDOUT)
        for line in child.stdout:
            kept.write(line)
            kept.flush()
            line = line.strip()
            if line.startswith('== '):
                lines = []
            elif line.startswith('case='):
                call, number = line.split()[0][len('case='):].split('-')
                found[call, int(number)] = lines + [line]
            elif line and not line.startswith('allocations:'):
                lines.append(line)
        child.wait()
    if len(found) != len(trials):
        sys.exit('%d of %d runs came to an end: see %s' % (len(found), len(trials), log))
    return found


def outcome(said, unrefused):
    """How a run came out, by what it printed and what a run with nothing refused does."""
    *told, status = said
    if told == ['Error: memory allocation failed']:
        return UNREAD
    if 'run=ended status=0' not in status or told[-1:] != unrefused[:-1]:
        return BAD
    if len(told) == 1:
        return ABSORBED
    return WANTED if len(told) == 2 and told[0].endswith(' OutOfMemory') else BAD


def main():
    words = argparse.ArgumentParser(description=__doc__, formatter_class=argparse.RawDescriptionHelpFormatter)
    words.add_argument('calls', nargs='*', metavar='CALL')
    words.add_argument('--work')
    words.add_argument('--coarse', type=int, default=40)
    given = words.parse_args()
    calls = given.calls or CALLS
    if set(calls) - set(CALLS):
        words.error('no such call')
    with tempfile.TemporaryDirectory(prefix='refused-tree-') as folder:
        work = given.work or folder
        os.makedirs(work, exist_ok=True)
        crate = build_tree(folder)
        first = run(crate, os.path.join(work, 'coarse'),
                    [(call, n) for call in calls for n in [*range(1, MANY, given.coarse), REFUSED]])
        unrefused = {call: first[call, REFUSED] for call in calls}
        fine = []
        for call in calls:
            wanted = [n for (name, n), said in first.items() if name == call and outcome(said, unrefused[call]) == WANTED]
            if not wanted or max(wanted) + given.coarse > MANY:
                sys.exit('%s: its allocations were not found' % call)
            fine += [(call, n) for n in range(max(1, min(wanted) - given.coarse), max(wanted) + given.coarse)]
        found = {**first, **run(crate, os.path.join(work, 'fine'), [trial for trial in fine if trial not in first])}
    bad = 0
    for call in calls:
        ends = collections.Counter()
        for (name, number), said in sorted(found.items()):
            if name == call and number != REFUSED:
                end = outcome(said, unrefused[call])
                ends[end] += 1
                if end == BAD:
                    bad += 1
                    print(call, number, *said, sep='\n    ')
        print('%-8s %5d runs: %s' % (call, sum(ends.values()), ', '.join('%d %s' % (n, end) for end, n in ends.items())))
        if unrefused[call][:-1] == [] or 'status=0' not in unrefused[call][-1]:
            sys.exit('%s: a run with nothing refused failed' % call)
    sys.exit(1 if bad else 0)


if __name__ == '__main__':
    main()
