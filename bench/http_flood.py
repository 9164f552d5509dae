#!/usr/bin/env python3
"""Measures what bad requests to a status page do: python3 bench/http_flood.py --program PATH [--rounds N]

Two sealed nodes with a status page each run as processes. Prints how soon the slowest of the bad requests has its refusal or its end,
and the last of 400 connections at once. Then it prints a client's joint blocks a second, with and without a flood of such
requests, in turn. On a machine that others use too, take the best of several runs.
"""
import argparse, multiprocessing, os, select, socket, statistics, time

from shared import BAD, Watched, asks, have_ended, open_many, systems


def rate(system, count=400):
    """Joint blocks a second of one client."""
    client = system.client(11)
    # It has greeted once its first block has ended.
    client.tell("reserve 1 2\nend\n")
    client.expect("reserved", "ended")
    start = time.perf_counter()
    ran = client.end("reserve 1 2\ncall 1 set 1\ncall 2 set 1\nend\n" * count)
    systems.same("the client's status", ran.status, 0)
    return count / (time.perf_counter() - start)


def flood(ports, counted):
    """Sends bad requests for ever, and gives way to the nodes where processors are few."""
    os.nice(10)
    requests, open_ones = [request[:4096] for request, _ in BAD.values()], []
    while True:
        for port in ports:
            s = socket.socket()
            s.setblocking(False)
            try:
                s.connect_ex(("127.0.0.1", port))
                select.select([], [s], [], 0.05)
                s.send(requests[counted.value % len(requests)])
            except OSError:
                pass
            counted.value += 1
            open_ones.append(s)
        while len(open_ones) > 200:
            open_ones.pop(0).close()
        time.sleep(0.004)


def measure(system, rounds):
    """Blocks a second without and with a flood, and the requests a second."""
    quiet, flooded, counted, spent = [], [], multiprocessing.Value("Q"), 0
    rate(system)
    for _ in range(rounds):
        quiet.append(rate(system))
        flooding = multiprocessing.Process(target=flood, args=(list(system.statuses.values()), counted), daemon=True)
        start = time.monotonic()
        flooding.start()
        flooded.append(rate(system))
        flooding.kill()
        flooding.join()
        spent += time.monotonic() - start
    return statistics.median(quiet), statistics.median(flooded), counted.value / spent


def main():
    words = argparse.ArgumentParser(description=__doc__, formatter_class=argparse.RawDescriptionHelpFormatter)
    words.add_argument("--program", required=True)
    words.add_argument("--rounds", type=int, default=5)
    given = words.parse_args()
    systems.SCOOP = os.path.abspath(given.program)
    with Watched() as system:
        system.serve("--log", "warn")
        port = system.statuses[1]
        slowest = max(asks(port, request)[1] for request, _ in BAD.values())
        print(f"bad requests: the slowest end after {slowest:.2f} s; 400 connections at once: {max(have_ended(open_many(port, 400))):.2f} s")
        quiet, flooded, requests = measure(system, given.rounds)
        print(f"{quiet:.0f} blocks a second in the median, {flooded:.0f} in a flood of {requests:.0f} requests a second: "
              f"{100 - 100 * flooded / quiet:.1f} % fewer")


if __name__ == "__main__":
    main()
