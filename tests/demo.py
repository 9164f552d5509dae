"""The demo with its options, and the program's stored run."""
import os
import pty
import re
import socket
import subprocess
import time

from systems import PATIENCE, SCOOP, TOP, Ran, holds, locked, run, same, test, until

# Client 9's.
CLIENT_PORT = 47109
CLOSED = "cells same\nnode 1 closed\nnode 2 closed\n"


def alone():
    """A lock: the demo's ports are fixed, so one runs at a time."""
    return until("no other test runs the demo", lambda: locked("scoop-demo"), patience=2 * PATIENCE)


def demo(*options, program=None):
    """Runs the demo. It is tried again while another program has one of its ports."""
    with alone():
        end = time.monotonic() + PATIENCE
        while True:
            ran = run("demo", *options, program=program)
            if ran.status != 3 or "scoop: link: Fault\n" not in ran.notes or time.monotonic() > end:
                return ran
            time.sleep(1)


@test
def the_demo_prints_its_three_lines():
    same("scoop demo", demo(), Ran(0, CLOSED, ""))


@test
def the_demo_paints_a_hundred_rounds_and_waits():
    same("scoop demo --rounds 100 --wait", demo("--rounds", "100", "--wait"), Ran(0, "balance 0\n" + CLOSED, ""))


@test
def the_demo_finds_one_order():
    ran = demo("--weave")
    same("its status and notes", (ran.status, ran.notes), (0, ""))
    holds("its lines, and an order", re.fullmatch(CLOSED + r"woven: [1-9]\d* moves\n", ran.output), ran.output)


@test
def the_demo_ends_when_its_turns_are_over():
    # without turns a node's loop and a client's call are over at once, whichever is first
    for turns in ("0", "1"):
        ran = demo("--turns", turns)
        same(f"its status and output after {turns}", (ran.status, ran.output), (3, ""))
        same("its first note", ran.notes.splitlines()[:1], ["scoop: link: TurnsOver"])


@test
def the_demo_reports_a_port_in_use():
    with alone(), socket.socket(socket.AF_INET, socket.SOCK_DGRAM) as taken:
        taken.bind(("127.0.0.1", CLIENT_PORT))
        ran = run("demo")
    same("its status and output", (ran.status, ran.output), (3, ""))
    same("its first note", ran.notes.splitlines()[:1], ["scoop: link: Fault"])


@test
def the_demo_shows_its_rounds_at_a_terminal():
    ours, theirs = pty.openpty()
    with alone(), open(theirs, "wb", 0) as terminal:
        ended = subprocess.run([SCOOP, "demo", "--rounds", "3"], stdout=subprocess.PIPE, stderr=terminal, timeout=PATIENCE)
    same("its status and output", (ended.returncode, ended.stdout.decode()), (0, CLOSED))
    with open(ours, "rb", 0) as shown:
        line = shown.read(10_000).split(b"\r")[-2]
    same("the last line", line, b"client 7: 3 of 3 rounds, client 8: 3 of 3 rounds")


@test
def a_demo_whose_output_is_full_ends():
    with alone():
        ran = run("-c", 'exec "$0" demo > /dev/full', SCOOP, program="/bin/sh")
    same("its status and notes", (ran.status, ran.notes), (3, "scoop: write fault\n"))


@test
def the_demo_refuses_numbers_that_are_none():
    same("the status of --rounds x", run("demo", "--rounds", "x").status, 2)


@test
def the_stored_run_is_as_it_was():
    def stored(name):
        with open(os.path.join(TOP, "crates", "scoop", name)) as file:
            return file.read()

    ran = run(*stored("args").split(), text=stored("stdin"))
    same("its status and output", (ran.status, ran.output), (0, stored("stdout")))
