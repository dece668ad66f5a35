#!/usr/bin/env python3
"""Compares the time of the program with that of one peer by pairs of short runs, within five minutes. The two runs of a
pair follow each other at once, in alternating order, because a machine's speed changes from second to second. Prints
for each setting and number of clients the median of the ratios, and its interval by bootstrap."""

import argparse
import os
import statistics
import subprocess
import sys
from pathlib import Path

sys.dont_write_bytecode = True
import estimates
from measure import PEERS, SETTINGS, client_counts, machine, program_to_measure, row, with_tasks
from programs import ROOT, Ours, Peer, give_up

PAIRS, TASKS = 60, 8_000
# No program gives a task up.
TRIES = 1_048_576


def opponent(name, environment):
    """The other program of each pair: another build of the program if the name is a file, or else a peer."""
    if os.sep in name:
        return Ours(program_to_measure(name), TRIES)
    folder = ROOT / "benchmark/out/peers"
    if subprocess.run([ROOT / "benchmark/build", folder, "--only", name], stdout=subprocess.DEVNULL).returncode != 0:
        give_up(f"the peer '{name}' could not be built")
    peer = Peer(name, [folder / name], TRIES, environment)
    peer.draws = True
    return peer


def pairs(ours, other, settings, count):
    """The seconds of both programs in each pair. By one client both must leave the same state in each run."""
    found = []
    for turn in range(count):
        order = (ours, other) if turn % 2 == 0 else (other, ours)
        runs = {program: program.run(settings, None, pins=False) for program in order}
        if settings["clients"] == 1 and runs[ours].report != runs[other].report:
            give_up(f"one client left different states: {runs[ours].report} | {runs[other].report}")
        found.append((runs[ours].seconds, runs[other].seconds))
    return found


def line(name, clients, seconds):
    """A line of the table: the median ratio of the times with its interval, and the median times."""
    value, least, most = estimates.median([ours / other for ours, other in seconds])
    ours, other = (statistics.median(times) * 1e3 for times in zip(*seconds))
    return row([name, str(clients), f"{value:.3f}", f"{least:.3f} to {most:.3f}", f"{ours:.1f}", f"{other:.1f}"])


def read_arguments():
    parser = argparse.ArgumentParser(prog="./dev time", description=__doc__)
    parser.add_argument("--against", default="tl2_sequential", metavar="PEER",
                        help="a peer of benchmark/peers, or the file of another build of the program, with a slash "
                             "(default: tl2_sequential)")
    parser.add_argument("--program", metavar="FILE", help="the program (default: the one that ./vacation builds)")
    parser.add_argument("--only", action="append", choices=list(SETTINGS), metavar="SETTING",
                        help=f"one of {', '.join(SETTINGS)}; may be given several times")
    parser.add_argument("--clients", type=client_counts, default=(1, 4), metavar="N,N,..",
                        help="how many clients there are, 64 at most (default: 1,4)")
    parser.add_argument("--pairs", type=int, default=PAIRS, metavar="N", help=f"pairs of runs (default: {PAIRS})")
    parser.add_argument("--tasks", type=int, default=TASKS, metavar="N",
                        help=f"tasks of all clients in a run (default: {TASKS})")
    return parser.parse_args()


def main():
    arguments = read_arguments()
    if arguments.pairs < 1 or arguments.tasks < 1:
        give_up("there is at least one pair, of at least one task")
    ours = Ours(program_to_measure(arguments.program), TRIES)
    environments = dict(PEERS.values())
    other = opponent(arguments.against, environments.get(arguments.against, {}))
    against = Path(arguments.against).name
    print(f"{machine()}; load average at the begin {os.getloadavg()[0]:.1f}; {arguments.pairs} pairs of "
          f"{arguments.tasks:,} tasks; the program's time through that of {against}\n", flush=True)
    print(row(["Setting", "clients", "median ratio", f"{estimates.SURE} of a hundred", "ms", f"ms of {against}"]))
    print("|---|--:|--:|---|--:|--:|", flush=True)
    for name in arguments.only or SETTINGS:
        for clients in arguments.clients:
            settings = with_tasks(SETTINGS[name], clients, arguments.tasks)
            print(line(name, clients, pairs(ours, other, settings, arguments.pairs)), flush=True)
    print(f"\nload average at the end {os.getloadavg()[0]:.1f}")


if __name__ == "__main__":
    main()
