"""Records and replays many periods, and prints the most rounds that any ticket took.

usage: PYTHONPATH=tests python3 -m lock PROGRAM [--threads N] [--slices N] [--seeds N]
"""
import argparse
import sys
import tempfile

from lock import recorder, rounds
from lock.replay import Refused, Replay, recording


def main() -> None:
    asked = argparse.ArgumentParser(prog="lock", description="Recorded periods, replayed.")
    asked.add_argument("program", metavar="PROGRAM")
    asked.add_argument("--threads", type=int, default=4)
    asked.add_argument("--slices", type=int, default=10)
    asked.add_argument("--seeds", type=int, default=100)
    options = asked.parse_args()
    threads, slices = options.threads, options.slices
    with tempfile.TemporaryDirectory(prefix="lock-") as room:
        library = recorder.built(room)
        for order in recorder.ORDERS:
            most, tickets, accesses = [0, 0, 0], 0, 0
            for seed in range(options.seeds):
                made = recorder.period(library, options.program, threads, slices, order, seed)
                try:
                    steps = Replay(recording(made.text), threads,
                                   slices + 2 * recorder.LEAVES).all()
                except Refused as refused:
                    sys.exit(f"{threads} threads, {order}, seed {seed}: {refused}")
                found = [rounds.still_moves(steps, False), rounds.still_moves(steps, True),
                         rounds.turn_moves(steps)]
                most = [max(old, rounds.greatest(moves)) for old, moves in zip(most, found)]
                tickets, accesses = tickets + steps[-1].crowd.next, accesses + len(steps)
            print(f"{threads} threads, {order}: {tickets} tickets, {accesses} accesses; most "
                  f"rounds {most[0]} of events, {most[1]} of accesses, {most[2]} of turns",
                  flush=True)


if __name__ == "__main__":
    main()
