"""Compares a get from a proved log with plain C, by the number of the log's records.

    (cd crates/logspeed && rt run) && python3 bench/log.py [ROUNDS]

bench/log/log.c does what the program `logspeed` does, with an index of its own; beside that, it gets records by reading
the log from its start, which takes the longer the more records there are. For each number of records, all of these
write a checksum to standard output and the nanoseconds for a get to standard error. They are run in turn, and the best
time of each counts.
"""

import sys

import run

GETS = 5_000_000
SCANS = 1_000


def held(checksums, others):
    """Ends the program where checksums differ."""
    if checksums != others:
        sys.exit(f"the checksums differ: {checksums} and {others}")


def main():
    rounds = int(sys.argv[1]) if len(sys.argv) > 1 else 9
    program = run.proved("logspeed")
    peer = run.compiled(run.BENCH / "log" / "log.c")
    few, _ = run.ran(peer, "index", str(SCANS))
    times = {}
    for _ in range(rounds):
        checksums, ours = run.ran(program)
        others, theirs = run.ran(peer, "index", str(GETS))
        held(checksums, others)
        others, scans = run.ran(peer, "scan", str(SCANS))
        held(few, others)
        for size in checksums:
            times.setdefault(size, []).append((ours[size], theirs[size], scans[size]))
    for size, rows in times.items():
        ours, theirs, scan = (min(column) for column in zip(*rows))
        said = f"{size:>6} records   proved {ours:5.1f} ns   C {theirs:5.1f} ns   ratio {theirs / ours:.3f}"
        print(said + f"   C without an index {scan:8.1f} ns")


if __name__ == "__main__":
    main()
