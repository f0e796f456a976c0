"""Compares the proved hash functions with plain C.

    (cd crates/speed && rt run) && python3 bench/run.py [ROUNDS]

Each bench/NAME.c hashes the same 64 MiB as the program `speed` does for NAME. Both write the line `NAME DIGEST` to
standard output and `NAME SECONDS` to standard error. They are run in turn, and the best time of each counts.
"""

import os
import pathlib
import subprocess
import sys

MIB = 64
BENCH = pathlib.Path(__file__).resolve().parent
ROOT = BENCH.parent


def compiled(source):
    """The program made from a C file."""
    program = ROOT / "target" / "bench" / source.stem
    program.parent.mkdir(parents=True, exist_ok=True)
    subprocess.run([os.environ.get("CC", "gcc"), "-O3", "-o", program, source], check=True)
    return program


def proved(name):
    """The proved program of a crate."""
    program = ROOT / "crates" / name / "out" / name
    if not program.exists():
        sys.exit(f"there is no {program.relative_to(ROOT)}: run `rt run` in crates/{name} first")
    return program


def lines(text):
    """Lines of a name and a value, by name."""
    return dict(line.split() for line in text.splitlines())


def ran(program, *words):
    """What a program wrote: the digests and the seconds, by name."""
    run = subprocess.run([program, *words], check=True, capture_output=True, text=True)
    return lines(run.stdout), {name: float(value) for name, value in lines(run.stderr).items()}


def main():
    rounds = int(sys.argv[1]) if len(sys.argv) > 1 else 9
    program = proved("speed")
    peers = [compiled(source) for source in sorted(BENCH.glob("*.c"))]
    best = {}
    for _ in range(rounds):
        digests, seconds = ran(program)
        times = {name: [value] for name, value in seconds.items()}
        for peer in peers:
            for name, digest in (got := ran(peer))[0].items():
                if digests.get(name) != digest:
                    sys.exit(f"{name}: the digests differ: {digests.get(name)} proved, {digest} in C")
                times[name].append(got[1][name])
        for name, pair in times.items():
            best[name] = [min(old, new) for old, new in zip(best.get(name, pair), pair)]
    for name, (ours, *peer) in best.items():
        said = f"{name:10} proved {MIB / ours:7.1f} MiB/s"
        print(said + "".join(f"   C {MIB / c:7.1f} MiB/s   ratio {c / ours:.3f}" for c in peer))


if __name__ == "__main__":
    main()
