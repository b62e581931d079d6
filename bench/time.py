#!/usr/bin/env python3
"""Measures nanoseconds for each instruction of an input, for shapes of docs/BENCH.md, and prints a table.

    python3 bench/time.py [--upstream PATH] [--task allocate|test|check] [--sizes 1000,10000] [--shapes real,clobbers]
        [--rounds 15]

It needs a C compiler, and the program `regalloc2_bench` (docs/BENCH.md says how to build it). `--program` names
another build of it, and may be given several times, to hold builds against each other. `--upstream` is called as
`measure.py` says.

A period is one whole time of the task, with what it frees: `clock.c` reads the clock whenever the program asks for a
block of a size that each time asks for once, the greatest such size. Processes of each program run in turn, on one
processor, `--rounds` of each, and the least period of all counts, since noise only adds. With `--upstream` each of
this port's figures has its ratio to upstream's beside it. Run it twice: figures that differ by more than a hundredth
were taken on a busy machine.
"""
import argparse, collections, json, os, re, subprocess, sys, tempfile

HERE = os.path.dirname(os.path.abspath(__file__))
sys.path.insert(0, HERE)
import shapes
from measure import OURS, commands

SECONDS = 0.3


def errors_of(library, command, stdin, **settings):
    """What a run with the clock's library writes to standard error."""
    env = dict(os.environ, LD_PRELOAD=library, **settings)
    done = subprocess.run(command, stdin=open(stdin), stdout=subprocess.DEVNULL, stderr=subprocess.PIPE, env=env, text=True)
    if done.returncode:
        sys.exit(f"{' '.join(command)} ended with {done.returncode}")
    return done.stderr


def mark(library, command, stdin):
    """The bytes of the greatest block that each time asks for once."""
    twice, thrice = (collections.Counter(errors_of(library, command(n), stdin, TRACE="1").splitlines()) for n in (2, 3))
    once = [line for line, many in (thrice - twice).items() if many == 1 and twice[line] <= 4]
    sizes = collections.Counter(int(line.split()[1]) for line in once)
    found = [size for size, many in sizes.items() if many == 1 and size > 64]
    if not found:
        sys.exit(f"{' '.join(command(2))} asks for no block once each time")
    return max(found)


def least(library, command, stdin, size):
    """The least period of one process, in nanoseconds."""
    found = re.search(r"^periods \d+ least (\d+)", errors_of(library, command, stdin, MARK=str(size)), re.M)
    return int(found.group(1))


class Timed:
    """A program that is timed: its commands by number of times, its mark, and its least period so far."""

    def __init__(self, library, program, is_upstream, task, path):
        self.command = lambda n: commands(program, is_upstream, task, path, n)
        self.library, self.path = library, path
        self.mark = mark(library, self.command, path)
        self.least = least(library, self.command(4), path, self.mark)
        self.times = min(max(int(SECONDS * 1e9 / self.least), 4), 60000)

    def run(self):
        self.least = min(self.least, least(self.library, self.command(self.times), self.path, self.mark))


def main():
    words = argparse.ArgumentParser(description=__doc__, formatter_class=argparse.RawDescriptionHelpFormatter)
    words.add_argument("--program", action="append")
    words.add_argument("--upstream")
    words.add_argument("--task", default="allocate", choices=["allocate", "test", "check"])
    words.add_argument("--sizes", default="1000,10000")
    words.add_argument("--shapes", default="real,straight-live,clobbers,params-small")
    words.add_argument("--rounds", type=int, default=15)
    words.add_argument("--cpu", type=int, default=0, help="the processor that all run on")
    args = words.parse_args()
    os.sched_setaffinity(0, {args.cpu})
    programs = args.program or [OURS]
    names = ["this port"] if len(programs) == 1 else programs
    heads = (["upstream"] if args.upstream else []) + [h for name in names for h in ([name, "ratio"] if args.upstream else [name])]
    print("| Shape | n | " + " | ".join(heads) + " |")
    print("|---" * (2 + len(heads)) + "|")
    with tempfile.TemporaryDirectory() as folder:
        library = os.path.join(folder, "clock.so")
        subprocess.run(["cc", "-O2", "-shared", "-fPIC", "-o", library, os.path.join(HERE, "clock.c")], check=True)
        for shape in args.shapes.split(","):
            for n in (int(size) for size in args.sizes.split(",")):
                path = os.path.join(folder, "f.json")
                shapes.SHAPES[shape](n, 1).write(path)
                insts = len(json.load(open(path))["insts"])
                timed = [Timed(library, args.upstream, True, args.task, path)] if args.upstream else []
                timed += [Timed(library, program, False, args.task, path) for program in programs]
                for _ in range(args.rounds):
                    for it in timed:
                        it.run()
                first = timed[0].least
                cells = [f"{first / insts:,.0f}"] if args.upstream else []
                for it in timed[1 if args.upstream else 0:]:
                    cells.append(f"{it.least / insts:,.0f}")
                    cells += [f"{it.least / first:.2f}"] if args.upstream else []
                print(f"| `{shape}` | {n:,} | " + " | ".join(cells) + " |", flush=True)
    return 0


if __name__ == "__main__":
    sys.exit(main())
