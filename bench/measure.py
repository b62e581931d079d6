#!/usr/bin/env python3
"""Counts machine instructions for each instruction of an input, for every shape of docs/BENCH.md, and prints a table.

    python3 bench/measure.py [--upstream PATH] [--task allocate|test|check|reads|tested|tree] [--sizes 1000,10000]
        [--shapes real,switch] [--heap]

It needs valgrind, and the program `regalloc2_bench` (docs/BENCH.md says how to build it). `--upstream` is the path of
a program that reads a stored function and runs upstream's allocator or checker on it: it is called as `PATH bench
FILE TIMES`, with `--validate` for the task `test`, and as `PATH bench-check FILE TIMES` for the check, and does the
work that many times. One time is the difference of two times and one, or that of three and two if it is less: so
start-up and reading don't count, nor does the one time in which the C library's allocator merges the blocks that
reading freed. `--heap` gives the bytes that one allocation, or one allocation and check of its output, holds at most
beside the function, as `heap.c` counts them, in place of instructions; it needs a C compiler. The task `tree` counts
nothing: for each function it says whether the dominator tree and one search decide whether reads come after writes,
and the script's status is 1 if some function is left open or some run fails.
"""
import argparse, json, os, re, subprocess, sys, tempfile

HERE = os.path.dirname(os.path.abspath(__file__))
sys.path.insert(0, HERE)
import shapes

OURS = os.path.join(HERE, "..", "crates", "regalloc2_bench", "out", "regalloc2_bench")


def collected(command, stdin, limit):
    """The machine instructions of one run, or None where it fails or takes too long."""
    tool = ["valgrind", "--tool=callgrind", "--callgrind-out-file=/dev/null"]
    try:
        done = subprocess.run(tool + command, stdin=open(stdin), stdout=subprocess.DEVNULL, stderr=subprocess.PIPE, timeout=limit, text=True)
    except subprocess.TimeoutExpired:
        return None
    found = re.search(r"Collected : (\d+)", done.stderr)
    return int(found.group(1)) if found and done.returncode == 0 else None


def heap(library, command, stdin, limit):
    """The bytes that the run after reading holds at most, or None."""
    try:
        env = dict(os.environ, LD_PRELOAD=library)
        done = subprocess.run(command, stdin=open(stdin), stdout=subprocess.DEVNULL, stderr=subprocess.PIPE, timeout=limit, text=True, env=env)
    except subprocess.TimeoutExpired:
        return None
    found = re.search(r"^heap (\d+)$", done.stderr, re.M)
    return int(found.group(1)) if found and done.returncode == 0 else None


def decided(program, stdin, limit):
    """Whether the dominator tree and one search decide whether reads come after writes."""
    try:
        return subprocess.run([program, "tree", "1"], stdin=open(stdin), stdout=subprocess.DEVNULL, timeout=limit).returncode == 0
    except subprocess.TimeoutExpired:
        return False


def commands(program, upstream, task, path, times):
    """The command of this port's program or of upstream's."""
    if upstream:
        flags = ["--validate"] if task == "test" else []
        return [program, "bench-check" if task == "check" else "bench", path, str(times)] + flags
    return [program, task, str(times)]


def measure(args, program, upstream, path, insts):
    """What one time costs for each instruction, or None; for the task `tree` a word."""
    if args.task == "tree":
        return "decided" if decided(program, path, args.limit) else "OPEN"
    if args.heap:
        # this port's program allocates once more than it is told; upstream's run may hold more than its reading did,
        # which the repeats then tell
        times = 4 if upstream else 1 if args.task == "check" else 0
        return heap(args.heap, commands(program, upstream, args.task, path, times), path, args.limit)
    counts = [collected(commands(program, upstream, args.task, path, n), path, args.limit) for n in (1, 2, 3)]
    return None if None in counts else round(min(counts[1] - counts[0], counts[2] - counts[1]) / insts)


def main():
    words = argparse.ArgumentParser(description=__doc__, formatter_class=argparse.RawDescriptionHelpFormatter)
    words.add_argument("--program", default=OURS)
    words.add_argument("--upstream")
    words.add_argument("--task", default="allocate", choices=["allocate", "test", "check", "reads", "tested", "tree"])
    words.add_argument("--sizes", default="1000,10000")
    words.add_argument("--shapes", default=",".join(shapes.SHAPES))
    words.add_argument("--limit", type=int, default=300, help="seconds for one run")
    words.add_argument("--heap", action="store_true")
    args = words.parse_args()
    if args.task == "tree" and (args.upstream or args.heap):
        words.error("the task tree is this port's alone, and counts nothing")
    if args.heap and args.task != "allocate" and (args.upstream or args.task != "check"):
        words.error("--heap measures allocate, and this port's check")
    sizes = [int(n) for n in args.sizes.split(",")]
    is_open = False
    who = (["upstream"] if args.upstream else []) + ["this port"]
    print("| Shape | " + " | ".join(f"{w}, {n:,}" for w in who for n in sizes) + " |")
    print("|---" * (1 + len(who) * len(sizes)) + "|")
    with tempfile.TemporaryDirectory() as folder:
        if args.heap:
            args.heap = os.path.join(folder, "heap.so")
            subprocess.run(["cc", "-O2", "-shared", "-fPIC", "-o", args.heap, os.path.join(HERE, "heap.c"), "-ldl"], check=True)
        for shape in args.shapes.split(","):
            cells = {}
            for n in sizes:
                path = os.path.join(folder, "f.json")
                shapes.SHAPES[shape](n, 1).write(path)
                insts = len(json.load(open(path))["insts"])
                for w in who:
                    cells[w, n] = measure(args, args.upstream if w == "upstream" else args.program, w == "upstream", path, insts)
            row = [cells[w, n] for w in who for n in sizes]
            is_open = is_open or "OPEN" in row
            print(f"| `{shape}` | " + " | ".join("" if c is None else c if isinstance(c, str) else f"{c:,}" for c in row) + " |", flush=True)
    return 1 if is_open else 0


if __name__ == "__main__":
    sys.exit(main())
