"""Prints two files of times, of lines `name nanoseconds`, as one table with the ratio of the first to the second."""

import sys


def read_times(path):
    with open(path) as lines:
        return {name: int(nanos) for name, nanos in (line.split() for line in lines)}


def main():
    ours, rust = (read_times(path) for path in sys.argv[1:3])
    print("| piece | ours, ms | Rust, ms | ratio |")
    print("|---|---|---|---|")
    for name, nanos in ours.items():
        beside = rust[name]
        print(f"| {name} | {nanos / 1e6:.2f} | {beside / 1e6:.2f} | {nanos / beside:.2f} |")


main()
