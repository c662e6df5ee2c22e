#!/usr/bin/env python3
"""Whether times grow no faster than the lines: calls through the console on two halls of one shape, of 512 lines and of 4,096.

    tests/linear.py                        the proved console
    tests/linear.py --product PROGRAM ...  another program in the product's place

All that the program does for a command counts, reading it and writing the answer too. Its last line is 'N passed, M failed', a check for each call.
"""
import argparse

import counted
import families
import programs
import timing

# 4,096 lines are 8 times as many as 512
MOST = 10


def main():
    """Times the calls, and ends with the count."""
    parser = argparse.ArgumentParser(description=__doc__.splitlines()[0])
    parser.add_argument("--product", nargs=argparse.REMAINDER, metavar="PROGRAM", help="another program in the product's place")
    product = parser.parse_args().product
    if not product:
        programs.build("bench")
    boards = families.HALLS["32 inputs"].values()
    for name, (few, many) in timing.grown(product or [programs.LAUNCHER, "bench"], boards, timing.QUICK).items():
        said = f"{1e6 * few:.0f} us, {1e6 * many:.0f} us, {many / few:.2f} times"
        print(f"{name}: {said}")
        counted.count(name, many <= MOST * few, said)
    counted.end()


if __name__ == "__main__":
    main()
