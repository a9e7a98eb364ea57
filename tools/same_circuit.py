#!/usr/bin/env python3
"""Says whether two modules show the same outputs for ever, from the same contents of their registers and memories.

    tools/same_circuit.py A.v B.v

The modules have the same pins, registers and memories in the same order, say one that `synth` wrote and the same after an edit of its wires. `blast` makes a graph
of each, and ABC (Debian's berkeley-abc) proves that every output and every next bit of a latch is equal, for all contents and all inputs. HLS names the program,
else it is ./hls. Status 0: equal; 1: different; 2: a module that is too large or is rejected, other latches, or no answer.
"""
import sys
import tempfile

import graph


def main():
    if len(sys.argv) != 3:
        sys.exit(__doc__)
    if not graph.ABC:
        sys.exit("same circuit: berkeley-abc is not there")
    with tempfile.TemporaryDirectory() as folder:
        try:
            one, other = (graph.blasted(name, folder) for name in sys.argv[1:])
        except ValueError as why:
            print(f"same circuit: {why}")
            return 2
        if not one or not other:
            print("same circuit: a module is too large for a graph")
            return 2
        for what in ("inputs", "latches", "outputs"):
            counts = [len(getattr(it, what)) for it in (one, other)]
            if counts[0] != counts[1]:
                print(f"same circuit: {counts[0]} bits of {what} and {counts[1]}: they cannot be matched")
                return 2
        found = graph.are_equal(one, other, folder)
    print("same circuit: " + {True: f"equal in all {len(one.outputs)} outputs and {len(one.latches)} latches", False: "different", None: "no answer"}[found])
    return {True: 0, False: 1, None: 2}[found]


if __name__ == "__main__":
    sys.exit(main())
