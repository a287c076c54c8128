"""Runs crates/engine_cases on the cases of one kind by `rt try`, which compiles it without a proof.

python3 tests/try_cases.py read|check|run|list|trace|determinacy|format

The program finds the file of that kind alone: a file that is not there counts as empty.  `rt try`
takes at most 1,048,576 bytes of output, less than the cases of all kinds have.  It compiles with tests of
each access and sum, and so the kinds run, trace and determinacy have tables that pass the usual
native stack: they get STACK bytes.
"""

import resource
import subprocess
import sys
from itertools import zip_longest

import make_cases

STACK, SECONDS = 1 << 26, 900


def main(stage):
    _, most = resource.getrlimit(resource.RLIMIT_STACK)
    resource.setrlimit(resource.RLIMIT_STACK, (STACK if most == resource.RLIM_INFINITY else min(STACK, most), most))
    words = ["rt", "try", "--seconds", str(SECONDS), "--data", "%s=data/%s" % (stage, stage)]
    ran = subprocess.run(words, cwd=make_cases.CRATE, stdin=subprocess.DEVNULL, stdout=subprocess.PIPE)
    expected = make_cases.output_parts()[stage]
    if ran.stdout == expected:
        print("%s: the output is the engine's" % stage)
        return ran.returncode
    lines = zip_longest(ran.stdout.splitlines(keepends=True), expected.splitlines(keepends=True))
    print("line %d: printed %r, and the engine %r" % next((n, a, b) for n, (a, b) in enumerate(lines, 1) if a != b))
    return ran.returncode or 1


if __name__ == "__main__":
    if len(sys.argv) != 2 or sys.argv[1] not in make_cases.STAGES:
        sys.exit("usage: try_cases.py " + "|".join(make_cases.STAGES))
    sys.exit(main(sys.argv[1]))
