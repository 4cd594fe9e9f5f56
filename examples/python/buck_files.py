"""Cuts the stems of a stem file, or checks or reports a journal, by an instruction file.

    buck_files.py buck APT STM
    buck_files.py check|report APT JOURNAL

It prints what `buckfleet` prints to these words, and ends with its status. It needs the package of python/: install it
by `pip install ./python`, or run it with PYTHONPATH=python/src.
"""
import sys

import buckfleet

CALLS = {"buck": buckfleet.buck, "check": buckfleet.check, "report": buckfleet.report}


def main():
    if len(sys.argv) != 4 or sys.argv[1] not in CALLS:
        print("buck_files.py buck|check|report APT FILE", file=sys.stderr)
        return 2
    try:
        sys.stdout.buffer.write(CALLS[sys.argv[1]](*sys.argv[2:]))
    except buckfleet.Refused as refused:
        print(refused.line, file=sys.stderr)
        return refused.status
    return 0


if __name__ == "__main__":
    sys.exit(main())
