#!/usr/bin/env python3
"""lines.py FILE: a subject that is a file of Python, as a program: a line in, a line out."""

import sys

from subject import Module


def main(path):
    subject = Module(path)
    subject.reset()
    for line in sys.stdin:
        call, *words = line.split()
        if call == "reset":
            subject.reset()
            print("done", flush=True)
        else:
            print(subject.answer(call, words).replace("\n", " "), flush=True)


if __name__ == "__main__":
    main(sys.argv[1])
