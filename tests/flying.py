"""./show fly for many flights of a run of tests: what `check` says of a text, the first flight that asks is told by the
program, and all others are told the same by a folder. As a program: FOLDER SOCKET. It forks a process for each flight
that is asked for at the socket (tests/forked.py)."""
import hashlib
import json
import os
import sys

import common
import forked
from hemtoghai import __main__
from hemtoghai.commands import fly
from hemtoghai.flying import stages

FOLDER, SOCKET = sys.argv[1:3]
said_of = stages.said_of


def remembered(text):
    """What was said of a text, or is said now."""
    path = os.path.join(FOLDER, hashlib.sha256(text).hexdigest())
    try:
        with open(path) as file:
            return tuple(json.load(file))
    except OSError:
        found = said_of(text)
    with open("%s.%d.%d" % (path, os.getpid(), id(text)), "w") as file:
        json.dump(found, file)
    os.replace(file.name, path)
    return found


if __name__ == "__main__":
    stages.said_of = remembered
    more = forked.serve(SOCKET)
    processors = sorted(os.sched_getaffinity(0))  # one of them takes less time: a flight's threads take turns
    os.sched_setaffinity(0, {processors[os.getpid() % len(processors)]})
    exec(more)
    forked.end_by(__main__.run)
