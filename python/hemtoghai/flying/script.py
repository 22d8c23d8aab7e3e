"""What the crew does in a simulated flight, and its machine, by a text: so it is done at an instant of that flight.

A line is `SECONDS WHAT WORDS`: so many seconds after something was said that has these words in it, or after the line
before where there are none. Each line looks at what was said since the one before. WHAT is `press:INT`, or another
signal, `type:yes`, or another answer, or `still:3`, for a machine that stands still so long.
"""
import signal
from functools import partial
from typing import Iterator, List, NamedTuple, Optional

from hemtoghai.flying import clock, crew, finite
from hemtoghai.flying.own_clock import OwnClock

SIGNALS = {"INT": signal.SIGINT, "TERM": signal.SIGTERM, "HUP": signal.SIGHUP, "QUIT": signal.SIGQUIT,
           "TSTP": signal.SIGTSTP}
LONGEST = 1e6  # seconds


class Row(NamedTuple):
    """What is done so many seconds after some words."""
    seconds: float
    what: str
    value: str
    words: str


def rows_of(path: str) -> List[Row]:
    """The rows of a text; raises OSError, and ValueError where it is none."""
    rows = []
    for number, words in finite.lines_of(path):
        what, _, value = (words[1] if len(words) > 1 else "").partition(":")
        try:
            seconds = finite.number(words[0], 0, LONGEST)
            if what == "still":
                finite.number(value, 0, LONGEST)
            elif what != "type" and (what != "press" or value not in SIGNALS):
                raise ValueError
        except ValueError:
            raise ValueError(f"{path}, line {number}: `SECONDS WHAT WORDS` is wanted, and WHAT is press:SIGNAL, "
                             f"type:WORD or still:SECONDS; signals: {', '.join(SIGNALS)}") from None
        rows.append(Row(seconds, what, value, " ".join(words[2:])))
    return rows


class Script:
    """The rows of a text, done one after the other. `done` are those that were, with when, and with when something was
    said next."""

    def __init__(self, path: str, watch: crew.Watch, own: OwnClock) -> None:
        self.rows, self.watch, self.clock, self.said = rows_of(path), watch, own, ""
        self.done: List[List[Optional[float]]] = []
        self.changed = own.condition()
        crew.HEARS.append(self.hear)
        watch.answers.others_come = lambda: len(self.done) < len(self.rows)
        clock.Task(self.run)

    def hear(self, text: str) -> None:
        if self.done and self.done[-1][1] is None:
            self.done[-1][1] = clock.now()
        self.said += text
        self.changed.notify_all()

    def run(self) -> None:
        for row in self.rows:
            self.changed.wait_for(lambda: row.words in self.said)
            clock.wait(row.seconds)
            self.said = ""
            self.done.append([clock.now(), None])
            self.act(row)

    def act(self, row: Row) -> None:
        if row.what == "type":
            self.watch.answers.waiting += row.value.encode() + b"\n"
        elif row.what == "still":
            self.clock.leap(float(row.value))
        else:
            number = SIGNALS[row.value]
            handler = signal.getsignal(number)
            if callable(handler):
                self.clock.interrupt(partial(handler, number, None))

    def lines(self) -> Iterator[str]:
        """What was done, and how soon something was said after it: lines for people."""
        for row, (at, after) in zip(self.rows, self.done):
            yield "simulated: %s:%s%s" % (row.what, row.value, "" if at is None or after is None else
                                          ", and %.2f s later something was said" % (after - at))
