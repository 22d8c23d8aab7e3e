"""Numbers from words, files and drones: each is finite and within a range, or is refused where it comes in, so that no
comparison further on meets one that is none. For ./show fly, ./show flown and ./show legs."""
import argparse
import io
import math
from typing import Callable, Dict, Iterable, Iterator, List, Sequence, Tuple, TypeVar

from hemtoghai import texts

Value = TypeVar("Value")
UNSURE = 0.004  # square metres of variance above which an estimate in flight is none: 63 mm
FAR = 100.0  # metres from the origin beyond which a place is none: the language ends at 33
KEPT, FAULT = "# fly: kept", "# fly: not kept"  # the last line of a log: whether its flight was, ways and all


def number(word: str, least: float = -1e9, most: float = 1e9) -> float:
    """The number of a word; ValueError where it is none, isn't finite, or is out of its range."""
    found = float(word)
    if not least <= found <= most:  # also where it isn't a number
        raise ValueError("%s isn't between %g and %g" % (word, least, most))
    return found


def option(least: float, most: float, is_whole: bool = False) -> Callable[[str], float]:
    """What reads an option's number, for argparse."""
    def read(word: str) -> float:
        try:
            found = number(word, least, most)
        except ValueError:
            found = math.nan
        if math.isnan(found) or is_whole and found != int(found):
            raise argparse.ArgumentTypeError("%s from %g to %g is wanted, not %s" % (
                "a whole number" if is_whole else "a number", least, most, word[:40]))
        return int(found) if is_whole else found
    return read


def is_place(values: Iterable[float]) -> bool:
    """Whether these are coordinates of a place in metres: finite, and no farther from the origin than any room is."""
    return all(math.isfinite(v) and abs(v) <= FAR for v in values)


def lines_of(path: str) -> Iterator[Tuple[int, List[str]]]:
    """The lines of a text that have words before a `#`: their numbers, and these words. It is read to the limit of a
    show and no further; raises ValueError where it can't be read, is longer, or isn't UTF-8."""
    try:
        with open(path, "rb") as file:
            data = texts.from_stream(file, texts.SHOW + 1)
    except OSError as fault:
        raise ValueError(f"{path}: {fault.strerror}") from None
    if len(data) > texts.SHOW:
        raise ValueError(f"{path}: more than {texts.SHOW} bytes")
    try:
        lines = io.StringIO(data.decode("utf-8"), None)
    except UnicodeDecodeError as fault:
        raise ValueError(f"{path}: this isn't UTF-8, at byte {fault.start}") from None
    for number, line in enumerate(lines, 1):
        words = line.partition("#")[0].split()
        if words:
            yield number, words


def in_order(found: Dict[str, Value], names: Sequence[str], path: str, word: str) -> List[Value]:
    """What was found in a text for these drones, in their order; raises ValueError where one has none of it."""
    lacking = [name for name in names if name not in found]
    if lacking:
        raise ValueError("%s has no %s for %s" % (path, word, ", ".join(lacking)))
    return [found[name] for name in names]
