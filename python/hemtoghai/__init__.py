"""Judges, compiles and explains shows of drones.

    import hemtoghai

    verdict = hemtoghai.check(text)
    if not verdict.ok:
        for place in verdict.blocked:
            print(place.first, place.second, place.begin_ms, place.end_ms, place.lines)
    plan = hemtoghai.compile(text)

The proved library is asked in this process, or the proved program in one of its own: `verdict.proved` says whether the
record of the one that answered has a proof. docs/PYTHON.md has whole programs.
"""
import sys

if sys.version_info < (3, 9):  # before what an older one can't read
    NEEDED = "Python 3.9 or later is needed, and this is %d.%d" % sys.version_info[:2]
    if sys.argv[:1] == ["-m"]:  # python3 -m hemtoghai, which would have a traceback
        sys.stderr.write("hemtoghai: " + NEEDED + "\n")
        sys.exit(70)
    raise ImportError(NEEDED)

TYPE_CHECKING = False  # what is named below is imported where it is first asked for: ./show has to begin fast
if TYPE_CHECKING:
    from hemtoghai.judging import (Blocked, Caution, DronePlan, Plan, Refused, Unusable, Verdict, boxes, certify, check,
                                   compile, dynamics, play, report, run, speed, verify)

__all__ = ["Blocked", "Caution", "DronePlan", "Plan", "Refused", "Unusable", "Verdict", "boxes", "certify", "check",
           "compile", "dynamics", "play", "report", "run", "speed", "verify"]


def __getattr__(name: str) -> object:
    if name == "__version__":
        from hemtoghai.launching import records
        version = globals()[name] = records.version()
        return version
    if name not in __all__:
        raise AttributeError("module 'hemtoghai' has no attribute %r" % name)
    from hemtoghai import judging
    value = globals()[name] = getattr(judging, name)
    return value


def __dir__() -> list[str]:
    return __all__
