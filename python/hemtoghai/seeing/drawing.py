"""One drawing of a show in space, as SVG: paths, and the drones with their ellipsoids at two instants. For
./show picture."""
from __future__ import annotations

from collections.abc import Iterable, Iterator, Sequence
from math import cos, hypot, radians, sin

from hemtoghai.language.choreo import Flown

Place = Sequence[float]  # in millimetres
Point = tuple[float, float]  # of the drawing

WIDTH, GAP = 880, 40
TURN, TILT = 28, 30  # degrees
FEW = ["#0072b2", "#d55e00", "#008a64", "#b8478f", "#7a5c00", "#5b3fb0", "#0092a8", "#a01830"]


def colour(k: int, count: int) -> str:
    if count <= len(FEW):
        return FEW[k]
    hue = k * 137.5 % 360
    return "hsl(%d,%d%%,%d%%)" % (round(hue), 65 if k % 2 else 95, [36, 48][k % 2] - (10 if 40 < hue < 190 else 0))


class View:
    """From places in millimetres to points of the drawing."""

    def __init__(self, low: Place, high: Place) -> None:
        turn, tilt = radians(TURN), radians(TILT)
        self.turn, self.tilt = (cos(turn), sin(turn)), (cos(tilt), sin(tilt))
        self.centre = [(a + b) / 2 for a, b in zip(low, high)]
        corners = [self.flat((x, y, z)) for x in (low[0], high[0]) for y in (low[1], high[1])
                   for z in (low[2], high[2])]
        self.scale = (WIDTH - 2 * GAP) / (2 * max(corner[0] for corner in corners))
        self.above, self.height = 0.0, 0

    def fit(self, places: Iterable[Place], up: float) -> None:
        """Leaves room above and below for these places, and above for so many millimetres more."""
        heights = [self.flat(place)[1] for place in places]
        self.above = (max(heights) + up) * self.scale + GAP
        self.height = round(self.above - min(heights) * self.scale + GAP)

    def flat(self, place: Place) -> tuple[float, float, float]:
        """To the right, up, and away from whoever looks, in millimetres from the middle."""
        dx, dy, dz = (v - c for v, c in zip(place, self.centre))
        (ca, sa), (ce, se) = self.turn, self.tilt
        far = ca * dy - sa * dx
        return ca * dx + sa * dy, far * se + dz * ce, far * ce - dz * se

    def point(self, place: Place) -> Point:
        x, y, _ = self.flat(place)
        return WIDTH / 2 + self.scale * x, self.above - self.scale * y


def coordinates(points: Iterable[Point]) -> str:
    """Points as the words of a line of SVG, without those that lie on the line between their neighbours."""
    kept: list[Point] = []
    for x, y in points:
        if len(kept) > 1:
            (ax, ay), (bx, by) = kept[-2:]
            long = hypot(x - ax, y - ay)
            aside = abs((x - ax) * (by - ay) - (y - ay) * (bx - ax))
            if aside < 0.15 * long and hypot(bx - ax, by - ay) < long:
                kept.pop()
        if not kept or hypot(x - kept[-1][0], y - kept[-1][1]) >= 0.5:
            kept.append((x, y))
    return " ".join("%.1f,%.1f" % point for point in kept)


def floor_lines(view: View, low: Place, high: Place) -> Iterator[str]:
    """The lines of a floor at the height 0, half a metre or a metre apart."""
    step = 500 if max(high[0] - low[0], high[1] - low[1]) < 6000 else 1000
    for axis in (0, 1):
        first, last = -(-low[axis] // step), high[axis] // step
        for k in range(int(first), int(last) + 1):
            ends = [view.point([step * k, other, 0] if axis == 0 else [other, step * k, 0])
                    for other in (low[1 - axis], high[1 - axis])]
            yield f'<polyline points="{coordinates(ends)}" fill="none" stroke="#ddd"/>'


def drone_lines(view: View, flown: Flown, row: Place, k: int, opacity: float) -> Iterator[str]:
    """A drone with its ellipsoid and its way down to the floor."""
    r, h = flown.show.settings["ellipsoid"]
    (x, y), (_, low), shade = view.point(row[:3]), view.point((*row[:2], 0)), colour(k, len(flown.names))
    up = hypot(r * view.tilt[1], h * view.tilt[0])
    yield '<line x1="%.1f" y1="%.1f" x2="%.1f" y2="%.1f" stroke="%s" stroke-opacity="%.2f" stroke-width="0.8"/>' % (
        x, y, x, low, shade, 0.4 * opacity)
    yield ('<ellipse cx="%.1f" cy="%.1f" rx="%.1f" ry="%.1f" fill="%s" fill-opacity="%.2f" stroke="%s" '
           'stroke-opacity="%.2f"/>') % (x, y, r * view.scale, up * view.scale, shade, 0.14 * opacity, shade, opacity)
    yield f'<circle cx="{x:.1f}" cy="{y:.1f}" r="3" fill="{shade}" fill-opacity="{opacity:.2f}"/>'


def drawing_of(flown: Flown, times: Sequence[int], places: Sequence[Sequence[Place]]) -> str:
    """The text of the drawing: floor, paths, and the drones at their starts, faint, and in the first cue in flight."""
    r, h = flown.show.settings["ellipsoid"]
    rows: list[Place] = [place[:3] for row in places for place in row]
    low = [min(row[k] for row in rows) - r for k in range(3)]
    high = [max(row[k] for row in rows) + (r if k < 2 else h) for k in range(3)]
    low[2] = min(0, low[2])
    view = View(low, high)
    floor: list[Place] = [(x, y, 0) for x in (low[0], high[0]) for y in (low[1], high[1])]
    view.fit(rows + floor, hypot(r * view.tilt[1], h * view.tilt[0]))
    out = ['<svg xmlns="http://www.w3.org/2000/svg" viewBox="0 0 %d %d" width="%d" height="%d">' % (
        WIDTH, view.height, WIDTH, view.height),
        f"<title>The flight of {len(flown.names)} drones in space, with their ellipsoids</title>",
        '<rect width="100%" height="100%" fill="#fff"/>', *floor_lines(view, low, high)]
    for k in range(len(flown.names)):
        points = coordinates(view.point(row[k][:3]) for row in places)
        out.append('<polyline points="%s" fill="none" stroke="%s" stroke-opacity="0.5" stroke-width="1.5"/>' % (
            points, colour(k, len(flown.names))))
    for at, opacity in ((0, 0.35), (middle(flown, times), 1)):
        order = sorted(range(len(flown.names)), key=lambda k: -view.flat(places[at][k][:3])[2])
        for k in order:
            out += drone_lines(view, flown, places[at][k], k, opacity)
    return "\n".join([*out, "</svg>"]) + "\n"


def middle(flown: Flown, times: Sequence[int]) -> int:
    """The sample nearest to three fifths of the first cue in which drones fly."""
    begin = 0
    for cue in flown.cues:
        if any(act not in ("hold", "turn") for _, act, _ in cue.acts.values()):
            break
        begin += cue.milliseconds
    wanted = begin + 3 * cue.milliseconds // 5
    return min(range(len(times)), key=lambda k: abs(times[k] - wanted))
