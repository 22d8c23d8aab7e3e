"""Writes a show without some of its drones; its cues stay as they are.

    ./show without [--depth D] SHOW NAME .. > NEW

For the day on which a drone stays in its box. The lines of these drones, their places in formations and their acts go;
all other lines stay byte for byte. A formation that is left without a place goes, with the `form` lines that name it. A
figure loses the roles that these drones have in every perform of it. If performs of it lose different roles, each that
needs it gets a figure of its own, under a new name. A perform that has lost all its drones stays as a pause of the same
length, so that no later cue comes earlier.

The answer of `check` to the new show goes to standard error, and the status is that of `check`. 2: wrong words, for
example if no drone would be left. 3: the show is faulty. 70: no answer.
"""
from __future__ import annotations

from collections.abc import Collection

from hemtoghai.companion import add_depth, flown_of, known_names, parser, put_show, stop
from hemtoghai.language import choreo
from hemtoghai.language.lines import free_name, line_in, with_words

IDLE = "nobody"  # the role of a figure in which nobody acts


class Editor:
    """The lines of a show, and what stands in their places."""

    def __init__(self, text: bytes, show: choreo.Show, gone: Collection[str]) -> None:
        self.lines, self.show, self.gone = text.split(b"\n"), show, set(gone)
        self.rows = [[line] for line in self.lines]  # what stands in the place of each line
        self.figures = set(show.figures)
        self.left = [name for name in show.names if name not in self.gone]

    def drop(self, line: choreo.Line) -> None:
        """A line goes, with the block that it opens."""
        self.rows[line.number - 1:line.last] = [[] for _ in range(line.number, line.last + 1)]

    def drop_drones(self) -> None:
        """Drops the drones, their places and their acts outside figures, and what is left empty."""
        emptied = {name for name, formation in self.show.formations.items()
                   if all(place.name in self.gone for place in formation.body)}
        for block in self.show.top.body:
            named = ("drone", "at") if block.kind == "figure" else ("drone", "at", "act")
            for line in [block, *choreo.inside(block)]:
                names = self.gone if line.kind in named else emptied if line.kind in ("formation", "form") else ()
                if line.name in names:
                    self.drop(line)

    def change_performs(self) -> None:
        """Takes the drones out of performs, and their roles out of figures."""
        performs = [line for line in choreo.inside(self.show.top) if line.kind == "perform"]
        for name, figure in self.show.figures.items():
            roles = figure.roles
            cast: dict[tuple[str, ...], list[choreo.Line]] = {}
            for line in performs:
                if line.name == name:
                    lost = tuple(role for role, player in zip(roles, line.players) if player in self.gone)
                    cast.setdefault(lost, []).append(line)
            for lost, lines in cast.items():
                if lost:
                    new = name if len(cast) == 1 else free_name(name, self.figures)
                    self.cut_figure(figure, new, set(lost))
                    for line in lines:
                        self.cut_perform(line, new)

    def cut_figure(self, figure: choreo.Line, name: str, lost: set[str]) -> None:
        """A figure without some roles: in its own place, or under a new name once more after itself."""
        roles = [role for role in figure.roles if role not in lost] or [IDLE]
        acts = {line.number for line in choreo.inside(figure) if line.kind == "act" and line.name in lost}
        head = with_words(self.lines[figure.number - 1], " ".join(["figure", name, *roles]))
        rows = [[head]] + [[] if number in acts else [self.lines[number - 1]]
                           for number in range(figure.number + 1, figure.last + 1)]
        if name in self.figures:
            self.rows[figure.number - 1:figure.last] = rows
        else:
            self.rows[figure.last - 1] += [line for row in rows for line in row]
        self.figures.add(name)

    def cut_perform(self, line: choreo.Line, name: str) -> None:
        """A perform of a figure without the roles of drones that are gone."""
        players = [player for player in line.players if player not in self.gone] or self.left[:1]
        words = line_in(self.show.form, "perform", name, *line.values[1:6], *players)
        self.rows[line.number - 1] = [with_words(self.lines[line.number - 1], words)]


def main(words: list[str]) -> int:
    reader = parser(__doc__)
    add_depth(reader)
    reader.add_argument("show", metavar="SHOW", help="a file with a show, or - for standard input")
    reader.add_argument("names", nargs="+", metavar="NAME", help="a drone that stays on the ground")
    options = reader.parse_args(words)
    text, flown = flown_of(options.show)
    if set(known_names(flown, options.names)) == set(flown.names):
        stop("no drone would be left, and a show has at least one", 2)
    editor = Editor(text, flown.show, options.names)
    editor.drop_drones()
    editor.change_performs()
    return put_show(b"\n".join(line for row in editor.rows for line in row), options.depth)
