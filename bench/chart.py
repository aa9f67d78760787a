"""A bar chart of ratios on a logarithmic axis, as SVG. Bars begin at 1: to the left of it a ratio is below 1."""
import html
import math
from collections.abc import Sequence
from dataclasses import dataclass

# Sizes in pixels.
LABELS, PLOT, MARGIN = 400, 480, 90
BAR, GAP, HEAD, FOOT = 13, 9, 74, 48
FILLS = ["#2b6cb0", "#dd8b2a", "#4a9a5b", "#8a5aa8", "#777777"]
TICKS = (1, 2, 5)


@dataclass(frozen=True)
class Group:
    """A label, and a ratio for each series that has one."""

    label: str
    ratios: Sequence[float | None]

    def known(self) -> list[float]:
        return [it for it in self.ratios if it is not None]


@dataclass(frozen=True)
class Axis:
    """A logarithmic axis from one ratio to another, with 1 between them."""

    least: float
    most: float

    def x(self, ratio: float) -> float:
        return LABELS + PLOT * math.log(ratio / self.least) / math.log(self.most / self.least)

    def ticks(self) -> list[float]:
        powers = range(math.floor(math.log10(self.least)), math.ceil(math.log10(self.most)) + 1)
        return [it for power in powers for part in TICKS if self.least <= (it := part * 10**power) <= self.most]


def text(x: float, y: float, said: str, anchor: str = "start") -> str:
    return f'<text x="{x:.1f}" y="{y:.1f}" text-anchor="{anchor}">{html.escape(said)}</text>'


def upright(x: float, bottom: float, colour: str) -> str:
    return f'<line x1="{x:.1f}" y1="{HEAD}" x2="{x:.1f}" y2="{bottom:.1f}" stroke="{colour}"/>'


def axis_for(groups: Sequence[Group]) -> Axis:
    """An axis with room for all ratios, and for the numbers behind the bars."""
    ratios = [1.0, *(ratio for group in groups for ratio in group.known())]
    room = (max(ratios) / min(ratios)) ** 0.12 * 1.1
    return Axis(min(ratios) / room, max(ratios) * room)


def scale(axis: Axis, bottom: float, reference: str) -> list[str]:
    """The ticks of the axis, what lies on each side of 1, and the name of the line at 1."""
    lines = []
    for tick in axis.ticks():
        lines += [upright(axis.x(tick), bottom, "#dddddd"), text(axis.x(tick), bottom + 18, f"{tick:g}", "middle")]
    one, y = axis.x(1), bottom + 38
    sides = [
        text(one - 8, y, "faster \u2190", "end"),
        text(one, y, "|", "middle"),
        text(one + 8, y, "\u2192 slower (log scale)"),
    ]
    return [*lines, text(one, HEAD - 6, reference, "middle"), *sides]


def digits(ratio: float) -> str:
    """A ratio with two digits behind the point, and three below 0.1."""
    return f"{ratio:.2f}" if ratio >= 0.1 else f"{ratio:.3f}"


def bar(axis: Axis, ratio: float, upper: float, fill: str) -> list[str]:
    """A bar from 1 to a ratio, and the ratio at its end."""
    one, end = axis.x(1), axis.x(ratio)
    box = (
        f'<rect x="{min(one, end):.1f}" y="{upper:.1f}" width="{abs(end - one):.1f}" height="{BAR - 1}" fill="{fill}"/>'
    )
    place = (end + 4, "start") if ratio >= 1 else (end - 4, "end")
    return [box, text(place[0], upper + BAR - 3, digits(ratio), place[1])]


def bars(groups: Sequence[Group], axis: Axis, height: float) -> list[str]:
    """The bars of all groups, from above."""
    lines, y = [], HEAD + GAP / 2
    for group in groups:
        lines.append(text(LABELS - 8, y + (height - GAP) / 2 + 4, group.label, "end"))
        for place, ratio in enumerate(group.ratios):
            if ratio is not None:
                lines += bar(axis, ratio, y + BAR * place, FILLS[place % len(FILLS)])
        y += height
    return lines


def legend(series: Sequence[str]) -> list[str]:
    lines = []
    for place, name in enumerate(series):
        x = LABELS + 150 * place
        lines.append(f'<rect x="{x}" y="32" width="{BAR - 1}" height="{BAR - 1}" fill="{FILLS[place % len(FILLS)]}"/>')
        lines.append(text(x + BAR + 4, 42, name))
    return lines


def svg(heading: str, reference: str, series: Sequence[str], groups: Sequence[Group]) -> str:
    """The chart: a bar for each series of each group, sorted by the first ratio. The reference is what stands at 1."""
    groups = sorted(groups, key=lambda group: (group.known() or [math.inf])[0])
    height = BAR * len(series) + GAP
    bottom = HEAD + height * len(groups)
    axis = axis_for(groups)
    width = LABELS + PLOT + MARGIN
    return "\n".join(
        [
            f'<svg xmlns="http://www.w3.org/2000/svg" width="{width}" height="{bottom + FOOT}"'
            ' font-family="sans-serif" font-size="12">',
            '<rect width="100%" height="100%" fill="white"/>',
            text(LABELS, 18, heading),
            *legend(series),
            *scale(axis, bottom, reference),
            *bars(groups, axis, height),
            upright(axis.x(1), bottom, "#222222"),
            "</svg>\n",
        ]
    )
