"""Bars: columns side by side as inline SVG, and bars below each other. Each bar has words that say its figure."""

from collections.abc import Iterable, Sequence
from dataclasses import dataclass
from html import escape

MOST_WIDTH = 40  # of a column
LETTER, GAP = 8, 12  # of labels: the width of a letter at most, and what is free between two
LINE, LEAST_BAR = 24, 380  # of bars below each other: how high each is with its label, and the room of the longest


@dataclass(frozen=True)
class Bar:
    """A bar: what it stands for, its length, the words of its title, and whether it is set apart; `more` is what is put on
    top of a column, set apart from it, and `says` stands above it."""

    label: str
    value: float
    title: str
    is_apart: bool = False
    more: float = 0.0
    says: str = ""

    @property
    def whole(self) -> float:
        return self.value + self.more


@dataclass(frozen=True)
class Tick:
    """A label at a place of the lower axis: `place` columns from its beginning. One with a line parts the picture there."""

    place: float
    label: str
    has_line: bool = False


@dataclass(frozen=True)
class Size:
    """How large a picture of columns is drawn, what is left free around them, and whether each has a title to be pointed
    at."""

    width: int
    height: int
    left: int
    right: int
    top: int
    bottom: int
    has_titles: bool

    @property
    def inner_width(self) -> int:
        return self.width - self.left - self.right

    @property
    def inner_height(self) -> int:
        return self.height - self.top - self.bottom


WIDE = Size(760, 230, 52, 8, 22, 26, has_titles=True)
NARROW = Size(360, 230, 56, 4, 26, 28, has_titles=False)


def nice_step(most: float, ticks: int = 4) -> float:
    """A step of 1, 2 or 5 times a power of ten, at most so many of which reach the most."""
    step = 1.0
    while step * ticks < most:
        step *= 10
    while step * ticks / 10 >= most > 0:
        step /= 10
    for part in (0.1, 0.2, 0.5):
        if step * part * ticks >= most:
            return step * part
    return step


def number_text(value: float) -> str:
    """A number of an axis without needless zeros, its thousands apart."""
    return f"{value:,.10g}".replace(",", "\u202f")


def columns(bars: Sequence[Bar], caption: str, unit: str, size: Size = WIDE, ticks: Sequence[Tick] = ()) -> str:
    """Columns side by side over an axis of numbers; of those that have a label, or of the ticks in their place, as many as
    there is room for are labelled, and those that are set apart have a mark above."""
    most = max([bar.whole for bar in bars], default=0) or 1.0
    step = nice_step(most)
    top = step * max(1, -(-most // step))
    slot = size.inner_width / max(1, len(bars))
    parts = [svg_begin(size, caption), f'<text class="unit" x="0" y="{size.top - 10}">{escape(unit)}</text>']
    parts += axis(size, top, step)
    for place, bar in enumerate(bars):
        parts.append(column(size, bar, size.left + slot * place, slot, size.inner_height / top))
    shown = ticks or [Tick(place + 0.5, bar.label) for place, bar in enumerate(bars) if bar.label]
    parts += lower_axis(size, slot, shown)
    return "\n".join([*parts, "</svg>"])


def lower_axis(size: Size, slot: float, ticks: Sequence[Tick]) -> Iterable[str]:
    """The labels below the columns, as many as don't meet; that of a line stands at its top."""
    plain = [tick for tick in ticks if not tick.has_line]
    longest = max((len(tick.label) for tick in plain), default=0)
    most = max(1, size.inner_width // (longest * LETTER + GAP))
    for tick in plain[:: max(1, -(-len(plain) // most))]:
        x = size.left + slot * tick.place
        yield f'<text class="tick" x="{x:.1f}" y="{size.height - 8}" text-anchor="middle">{escape(tick.label)}</text>'
    for tick in ticks:
        if tick.has_line:
            x, foot = size.left + slot * tick.place, size.top + size.inner_height
            center = min(x, size.width - len(tick.label) * LETTER / 2)
            yield f'<line class="parting" x1="{x:.1f}" x2="{x:.1f}" y1="{size.top - 4}" y2="{foot}"/>'
            yield f'<text class="tick" x="{center:.1f}" y="{size.top - 10}" text-anchor="middle">{escape(tick.label)}</text>'


def axis(size: Size, top: float, step: float) -> Iterable[str]:
    """The lines of the axis with their numbers."""
    for tick in range(round(top / step) + 1):
        y = size.top + size.inner_height - size.inner_height * tick * step / top
        yield f'<line class="grid" x1="{size.left}" x2="{size.width - size.right}" y1="{y:.1f}" y2="{y:.1f}"/>'
        yield f'<text class="tick" x="{size.left - 6}" y="{y + 4:.1f}" text-anchor="end">{number_text(tick * step)}</text>'


def column(size: Size, bar: Bar, x: float, slot: float, scale: float) -> str:
    """A column in its slot, with its title where the size has titles, and with its mark where it is set apart; `scale` is
    the height of one."""
    width = min(slot * 0.8, MOST_WIDTH) if slot > 4 else slot * 0.9
    foot, center = float(size.top + size.inner_height), x + slot / 2
    tip = foot - scale * bar.whole - 3
    parts = []
    if size.has_titles:
        parts.append(f"<g><title>{escape(bar.title)}</title>")
        parts.append(f'<rect class="hit" x="{x:.2f}" y="{size.top}" width="{slot:.2f}" height="{size.inner_height}"/>')
    heights = [(bar.value, "apart" if bar.is_apart else "bar"), (bar.more, "apart")]
    for height, name in heights:
        foot -= scale * height
        if height:
            parts.append(
                f'<rect class="{name}" x="{center - width / 2:.2f}" y="{foot:.2f}" width="{width:.2f}"'
                f' height="{scale * height:.2f}"/>'
            )
    if bar.is_apart and bar.value:
        parts.append(f'<path class="apart" d="M{center - 4:.1f} {tip - 7:.1f}h8l-4 7z"/>')
    if bar.says:
        parts.append(
            f'<text class="says" x="{center:.1f}" y="{tip:.1f}" text-anchor="middle">{escape(bar.says)}</text>'
        )
    return "".join([*parts, "</g>" if size.has_titles else ""])


def bars_below(bars: Sequence[Bar], caption: str) -> str:
    """Bars below each other, each under its label and the words of its title behind the last colon, some set apart."""
    most = max([bar.value for bar in bars], default=0) or 1.0
    rows = [
        f'<li><span class="label">{escape(bar.label)}</span>'
        f'<span class="value">{escape(bar.title.rpartition(": ")[2])}</span>'
        '<svg viewBox="0 0 100 1" preserveAspectRatio="none" aria-hidden="true">'
        '<rect class="track" width="100" height="1"/>'
        f'<rect class="{"apart" if bar.is_apart else "bar"}" width="{100 * bar.value / most:.2f}" height="1"/></svg></li>'
        for bar in bars
    ]
    return f'<ul class="bars" aria-label="{escape(caption)}">\n{chr(10).join(rows)}\n</ul>'


def lines_of_bars(bars: Sequence[Bar], caption: str) -> str:
    """Bars below each other as one picture: before each its label, and behind it the words of its title behind the last
    colon."""
    words = [bar.title.rpartition(": ")[2] for bar in bars]
    left = GAP + LETTER * max([len(bar.label) for bar in bars], default=0)
    right = GAP + LETTER * max(map(len, words), default=0)
    size = Size(left + LEAST_BAR + right, LINE * len(bars) + GAP, left, right, GAP, 0, has_titles=False)
    most = max([bar.value for bar in bars], default=0) or 1.0
    parts = [svg_begin(size, caption)]
    for place, (bar, said) in enumerate(zip(bars, words)):
        top, width = size.top + LINE * place, size.inner_width * bar.value / most
        foot = top + LINE / 2
        kind = "apart" if bar.is_apart else "bar"
        parts.append(f'<text class="tick" x="{left - GAP}" y="{foot}" text-anchor="end">{escape(bar.label)}</text>')
        parts.append(f'<rect class="{kind}" x="{left}" y="{top}" width="{width:.2f}" height="{LINE - GAP / 2}"/>')
        parts.append(f'<text class="tick" x="{left + width + GAP / 2:.1f}" y="{foot}">{escape(said)}</text>')
    return "\n".join([*parts, "</svg>"])


def svg_begin(size: Size, caption: str) -> str:
    return (
        f'<svg viewBox="0 0 {size.width} {size.height}" role="img" aria-label="{escape(caption)}">'
        f"<title>{escape(caption)}</title>"
    )


def legend(meanings: list[str]) -> str:
    """What the two colours of columns mean."""
    classes = ["bar", "apart"]
    marks = [
        f'<span><svg class="key" viewBox="0 0 12 12" aria-hidden="true"><rect class="{classes[place]}" width="12"'
        f' height="12"/></svg> {escape(meaning)}</span>'
        for place, meaning in enumerate(meanings)
    ]
    return f'<p class="legend">{" ".join(marks)}</p>'
