"""Charts as drawn SVG: bars in rows, so that a page grows longer with the years and not wider. Each has its figures in words too."""

from html import escape
from typing import List, NamedTuple, Sequence, Tuple

from ..claim import CODE_WORDS
from ..study import GROUPS, GroupSums
from .crude_rates import CrudeRate, crude_rates
from .figures import counted, durations, group_names, interval_text, months, whole
from .parts import Part
from .ratios import Ratio, ratios_of

_WIDTH = 420
_BARS_AT = 104
_BARS_END = 296
_ROW = 34
_BAR = 18
_TOP = 26
_RATIO_AT = 74
_RATIO_END = 244
_RATIO_ROW = 22
_RATIO_BAR = 12
_RATIO_TEXT = 312
_HEAD_ROW = 24
_LEGEND_ROW = 18
_LEGEND_PLACES = (0, 104, 200, 316)
_NARROWEST_LABELLED = 18
_PLOT_LEFT = 62
_PLOT_RIGHT = 414
_PLOT_TOP = 30
_PLOT_BOTTOM = 216
_MOST_IN_WORDS = 12
CATEGORIES = tuple(CODE_WORDS[category] for category in range(1, 6))


class Bars(NamedTuple):
    """A row of a chart: its name, in two lines if it has them, and its sums."""

    first: str
    second: str
    sums: GroupSums

    @property
    def name(self) -> str:
        """The name in one line."""
        return f"{self.first} {self.second}".strip()


def part_bars(parts: Sequence[Tuple[Part, GroupSums]]) -> List[Bars]:
    """A row for each part of a window."""
    rows = []
    for part, sums in parts:
        first, _, second = part.label.partition(" to ")
        rows.append(Bars(first, second and f"to {second}", sums))
    return rows


def group_bars(groups: Sequence[GroupSums]) -> List[Bars]:
    """A row for each group that has any sums."""
    return [Bars(f"Group {i}", f"{durations(*GROUPS[i - 1])} months", sums) for i, sums in enumerate(groups, 1) if any(sums)]


class Chart(NamedTuple):
    """A drawing and its title."""

    title: str
    svg: str


class _Drawing:
    """The pieces of a drawing, from top to bottom."""

    def __init__(self) -> None:
        self._pieces: List[str] = []

    def text(self, x: float, y: float, words: str, kind: str = "", anchor: str = "start") -> None:
        """Words at a place."""
        self._pieces.append(f'<text x="{x:.1f}" y="{y:.1f}" class="{kind}" text-anchor="{anchor}">{escape(words)}</text>')

    def box(self, x: float, y: float, width: float, height: float, kind: str) -> None:
        """A filled box."""
        self._pieces.append(f'<rect x="{x:.1f}" y="{y:.1f}" width="{width:.1f}" height="{height:.1f}" class="{kind}"/>')

    def upright(self, x: float, top: float, bottom: float, kind: str) -> None:
        """A line from top to bottom."""
        self._pieces.append(f'<line x1="{x:.1f}" y1="{top:.1f}" x2="{x:.1f}" y2="{bottom:.1f}" class="{kind}"/>')

    def whisker(self, low: float, high: float, y: float, cut: bool) -> None:
        """An interval: a line with an end at its sides, or an arrow where it goes on."""
        self._pieces.append(f'<path d="M{low:.1f} {y - 4:.1f}V{y + 4:.1f}M{low:.1f} {y:.1f}H{high:.1f}" class="whisker"/>')
        end = f"M{high - 5:.1f} {y - 4:.1f}L{high:.1f} {y:.1f}L{high - 5:.1f} {y + 4:.1f}" if cut else f"M{high:.1f} {y - 4:.1f}V{y + 4:.1f}"
        self._pieces.append(f'<path d="{end}" class="whisker"/>')

    def path(self, points: Sequence[Tuple[float, float]], kind: str) -> None:
        """A line from point to point."""
        self._pieces.append(f'<path d="M{"L".join(f"{x:.1f} {y:.1f}" for x, y in points)}" class="{kind}"/>')

    def label(self, y: float, first: str, second: str) -> None:
        """A row's name at its left, in two lines if it has them."""
        if second:
            self.text(0, y + 12, first)
            self.text(0, y + 25, second, "small")
        else:
            self.text(0, y + 21, first)

    def chart(self, name: str, title: str, height: float, words: str) -> Chart:
        """The drawing with its title and its figures in words."""
        head = f'<svg role="img" viewBox="0 0 {_WIDTH} {height:.0f}" aria-labelledby="{name}-title {name}-words" xmlns="http://www.w3.org/2000/svg">'
        told = f'<title id="{name}-title">{escape(title)}</title><desc id="{name}-words">{escape(words)}</desc>'
        return Chart(title, head + told + "".join(self._pieces) + "</svg>")


def ratio_chart(name: str, title: str, groups: Sequence[GroupSums], with_intervals: bool = True) -> Chart:
    """Actual to expected of each group, recoveries and deaths apart too, beside the line at 1, each with its interval."""
    drawing, words = _Drawing(), []
    by_group = [ratios_of(sums, with_intervals) for sums in groups]
    most = _most([ratio for ratios in by_group for ratio in ratios])
    one = _RATIO_AT + (_RATIO_END - _RATIO_AT) / most
    drawing.text(one, 13, "1 = as expected", "small", "middle")
    y = float(_TOP)
    for i, (sums, ratios) in enumerate(zip(groups, by_group), 1):
        words.append(f"group {i}: " + "; ".join(ratio.words for ratio in ratios))
        if any(sums):
            y = _draw_ratios(drawing, y, i, ratios, most)
    empty = [i for i, sums in enumerate(groups, 1) if not any(sums)]
    if empty:
        drawing.text(0, y + 17, f"{group_names(empty)}: no exposure", "small")
        y += _HEAD_ROW
    return drawing.chart(name, title, y + 4, f"{title}. " + ". ".join(words) + ".")


def _most(ratios: Sequence[Ratio]) -> float:
    """Where the bars end: past every ratio, and past the intervals as long as these don't make all bars short."""
    highest = max([1.0, *(ratio.value for ratio in ratios if ratio.value is not None)])
    ends = [ratio.interval[1] for ratio in ratios if ratio.interval is not None]
    return max(1.25, 1.05 * highest, min(max([0.0, *ends]), 2 * highest))


def _draw_ratios(drawing: _Drawing, top: float, group: int, ratios: Sequence[Ratio], most: float) -> float:
    """A group's rows; answers where the next group starts."""
    drawing.text(0, top + 15, f"Group {group}: {durations(*GROUPS[group - 1])} months", "strong")
    y = top + _HEAD_ROW
    bottom = y + len(ratios) * _RATIO_ROW
    drawing.upright(_RATIO_AT, y, bottom, "axis")
    drawing.upright(_RATIO_AT + (_RATIO_END - _RATIO_AT) / most, y, bottom, "one")
    for ratio in ratios:
        drawing.text(0, y + 13, ratio.kind, "small")
        if ratio.value is None:
            drawing.text(_RATIO_AT + 4, y + 13, "nothing expected", "small")
        else:
            _draw_ratio(drawing, y, ratio, most)
        y += _RATIO_ROW
    return y


def _draw_ratio(drawing: _Drawing, y: float, ratio: Ratio, most: float) -> None:
    scale = (_RATIO_END - _RATIO_AT) / most
    middle = y + _RATIO_ROW / 2 - 2
    drawing.box(_RATIO_AT, middle - _RATIO_BAR / 2, (ratio.value or 0) * scale, _RATIO_BAR, "bar" if ratio.whole else "bar light")
    drawing.text(_RATIO_TEXT, y + 13, ratio.text, "strong", "end")
    if ratio.interval is not None:
        low, high = (_RATIO_AT + end * scale for end in ratio.interval)
        drawing.whisker(low, min(high, _RATIO_END + 6), middle, cut=high > _RATIO_END + 6)
        drawing.text(_WIDTH, y + 13, interval_text(ratio.interval), "small", "end")


def exposure_chart(name: str, title: str, rows: Sequence[Bars]) -> Chart:
    """Exposure in months, row by row."""
    most = max([1, *(row.sums.thirtieths for row in rows)])
    scale = (_BARS_END - _BARS_AT) / most
    drawing = _Drawing()
    for i, row in enumerate(rows):
        y = i * _ROW
        drawing.label(y, row.first, row.second)
        drawing.box(_BARS_AT, y + (_ROW - _BAR) / 2, max(0, row.sums.thirtieths) * scale, _BAR, "bar")
        drawing.text(_WIDTH, y + 21, months(row.sums.thirtieths), "strong", "end")
    bottom = len(rows) * _ROW
    drawing.upright(_BARS_AT, 0, bottom, "axis")
    words = "; ".join(f"{row.name}: {months(row.sums.thirtieths)} months" for row in rows)
    return drawing.chart(name, title, bottom + 4, f"{title}. {words}.")


def closings_chart(name: str, title: str, rows: Sequence[Bars]) -> Chart:
    """Closings of each category, row by row, with a legend."""
    most = max([1, *(row.sums.closings for row in rows)])
    scale = (_BARS_END - _BARS_AT) / most
    drawing = _Drawing()
    top = _legend(drawing)
    for i, row in enumerate(rows):
        y = top + i * _ROW
        drawing.label(y, row.first, row.second)
        _stacked(drawing, y + (_ROW - _BAR) / 2, row.sums, scale)
        drawing.text(_WIDTH, y + 21, whole(row.sums.closings), "strong", "end")
    bottom = top + len(rows) * _ROW
    drawing.upright(_BARS_AT, top, bottom, "axis")
    words = "; ".join(f"{row.name}: {_closing_words(row.sums)}" for row in rows)
    return drawing.chart(name, title, bottom + 4, f"{title}. {words}.")


def _legend(drawing: _Drawing) -> float:
    """The categories with their colours; answers where the rows start."""
    for i, category in enumerate(CATEGORIES):
        row, place = divmod(i, len(_LEGEND_PLACES))
        x, y = _LEGEND_PLACES[place], row * _LEGEND_ROW
        drawing.box(x, y + 2, 11, 11, f"k{i + 1}")
        drawing.text(x + 16, y + 12, category, "small")
    return (len(CATEGORIES) - 1) // len(_LEGEND_PLACES) * _LEGEND_ROW + _LEGEND_ROW + 8


def _stacked(drawing: _Drawing, y: float, sums: GroupSums, scale: float) -> None:
    x = float(_BARS_AT)
    for i, count in enumerate(sums[1:6], 1):
        width = count * scale
        if count:
            drawing.box(x, y, width, _BAR, f"k{i} part")
        if width >= _NARROWEST_LABELLED + 7 * (len(whole(count)) - 1):
            drawing.text(x + width / 2, y + 13, whole(count), "on", "middle")
        x += width


def _closing_words(sums: GroupSums) -> str:
    named = [f"{whole(count)} {category}" for category, count in zip(CATEGORIES, sums[1:6]) if count]
    return counted(sums.closings, "closing") + (f" ({', '.join(named)})" if named else "")


def rate_chart(name: str, title: str, rows: Sequence[Tuple[int, GroupSums]], kind: int) -> Chart:
    """Crude monthly rates over durations, each with its interval, beside the table's; 0 is recoveries, 1 is deaths. A row stands at its first duration."""
    found = [(duration, crude_rates(sums)[kind]) for duration, sums in rows if sums.thirtieths > 0]
    drawing = _Drawing()
    if not found:
        drawing.text(0, 17, "no exposure", "small")
        return drawing.chart(name, title, _HEAD_ROW, f"{title}. No exposure.")
    durations_shown = [duration for duration, _ in found]
    first, last, most = durations_shown[0], max(durations_shown[-1], durations_shown[0] + 1), _most_rate([rate for _, rate in found])

    def place(duration: int, rate: float) -> Tuple[float, float]:
        x = _PLOT_LEFT + (_PLOT_RIGHT - _PLOT_LEFT) * (duration - first) / (last - first)
        return x, _PLOT_BOTTOM - (_PLOT_BOTTOM - _PLOT_TOP) * min(rate, most) / most

    _rate_axes(drawing, first, last, most)
    dots = []
    for duration, rate in found:
        x, y = place(duration, rate.value or 0.0)
        if rate.interval is not None:
            drawing.path([place(duration, end) for end in rate.interval], "span")
        dots.append((x - 1.5, y - 1.5))
    for x, y in dots:
        drawing.box(x, y, 3, 3, "bar")
    expected = [place(duration, rate.expected_value or 0.0) for duration, rate in found]
    drawing.path([*expected, (expected[-1][0] + 0.1, expected[-1][1])], "one line")
    return drawing.chart(name, title, _PLOT_BOTTOM + 24, f"{title}. {_rate_words(found)}.")


def _most_rate(rates: Sequence[CrudeRate]) -> float:
    """Where the axis ends: past every rate, and past the intervals as long as these don't make all else low."""
    highest = max([0.000_001, *(max(rate.value or 0.0, rate.expected_value or 0.0) for rate in rates)])
    ends = [rate.interval[1] for rate in rates if rate.interval is not None]
    return max(1.05 * highest, min(max([0.0, *ends]), 2 * highest))


def _rate_axes(drawing: _Drawing, first: int, last: int, most: float) -> None:
    drawing.path([(_PLOT_LEFT + 3.5, 0), (_PLOT_LEFT + 3.5, 15)], "span")
    drawing.box(_PLOT_LEFT + 2, 6, 3, 3, "bar")
    drawing.text(_PLOT_LEFT + 12, 12, "crude, with 95 % interval", "small")
    drawing.path([(_PLOT_LEFT + 170, 8), (_PLOT_LEFT + 194, 8)], "one line")
    drawing.text(_PLOT_LEFT + 200, 12, "the table's", "small")
    drawing.upright(_PLOT_LEFT, _PLOT_TOP, _PLOT_BOTTOM, "axis")
    drawing.path([(_PLOT_LEFT, _PLOT_BOTTOM), (_PLOT_RIGHT, _PLOT_BOTTOM)], "axis")
    for share in (0, 0.5, 1):
        y = _PLOT_BOTTOM - (_PLOT_BOTTOM - _PLOT_TOP) * share
        drawing.text(_PLOT_LEFT - 6, y + 4, f"{most * share:.4f}", "small", "end")
    for duration, anchor in ((first, "start"), ((first + last) // 2, "middle"), (last, "end")):
        x = _PLOT_LEFT + (_PLOT_RIGHT - _PLOT_LEFT) * (duration - first) / (last - first)
        drawing.text(x, _PLOT_BOTTOM + 16, f"{duration} months" if duration == last else str(duration), "small", anchor)


def _rate_words(found: Sequence[Tuple[int, CrudeRate]]) -> str:
    """Some of the rates in words, evenly over the durations: all of them stand in the table."""
    step = -(-len(found) // _MOST_IN_WORDS)
    told = [f"duration {duration}: {rate.text} for {rate.expected_text} expected" for duration, rate in found[::step]]
    return "; ".join(told)
