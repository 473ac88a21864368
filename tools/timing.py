"""Waves as a picture in SVG: a row for each name, levels for one bit and bars with numbers for more."""

from typing import Callable, NamedTuple, Optional

from markup import plain


class Wave(NamedTuple):
    """The changes are times with the number from then on; no number stands where it isn't known."""

    name: str
    is_bit: bool
    changes: list[tuple[float, Optional[int]]]


LEFT, HIGH, GAP, UNIT, SLOPE = 90, 16, 28, 56, 3
STYLE = """<style>
text { font-family: Helvetica, Arial, sans-serif; font-size: 10px; fill: #222; text-anchor: middle }
.name { text-anchor: end; font-size: 11px } .time { fill: #666; font-size: 9px }
.wave { fill: none; stroke: #1f5fa8; stroke-width: 1.2 } .bar { fill: #eef3fa; stroke: #1f5fa8; stroke-width: 1.2 }
.unknown { fill: #e4e4e4; stroke: #999; stroke-width: 1 } .grid { stroke: #ddd; stroke-width: 1 }
</style>"""


def pieces(wave: Wave, end: float) -> list[tuple[float, float, Optional[int]]]:
    """Each stretch between changes that change something: its beginning, its end and its number."""
    found = []
    for at, number in wave.changes:
        if found and found[-1][2] == number:
            continue
        if found and found[-1][0] == at:
            found.pop()
        found.append((at, end, number))
    return [(at, found[k + 1][0] if k + 1 < len(found) else end, number) for k, (at, _, number) in enumerate(found)]


def levels(wave: Wave, end: float, scale: Callable[[float], float], top: float) -> list[str]:
    steps, last = [], None
    for begin, until, number in pieces(wave, end):
        if number is None:
            last = None
            continue
        y = top + (0 if number else HIGH)
        steps.append(f"{'M' if last is None else 'L'}{scale(begin):.1f} {y}L{scale(until):.1f} {y}")
        last = number
    return [f'<path d="{"".join(steps)}" class="wave"/>'] if steps else []


def bars(wave: Wave, end: float, scale: Callable[[float], float], top: float) -> list[str]:
    parts = []
    for begin, until, number in pieces(wave, end):
        left, right, middle = scale(begin), scale(until), top + HIGH / 2
        kind = "unknown" if number is None else "bar"
        corners = ((left, middle), (left + SLOPE, top), (right - SLOPE, top), (right, middle), (right - SLOPE, top + HIGH), (left + SLOPE, top + HIGH))
        parts.append(f'<path d="M{"L".join(f"{x:.1f} {y:g}" for x, y in corners)}Z" class="{kind}"/>')
        if number is not None and right - left > 6 * len(str(number)):
            parts.append(f'<text x="{(left + right) / 2:.1f}" y="{middle + 3.5:g}">{number}</text>')
    return parts


def timing(waves: list[Wave], marks: list[tuple[float, str]], end: float) -> str:
    """The waves up to a time, with a line and a word at each mark; a mark and the next are one unit apart."""
    unit = (marks[1][0] - marks[0][0]) if len(marks) > 1 else max(end, 1)
    scale = lambda time: LEFT + UNIT * time / unit
    wide, high = scale(end) + 12, 30 + GAP * len(waves)
    parts = [f'<svg xmlns="http://www.w3.org/2000/svg" width="{wide:.0f}" height="{high}">', STYLE, '<rect width="100%" height="100%" fill="#fff"/>']
    for time, word in marks:
        parts.append(f'<path d="M{scale(time):.1f} 20V{high - 4}" class="grid"/><text x="{scale(time) + UNIT / 2:.1f}" y="14" class="time">{plain(word)}</text>')
    for row, wave in enumerate(waves):
        top = 24 + GAP * row
        parts.append(f'<text x="{LEFT - 8}" y="{top + HIGH / 2 + 4:g}" class="name">{plain(wave.name)}</text>')
        parts += (levels if wave.is_bit else bars)(wave, end, scale, top)
    return "\n".join(parts + ["</svg>", ""])
