"""Blocks and lines of a system as SVG: what a block shows, where its ports are, and how lines go."""

import re
from typing import Iterable, Iterator

from layout import lay_out
from library import taps_of
from markup import plain
from mdl import Defaults, Section, is_number, systems_of
from routing import Area, Point, Port, Routes

# A system: its title, its blocks and its lines.
Panel = tuple[str, list["Box"], list[Section]]

SIGN = {"==": "=", "~=": "≠", "<": "<", "<=": "≤", ">=": "≥", ">": ">"}
SMALL = {"Inport": (30, 14), "Outport": (30, 14), "Ground": (20, 20), "Terminator": (20, 20), "Sum": (30, 40), "Mux": (6, 60), "Demux": (6, 60), "EnablePort": (24, 20), "DiscreteFir": (60, 40)}
# The most ports of a side that are drawn.
MOST = 1024
SUPERSCRIPT = str.maketrans("0123456789-", "⁰¹²³⁴⁵⁶⁷⁸⁹⁻")
STYLE = """<style>
text { font-family: Helvetica, Arial, sans-serif; font-size: 11px; fill: #222; text-anchor: middle }
.name { font-size: 10px } .said { font-size: 8.5px; fill: #666 } .port { font-size: 8px; fill: #444 }
.title { font-size: 12px; font-weight: bold; text-anchor: start }
.block { fill: #fff; stroke: #222; stroke-width: 1.2 } .bar { fill: #222 }
.line { fill: none; stroke: #222; stroke-width: 1 } .dot { fill: #222 }
</style>"""


def numbers(text: str) -> list[int]:
    """Its whole numbers, without those that are too long for a place or a count."""
    return [int(it) for it in re.findall(r"-?[0-9]+", text) if len(it) <= 9]


def short(text: str, most: int = 9) -> str:
    text = " ".join(text.split())
    if re.fullmatch(r"-?\d+\.\d{5,}", text):
        text = f"{float(text):.5g}"
    return text if len(text) <= most else text[: most - 1] + "…"


class Box:
    """A block, its place, and its ports."""

    def __init__(self, block: Section, defaults: Defaults) -> None:
        self.block, self.defaults = block, defaults
        self.kind, self.name = block.get("BlockType"), block.get("Name")
        place = numbers(block.get("Position"))
        self.place = place if len(place) == 4 else None
        self.is_left = block.get("Orientation") == "left" or block.get("BlockMirror") == "on"
        self.inputs, self.outputs = self.counts()
        # attributes of its group in the picture
        self.marks = ""

    def get(self, name: str, otherwise: str = "") -> str:
        found = self.defaults.of(self.block, name)
        return found[0] if found else otherwise

    def signs(self) -> list[str]:
        said = re.sub(r"[|\s]", "", self.get("Inputs", "++"))
        return list(said) if re.fullmatch(r"[+-]+", said) else ["+"] * min(int(said), MOST) if is_number(said) else ["+", "+"]

    def several(self, name: str, otherwise: int) -> int:
        said = self.get(name, str(otherwise))
        return min(int(said), MOST) if is_number(said) else max(len(numbers(said)), 1)

    def inner(self, kind: str) -> list[str]:
        """The names of a subsystem's ports, in the order of their numbers."""
        found = [it for system in systems_of(self.block) for it in system.all("Block") if it.get("BlockType") == kind]
        return [it.get("Name") for it in sorted(found, key=lambda it: (numbers(it.get("Port", "1")) or [1])[0])]

    def counts(self) -> tuple[int, int]:
        if self.kind == "SubSystem":
            return len(self.inner("Inport")), len(self.inner("Outport"))
        inputs = {"Inport": 0, "Constant": 0, "Ground": 0, "EnablePort": 0, "Product": 2, "Switch": 3, "RelationalOperator": 2}.get(self.kind, 1)
        if self.kind == "Sum":
            inputs = len(self.signs())
        elif self.kind == "Mux":
            inputs = self.several("Inputs", 4)
        elif self.kind == "Logic":
            inputs = 1 if self.get("Operator", "AND") == "NOT" else self.several("Inputs", 2)
        outputs = {"Outport": 0, "Terminator": 0, "EnablePort": 0, "Demux": self.several("Outputs", 4)}.get(self.kind, 1)
        return inputs, outputs

    def size(self) -> tuple[int, int]:
        ports = max(self.inputs, self.outputs)
        wide, high = SMALL.get(self.kind, (50 if self.kind != "SubSystem" else 90, 30))
        return wide, max(high, 18 * ports if ports > 1 else 0)

    def port(self, number: str, is_output: bool) -> Point:
        """Where a port is; a port that is not a number stands on top."""
        left, top, right, bottom = self.place
        if not is_number(str(number)):
            return (left + right) / 2, top
        count = max(self.outputs if is_output else self.inputs, int(number), 1)
        y = top + (bottom - top) * (2 * int(number) - 1) / (2 * count)
        return (right if is_output != self.is_left else left), y

    def told(self) -> str:
        """What the block does, in its shape."""
        get = self.get
        if self.kind in ("UnitDelay", "Delay"):
            length = "1" if self.kind == "UnitDelay" else get("DelayLength", "2")
            return "z" + ("-" + length).translate(SUPERSCRIPT)
        if self.kind == "Switch":
            criterion = get("Criteria", "u2 >= Threshold").replace("Threshold", short(get("Threshold", "0")))
            return criterion.replace("u2", "").replace(">=", "≥").replace("~=", "≠").strip()
        if self.kind == "DiscreteFir":
            taps = taps_of(get("Coefficients", "[0.5 0.5]"))
            return "FIR" if taps is None else f"FIR {taps}"
        plain = {
            "Gain": short(get("Gain", "1")), "Constant": short(get("Value", "1")), "Product": "×", "Logic": get("Operator", "AND"),
            "RelationalOperator": SIGN.get(get("Operator", "<="), "?"), "DataTypeConversion": "convert",
            "RateTransition": "rate", "EnablePort": "", "Inport": get("Port", "1"), "Outport": get("Port", "1"),
        }  # fmt: skip
        return plain.get(self.kind, "" if self.kind in SMALL or self.kind == "SubSystem" else short(self.kind, 12))

    def said(self) -> list[str]:
        """What the block declares, below its name."""
        get, parts = self.get, []
        kind = get("OutDataTypeStr", "Inherit")
        if not kind.startswith("Inherit") and self.kind not in ("RelationalOperator", "Logic"):
            parts.append(kind.replace(" ", ""))
        if get("RndMeth", "Floor") != "Floor":
            parts.append(get("RndMeth").lower())
        if get("SaturateOnIntegerOverflow") == "on" and (parts or self.kind == "Sum" and not kind.endswith("internal rule")):
            parts.append("saturates")
        initial = get("InitialCondition") or get("X0") or get("InitialOutput") or get("InitialStates")
        if self.kind in ("UnitDelay", "Delay", "RateTransition", "Outport", "DiscreteFir") and not re.fullmatch(r"[0.]*|\[\]", initial):
            parts.append("starts at " + short(initial))
        if self.kind == "EnablePort":
            parts.append("states " + get("StatesWhenEnabling", "held"))
        if self.kind == "Outport" and get("OutputWhenDisabled") == "reset":
            parts.append("reset")
        time = get("OutPortSampleTime") if self.kind == "RateTransition" else get("SampleTime")
        if time not in ("", "-1", "inf"):
            parts.append("every " + time)
        wide = get("PortDimensions", "-1")
        if self.kind == "Inport" and wide not in ("-1", "1"):
            parts.append(f"{wide} elements")
        return [", ".join(parts[:2]), ", ".join(parts[2:])] if len(", ".join(parts)) > 24 else [", ".join(parts)]


def text(x: float, y: float, said: str, kind: str, more: str = "") -> str:
    return f'<text x="{x:g}" y="{y:g}" class="{kind}"{more}>{plain(said)}</text>'


def shape(box: Box) -> str:
    left, top, right, bottom = box.place
    wide, high = right - left, bottom - top
    if box.kind in ("Inport", "Outport"):
        return f'<rect x="{left}" y="{top}" width="{wide}" height="{high}" rx="{high / 2:g}" class="block"/>'
    if box.kind == "Gain":
        tip, back = (left, right) if box.is_left else (right, left)
        return f'<path d="M{back} {top}L{tip} {(top + bottom) / 2:g}L{back} {bottom}Z" class="block"/>'
    if box.kind in ("Mux", "Demux"):
        return f'<rect x="{left}" y="{top}" width="{wide}" height="{high}" class="bar"/>'
    if box.kind == "Ground":
        return f'<path d="M{left} {top + high // 2}h{wide}M{left + 4} {top + 4}v{high - 8}M{left} {top + 7}v{high - 14}" class="line"/>'
    if box.kind == "Terminator":
        begin, step = (right, -1) if box.is_left else (left, 1)
        return f'<path d="M{begin} {top + high // 2}h{step * (wide - 6)}M{begin + step * (wide - 6)} {top + 3}v{high - 6}" class="line"/>'
    pulse = f'<path d="M{left + 4} {bottom - 5}h4v{10 - high}h{wide - 16}v{high - 10}h4" class="line"/>' if box.kind == "EnablePort" else ""
    return f'<rect x="{left}" y="{top}" width="{wide}" height="{high}" class="block"/>' + pulse


def port_words(box: Box) -> Iterator[str]:
    """What stands at the ports: signs, names, or numbers where a side has several."""
    if box.kind == "SubSystem":
        words = box.inner("Inport"), box.inner("Outport")
    elif box.kind == "Sum":
        words = [it.replace("-", "−") for it in box.signs()], [""]
    elif box.kind in ("Mux", "Demux", "Inport", "Outport"):
        return
    else:
        words = tuple([str(it + 1) for it in range(count)] if count > 1 else [""] for count in (box.inputs, box.outputs))
    for is_output, side in enumerate(words):
        for number, word in enumerate(side, 1):
            x, y = box.port(number, bool(is_output))
            inside = -1 if bool(is_output) != box.is_left else 1
            anchor = ' style="text-anchor: %s"' % ("end" if inside < 0 else "start")
            if word:
                yield text(x + 3 * inside, y + 3, short(word, 8), "port", anchor)


def below(box: Box) -> Iterator[str]:
    """The name of a block, and what it declares."""
    middle, y = (box.place[0] + box.place[2]) / 2, box.place[3] + 11
    for line in box.name.split("\n"):
        yield text(middle, y, line, "name")
        y += 10
    for said in box.said():
        if said:
            yield text(middle, y, said, "said")
            y += 9


def draw_box(box: Box) -> list[str]:
    left, top, right, bottom = box.place
    middle, parts = (left + right) / 2, [f"<g{box.marks}>"]
    whole = box.kind + "".join(f"\n{name}: {value}" for name, value in box.block.parameters.items() if name not in ("BlockType", "Position", "SID", "ZOrder"))
    parts.append(f"<title>{plain(whole)}</title>")
    parts.append(shape(box))
    told = box.told()
    if told:
        if box.kind == "Switch":
            # beside the number of the port that it is said of
            parts.append(text(right - 3, (top + bottom) / 2 + 3, told, "port", ' style="text-anchor: end"'))
            return parts + [*port_words(box), *below(box), "</g>"]
        x = middle + (0 if box.kind != "Gain" else (right - left) * (0.12 if box.is_left else -0.12))
        parts.append(text(x, (top + bottom) / 2 + 4, told, "told", ' style="font-size: 9px"' if len(told) > 7 else ""))
    return parts + [*port_words(box), *below(box), "</g>"]


def offsets(section: Section) -> list[tuple[int, int]]:
    """The way that a line or branch goes before its end, as steps."""
    found = numbers(section.get("Points"))
    return list(zip(found[::2], found[1::2]))


def arrow(target: Box, port: str, end: Point) -> str:
    """The head of a line at a port."""
    back = 6 if target.is_left else -6
    x, y = end
    sides = ((x + back, y - 3), (x + back, y + 3)) if is_number(port) else ((x - 3, y - 6), (x + 3, y - 6))
    return f'<path d="M{sides[0][0]:g} {sides[0][1]:g}L{x:g} {y:g}L{sides[1][0]:g} {sides[1][1]:g}Z" class="dot"/>'


def draw_way(section: Section, source: Box, boxes: dict[str, Box], routes: Routes) -> list[str]:
    """A line from its source, with the branches that leave its end."""
    here = source.port(section.get("SrcPort", "1"), True)
    parts, left, out = [], [(section, here)], -1 if source.is_left else 1
    while left:
        branch, begins = left.pop()
        points = [begins]
        for right, down in offsets(branch):
            points.append((points[-1][0] + right, points[-1][1] + down))
        stands = points[-1]
        target = boxes.get(branch.get("DstBlock"))
        if target is not None:
            port = branch.get("DstPort", "1")
            side = 0 if not is_number(port) else 1 if target.is_left else -1
            points += routes.way(stands, Port(target.port(port, False), side), out if stands == here else 0)
            parts.append(arrow(target, port, points[-1]))
        if len(points) > 1:
            parts.append('<path d="M' + "L".join(f"{x:g} {y:g}" for x, y in points) + '" class="line"/>')
        branches = branch.all("Branch")
        if len(branches) > 1:
            parts.append(f'<circle cx="{stands[0]:g}" cy="{stands[1]:g}" r="2" class="dot"/>')
        left += [(it, stands) for it in reversed(branches)]
    return parts


def draw_panel(title: str, boxes: list[Box], lines: list[Section]) -> tuple[list[str], tuple[float, ...]]:
    """A system, and the room that it takes."""
    if not all(box.place for box in boxes):
        lines = lay_out(boxes, lines)
    by_name, parts = {box.name: box for box in boxes}, []
    routes = Routes([Area(*box.place) for box in boxes])
    for line in lines:
        source = by_name.get(line.get("SrcBlock"))
        if source is not None:
            parts += draw_way(line, source, by_name, routes)
    for box in boxes:
        parts += draw_box(box)
    xs = [float(x) for part in parts for x in re.findall(r"[ML](-?[\d.]+) ", part)] + [x for box in boxes for x in box.place[::2]]
    ys = [float(y) for part in parts for y in re.findall(r"[ML]-?[\d.]+ (-?[\d.]+)", part)] + [y for box in boxes for y in box.place[1::2]]
    return parts, (min(xs) - 45, min(ys) - 25, max(xs) + 45, max(ys) + 45)


def picture(panels: Iterable[Panel]) -> str:
    parts, top, wide = [], 0, 0
    for title, boxes, lines in panels:
        drawn, (left, first, right, last) = draw_panel(title, boxes, lines)
        if title:
            parts.append(text(10, top + 14, title, "title"))
            top += 12
        parts += [f'<g transform="translate({-left:g} {top - first:g})">'] + drawn + ["</g>"]
        top += last - first
        wide = max(wide, right - left)
    head = f'<svg xmlns="http://www.w3.org/2000/svg" width="{wide:g}" height="{top:g}" viewBox="0 0 {wide:g} {top:g}">'
    return "\n".join([head, STYLE, '<rect width="100%" height="100%" fill="#fff"/>'] + parts + ["</svg>", ""])
