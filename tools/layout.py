"""Places for the blocks of a system that has none: columns from left to right by the longest way from a
source, loops closed from right to left, and lines with the corners that these places ask for."""

from typing import TYPE_CHECKING, Any, Optional

from mdl import Section, branches_of, is_number

if TYPE_CHECKING:
    from drawing import Box

# From a box or bend by a port to another by a port.
Edge = tuple[Any, str, Any, str]
ACROSS, DOWN = 60, 36


def ends_of(line: Section) -> list[tuple[str, str]]:
    """The ends of a line or branch: pairs of a block's name and a port."""
    return [(it.get("DstBlock"), it.get("DstPort", "1")) for it in branches_of(line) if "DstBlock" in it.parameters]


def edges_of(boxes: list["Box"], lines: list[Section]) -> list[Edge]:
    """What lines join: two boxes and their ports."""
    by_name = {box.name: box for box in boxes}
    found = []
    for line in lines:
        source = by_name.get(line.get("SrcBlock"))
        for name, port in ends_of(line):
            if source is not None and name in by_name:
                found.append((source, line.get("SrcPort", "1"), by_name[name], port))
    return found


def columns_of(boxes: list["Box"], edges: list[Edge]) -> dict[Any, int]:
    """The column of each box: behind those that it reads, but for the edges that close a loop."""
    after = {box: [to for source, _, to, _ in edges if source is box] for box in boxes}
    columns, begun, order = dict.fromkeys(boxes, 0), set(), []
    # those that read nothing come first, and then what no source leads to
    reads = {to for _, _, to, _ in edges}
    for first in sorted(boxes, key=lambda box: box in reads):
        left = [(first, iter(after[first]))] if first not in begun else []
        begun.add(first)
        while left:
            box, further = left[-1]
            to = next((it for it in further if it not in begun), None)
            if to is None:
                left.pop()
                order.insert(0, box)
            else:
                begun.add(to)
                left.append((to, iter(after[to])))
    at = {box: number for number, box in enumerate(order)}
    for box in order:
        for to in after[box]:
            if at[to] > at[box]:
                columns[to] = max(columns[to], columns[box] + 1)
    last = max(columns.values(), default=0)
    return {box: last if box.kind == "Outport" else column for box, column in columns.items()}


class Bend:
    """Where a line passes a column that it has no block in."""

    place: Any = None

    def size(self) -> tuple[int, int]:
        return 0, 8

    def port(self, _number: str, is_output: bool) -> tuple[float, float]:
        return self.place[2 if is_output else 0], (self.place[1] + self.place[3]) / 2


def chains_of(edges: list[Edge], columns: dict[Any, int]) -> tuple[list[list[Bend]], list[Edge]]:
    """For each edge the bends on its way, and all that stands in columns: where an edge comes from, and to."""
    chains, steps = [], []
    for source, number, to, port in edges:
        bends = [Bend() for _ in range(columns[source] + 1, columns[to])]
        columns.update({bend: columns[source] + 1 + at for at, bend in enumerate(bends)})
        chains.append(bends)
        if columns[to] > columns[source]:
            way = [(source, number)] + [(bend, "1") for bend in bends] + [(to, port)]
            steps += [(*one, *other) for one, other in zip(way, way[1:])]
    return chains, steps


def place(columns: dict[Any, int], steps: list[Edge]) -> None:
    """Places one column after another, each box where its drivers are, as far as there is room."""
    x = 40
    for column in range(max(columns.values(), default=0) + 1):
        here = [box for box in columns if columns[box] == column]
        tops, wide = {}, 0
        for box in here:
            across, high = box.size()
            box.place = [x, 0, x + across, high]
            wide = max(wide, across)
            wanted = [source.port(number, True)[1] - box.port(port, False)[1] for source, number, to, port in steps if to is box and is_number(port)]
            tops[box] = sum(wanted) / len(wanted) if wanted else 40
        y = 0
        for box in sorted(here, key=tops.get):
            top = round(max(y, tops[box]))
            box.place = [x, top, x + wide if isinstance(box, Bend) else box.place[2], top + box.place[3]]
            y = box.place[3] + (12 if isinstance(box, Bend) else DOWN)
        x += wide + ACROSS


def made(points: list[tuple[float, float]], to: Optional["Box"] = None, port: str = "1") -> Section:
    """A branch with steps, to a box where one is given."""
    branch = Section("Branch", 0)
    branch.parameters["Points"] = "; ".join(f"{round(right)}, {round(down)}" for right, down in points)
    if to is not None:
        branch.parameters.update(DstBlock=to.name, DstPort=port)
    return branch


def way_through(here: tuple[float, float], bends: list[Bend], to: "Box", port: str) -> list[tuple[float, float]]:
    """The steps from a place through the bends to the height of a port, each turn between two columns."""
    (x, y), steps = here, []
    for right, height in (bend.port("1", True) for bend in bends):
        steps += [(0, height - y), (right + 12 - x, 0)]
        x, y = right + 12, height
    above = 0 if is_number(port) else 14
    return [*steps, (0, to.port(port, False)[1] - y - above)]


def lay_out(boxes: list["Box"], lines: list[Section]) -> list[Section]:
    """Gives each box a place, and gives lines that go there."""
    for box in boxes:
        box.place, box.is_left = None, False
    edges = edges_of(boxes, lines)
    columns = columns_of(boxes, edges)
    chains, steps = chains_of(edges, columns)
    place(columns, steps)
    lowest, found, lanes = max(box.place[3] for box in columns) + 36, [], {}
    for source, number in {(source, number): None for source, number, _, _ in edges}:
        x, y = source.port(number, True)
        lanes[round(x)] = lane = lanes.get(round(x), -1) + 1
        out = 12 + 7 * (lane % 6)
        line = made([(out, 0)])
        line.parameters.update(SrcBlock=source.name, SrcPort=number)
        for (begins, at, to, port), bends in zip(edges, chains):
            if begins is not source or at != number:
                continue
            to_x, to_y = to.port(port, False)
            if columns[to] > columns[source]:
                way = way_through((x + out, y), bends, to, port)
            else:
                way = [(0, lowest - y), (to_x - 12 - x - out, 0), (0, to_y - lowest)]
                lowest += 10
            line.sections.append(made(way, to, port))
        found.append(line)
    return found
