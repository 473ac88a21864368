"""When a module's outputs are due by a plan: latencies, levels of shared operations, and windows."""

import re
from collections import Counter
from dataclasses import dataclass, field
from functools import cached_property

from equality.diagram import Block
from equality.signals import Signals
from mdl import strings
from written import Failed


@dataclass
class Plan:
    cycles: int = 1
    multipliers: int = 0
    pipelines: dict[str, int] = field(default_factory=dict)


def plan_of(text: str) -> Plan:
    """What a plan's text says."""
    plan = Plan()
    for line in text.split("\n"):
        words = line.strip(" \t\r")
        number = re.fullmatch(r"(cycles|multipliers)[ \t]+(\d{1,9})", words)
        pipeline = re.fullmatch(r'pipeline[ \t]+("(?:[^"\\]|\\.)*")[ \t]+(\d{1,9})', words)
        if number:
            setattr(plan, number[1], int(number[2]))
        elif pipeline:
            plan.pipelines[strings(pipeline[1])] = int(pipeline[2])
        elif words and not line.startswith("#"):
            raise Failed(f"{line!r} is no line of a plan")
    return plan


class Schedule:
    """The least latencies of a diagram's blocks in base samples, and how many clocks an output is later than these."""

    def __init__(self, signals: Signals, plan: Plan) -> None:
        self.signals, self.plan, self.periods = signals, plan, signals.periods
        self.instant = {block: self.instant_sources(block) for block in signals.blocks}
        self.latencies = self.least()

    def slower(self, block: Block) -> bool:
        """Whether a block takes a slow signal to a faster rate."""
        if block.kind != "RateTransition":
            return False
        own, comes = self.periods[block], self.periods[block.sources[0]]
        return comes is not None and comes > own

    def instant_sources(self, block: Block) -> list[Block]:
        """What a block's output follows in the same sample."""
        enable = [block.enable] if block.kind == "EnOut" else []
        return enable if block.is_delay or self.slower(block) else block.sources + enable

    def cone(self, block: Block) -> set[Block]:
        """The block, and all that it follows in the same sample."""
        found, left = {block}, [block]
        while left:
            more = [source for source in self.instant[left.pop()] if source not in found]
            found.update(more)
            left += more
        return found

    def is_shared(self, block: Block) -> bool:
        period = self.periods[block]
        return bool(self.plan.multipliers and block.kind in ("Product", "Gain") and period and period * self.plan.cycles >= 2)

    @cached_property
    def after_shared(self) -> dict[Block, bool]:
        """Whether a block follows a shared operation in the same sample."""
        return {block: any(map(self.is_shared, self.cone(block))) for block in self.signals.blocks}

    def edges(self) -> list[tuple[Block, Block, int]]:
        """Each driver that changes, what it drives, and by how many base samples at least that is later."""
        found = []
        for block in self.signals.blocks:
            enables = [block.enable] if block.enable and (block.is_delay or block.kind == "EnOut") else []
            for source in (it for it in block.sources + enables if self.periods[it]):
                found.append((source, block, self.weight(source, block, source in enables)))
        return found

    def weight(self, source: Block, block: Block, is_enable: bool) -> int:
        late = self.plan.pipelines.get(source.path, 0) * self.periods[source]
        room = self.periods[source] if self.after_shared[source] else 1
        if block.is_delay and block.enable is None:
            return late - (block.length * self.periods[block] - room)
        if self.slower(block) and not is_enable:
            return late - (self.periods[source] - room)
        return late

    def least(self) -> dict[Block, int]:
        found, edges = {block: 0 for block in self.signals.blocks}, self.edges()
        for _ in range(len(self.signals.blocks) + 1):
            moved = False
            for source, block, weight in edges:
                if found[source] + weight > found[block]:
                    found[block], moved = found[source] + weight, True
            if not moved:
                return found
        raise Failed("no latencies are enough")

    @property
    def depth(self) -> int:
        """How many base samples back the module remembers what the blocks gave."""
        late = [self.latencies[it] + self.plan.pipelines.get(it.path, 0) * (self.periods[it] or 0) for it in self.signals.blocks]
        return max([*late, int(any(map(self.is_shared, self.signals.blocks)))])

    # ---- shared operations

    @cached_property
    def levels(self) -> dict[tuple[Block, int], int]:
        """By block and period, how many shared blocks of that period stand at most on a path to it, itself counted."""
        found: dict[tuple[Block, int], int] = {}

        def level(block: Block, period: int) -> int:
            if (block, period) not in found:
                before = max((level(source, period) for source in self.instant[block]), default=0)
                found[block, period] = before + (self.is_shared(block) and self.periods[block] == period)
            return found[block, period]

        for block in self.signals.blocks:
            for period in {self.periods[it] for it in self.signals.blocks if self.is_shared(it)}:
                level(block, period)
        return found

    def width(self, period: int, level: int) -> int:
        """How many clocks the operations of a level take."""
        kinds: Counter = Counter()
        for block in filter(self.is_shared, self.signals.blocks):
            if self.periods[block] == period and self.levels[block, period] - 1 == level:
                comes = self.signals.inputs(block)
                factors = (comes[0], self.signals.factor(block) if block.kind == "Gain" else comes[1])
                kinds[self.latencies[block], factors] += self.signals.widths[block][0]
        return max((-(-count // self.plan.multipliers) for count in kinds.values()), default=0)

    def ready(self, output: Block) -> int:
        """How many clocks behind the begin of its sample an output is there."""
        if not self.after_shared[output]:
            return 0
        period = self.periods[output]
        faster = [self.periods[it.sources[0]] for it in self.signals.blocks if it.kind == "RateTransition" and self.periods[it] == period]
        start = max((it * self.plan.cycles for it in faster if it and it < period), default=0)
        return start + sum(self.width(period, level) for level in range(self.levels.get((output, period), 0)))
