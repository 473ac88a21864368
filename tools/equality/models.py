"""Random models of a few blocks, with plans that they keep."""

import random
import subprocess
from dataclasses import dataclass, field

from program import program

ROUNDINGS = ("Floor", "Ceiling", "Zero", "Nearest", "Round", "Convergent")
RELATIONS = ("==", "~=", "<", "<=", ">=", ">")
GATES = ("AND", "OR", "NAND", "NOR", "XOR", "NXOR", "NOT")
# What may grow, and of how many inputs where these aren't two.
KINDS = ("Sum", "Sum", "Gain", "Product", "Product", "Switch", "RelationalOperator", "Logic", "DataTypeConversion", "UnitDelay", "Delay", "DiscreteFir")
INPUTS = {"Gain": 1, "Switch": 3, "DataTypeConversion": 1, "UnitDelay": 1, "Delay": 1, "DiscreteFir": 1}
CRITERIA = ("u2 >= Threshold", "u2 > Threshold", "u2 ~= 0")


@dataclass
class System:
    """The text of a system as it grows: blocks, lines, and what may be read, each with its period."""

    chance: random.Random
    blocks: list[str] = field(default_factory=list)
    signals: list[tuple[str, int]] = field(default_factory=list)
    count: int = 0

    def block(self, kind: str, name: str, inside: str = "", **parameters: object) -> None:
        lines = "".join(f'      {key} "{value}"\n' for key, value in parameters.items())
        self.blocks.append(f'    Block {{\n      BlockType {kind}\n      Name "{name}"\n{lines}{inside}    }}\n')

    def line(self, source: str, name: str, port: object) -> None:
        self.blocks.append(f'    Line {{\n      SrcBlock "{source}"\n      SrcPort 1\n      DstBlock "{name}"\n      DstPort {port}\n    }}\n')

    def type(self) -> str:
        signed = self.chance.random() < 0.7
        return f"fixdt({int(signed)},{self.chance.randint(2, 7)},{self.chance.randint(-1, 4)})"

    def settling(self) -> dict[str, str]:
        told = {"RndMeth": self.chance.choice(ROUNDINGS), "SaturateOnIntegerOverflow": self.chance.choice(("on", "off"))}
        return {**told, "OutDataTypeStr": self.type()} if self.chance.random() < 0.85 else told

    def number(self) -> str:
        return f"{self.chance.randint(-40, 40) / 8:g}"

    def numbers(self, count: int) -> str:
        return f"[{' '.join(self.number() for _ in range(count))}]"

    def read(self, period: int) -> str:
        return self.chance.choice([name for name, of in self.signals if of == period])

    def grow(self, period: int) -> None:
        """One block more, of any kind that reads this period."""
        kind = self.chance.choice(KINDS)
        name, inputs = f"{kind[:3]}{self.count}", INPUTS.get(kind, 2)
        self.count += 1
        if kind == "Sum":
            inputs = self.chance.choice((2, 2, 3))
            told = {"Inputs": "".join(self.chance.choice("+-") for _ in range(inputs)), **self.settling()}
            if self.chance.random() < 0.3:
                told["AccumDataTypeStr"] = self.chance.choice((self.type(), "Inherit: Same as first input"))
        elif kind == "Gain":
            told = {"Gain": self.number(), "ParamDataTypeStr": self.type(), **self.settling()}
        elif kind == "Switch":
            told = {"Criteria": self.chance.choice(CRITERIA), "Threshold": self.number(), **self.settling()}
        elif kind == "RelationalOperator":
            told = {"Operator": self.chance.choice(RELATIONS)}
        elif kind == "Logic":
            told = {"Operator": self.chance.choice(GATES)}
            inputs = 1 if told["Operator"] == "NOT" else 2
        elif kind == "DiscreteFir":
            taps = self.chance.randint(2, 4)
            states = self.number() if self.chance.random() < 0.5 else self.numbers(taps - 1)
            told = {"Coefficients": self.numbers(taps), "InitialStates": states, **self.settling()}
            if self.chance.random() < 0.5:
                told["CoefDataTypeStr"] = self.type()
        elif kind in ("UnitDelay", "Delay"):
            told = {"InitialCondition": self.number(), **({"DelayLength": self.chance.randint(1, 3)} if kind == "Delay" else {})}
        else:
            told = {**self.settling(), **({"OutDataTypeStr": self.type()} if kind == "DataTypeConversion" else {})}
        self.block(kind, name, **told)
        for port in range(1, inputs + 1):
            self.line(self.read(period), name, port)
        self.signals.append((name, period))

    def loop(self, period: int) -> None:
        """A sum with its own value of the hit before."""
        name, last, source = f"Acc{self.count}", f"Last{self.count}", self.read(period)
        self.count += 1
        self.block("UnitDelay", last, InitialCondition=self.number())
        self.block("Sum", name, Inputs=self.chance.choice(("++", "+-")), **{**self.settling(), "OutDataTypeStr": self.type()})
        self.line(source, name, 1)
        self.line(last, name, 2)
        self.line(name, last, 1)
        self.signals.append((self.chance.choice((name, last)), period))

    def enabled(self, period: int) -> None:
        """An enabled subsystem of a few blocks."""
        inner, name = System(self.chance), f"Sub{self.count}"
        self.count += 1
        inner.block("EnablePort", "Enable", StatesWhenEnabling=self.chance.choice(("held", "reset")))
        inner.block("Inport", "In")
        inner.signals.append(("In", period))
        inner.loop(period)
        for _ in range(self.chance.randint(0, 3)):
            inner.grow(period)
        inner.block("Outport", "Out", OutputWhenDisabled=self.chance.choice(("held", "reset")), InitialOutput=self.number())
        inner.line(inner.signals[-1][0], "Out", 1)
        self.block("SubSystem", name, f"    System {{\n{''.join(inner.blocks)}    }}\n")
        self.line(self.read(period), name, 1)
        self.line(self.read(period), name, "enable")
        self.signals.append((name, period))

    def transition(self, period: int) -> int:
        """A transition from this period to another, which it gives."""
        name, other = f"Rate{self.count}", self.chance.choice((1, 2, 4))
        self.count += 1
        self.block("RateTransition", name, OutPortSampleTime=other, InitialCondition=self.number())
        self.line(self.read(period), name, 1)
        self.signals.append((name, other))
        return other


def model(chance: random.Random) -> str:
    system = System(chance)
    for at in range(chance.randint(1, 3)):
        system.block("Inport", f"In{at}", Port=at + 1, OutDataTypeStr=system.type(), SampleTime="1")
        system.signals.append((f"In{at}", 1))
    periods = [1]
    for _ in range(chance.randint(3, 12)):
        period, kind = chance.choice(periods), chance.random()
        if kind < 0.08:
            periods.append(system.transition(period))
        elif kind < 0.16:
            system.enabled(period)
        elif kind < 0.3:
            system.loop(period)
        else:
            system.grow(period)
    for at, (name, _) in enumerate(chance.sample(system.signals[-4:], min(2, len(system.signals)))):
        system.block("Outport", f"Out{at}", Port=at + 1)
        system.line(name, f"Out{at}", 1)
    blocks = [text for text in system.blocks if "    Block {" in text[:12]] + [text for text in system.blocks if "    Line {" in text[:11]]
    return f'Model {{\n  Name "random"\n  System {{\n{"".join(blocks)}  }}\n}}\n'


def plan(chance: random.Random, text: str) -> str:
    lines = []
    if chance.random() < 0.6:
        lines.append(f"cycles {chance.randint(1, 5)}")
        if chance.random() < 0.7:
            lines.append(f"multipliers {chance.randint(1, 2)}")
    every = [part.split('"')[1] for part in text.split("Name ")[2:]]
    names = [name for name in every if name[:3] in ("Sum", "Gai", "Pro", "Swi", "Rel", "Log", "Dat")]
    names += [f"{name}/sum" for name in every if name[:3] == "Dis"]
    for name in chance.sample(names, min(len(names), chance.choice((0, 0, 1, 2)))):
        lines.append(f'pipeline "{name}" {chance.randint(1, 2)}')
    return "".join(f"{line}\n" for line in lines)


def written(seed: int, number: int, at: str, beside: str) -> bool:
    """Writes the model of a number, and a plan; tells whether the program takes them."""
    chance = random.Random(f"{seed} {number}")
    text = model(chance)
    for path, told in ((at, text), (beside, plan(chance, text))):
        with open(path, "w") as file:
            file.write(told)
    return subprocess.run([program(), "check", at, beside], capture_output=True).returncode == 0
