"""Texts with changes at random places."""

import re

MOST_BYTES = 65536
NUMBERS = [b"0", b"1", b"-1", b"2", b"31", b"32", b"64", b"65", b"127", b"128", b"129", b"255", b"1024", b"1025", b"4096", b"4097", b"20000", b"20001", b"65536", b"2147483647", b"2147483648", b"4294967296", b"16777216", b"9223372036854775808", b"18446744073709551616", b"170141183460469231731687303715884105727", b"340282366920938463463374607431768211456", b"9" * 64, b"9" * 200, b"00", b"1.5", b"0.1", b"1e3", b"1e-300", b"1e99999", b"-0", b".5", b"1.", b"inf", b"NaN"]
BYTES = [b"\0", b"\xff", b"\x80", b"\r", b"\t", b"\n", b"\r\n", b" ", b'"', b"\\", b"\\\"", b"[", b"]", b"{", b"}", b"(", b")", b"#", b"/", b"//", b"/*", b"*/", b"\xef\xbb\xbf", b"\xc3\x28"]
WORDS = {
    "model": NUMBERS + BYTES + [b"Model {", b"System {", b"Block {", b"Line {", b"Branch {", b"}", b"BlockType SubSystem", b"BlockType EnablePort", b"BlockType Mux", b"BlockType Demux", b"BlockType Delay", b"BlockType Switch", b"BlockType RateTransition", b"BlockType Logic", b"BlockType Product", b"BlockType Gain", b"BlockType Sum", b"BlockType Constant", b"BlockType Ground", b"BlockType Terminator", b"BlockType RelationalOperator", b"BlockType DataTypeConversion", b"BlockType UnitDelay", b"BlockType Inport", b"BlockType Outport", b"SampleTime", b"OutPortSampleTime", b"PortDimensions", b"DelayLength", b"InitialCondition", b"DstPort enable", b"DstPort", b"SrcPort", b"Inputs", b"Outputs", b"Port", b"Gain", b"Value", b"Threshold", b"Criteria", b'"fixdt(1,8,0)"', b'"fixdt(0,128,127)"', b'"fixdt(1,128,-128)"', b'"fixdt(1,129,0)"', b'"int8"', b'"uint32"', b'"boolean"', b'"Inherit: auto"', b'"Inherit: Inherit via internal rule"', b'"Inherit: Same as input"', b'"[1 2 3]"', b'"[1,2;3]"', b'"++-"', b'"|||"', b'"Nearest"', b"on", b"off", b'"held"', b'"reset"', b'"NOT"', b'"NXOR"', b"BlockParameterDefaults {"],
    "plan": NUMBERS + BYTES + [b"cycles", b"cycles 1024", b"cycles 4", b"multipliers", b"multipliers 64", b"multipliers 1", b"pipeline", b'pipeline "G" 64', b'pipeline "y" 1', b'pipeline "u" 3', b'"a/b"', b"# "],
    "stimulus": NUMBERS + BYTES + [b"-", b"- -", b"5", b"\n\n", b"+1", b"0x1"],
    "verilog": NUMBERS + BYTES + [b"module", b"endmodule", b"input", b"output", b"wire", b"reg", b"signed", b"assign", b"always @ (posedge clk) begin", b"if (reset)", b"else", b"begin", b"end", b"<=", b">=", b"==", b"!=", b"<", b">", b"&&", b"||", b"!", b"~", b"&", b"|", b"^", b"<<", b">>", b">>>", b"+", b"-", b"*", b"?", b":", b"{", b"}", b"{2{", b"(* fx_cycles = 2 *)", b"(* fx_period = 3 *)", b", fx_latency = 5", b"$signed (", b"$unsigned (", b"[127:0]", b"[128:0]", b"[0:0]", b"[3]", b"[7:9]", b"1'b1", b"8'sd128", b"4'hx", b"128'd340282366920938463463374607431768211455", b"1'd2", b"clk", b"reset", b"clk_enable", b"ce_out", b";", b",", b".", b"@", b"`", b"\\a ", b"u", b"y"],
}
TOKEN = re.compile(rb'"(?:[^"\\\n]|\\.)*"|[A-Za-z_$.][\w$.]*|[0-9]+|\s+|.', re.DOTALL)


def spans(rng, text, most):
    """The ends of a part of a text, of at most so many bytes."""
    start = rng.randrange(len(text) + 1)
    return start, min(len(text), start + rng.randrange(1, most + 1))


def flip(rng, text, _kind, _others):
    if not text:
        return text
    at = rng.randrange(len(text))
    return text[:at] + bytes([text[at] ^ (1 << rng.randrange(8))]) + text[at + 1 :]


def put(rng, text, kind, _others):
    at = rng.randrange(len(text) + 1)
    return text[:at] + rng.choice(WORDS[kind]) + text[at:]


def drop(rng, text, _kind, _others):
    start, end = spans(rng, text, rng.choice([1, 4, 40, 400]))
    return text[:start] + text[end:]


def double(rng, text, _kind, _others):
    start, end = spans(rng, text, rng.choice([4, 40, 400]))
    return text[:end] + text[start:end] + text[end:]


def cut(rng, text, _kind, _others):
    return text[: rng.randrange(len(text) + 1)]


def token(rng, text, kind, _others):
    """Another word in place of one."""
    tokens = TOKEN.findall(text)
    places = [place for place, one in enumerate(tokens) if not one.isspace()]
    if not places:
        return text
    place = rng.choice(places)
    tokens[place] = rng.choice(WORDS[kind]) if rng.random() < 0.5 else tokens[rng.choice(places)]
    return b"".join(tokens)


def number(rng, text, _kind, _others):
    """Another number in place of one."""
    found = list(re.finditer(rb"-?\d+", text))
    if not found:
        return text
    one = rng.choice(found)
    return text[: one.start()] + rng.choice(NUMBERS) + text[one.end() :]


def lines(rng, text, _kind, _others):
    """Lines dropped, doubled or moved."""
    every = text.split(b"\n")
    first = rng.randrange(len(every))
    part = every[first : first + rng.randrange(1, 8)]
    left = every[:first] + every[first + len(part) :]
    way = rng.randrange(3)
    if way == 0:
        return b"\n".join(left)
    at = rng.randrange(len(left) + 1)
    if way == 1:
        return b"\n".join(left[:at] + part + left[at:])
    return b"\n".join(every[: first + len(part)] + part + every[first + len(part) :])


def splice(rng, text, _kind, others):
    """The beginning of one and the end of another."""
    other = rng.choice(others)
    return text[: rng.randrange(len(text) + 1)] + other[rng.randrange(len(other) + 1) :]


def repeat(rng, text, _kind, _others):
    """A part again and again."""
    start, end = spans(rng, text, rng.choice([1, 4, 40, 400]))
    part = text[start:end]
    if not part:
        return text
    count = rng.choice([3, 30, 300, MOST_BYTES // len(part) + 1])
    return (text[:start] + part * count + text[end:])[:MOST_BYTES]


COMMON = [flip, put, drop, double, token, token, token, number, number, number, lines, lines]
RARE = [cut, splice, repeat]


def mutant(rng, text, kind, others):
    """A text with one change or more."""
    for _ in range(rng.choice([1, 1, 1, 2, 3, 5])):
        way = rng.choice(RARE) if rng.random() < 0.1 else rng.choice(COMMON)
        text = way(rng, text, kind, others)[:MOST_BYTES]
    return text


def shrunk(text, still_fails, most=400):
    """A shorter text that fails too: parts are dropped as long as it does, in at most so many trials."""
    size = max(1, len(text) // 2)
    trials = 0
    while size and trials < most:
        at = 0
        while at < len(text) and trials < most:
            shorter = text[:at] + text[at + size :]
            trials += 1
            if still_fails(shorter):
                text = shorter
            else:
                at += size
        size //= 2
    return text
