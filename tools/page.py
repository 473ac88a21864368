"""The parts of a report's page: one file of HTML with its pictures, its style and its script inside."""

import re

from checked import Checked
from markup import plain

STYLE = """
:root { --line: #d8dde3; --mark: #ffe08a; --text: #1c2733; --soft: #5b6875 }
* { box-sizing: border-box }
body { margin: 0 auto; max-width: 1500px; padding: 0 20px 40px; font: 15px/1.5 system-ui, Helvetica, Arial, sans-serif; color: var(--text) }
h1 { font-size: 24px; margin: 24px 0 4px } h2 { font-size: 17px; margin: 28px 0 8px; border-bottom: 1px solid var(--line); padding-bottom: 4px }
p { margin: 6px 0 } .soft { color: var(--soft); font-size: 13px }
table { border-collapse: collapse; font-size: 14px } td, th { text-align: left; padding: 3px 14px 3px 0; vertical-align: top; border-bottom: 1px solid #eef1f4 }
.both { display: grid; grid-template-columns: minmax(0, 1fr); gap: 0 24px }
@media (min-width: 1100px) { .both { grid-template-columns: minmax(0, 1fr) minmax(0, 1fr) } }
.frame { overflow: auto; border: 1px solid var(--line); border-radius: 6px; background: #fff }
.frame svg { display: block } #diagram { max-height: 640px } #diagram g[data-blocks] { cursor: pointer }
#diagram g.marked .block, #diagram g.marked .bar { fill: var(--mark); stroke: #9a6b00; stroke-width: 2 }
#text { max-height: 640px; font: 12px/1.5 ui-monospace, Menlo, Consolas, monospace; counter-reset: line }
#text div { white-space: pre; padding: 0 10px 0 0; counter-increment: line; min-width: max-content }
#text div::before { content: counter(line); display: inline-block; width: 46px; padding-right: 12px; text-align: right; color: #a0a9b3 }
#text div[data-blocks] { cursor: pointer } #text div[data-blocks]:hover { background: #f3f6f9 } #text div.marked, #text div.marked:hover { background: var(--mark) }
summary { cursor: pointer; margin: 8px 0 } pre { overflow: auto; font-size: 12px; margin: 4px 0 }
button { font: inherit; border: 0; background: none; padding: 0; color: #1f5fa8; cursor: pointer; text-decoration: underline }
"""
SCRIPT = """
const all = [...document.querySelectorAll("[data-blocks]")];
const blocks = it => it.dataset.blocks.split(" ");
const told = document.getElementById("told");
function mark(from) {
  const wanted = new Set(from ? blocks(from) : []);
  for (const it of all) it.classList.toggle("marked", blocks(it).some(block => wanted.has(block)));
  const names = [...wanted].map(block => document.querySelector(`#blocks [data-block="${block}"]`)?.textContent).filter(Boolean);
  const lines = document.querySelectorAll("#text .marked");
  told.textContent = from ? `${names.join(", ")}: ${lines.length} lines` : told.dataset.first;
  const other = from && !from.closest("#text") ? lines[0] : from && document.querySelector("#diagram .marked");
  const frame = other && other.closest(".frame");
  if (frame) {
    const a = other.getBoundingClientRect(), b = frame.getBoundingClientRect();
    frame.scrollTop += a.top - b.top - frame.clientHeight / 3;
    if (frame.id === "diagram") frame.scrollLeft += a.left - b.left - frame.clientWidth / 3;
  }
}
document.addEventListener("click", event => {
  const from = event.target.closest("[data-blocks]");
  if (from || event.target.closest("#diagram, #text")) mark(from);
});
if (location.hash.startsWith("#block-")) mark(all.find(it => blocks(it).includes(location.hash.slice(7))));
"""
POLICY = "default-src 'none'; style-src 'unsafe-inline'; script-src 'unsafe-inline'"
FIRST = "Click on a block for its lines, or on a line for its blocks."


def inside(picture: str, place: str) -> str:
    """A picture for a place of a page: its style holds there alone."""

    def scoped(style: re.Match[str]) -> str:
        rules = re.findall(r"([^{}]+)\{([^{}]*)\}", style[1])
        return "<style>" + "\n".join(f"#{place} {selector.strip()} {{{rule}}}" for selector, rule in rules) + "</style>"

    body = re.sub(r"<style>(.*?)</style>", scoped, picture[picture.index("<svg") :], flags=re.S)
    return f'<div class="frame" id="{place}">{body}</div>'


def numbers(blocks: set[int]) -> str:
    return f' data-blocks="{" ".join(map(str, sorted(blocks)))}"' if blocks else ""


def text_of(text: str, blocks: list[set[int]]) -> str:
    """The lines of a text, each with its blocks."""
    rows = (f"<div{numbers(of)}>{plain(line)}</div>" for line, of in zip(text.splitlines(), blocks))
    return '<div class="frame" id="text">' + "".join(rows) + "</div>"


def table(head: tuple[str, ...], rows: list[list[str]]) -> str:
    """A table whose cells are HTML."""
    cells = "".join(f"<th>{it}</th>" for it in head)
    return f"<table><tr>{cells}</tr>" + "".join("<tr>" + "".join(f"<td>{it}</td>" for it in row) + "</tr>" for row in rows) + "</table>"


def latencies(found: Checked) -> str:
    """Each output with its latency, and the path that makes it."""
    places = {path: at for at, path in enumerate(found.blocks)}
    step = lambda path: f'<button data-blocks="{places[path]}">{plain(path)}</button>' if path in places else plain(path)
    rows = [[plain(it.name), str(it.clocks), " &rarr; ".join(map(step, it.path))] for it in found.outputs]
    return table(("output", "clocks", "the path that makes it so late"), rows)


def names_of(found: Checked) -> str:
    """The names of the blocks by their numbers, for the script."""
    return '<div id="blocks" hidden>' + "".join(f'<i data-block="{at}">{plain(path)}</i>' for at, path in enumerate(found.blocks)) + "</div>"


def page(title: str, parts: list[str]) -> str:
    """The whole file."""
    head = f'<!DOCTYPE html>\n<html lang="en"><head><meta charset="utf-8"><meta http-equiv="Content-Security-Policy" content="{POLICY}">'
    head += f'<meta name="viewport" content="width=device-width, initial-scale=1"><title>{plain(title)}</title><style>{STYLE}</style></head><body>'
    return "\n".join([head, *parts, f"<script>{SCRIPT}</script>", "</body></html>", ""])
