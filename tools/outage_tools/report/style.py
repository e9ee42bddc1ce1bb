"""How a page looks on screens of any width, in light and in dark, and on paper."""

STYLE = """
:root { --ink: #1c2430; --soft: #5b6675; --line: #d9dee5; --paper: #ffffff; --card: #f5f7fa; --bar: #2b6cb0;
  --apart: #c2570c; --track: #e8ecf1; --shade: #1c243033; color-scheme: light dark; }
@media (prefers-color-scheme: dark) { :root { --ink: #e6eaf0; --soft: #a3adba; --line: #333c48; --paper: #12161c;
  --card: #1b212a; --bar: #6aa9e9; --apart: #f0a04b; --track: #262e39; --shade: #e6eaf033; } }
@media print { :root { --ink: #000000; --soft: #444444; --line: #bbbbbb; --paper: #ffffff; --card: #ffffff;
  --bar: #2b6cb0; --apart: #c2570c; --track: #eeeeee; color-scheme: light; } }
* { box-sizing: border-box; }
html { scroll-padding-top: 1rem; }
body { margin: 0 auto; max-width: 76rem; padding: 1.5rem 1rem 3rem; background: var(--paper); color: var(--ink);
  font: 16px/1.5 system-ui, "Segoe UI", Roboto, "Helvetica Neue", Arial, sans-serif; }
h1 { font-size: 1.7rem; line-height: 1.2; margin: 0 0 .3rem; }
h2 { font-size: 1.2rem; margin: 2.4rem 0 .3rem; }
h3 { font-size: 1rem; margin: 1.2rem 0 .2rem; }
p { margin: .3rem 0 .7rem; }
a { color: var(--bar); }
:focus-visible { outline: 2px solid var(--apart); outline-offset: 2px; }
.whole { white-space: nowrap; }
.soft, figcaption, .legend, .scrolls { color: var(--soft); }
nav ul { list-style: none; display: flex; flex-wrap: wrap; gap: .2rem 1.1rem; margin: .8rem 0; padding: 0; }
.tiles { display: grid; grid-template-columns: repeat(auto-fit, minmax(10.5rem, 1fr)); gap: .7rem; margin: 1rem 0; }
.tile { background: var(--card); border: 1px solid var(--line); border-radius: .5rem; padding: .7rem .9rem; }
.tile b { display: block; font-size: 1.5rem; line-height: 1.25; font-variant-numeric: tabular-nums; }
.tile span { color: var(--soft); font-size: .85rem; display: block; }
.tile .line { display: flex; flex-wrap: wrap; justify-content: space-between; gap: 0 .6rem; margin-top: .2rem; }
.tile strong { margin-left: auto; color: var(--ink); font-weight: 600; font-variant-numeric: tabular-nums; }
.facts { display: grid; grid-template-columns: minmax(8rem, 14rem) 1fr; gap: .25rem 1rem; margin: .8rem 0; }
.facts dt { color: var(--soft); } .facts dd { margin: 0; overflow-wrap: anywhere; }
.sign { display: grid; grid-template-columns: 1fr 1fr; gap: 2rem; margin: 4rem 0 1rem; }
.sign p { border-top: 1px solid var(--ink); padding-top: .2rem; margin: 0; color: var(--soft); }
.proved, .computed { font-size: .75rem; font-weight: 400; border: 1px solid; border-radius: 1rem; padding: .05rem .55rem;
  white-space: nowrap; vertical-align: middle; }
.proved { color: var(--bar); }
.computed { color: var(--soft); }
.wide { overflow-x: auto; background: linear-gradient(to right, var(--paper) 30%, transparent) left / 2.5rem 100%,
  linear-gradient(to left, var(--paper) 30%, transparent) right / 2.5rem 100%,
  linear-gradient(to right, var(--shade), transparent) left / .8rem 100%,
  linear-gradient(to left, var(--shade), transparent) right / .8rem 100%;
  background-repeat: no-repeat; background-attachment: local, local, scroll, scroll; }
table { border-collapse: collapse; width: 100%; font-size: .875rem; font-variant-numeric: tabular-nums; }
th, td { text-align: left; vertical-align: top; padding: .3rem .5rem; border-bottom: 1px solid var(--line);
  white-space: nowrap; }
th { color: var(--soft); font-weight: 600; vertical-align: bottom; }
td.number, th.number { text-align: right; }
td.long { white-space: normal; min-width: 11rem; } td.name { white-space: normal; min-width: 9rem; }
.cards td.long { min-width: 10rem; } .cards td.name { min-width: 7rem; }
th.over { text-align: center; border-bottom: 1px solid var(--line); }
th.number, th.name, th.long { white-space: normal; } th.number { min-width: 3.4rem; }
td.code, .fraction { font-family: ui-monospace, Consolas, "DejaVu Sans Mono", monospace; font-size: .8rem; }
.fraction { color: var(--soft); white-space: nowrap; }
.wide td:first-child, .wide th:first-child { border-left: 3px solid transparent; padding-left: .3rem; }
.wide tr.marked td:first-child { border-left-color: var(--apart); }
.wide tr.marked td { font-weight: 600; }
.indices b { display: inline-block; min-width: 4.6rem; text-align: right; margin-right: .6rem; }
figure { margin: .8rem 0; }
figure svg { display: block; width: 100%; height: auto; font-size: 14.5px; }
.columns .wide svg { min-width: 34rem; }
.for-narrow, .scrolls { display: none; }
.for-narrow svg { font-size: 14px; max-width: 30rem; }
svg text { fill: var(--soft); font-family: inherit; }
svg .bar { fill: var(--bar); } svg .apart { fill: var(--apart); } svg .track { fill: var(--track); }
svg .hit { fill: transparent; } svg .grid { stroke: var(--line); }
svg .parting { stroke: var(--apart); stroke-dasharray: 4 3; } svg .says { fill: var(--ink); }
svg.key { display: inline-block; width: .75rem; height: .75rem; }
.legend span { margin-right: 1.2rem; white-space: nowrap; }
ul.bars { list-style: none; margin: .6rem 0; padding: 0; }
ul.bars li { display: grid; grid-template-columns: 1fr auto; gap: 0 1rem; margin: .55rem 0; }
ul.bars .value { font-variant-numeric: tabular-nums; }
ul.bars svg { grid-column: 1 / -1; height: .65rem; }
details { margin: .5rem 0; }
summary { cursor: pointer; color: var(--bar); }
footer { margin-top: 3rem; border-top: 1px solid var(--line); padding-top: .8rem; color: var(--soft); font-size: .875rem; }
@media screen and (min-width: 60rem) { figure svg { font-size: 10px; } }
@media screen and (max-width: 56rem) {
  .indices, .indices tbody, .indices td { display: block; }
  .indices thead { display: none; }
  .indices tr { display: flex; flex-direction: column; border-bottom: 1px solid var(--line); padding: .4rem 0; }
  .indices td { border: 0; padding: 0; white-space: normal; order: 2; }
  .indices td:first-child { order: 0; }
  .indices td.long { order: 1; color: var(--soft); min-width: 0; }
  .indices td[data-set] { white-space: nowrap; }
  .indices td[data-set]::before { content: "all days"; display: inline-block; width: 12rem; color: var(--soft); }
  .indices td[data-set="unmarked"]::before { content: "without major event days"; }
  .cards, .cards table, .cards tbody, .cards tr, .cards td { display: block; }
  .cards thead { display: none; }
  .cards tr { border-bottom: 1px solid var(--line); padding: .4rem 0; }
  .cards td, .cards td.number, .cards td.long { display: grid; grid-template-columns: 9rem 1fr; gap: 0 .6rem; border: 0;
    padding: .05rem 0; white-space: normal; text-align: left; min-width: 0; }
  .cards td:empty { display: none; }
  .cards td::before { content: attr(data-label); color: var(--soft); }
  .cards.wide td:first-child { font-weight: 600; border: 0; padding-left: 0; }
}
@media screen and (max-width: 40rem) {
  .for-wide { display: none; } .for-narrow, .scrolls { display: block; }
  .columns .wide svg { min-width: 44rem; }
  .facts, .sign { grid-template-columns: 1fr; } .facts dd { margin-bottom: .4rem; } .sign { gap: 3.5rem; }
  .wide td.code { white-space: normal; } .wide td.long { min-width: 12rem; }
  .wide:not(.cards) td:first-child, .wide:not(.cards) th:first-child { position: sticky; left: 0;
    background: var(--paper); box-shadow: inset 0 -1px var(--line); }
  .indices td[data-set]::before, .indices td[data-set="unmarked"]::before { display: block; width: auto; }
}
@media print {
  body { max-width: none; padding: 0 1px; font-size: 10pt; } h1 { font-size: 18pt; }
  h2 { font-size: 13pt; margin-top: 14pt; } h3 { font-size: 10.5pt; margin: 8pt 0 2pt; }
  h2, h3, .legend, p { break-after: avoid; break-inside: avoid; }
  nav { display: none; } #cover { break-after: page; } #cover h2 { margin-top: 9pt; }
  figure, .tile, li, dt, dd, .short { break-inside: avoid; } figcaption { break-before: avoid; }
  figure { break-after: avoid; margin: .4rem 0; } figure:has(+ h3), figure:has(+ p), figure:has(+ figure) { break-after: auto; }
  .facts { font-size: 9pt; gap: .1rem 1rem; margin: .4rem 0; } .sign { margin-top: 20mm; }
  .tiles { grid-template-columns: repeat(4, 1fr); gap: .5rem; margin: .6rem 0; } .tile span { font-size: 8pt; }
  .tile { padding: .4rem .6rem; } .wide { overflow: visible; background: none; }
  figure svg { font-size: 12px; } .columns .wide svg { min-width: 0; }
  ul.bars { font-size: 9pt; margin: .3rem 0; } ul.bars li { margin: .2rem 0; } ul.bars svg { height: .4rem; }
  details::details-content { content-visibility: visible; height: auto; }
  summary { list-style: none; color: inherit; break-after: avoid; }
  table { font-size: 8pt; } td.code, .fraction { font-size: 7pt; } th, td { padding: .12rem .3rem; } td.long { min-width: 0; }
  th.number { min-width: 0; } td.name { min-width: 32mm; }
  .indices td.long { font-size: 7pt; }
  #day-figures .wide:not(.short) { columns: 2; column-gap: 8mm; }
  .indices b { min-width: 3.4rem; }
  thead { display: table-header-group; } tr { break-inside: avoid; }
  tbody tr:nth-last-child(-n+3):not(:first-child) { break-before: avoid; }
  tbody tr:nth-child(-n+2):not(:last-child) { break-after: avoid; }
  .proved, .computed { border-color: #999999; color: #444444; }
}
"""

PICTURE_STYLE = """
svg { background: #ffffff; font: 12px system-ui, "Segoe UI", Roboto, Arial, sans-serif; }
text { fill: #5b6675; } .bar { fill: #2b6cb0; } .apart { fill: #c2570c; } .hit { fill: none; } .grid { stroke: #d9dee5; }
"""


def css_string(text: str) -> str:
    """A text as a string of a style sheet that stands in a page."""
    return '"' + "".join(each if each.isalnum() or each in " -_.,:;()" else f"\\{ord(each):x} " for each in text) + '"'


def paper_style(title: str, state: str, date: str) -> str:
    """What stands at the edges of each printed page: of what it is, the book's state, the date, the page's number."""
    boxes = [
        ("top-left", css_string(title)),
        ("top-right", css_string(date)),
        ("bottom-left", css_string(state)),
        ("bottom-right", '"page " counter(page) " of " counter(pages)'),
    ]
    rules = " ".join(
        f"@{place} {{ content: {content}; font: 8pt sans-serif; color: #444444; white-space: nowrap; }}"
        for place, content in boxes
    )
    return f"@page {{ margin: 17mm 14mm; {rules} }}\n"
