"""The style of a report: for screens wide and narrow, for paper, and for eyes that see no colours."""

STYLE = """
:root { color-scheme: light; --ink: #16181d; --soft: #555b66; --rule: #c9ced8; --wash: #f6f7f9; --bad: #a30000; --good: #14601d; }
* { box-sizing: border-box; }
body { margin: 0; color: var(--ink); background: #fff; font: 16px/1.5 system-ui, "Segoe UI", "DejaVu Sans", sans-serif; overflow-wrap: anywhere; }
header, nav, main { max-width: 84rem; margin: 0 auto; padding: 0 1.5rem; }
header { width: calc(100% - 3rem); max-width: 81rem; margin-top: 1.5rem; padding: 1.25rem 1.5rem; border: 2px solid; border-left-width: 12px; border-radius: 6px; }
header.refused { border-color: var(--bad); background: #fff4f2; }
header.accepted { border-color: var(--good); background: #f1faf2; }
h1 { margin: 0 0 .5rem; font-size: 1.7rem; line-height: 1.25; }
header.refused h1 { color: var(--bad); }
header.accepted h1 { color: var(--good); }
h2 { margin: 2.25rem 0 .6rem; padding-bottom: .2rem; font-size: 1.25rem; border-bottom: 1px solid var(--rule); }
h3 { margin: 1.25rem 0 .4rem; font-size: 1.05rem; }
header p { margin: .35rem 0; }
.names { color: var(--soft); font-weight: 600; }
.meets { font-size: 1.12rem; max-width: 62rem; }
.promise, .told, .left { color: #333842; }
code, pre { font-family: ui-monospace, "DejaVu Sans Mono", Menlo, Consolas, monospace; font-size: .86em; }
pre code { font-size: 1em; }
.none { color: var(--soft); }
nav ul { display: flex; flex-wrap: wrap; gap: .3rem 1.2rem; margin: .9rem 0 0; padding: 0; list-style: none; }
a { color: #0b4f9c; }
:focus-visible { outline: 3px solid #0b4f9c; outline-offset: 2px; }
table { width: 100%; margin: .5rem 0 1rem; border-collapse: collapse; font-size: .95rem; }
th, td { padding: .3rem .6rem; text-align: left; vertical-align: top; border: 1px solid var(--rule); }
thead th { background: var(--wash); }
th { overflow-wrap: break-word; }
tbody th { width: 6rem; font-weight: 600; }
table td { width: 34%; }
table td:last-child { width: 11rem; }
tr.breaks > * { background: #ffe9b8; border: 2px solid var(--bad); font-weight: 600; }
tr.new > * { background: #eef8ee; }
tr.gone > * { background: #faefef; }
.resolved { display: block; color: #333842; font-weight: 400; }
.mark { white-space: nowrap; color: var(--soft); }
.mark.breaks { color: var(--bad); font-weight: 700; }
.mark.new { color: #1b6e1b; font-weight: 600; }
.mark.gone { color: #8a1f1f; font-weight: 600; }
.mark.moved { color: #0b4f9c; font-weight: 600; }
.mark.differs { color: #5a3c00; font-weight: 600; }
ul.changes { margin: .3rem 0; padding: 0; list-style: none; }
ul.changes li { padding: .1rem 0; }
ul.changes .mark { display: inline-block; min-width: 10rem; }
.pair { display: grid; grid-template-columns: repeat(auto-fit, minmax(min(100%, 26rem), 1fr)); gap: 1rem; align-items: start; }
figure { min-width: 0; margin: 0 0 .8rem; }
figcaption { font-weight: 600; margin-bottom: .2rem; }
.picture { overflow: auto; max-height: 85vh; border: 1px solid var(--rule); background: #fff; }
.picture svg { display: block; margin: 0 auto; }
pre { margin: 0; padding: .6rem .8rem; max-height: 32rem; overflow: auto; background: var(--wash); border: 1px solid var(--rule); border-radius: 4px; white-space: pre-wrap; }
.run pre { padding-left: 2rem; }
.run pre:empty { display: none; }
.run .left { margin: .2rem 0; }
.line { display: inline-block; width: 100%; min-height: 1em; }
.line.other { position: relative; background: #fdf3d7; }
.line.other::before { content: "≠"; position: absolute; left: -1.4rem; color: #5a3c00; font-weight: 700; }
details { margin: .4rem 0; border: 1px solid var(--rule); border-radius: 4px; padding: .35rem .8rem; }
summary { cursor: pointer; padding: .15rem 0; }
@media (max-width: 40rem) {
  body { font-size: 15px; }
  header, nav, main { padding-left: .8rem; padding-right: .8rem; }
  header { width: auto; margin: .5rem .5rem 0; padding: .8rem; border-left-width: 8px; }
  h1 { font-size: 1.3rem; }
  .meets { font-size: 1.02rem; }
  th, td { padding: .25rem .35rem; }
  table { table-layout: fixed; font-size: .84rem; }
  thead th:first-child { width: 3.4rem; }
  thead th:last-child { width: 5.2rem; }
  .heads thead th:first-child { width: 5.4rem; }
  .resolved { display: block; color: #333842; font-weight: 400; }
.mark { white-space: normal; }
  ul.changes .mark { min-width: 0; margin-right: .4rem; }
}
@media print {
  @page { margin: 14mm; }
  body { font-size: 10.5pt; }
  nav, .raw, .trace, .large { display: none; }
  #said { display: none; }
  header { margin-top: 0; }
  header, main { width: auto; max-width: none; padding-left: 0; padding-right: 0; }
  header { padding: .6rem .8rem; }
  .picture, pre { max-height: none; overflow: visible; }
  .picture svg { width: auto; max-width: 100%; height: auto; max-height: 22cm; }
  details { border: 0; padding: 0; }
  details::details-content { content-visibility: visible; block-size: auto; }
  figure, tr, li, header { break-inside: avoid; }
  h2, h3, summary, figcaption { break-after: avoid; }
  * { print-color-adjust: exact; -webkit-print-color-adjust: exact; }
}
"""
