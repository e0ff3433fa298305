"""How the page looks: one sheet for screens of any width and for paper, readable without colour."""

CSS = """
:root { --ink: #1c2330; --soft: #5b6474; --line: #c9ced8; --paper: #fff; --blocked: #2f4a7d; --deemed: #b4551d; --uncovered: #9c1c2c; }
* { box-sizing: border-box; }
body { margin: 0 auto; max-width: 1240px; padding: 1.2rem 1rem 3rem; color: var(--ink); background: var(--paper);
  font: 16px/1.45 system-ui, "DejaVu Sans", sans-serif; }
h1 { font-size: 1.6rem; margin: 0; } h2 { font-size: 1.15rem; margin: 2.2rem 0 .5rem; }
p { margin: .3rem 0; max-width: 46rem; } .soft { color: var(--soft); }
.told { border: 2px solid var(--ink); border-left-width: 10px; padding: .5rem .8rem; margin: 1rem 0; font-weight: 600; }
.told.short { border-style: double; border-width: 4px 4px 4px 12px; border-color: var(--uncovered); }
table { border-collapse: collapse; width: 100%; font-size: .93rem; }
th, td { padding: .28rem .45rem; border-bottom: 1px solid var(--line); text-align: right; vertical-align: middle; }
thead th { font-weight: 600; color: var(--soft); border-bottom: 2px solid var(--ink); }
th[scope=row], .l { text-align: left; } th[scope=row] { font-weight: 600; overflow-wrap: anywhere; } td { font-variant-numeric: tabular-nums; }
td.bar { width: 34%; padding-right: .8rem; } th small { color: var(--soft); font-weight: 400; }
.d1 th[scope=row] { padding-left: 1.4rem; } .d2 th[scope=row] { padding-left: 2.8rem; font-weight: 400; }
svg { display: block; width: 100%; overflow: visible; } .key { display: flex; flex-wrap: wrap; gap: .3rem 1.4rem; margin: .6rem 0; }
.key span { display: flex; align-items: center; gap: .45rem; } .key svg { width: 34px; flex: none; }
.on { font-weight: 700; text-decoration: underline; } .retired { color: var(--soft); font-style: italic; }
text { font: 13px system-ui, "DejaVu Sans", sans-serif; fill: var(--ink); }
code { font: .9em ui-monospace, "DejaVu Sans Mono", monospace; overflow-wrap: anywhere; }
@media screen and (max-width: 760px) {
  body { font-size: 15px; padding: .8rem .7rem 2rem; } thead { display: none; } table, tbody { display: block; }
  tr { display: grid; grid-template-columns: 1fr 1fr; border-bottom: 1px solid var(--ink); padding: .45rem 0; }
  th, td { border: 0; padding: .1rem 0; } .d1 { margin-left: .8rem; } .d2 { margin-left: 1.6rem; }
  .d1 th[scope=row], .d2 th[scope=row] { padding-left: 0; } th[scope=row], td.bar, td.wide { grid-column: 1 / -1; }
  td.bar { width: auto; padding: .25rem 0; } td { display: flex; justify-content: space-between; gap: .5rem; margin-right: .8rem; text-align: left; }
  td[data-label]::before { content: attr(data-label); color: var(--soft); } td:empty { display: none; }
}
@media print {
  body { max-width: none; padding: 0; font-size: 10pt; } h2 { break-after: avoid; } tr, figure { break-inside: avoid; }
  * { -webkit-print-color-adjust: exact; print-color-adjust: exact; }
}
"""

# Each part has a pattern of its own, so that it is told apart without colour.
PATTERNS = """<svg width="0" height="0" style="position:absolute" aria-hidden="true"><defs>
<pattern id="blocked" width="8" height="8" patternUnits="userSpaceOnUse"><rect width="8" height="8" fill="#2f4a7d"/></pattern>
<pattern id="free" width="8" height="8" patternUnits="userSpaceOnUse"><rect width="8" height="8" fill="#f4f6fa"/></pattern>
<pattern id="deemed" width="7" height="7" patternUnits="userSpaceOnUse" patternTransform="rotate(45)">
<rect width="7" height="7" fill="#fff"/><rect width="3" height="7" fill="#b4551d"/></pattern>
<pattern id="own" width="8" height="8" patternUnits="userSpaceOnUse"><rect width="8" height="8" fill="#2f4a7d"/></pattern>
<pattern id="tm" width="7" height="7" patternUnits="userSpaceOnUse"><rect width="7" height="7" fill="#fff"/>
<rect width="7" height="3" fill="#4d7a5d"/></pattern>
<pattern id="cm" width="7" height="7" patternUnits="userSpaceOnUse"><rect width="7" height="7" fill="#fff"/><circle cx="3.5" cy="3.5" r="2" fill="#5b6474"/></pattern>
<pattern id="uncovered" width="8" height="8" patternUnits="userSpaceOnUse" patternTransform="rotate(45)"><rect width="8" height="8" fill="#fff"/>
<rect width="2.5" height="8" fill="#9c1c2c"/><rect width="8" height="2.5" fill="#9c1c2c"/></pattern>
<pattern id="use" width="8" height="8" patternUnits="userSpaceOnUse"><rect width="8" height="8" fill="#aeb6c4"/></pattern>
<pattern id="loss" width="8" height="8" patternUnits="userSpaceOnUse"><rect width="8" height="8" fill="#1c2330"/></pattern>
</defs></svg>"""
