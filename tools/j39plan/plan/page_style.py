"""How the page of a plan looks: on a light or dark screen, and on paper. Nothing is told by a colour alone."""

STYLE = """:root {
  color-scheme: light dark;
  --paper: #ffffff; --ink: #1b1b1b; --soft: #595959; --line: #767676; --head: #eef1f5; --anchor: #0b4f9e;
}
@media (prefers-color-scheme: dark) {
  :root { --paper: #121416; --ink: #e8e8e8; --soft: #b0b0b0; --line: #8a8a8a; --head: #23282e; --anchor: #8ab8f2; }
}
body { margin: 0 auto; max-width: 72rem; padding: 1rem; background: var(--paper); color: var(--ink); font: 1rem/1.45 sans-serif; }
a { color: var(--anchor); }
.skip { position: absolute; left: -100rem; }
.skip:focus { left: 1rem; top: 0.5rem; padding: 0.25rem; background: var(--paper); }
nav ul { display: flex; flex-wrap: wrap; gap: 1rem; list-style: none; padding: 0; }
h1, p, .bytes td { overflow-wrap: anywhere; }
h2 { border-bottom: 2px solid var(--line); margin-top: 2.5rem; }
h3 { margin: 2rem 0 0.25rem; }
p { margin: 0.25rem 0 0.75rem; }
.wide { overflow-x: auto; margin: 0.75rem 0 1.25rem; }
table { border-collapse: collapse; }
caption { text-align: left; color: var(--soft); padding-bottom: 0.25rem; }
th, td { border: 1px solid var(--line); padding: 0.2rem 0.5rem; text-align: left; vertical-align: top; }
th { background: var(--head); font-weight: 600; }
.numbers { font-size: 90%; }
.numbers td + td { text-align: right; font-variant-numeric: tabular-nums; }
.bytes { table-layout: fixed; width: 100%; min-width: 28rem; max-width: 38rem; }
.bytes th:first-child { width: 4.5rem; }
.bytes td { text-align: center; }
.bytes .free { color: var(--soft); font-style: italic; border-style: dashed; }
code { font-family: monospace; }
footer { margin-top: 2rem; color: var(--soft); overflow-wrap: anywhere; }
@media print {
  :root { --paper: #ffffff; --ink: #000000; --soft: #333333; --line: #666666; --head: #ffffff; --anchor: #000000; }
  @page { margin: 15mm; }
  body { max-width: none; padding: 0; font-size: 9pt; }
  nav, .skip { display: none; }
  .wide { overflow: visible; break-inside: avoid; }
  h2, h3, article > p { break-after: avoid; }
  tr, caption { break-inside: avoid; }
  thead { display: table-header-group; }
  a { text-decoration: none; }
}
"""
