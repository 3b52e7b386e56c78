"""How the page of a class looks: on a screen, in the dark, and in print."""

STYLE = """
:root { color-scheme: light dark; --ink: #1d2733; --paper: #fff; --faint: #5c6875; --line: #d5dbe2;
  --mastered: #2f6fb3; --on: #fff; --last: #174a80; --ready: #ffe2a8; --on-ready: #5a3b00;
  --warn: #b3261e; }
@media (prefers-color-scheme: dark) { :root { --ink: #e4e9ef; --paper: #14191f; --faint: #9aa7b4;
  --line: #38434e; --mastered: #3f7fc2; --on: #fff; --last: #8fc0f3; --ready: #6b4f12;
  --on-ready: #ffe9bd; --warn: #ff8a80; } }
@media print { :root { color-scheme: light; --ink: #000; --paper: #fff; --faint: #444;
  --line: #bbb; --mastered: #2f6fb3; --on: #fff; --last: #174a80; --ready: #ffe2a8;
  --on-ready: #5a3b00; --warn: #b3261e; } }
* { box-sizing: border-box; -webkit-print-color-adjust: exact; print-color-adjust: exact; }
body { margin: 2rem auto; padding: 0 1rem; max-width: 62rem; color: var(--ink);
  background: var(--paper); font: 15px/1.45 system-ui, sans-serif; }
h1 { font-size: 1.6rem; margin: 0 0 .2rem; } h2 { font-size: 1.15rem; margin: 2.2rem 0 .4rem; }
p { margin: .2rem 0 .6rem; } .faint, footer, caption { color: var(--faint); }
table { border-collapse: collapse; } .wide { overflow-x: auto; }
th, td { padding: .2rem .6rem .2rem 0; text-align: left; vertical-align: top; }
thead th, .name { white-space: nowrap; } .long { overflow-wrap: anywhere; white-space: normal; }
th .long { display: inline-block; min-width: 7rem; max-width: 15rem; }
table.lines { width: 100%; } table.lines tr { border-bottom: 1px solid var(--line); }
table.narrow { width: auto; } .narrow .number { padding-left: 1rem; }
th { font-weight: 600; } .lines th[scope=col] { vertical-align: bottom; }
.warn { color: var(--warn); }
.alarm { margin: .8rem 0; padding: .5rem .8rem; border: 1px solid var(--warn);
  border-left-width: .4rem; color: var(--warn); font-weight: 600; max-width: 42rem; }
.number { text-align: right; white-space: nowrap; }
.states { font-size: 13px; } .states th[scope=row] { padding: 0 .7rem 0 0;
  vertical-align: middle; }
.states th.item { vertical-align: bottom; padding: 0 0 .3rem; font-weight: 500; }
.states th.item span { writing-mode: vertical-rl; transform: rotate(180deg); max-height: 11rem; }
.states th.item .long { display: inline; }
.states td { width: 1.55rem; height: 1.45rem; padding: 0; text-align: center;
  vertical-align: middle; border: 1px solid var(--line); position: relative; }
.states td.number { border: 0; width: auto; padding: 0 .3rem; }
td.mastered, i.mastered { background: var(--mastered); color: var(--on); }
td.last, i.last { background: var(--last); color: var(--paper); }
td.ready, i.ready { background: var(--ready); color: var(--on-ready); }
td.odd::after, i.odd::after { content: ""; position: absolute; right: 0; top: 0;
  border: .32rem solid; border-color: var(--warn) var(--warn) transparent transparent; }
td.mastered.odd::after, td.last.odd::after {
  border-color: #ffb199 #ffb199 transparent transparent; }
i { font-style: normal; display: inline-block; position: relative; width: 1.55rem; height: 1.45rem;
  text-align: center; vertical-align: middle; border: 1px solid var(--line);
  margin-right: .35rem; }
.key span { display: inline-block; margin: 0 1.2rem .3rem 0; white-space: nowrap; }
.bar { display: inline-block; height: .8rem; background: var(--mastered); vertical-align: middle; }
.bar.next { background: var(--ready); outline: 1px solid var(--on-ready); outline-offset: -1px; }
td.bars { width: 11rem; white-space: nowrap; padding-right: 1rem; }
footer { margin-top: 2.5rem; border-top: 1px solid var(--line); padding-top: .5rem;
  font-size: 13px; }
@media screen and (max-width: 40rem) {
  body { margin: 1rem auto; } h2 { margin-top: 1.6rem; } .key span { display: flex; margin-right: 0;
    white-space: normal; } .key i { flex: none; }
  .states th[scope=row] { position: sticky; left: 0; z-index: 1; background: var(--paper); }
  .states td { width: 1.2rem; height: 1.3rem; font-size: 11px; }
  .lines thead, .lines td.bars { display: none; }
  .lines, .lines tbody, .lines tr, .lines th, .lines td { display: block; width: auto; }
  .lines tr { padding: .35rem 0; } .lines td { padding: 0; text-align: left; }
  .lines td.number { display: inline-block; margin-right: 1rem; padding: 0; }
  .lines td::before { content: attr(data-head) ": "; color: var(--faint); } }
@media print { body { margin: 0; max-width: none; font-size: 10pt; } .wide { overflow: visible; }
  .states { font-size: 9pt; } .many { font-size: 7pt; }
  .states.many td { width: .8rem; height: 1rem; } .many th.item { padding: 0; }
  tr, h2 { break-inside: avoid; } h2 { break-after: avoid; } thead { display: table-header-group; }
  @page { margin: 14mm; } }
"""
