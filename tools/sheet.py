"""A pupil's sheet: one page for a browser and for print, without a network.

  page(pupil, found, ..)           the file of one pupil
  opened(title)                    how a file of sheets begins, each a section of these parts:
  beginning(pupil, ..), standing(found, ..), part(..)
"""
import html

STYLE = """
:root { color-scheme: light dark; --ink: #1d2733; --paper: #fff; --line: #d5dbe2; --warn: #b3261e;
  --mastered: #d7e6f6; --next: #ffe2a8; --mark: #1d2733; }
@media (prefers-color-scheme: dark) { :root { --ink: #e4e9ef; --paper: #14191f; --line: #38434e;
  --warn: #ff8a80; } }
* { box-sizing: border-box; -webkit-print-color-adjust: exact; print-color-adjust: exact; }
body { margin: 2rem auto; padding: 0 1rem; max-width: 40rem; color: var(--ink);
  background: var(--paper); font: 16px/1.5 system-ui, sans-serif; }
h1 { font-size: 1.7rem; margin: 0; } h2 { font-size: 1.1rem; margin: 1.6rem 0 .4rem; }
p { margin: .3rem 0; } .warn { color: var(--warn); font-weight: 600; }
ul { list-style: none; margin: 0; padding: 0; display: flex; flex-wrap: wrap; gap: .4rem; }
li { padding: .15rem .6rem; border: 1px solid var(--line); border-radius: .3rem;
  overflow-wrap: anywhere; color: var(--mark); }
.mastered li { background: var(--mastered); } .next li, .last li { background: var(--next); }
.right, .wrong { font-variant-numeric: tabular-nums; } footer { margin-top: 2rem; font-size: 13px; }
h1 { overflow-wrap: anywhere; }
section + section { margin-top: 3rem; border-top: 2px solid var(--line); padding-top: 2rem; }
figure { margin: 1.6rem 0 0; break-inside: avoid; } figcaption { font-size: 13px; }
svg { display: block; width: auto; height: auto; max-width: 100%; max-height: 8.5cm;
  background: #fff; margin-bottom: .3rem; border: 1px solid var(--line); border-radius: .3rem; }
 svg text { unicode-bidi: plaintext; }
@media print { :root { color-scheme: light; --ink: #000; --paper: #fff; --line: #d5dbe2;
  --warn: #b3261e; } body { margin: 0; max-width: none; font: 10.5pt/1.35 system-ui, sans-serif; }
  h2 { margin: .9rem 0 .25rem; } ul { gap: .25rem .3rem; } li { padding: 0 .45rem; }
  figure, footer { margin-top: 1rem; } svg { max-height: 7cm; }
  section + section { margin: 0; border: 0; padding: 0; break-before: page; } svg { border: 0; }
  h2 { break-after: avoid; } li { break-inside: avoid; } @page { margin: 14mm; } }
"""


def part(title, kind, names, none):
    """A heading with the names below it, each of which has the direction of its own script."""
    told = "".join(f"<li dir=auto>{html.escape(it)}</li>" for it in names)
    return f"<h2>{title}</h2>" + (f"<ul class={kind}>{told}</ul>" if told else f"<p>{none}</p>")


def opened(title):
    """How a file of sheets begins."""
    return ["<!doctype html>", '<html lang="en"><meta charset="utf-8">',
            '<meta name="viewport" content="width=device-width, initial-scale=1">',
            f"<title>{html.escape(title)}</title><style>{STYLE}</style>"]


def beginning(pupil, told, is_sure):
    """A pupil's name, and a sentence on how sure the sheet is."""
    return [f"<h1 dir=auto>{html.escape(pupil)}</h1>",
            f"<p{'' if is_sure else ' class=warn'}>{html.escape(told)}</p>"]


def standing(found, named):
    """What was found of a pupil."""
    return [part("You master", "mastered", map(named.of, found.state), "No item yet."),
            part("You can learn next", "next", map(named.of, found.ready), "All is learned."),
            part("Learned last: look at these again", "last", map(named.of, found.last),
                 "Nothing yet.")]


def page(pupil, found, told, replies, named):
    """The sheet by what was found of a pupil, a sentence on how sure that is, the replies, and the
    labels of the items."""
    asked = ", ".join(f"<bdi>{html.escape(named.of(item))}</bdi> {'right' if right else 'wrong'}"
                      for item, right in replies)
    return "\n".join([
        *opened(pupil), *beginning(pupil, told, found.is_sure), *standing(found, named),
        f"<h2>What was asked</h2><p>{asked or 'Nothing.'}</p>",
        "<footer>By lspace.</footer></html>", ""])
