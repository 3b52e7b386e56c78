"""A picture that Graphviz's `dot` makes, fit for a page: it says what is seen, and can be dark.

  data = drawn(text)      the SVG, by the input of dot that `pictures` makes

A reader of the screen is told the title, which is the name of the graph, and the caption. A pointer
on a box or a line shows its tooltip. Colours stand in the elements, for what knows no style; in a
browser that is dark the style puts others in their place, but not on paper. Each box and each line
of the picture is a line of the file."""
import shutil
import subprocess
from xml.etree import ElementTree

from companion import Trouble
from pictures import BACKSLASH

SVG = "{http://www.w3.org/2000/svg}"
TIP = "{http://www.w3.org/1999/xlink}title"
FONT = "Helvetica,sans-Serif"  # as dot writes it
DARK = {  # what an element looks like in the dark, by its place
    ".lspace text": "fill: #e6ebf0", ".lspace .paper": "fill: #14191f",
    ".lspace .learned polygon": "fill: #14191f; stroke: #14191f",
    ".lspace .node path": "fill: #232c36; stroke: #c5ced8", ".lspace .edge path": "stroke: #8794a1",
    ".lspace .outer path": "fill: #1d4a26", ".lspace .inner path": "fill: #5a3714",
    ".lspace .path path": "fill: #46306e", ".lspace .state path": "fill: #9cc9f2; stroke: #e6ebf0",
    ".lspace .state text": "fill: #0c1c2c",
    ".lspace .edge.outer path": "stroke: #7fd687", ".lspace .edge.inner path": "stroke: #ffb067",
    ".lspace .edge.path path": "stroke: #c4a7ff",
    ".lspace .edge.path polygon": "fill: #c4a7ff; stroke: #c4a7ff",
    ".lspace path[fill=none]": "fill: none",
}


def drawn(text):
    """The picture that dot makes."""
    if shutil.which("dot") is None:
        raise Trouble("`dot` isn't found. It comes with Graphviz: `apt-get install graphviz`, "
                      "`brew install graphviz`, or graphviz.org. --dot needs none", 3)
    made = subprocess.run(["dot", "-Tsvg"], input=text.encode(), stdout=subprocess.PIPE,
                          stderr=subprocess.PIPE)
    if made.returncode != 0:
        raise Trouble(f"`dot` failed: {made.stderr.decode(errors='replace').strip()}", 3)
    return dressed(made.stdout)


def style():
    rules = "\n".join(f"{place} {{ {look} }}" for place, look in DARK.items())
    return f"\n@media (prefers-color-scheme: dark) {{ @media not print {{\n{rules}\n}} }}\n"


def spoken(text):
    """A text that dot was given in a name or a tooltip."""
    return text.replace(BACKSLASH, "\\")


def tidy(part):
    """Takes what only dot needs out of the group of a box or a line, and makes its tooltip the
    title of it."""
    title, link = part.find(f"{SVG}title"), part.find(f".//{SVG}a")
    if link is not None:
        title.text = spoken(link.get(TIP, ""))
        part[:] = [title, *link]
    part.attrib.pop("id", None)


def tidied(graph):
    """The parts of the graph in their order. The two halves of a line share a group."""
    found, halves = [], {}
    for part in graph:
        if part.tag != f"{SVG}g":
            found.append(part)
            continue
        tidy(part)
        title = part.find(f"{SVG}title")
        first = halves.setdefault((part.get("class"), title.text), part)
        if first is part or not part.get("class").startswith("edge"):
            found.append(part)
        else:
            first.extend(it for it in part if it is not title)
    return found


def dressed(made):
    """The picture of dot with what makes it fit for a page."""
    root = ElementTree.fromstring(made)
    graph = root.find(f"{SVG}g")
    graph.attrib.pop("id", None)
    name, paper, *_ = graph
    paper.set("class", "paper")
    graph.remove(name)
    caption = " ".join(it.text for it in graph.findall(f"{SVG}text"))
    graph[:] = tidied(graph)
    told = [ElementTree.Element(SVG + it) for it in ("title", "desc", "style")]
    for it, text in zip(told, (spoken(name.text), caption, style())):
        it.text = text
    root[:] = [*told, graph]
    root.attrib.update({"class": "lspace", "role": "img"})
    share_font(graph)
    in_lines(root, graph)
    ElementTree.register_namespace("", SVG[1:-1])
    text = ElementTree.tostring(root, "unicode")
    return f'<?xml version="1.0" encoding="UTF-8"?>\n{text}\n'.encode()


def share_font(graph):
    """Names the font once."""
    for text in graph.iter(f"{SVG}text"):
        if text.get("font-family") == FONT:
            text.attrib.pop("font-family")
    graph.set("font-family", FONT)


def in_lines(root, graph):
    """Makes each part of the picture a line of the file."""
    for it in root.iter():
        it.text, it.tail = it.text if (it.text or "").strip() else None, None
    for it in (root, graph):
        it.text = "\n"
    for it in (*root, *graph):
        it.tail = "\n"
