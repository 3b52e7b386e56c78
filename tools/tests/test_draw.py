"""Whether a picture has the states, covers, names and marks of the space."""
import re
import shlex
import shutil
import subprocess
import sys
import unittest
import xml.etree.ElementTree
from pathlib import Path

sys.path[:0] = [str(Path(__file__).resolve().parent), str(Path(__file__).resolve().parents[1])]
from given import PROGRAM
import pictures
from drawings import TOP, Draw, boxes, lines, title

FRACTIONS = str(TOP / "samples/fractions.txt")
PICTURES = TOP / "docs/pictures"
SVG = "{http://www.w3.org/2000/svg}"
# The lines of the guide's fractions: from a state, by an item, to a state, by the cursors there.
COVERS = """0 expand 8   0 decimal 4  4 expand c   4 compare 6  8 decimal c  8 compare a
            6 expand e   c compare e  a decimal e  a add b      e add f      b decimal f"""


class States(Draw):
    def test_the_space_of_the_guide(self):
        text, told = self.draw(FRACTIONS, "--dot")
        self.assertEqual(told, "")
        self.assertEqual(title(text), "9 states of 4 items. Each box is a state: all that a pupil "
                         "masters. A line goes up to a larger state, and names what is learned on "
                         "the way.")
        self.assertEqual({name: label for name, (label, _) in boxes(text).items()}, {
            "f": "expand decimal compare add", "e": "expand decimal compare", "c": "expand decimal",
            "b": "expand compare add", "a": "expand compare", "8": "expand",
            "6": "decimal compare", "4": "decimal", "0": "{}"})
        self.assertEqual(sorted(line[:3] for line in lines(text)),
                         sorted(tuple(it.split()) for it in re.split(r"\s{2,}", COVERS)))
        self.assertEqual({line[3] for line in lines(text)}, {""})

    def test_a_pupil_is_marked(self):
        """The guide: fringes compare | decimal add of {expand compare}."""
        text, _ = self.draw(FRACTIONS, "--dot", "--state", "compare expand")
        self.assertEqual({name: kind for name, (_, kind) in boxes(text).items() if kind},
                         {"a": "state", "e": "thick", "b": "thick", "8": "dashed"})
        self.assertEqual({line for line in lines(text) if line[3]}, {
            ("a", "decimal", "e", "thick"), ("a", "add", "b", "thick"),
            ("8", "compare", "a", "dashed")})
        for said in ("the pupil in {expand compare}", "next (decimal, add)", "last (compare)"):
            self.assertIn(said, title(text))

    def test_a_pupil_of_the_session(self):
        script = "items a b\npupil Ann\nreply Ann a right\nreply Ann b wrong\n"
        text = self.dot(script, "--pupil", "Ann")
        self.assertEqual(boxes(text)["8"][1], "state")
        self.assertIn("Ann in {a}", title(text))

    def test_the_empty_and_the_full_state(self):
        text = self.dot("items a b\nyes a : b", "--state", "")
        self.assertEqual([kind for _, kind in boxes(text).values()], ["", "thick", "state"])
        self.assertIn("last (nothing)", title(text))
        text = self.dot("items a b\nyes a : b", "--state", "{a, b}")
        self.assertEqual([kind for _, kind in boxes(text).values()], ["state", "dashed", ""])
        self.assertIn("next (nothing)", title(text))

    def test_items_that_are_learned_at_once(self):
        """The states of the guide that are no learning space: words and sentences from nothing."""
        text = self.dot("items letters words sentences\nyes words : sentences\n"
                        "yes letters sentences : words\n")
        self.assertEqual(sorted(line[:3] for line in lines(text)), [
            ("0", "letters", "8"), ("0", "words sentences", "6"), ("6", "letters", "e"),
            ("8", "words", "c"), ("c", "sentences", "e")])
        self.assertIn("splines=true", text)

    def test_boxes_of_larger_spaces(self):
        """64 states have their cursors; with 20 items the cursors are long, and sizes stand."""
        text = self.dot("items a b c d e f")
        self.assertEqual(boxes(text)["a8"], ("a8", ""))
        self.assertIn("cursor", title(text))
        chain = "items " + " ".join(f"q{n}" for n in range(20)) + "\n"
        chain += "".join(f"yes q{n} : q{n + 1}\n" for n in range(19))
        text = self.dot(chain)
        self.assertEqual(boxes(text)["c0000"], ("2", ""))
        self.assertIn("number of items", title(text))


class InPlace(Draw):
    def test_more_states_than_can_be_drawn(self):
        """Of seven free items there are 128 states, and of eight 256."""
        (self.folder / "seven").write_text("items a b c d e f g")
        text, told = self.draw("seven", "--dot")
        self.assertEqual((len(boxes(text)), len(lines(text)), told), (128, 7 * 64, ""))
        (self.folder / "eight").write_text("items a b c d e f g h\nyes a : b")
        text, told = self.draw("eight", "--dot")
        self.assertEqual(told, "draw: more than 128 states, so the relation is drawn "
                               "(--most N draws up to N states)\n")
        self.assertIn("8 items, by what comes before what, in place of more than 128 states.",
                      title(text))
        self.assertEqual(re.findall(r'"(\w)" -> "(\w)"', text), [("a", "b")])

    def test_items_that_are_free_have_a_relation_without_lines(self):
        (self.folder / "eight").write_text("items a b c d e f g h")
        text, told = self.draw("eight", "--dot")
        self.assertIn("so the relation is drawn", told)
        self.assertEqual((list(boxes(text)), "->" in text), (list("abcdefgh"), False))

    def test_the_base_where_no_relation_tells_the_states(self):
        """With one state less than the guide's space has: its base has the ways to compare."""
        text, told = self.draw(FRACTIONS, "--dot", "--most", "8")
        self.assertEqual(told, "draw: more than 8 states, so the base is drawn "
                               "(--most N draws up to N states)\n")
        self.assertIn("5 base sets of 4 items, in place of more than 8 states.", title(text))
        self.assertEqual({name: label for name, (label, _) in boxes(text).items()}, {
            "b": "add", "a": "compare", "8": "expand", "6": "compare", "4": "decimal"})
        self.assertEqual(set(re.findall(r'"(\w)" -> "(\w)"', text)),
                         {("8", "a"), ("a", "b"), ("4", "6")})
        text, told = self.draw(FRACTIONS, "--dot", "--most", "9")
        self.assertEqual((len(boxes(text)), told), (9, ""))

    def test_a_base_and_a_relation_that_are_too_large(self):
        script = "items a b c d\nyes a : b\n"
        self.assertIn("there are 4 items, and --most is 3", self.refused(script, "--relation",
                                                                        "--most", "3"))
        self.assertIn("there are 4 sets of the base, and --most is 3",
                      self.refused(script, "--base", "--most", "3"))


class Parts(Draw):
    CHART = str(TOP / "samples/chart.txt")

    def test_the_relation_of_the_guide(self):
        text, _ = self.draw(self.CHART, "--dot", "--relation")
        self.assertEqual(re.findall(r'"(\w+)" -> "(\w+)"', text), [
            ("expand", "compare"), ("decimal", "percent"), ("compare", "add"),
            ("compare", "discount"), ("percent", "discount")])

    def test_a_pupil_in_the_relation(self):
        """Who has expand, decimal and percent may have learned expand or percent last."""
        text, _ = self.draw(self.CHART, "--dot", "--relation", "--state", "expand decimal percent")
        self.assertEqual({name: kind for name, (_, kind) in boxes(text).items()}, {
            "expand": "dashed", "decimal": "state", "percent": "dashed", "compare": "thick",
            "add": "", "discount": ""})

    def test_a_pupil_in_the_base(self):
        """One way to compare is gone, the other is not needed; decimal and add come next."""
        text, _ = self.draw(FRACTIONS, "--dot", "--base", "--state", "expand compare")
        self.assertEqual({name: kind for name, (_, kind) in boxes(text).items()},
                         {"8": "state", "a": "dashed", "b": "thick", "4": "thick", "6": ""})

    def test_spaces_without_a_relation(self):
        _, told = self.draw(FRACTIONS, "--dot", "--relation", status=1)
        self.assertEqual(told, "draw: no relation tells these states: there is more than one way "
                               "to compare; --base draws the ways\n")
        told = self.refused("items a b c\nyes a : b\nyes b : a", "--relation")
        self.assertIn("a and b are always learned together", told)

    def test_items_that_are_learned_together_share_a_box(self):
        text = self.dot("items a b c\nyes a : b\nyes b : a", "--base")
        self.assertEqual([label for label, _ in boxes(text).values()], ["a b", "c"])


class Paths(Draw):
    def test_a_path_among_the_states(self):
        text, _ = self.draw(FRACTIONS, "--dot", "--path", "expand,compare,add")
        self.assertEqual({name: kind for name, (_, kind) in boxes(text).items() if kind},
                         {"0": "path", "8": "path", "a": "path", "b": "state"})
        self.assertEqual({line for line in lines(text) if line[3]}, {
            ("0", "expand", "8", "path"), ("8", "compare", "a", "path"), ("a", "add", "b", "path")})
        self.assertIn("the path expand, compare, add. Double frame: where it ends.", title(text))

    def test_a_path_as_the_program_prints_it(self):
        text, _ = self.draw(FRACTIONS, "--dot", "--path", "path decimal compare expand add")
        self.assertEqual([name for name, (_, kind) in boxes(text).items() if kind],
                         ["f", "e", "6", "4", "0"])

    def test_an_item_whose_name_is_path(self):
        text = self.dot("items path a", "--path", "path a")
        self.assertEqual(boxes(text)["c"], ("path a", "state"))

    def test_a_path_in_the_base(self):
        """It took one of the two ways to compare. The numbers tell the order."""
        text, _ = self.draw(FRACTIONS, "--dot", "--base", "--path", "decimal compare expand")
        self.assertEqual(boxes(text), {
            "b": ("add", ""), "a": ("compare", ""), "8": ("3. expand", "path"),
            "6": ("2. compare", "path"), "4": ("1. decimal", "path")})

    def test_a_path_in_the_relation(self):
        text = self.dot("items a b c\nyes a : b", "--relation", "--path", "a,b")
        self.assertEqual(boxes(text),
                         {"a": ("1. a", "path"), "b": ("2. b", "path"), "c": ("c", "")})

    def test_what_is_no_path(self):
        for path, why in {"expand,z": "z is no item", "expand expand": "expand stands twice",
                          "decimal,add": "add can't be learned after {decimal}",
                          "\33[31m": "[31m is no item"}.items():
            self.assertEqual(self.draw(FRACTIONS, "--path", path, status=2),
                             ("", f"draw: --path: {why}\n"))


class Refused(Draw):
    def test_what_is_no_state_or_pupil(self):
        self.assertEqual(self.refused("items a b\nyes a : b", "--state", "b"),
                         "draw: {b}: the set is no state (no 30)\n")
        self.assertIn("an item doesn't (no 15 2)", self.refused("items a b", "--state", "z"))
        self.assertIn("pupil Eve: no pupil has this name (no 38)",
                      self.refused("items a b", "--pupil", "Eve"))

    def test_a_number_that_is_none(self):
        for word in ("0", "-1", "x"):
            self.assertIn(f"{word} is no number from 1 on",
                          self.refused("items a", f"--most={word}", status=2))

    def test_scripts_without_a_session(self):
        self.assertIn("script has no session", self.refused("# nothing"))
        self.assertEqual(self.draw("gone", "--dot", status=2)[1],
                         "draw: gone can't be read: No such file or directory\n")

    def test_a_folder_that_is_not_there(self):
        self.assertIn("no/x.svg can't be written",
                      self.draw(FRACTIONS, "--dot", "--out", "no/x.svg", status=2)[1])

    def test_a_missing_dot_is_told(self):
        (self.folder / "script").write_text("items a")
        done = subprocess.run([sys.executable, str(TOP / "tools/draw"), "script"], cwd=self.folder,
                              env={"PATH": "/nowhere", "LSPACE": PROGRAM},
                              stdout=subprocess.PIPE, stderr=subprocess.PIPE)
        self.assertEqual((done.returncode, done.stdout), (3, b""))
        self.assertIn(b"apt-get install graphviz", done.stderr)


class Labels(Draw):
    SCRIPT = "items a b c\nyes a : b"
    LONG = "Bruchrechenaufgabensammlung by halves, thirds and sixths"
    HEBREW = "חיבור שברים"

    def labelled(self, *words, a="Add", b="", script=SCRIPT):
        (self.folder / "labels").write_text(f'name,label\na,"{a}"\nb,"{b}"\n', "utf-8")
        return self.dot(script, "--labels", "labels", *words)

    def test_labels_in_boxes_lines_and_captions(self):
        text = self.labelled("--state", "a", b="Build")
        self.assertEqual(boxes(text)["c"][0], "Add, Build")
        self.assertIn(("8", "Build", "c", "thick"), lines(text))
        self.assertIn("the pupil in {Add}", title(text))
        self.assertIn('tooltip="{Add (a), Build (b)}"', text)

    def test_a_long_label_stays_in_its_box(self):
        text = self.labelled("--base", a=self.LONG)
        label = re.search('"8" .label="([^"]*)"', text)[1].split("\\n")
        self.assertEqual(label, ["Bruchrechenaufgabensam", "mlung by halves,", "thirds and sixths"])
        self.assertIn(f'tooltip="{self.LONG} (a): needs nothing"', text)

    def test_a_label_without_end_is_cut(self):
        label = boxes(self.labelled("--base", a="x" * 40000))["8"][0]
        self.assertEqual((label[:22], label[-2:], len(label)), ("x" * 22, "..", 6 * 22 + 5))

    def test_a_label_from_right_to_left(self):
        """Its lines run so, and in a sentence it doesn't turn what stands beside it."""
        text = self.labelled("--base", "--state", "a", a=self.HEBREW)
        self.assertEqual(boxes(text)["8"][0], f"\u2067{self.HEBREW}\u2069")
        self.assertIn(f"the pupil is in {{\u2068{self.HEBREW}\u2069}}.", title(text))

    def test_boxes_too_small_for_labels_have_names(self):
        text = self.labelled(a=self.LONG, b=self.LONG[::-1])
        self.assertEqual(boxes(text)["c"][0], "a b")
        text = self.labelled(a="Add", script="items a b c d e f")
        self.assertIn(("00", "a", "80", ""), lines(text))

    def test_a_label_of_no_item_is_told(self):
        (self.folder / "labels").write_text("name,label\nz,Zero")
        (self.folder / "script").write_text(self.SCRIPT)
        _, told = self.draw("script", "--labels", "labels", "--dot")
        self.assertEqual(told, "draw: note: there is a label for z, and no such item\n")


class Pictures(Draw):
    def test_covers(self):
        sets = [frozenset(it) for it in ("abc", "ab", "a", "c", "")]
        self.assertEqual(sorted(pictures.covers(sets)), [(1, 0), (2, 1), (3, 0), (4, 2), (4, 3)])

    def test_captions_of_the_base(self):
        text, _ = self.draw(FRACTIONS, "--dot", "--base")
        self.assertEqual(title(text), "5 base sets of 4 items. Each box is one way to its item; "
                         "what it needs stands below. An item with two boxes has two ways.")
        text = self.dot("items a b\nyes a : b\nyes b : a", "--base")
        self.assertTrue(title(text).endswith("below. Items in one box are learned at once."))


@unittest.skipIf(shutil.which("dot") is None, "`dot` of Graphviz isn't found")
class Svg(Draw):
    def svg(self, *words):
        self.assertEqual(self.draw(*words, "--out", "x.svg")[0], "x.svg is written\n")
        return xml.etree.ElementTree.parse(self.folder / "x.svg").getroot()

    def told(self, root, kind):
        """The tooltips of the boxes (node) or lines (edge)."""
        return [it.find(SVG + "title").text for it in root.iter(SVG + "g")
                if it.get("class").split()[0] == kind]

    def test_the_picture(self):
        """It is an SVG that has all words of the boxes and lines."""
        root = self.svg(FRACTIONS, "--state", "expand compare")
        words = [it.text for it in root.iter(SVG + "text")]
        self.assertEqual(words[0], "9 states of 4 items.")
        for item, times in {"expand": 4, "decimal": 5, "compare": 4, "add": 3, "{}": 1}.items():
            self.assertEqual(words.count(item), times, item)

    def test_it_says_what_is_seen(self):
        root = self.svg(FRACTIONS, "--base", "--state", "expand")
        self.assertEqual([root.get("role"), root[0].tag, root[1].tag],
                         ["img", SVG + "title", SVG + "desc"])
        self.assertEqual(root[0].text, "5 base sets of 4 items; the pupil in {expand}")
        for said in ("Each box is one way", "can be learned next (decimal, compare)"):
            self.assertIn(said, root[1].text)

    def test_tooltips_name_items(self):
        root = self.svg(FRACTIONS)
        self.assertIn("{expand decimal}", self.told(root, "node"))
        self.assertEqual(len(self.told(root, "edge")), 12)
        self.assertIn("add: from {expand compare} to {expand compare add}",
                      self.told(root, "edge"))
        root = self.svg(FRACTIONS, "--base")
        self.assertEqual(sorted(self.told(root, "node")), [
            "add: needs expand, compare", "compare (one of 2 ways): needs decimal",
            "compare (one of 2 ways): needs expand", "decimal: needs nothing",
            "expand: needs nothing"])

    def test_hostile_labels(self):
        label = r"</title> & &lt; \N \l"
        (self.folder / "labels").write_text(f'name,label\nadd,"{label}\uffff"', "utf-8")
        root = self.svg(FRACTIONS, "--labels", "labels", "--base")
        self.assertIn(f"{label} (add): needs expand, compare", self.told(root, "node"))
        self.assertIn(label, " ".join(it.text for it in root.iter(SVG + "text")))

    def test_dark_but_not_on_paper(self):
        """The style names each class that a picture has, and colours stand without it too."""
        root = self.svg(FRACTIONS, "--state", "expand compare")
        style = root.find(SVG + "style").text
        self.assertIn("@media (prefers-color-scheme: dark) { @media not print {", style)
        for kind in ("paper", "learned", "state", "outer", "inner"):
            self.assertIn(f".lspace .{kind} ", style)
            self.assertTrue([it for it in root.iter() if kind in it.get("class", "").split()])
        self.assertEqual(root.find(".//*[@class='paper']").get("fill"), "white")

    def test_the_pictures_of_the_documents(self):
        """They are those of the commands beside them, though other versions of dot place boxes
        elsewhere."""
        for name in ("numbers", "arithmetic"):
            told = (PICTURES / f"{name}.txt").read_text().split("\n")[1]
            words = shlex.split(told[1:])[1:-2]
            fresh = self.svg(str(PICTURES / words[0]), *words[1:])
            stored = xml.etree.ElementTree.parse(PICTURES / f"{name}.svg").getroot()
            for kind in ("title", "desc", "style"):
                self.assertEqual(*(sorted(it.text for it in root.iter(SVG + kind))
                                   for root in (fresh, stored)))

    def test_each_box_and_line_is_a_line_of_the_file(self):
        root = self.svg(FRACTIONS)
        drawn = len(self.told(root, "node")) + len(self.told(root, "edge"))
        self.assertEqual(drawn, 9 + 12 + 12)
        self.assertLess(len((self.folder / "x.svg").read_text().split("\n")), drawn + 35)
