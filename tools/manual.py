"""The man page, made of the documents' own tables.

  page(documents, date)     the text of lspace.1, by the texts of README.md and COMMANDS.md"""
import re

import refusals

COMMAND_LINE = "| words | what is done |"
STATUS = "| status | meaning |"
HEAD = '''.\\" Made from the documents by tools/release.
.TH LSPACE 1 "{date}" "lspace" "User Commands"
.SH NAME
lspace \\- builds learning spaces and assesses pupils
.SH SYNOPSIS
.nf
lspace < SCRIPT
lspace \\-\\-script NAME
lspace \\-\\-drill N [\\-\\-number S]
.fi
'''


def plain(text):
    """A text of the documents without their marks, as roff takes it."""
    text = re.sub(r"\*\*|`", "", text).replace("\\", "\\e").replace("-", "\\-")
    return re.sub(r"^([.'])", r"\\&\1", text, flags=re.M)


def tagged(name, text):
    return f".TP\n.B {plain(name)}\n{plain(text)}\n"


def section(title, parts):
    return f".SH {title}\n" + "".join(parts)


def paragraphs(readme):
    """What the README says before its first list."""
    told = re.search(r"^# [^\n]*\n+(.*?)(?=^- )", readme, re.M | re.S)
    text = re.sub(r"\*([^*]+)\*", r"\1", told[1].replace("**", "")) if told else ""
    return [f".PP\n{plain(it)}\n" for it in text.strip().rstrip(":").split("\n\n")]


def page(readme, commands, date):
    known = refusals.commands(commands)
    parts = [
        HEAD.format(date=date), section("DESCRIPTION", paragraphs(readme)),
        section("OPTIONS", [tagged(*it) for it in refusals.rows_of(commands, COMMAND_LINE)]),
        section("COMMANDS", [tagged(form, it.reply) for it in known for form in it.forms]),
        section("REFUSALS", [tagged("no " + " ".join(it.form), f"{it.cause}. {it.remedy}")
                             for it in refusals.entries(commands)]),
        section("EXIT STATUS", [tagged(*it) for it in refusals.rows_of(commands, STATUS)]),
        section("SEE ALSO", ["The documents in share/lspace/docs; lspace\\-shell \\-\\-help.\n"]),
    ]
    return "".join(parts)
