"""The page of a class, of what the program found of its pupils."""
from class_change import change_part
from class_parts import bar, count_of, lines, listed, row, said, text_of
from class_style import STYLE
from class_table import end_of

MANY = 24   # items, with more of which the columns are narrower in print
OFTEN = 4   # an item stands out where the table disagrees for one pupil of so many
KEY = """<p class=key><span><i class=mastered>●</i>masters</span>
<span><i class=last>◆</i>masters, maybe learned last</span>
<span><i class=ready>○</i>can learn next</span><span><i></i>later</span>
<span><i class=odd></i>the table says otherwise: a slip, or a lucky guess</span></p>
"""


def mark_of(pupil, item):
    """How an item stands for a pupil: the kind of its cell, its mark, and words."""
    if item in pupil.last:
        return "last", "◆", "masters, maybe learned last"
    if item in pupil.state:
        return "mastered", "●", "masters"
    return ("ready", "○", "can learn next") if item in pupil.ready else ("later", "", "later")


def states_part(pupils, shown):
    """Who stands where: a row for each pupil, and a column for each item."""
    rows = ""
    for pupil in pupils:
        cells = ""
        for item in shown.items:
            kind, mark, tells = mark_of(pupil, item)
            odd = " odd" if (item in pupil.right) != (item in pupil.state) else ""
            title = text_of(f"{pupil.name}\n{shown.of(item)}\n{tells}")
            cells += f'<td class="{kind}{odd}" title="{title}">{mark}</td>'
        rows += row(f"<th scope=row>{said(pupil.name)}</th>", cells,
                    f"<td class=number>{len(pupil.state)}</td>")
    top = "".join(f"<th scope=col class=item><span>{said(shown.of(item))}</span></th>"
                  for item in shown.items)
    kind = "states many" if len(shown.items) > MANY else "states"
    return (f'<h2>Who stands where</h2>\n{KEY}<div class=wide><table class="{kind}">\n<thead>'
            f"<tr><th></th>{top}<th scope=col class=item><span>masters</span></th></tr></thead>\n"
            f"<tbody>{rows}</tbody></table></div>\n")


def ready_part(pupils, shown):
    """How many pupils are ready for each item, and who they are: they can be taught together."""
    rows = []
    for item in shown.items:
        who = [pupil.name for pupil in pupils if item in pupil.ready]
        if who:
            rows.append((shown.of(item), len(who), bar(len(who), len(pupils), "next"),
                         listed(who)))
    table = ("<p>The pupils beside an item can learn it next, and so together.</p>\n"
             + lines(["Item", "Ready", "", "Pupils"], rows)) if rows else ""
    done = [pupil.name for pupil in pupils if len(pupil.state) == len(shown.items)]
    end = f"<p>Master all items: {listed(done)}.</p>\n" if done else ""
    return f"<h2>Who is ready for what</h2>\n{table}{end}"


def pupils_part(pupils, shown):
    """What each pupil learned last and can learn next, and how the assessment ended."""
    rows = [(it.name, f"{len(it.state)} of {len(shown.items)}", shown.listed(it.last),
             shown.listed(it.ready), it.replies,
             "<b class=warn>budget</b>" if it.reason == "budget" else it.reason) for it in pupils]
    return ("<h2>Pupils</h2>\n<p>An assessment ends by <b>share</b> where one state stands out. It"
            " ends by <b>budget</b> where the questions ran out: read that state with care.</p>\n"
            + lines(["Pupil", "Masters", "Maybe learned last", "Can learn next", "Questions",
                     "Ended by"], rows))


def items_part(pupils, shown):
    """How many master each item, are ready for it, had it right, and how often the table disagrees
    with the states; the best known first."""
    rows = []
    masters = {item: sum(item in pupil.state for pupil in pupils) for item in shown.items}
    for item in sorted(shown.items, key=lambda item: -masters[item]):
        right = sum(item in pupil.right for pupil in pupils)
        slips = sum(item in pupil.state - pupil.right for pupil in pupils)
        odd = [slips, sum(item in pupil.right - pupil.state for pupil in pupils)]
        if OFTEN * sum(odd) >= len(pupils):
            odd = [f"<b class=warn>{many}</b>" if many else many for many in odd]
        rows.append((shown.of(item), masters[item], bar(masters[item], len(pupils)),
                     sum(item in pupil.ready for pupil in pupils), right, *odd))
    return ("<h2>Items</h2>\n<p>The table disagrees by a slip, where a mastered item is wrong in"
            " it, and by a lucky guess, where another is right. In red it does so for a quarter"
            " of the pupils or more: look at the task, or at what the space says of the item.</p>\n"
            + lines(["Item", "Masters", "", "Ready", "Right in the table", "Slips", "Guesses"],
                    rows, "narrow"))


def standing_of(single, shown):
    """Where an assessment stands, in words."""
    kind, word = (single.standing or "taken away").split()
    if kind == "question":
        return f"is asked {said(shown.of(word))} next"
    return "taken away" if kind == "taken" else \
        "<b class=warn>over by budget</b>" if word == "budget" else f"over by {word}"


def singles_part(singles, shown):
    """The reports of the pupils that were assessed alone."""
    rows = [(it.name, shown.listed(it.state), f"{100 * it.weight // it.total} %",
             shown.listed(it.last), shown.listed(it.ready), it.replies,
             standing_of(it, shown))
            for it in singles]
    return ("<h2>Assessed one by one</h2>\n<p>The share is that of the state in the"
            " weight of all states.</p>\n"
            + lines(["Pupil", "State", "Share", "Maybe learned last", "Can learn next", "Replies",
                     "Standing"], rows))


def uncertain(pupils, singles):
    """A sentence that stands out, where questions ran out; nothing where they didn't."""
    ends = [end for end in map(end_of, pupils + singles) if end in ("share", "budget")]
    few = ends.count("budget")
    if not few:
        return ""
    return (f"<p class=alarm>{few:,} of {len(ends):,} {'is' if few == 1 else 'are'} uncertain:"
            " the questions ran out before one state stood out. Raise <code>limits</code>, or ask"
            " more.</p>\n")


def summary(pupils, shown):
    """The numbers of a class, in a line."""
    told = [count_of(len(shown.items), "item")]
    if pupils:
        asked = sorted({pupil.replies for pupil in pupils})
        asked = f"{asked[0]} to {asked[-1]}" if len(asked) > 1 else str(asked[0])
        budget = sum(pupil.reason == "budget" for pupil in pupils)
        told = [count_of(len(pupils), "pupil"), *told,
                f"{count_of(len({pupil.state for pupil in pupils}), 'state')} among them",
                f"{asked} questions each",
                f"{len(pupils) - budget} ended by share, {budget} by budget"]
    return ", ".join(told)


def page(title, shown, pupils, singles, change, sources):
    """The whole page. The change since an earlier table may be None."""
    body = uncertain(pupils, singles)
    if pupils:
        body += states_part(pupils, shown) + ready_part(pupils, shown)
        body += change_part(change, shown) if change else ""
        body += pupils_part(pupils, shown) + items_part(pupils, shown)
    if singles:
        body += singles_part(singles, shown)
    return (f'<!DOCTYPE html>\n<html lang=en>\n<head><meta charset="utf-8">\n'
            f'<meta name="viewport" content="width=device-width, initial-scale=1">\n'
            f"<title>{text_of(title)}</title>\n<style>{STYLE}</style></head>\n<body>\n"
            f"<h1>{text_of(title)}</h1>\n<p class=faint>{summary(pupils, shown)}.</p>\n{body}"
            f"<footer>From {text_of(' and '.join(sources))}, by the replies of lspace.</footer>\n"
            "</body></html>\n")
