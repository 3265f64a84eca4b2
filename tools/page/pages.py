"""Makes the text of each page. Whatever a keeper named is set as text, with its control characters seen."""
import collections
import html
import pathlib
import string

from page.book import seen
from page.picture import HIDDEN, legend, picture

HERE = pathlib.Path(__file__).parent
# `file:` is for pages from a disk, for which 'self' need not match anything.
POLICY = "default-src 'none'; script-src 'self' file:; style-src 'self' file:; base-uri 'none'; form-action 'none'"
DOUBT = ("This page itself is not proved: whoever doubts it takes the files of a level and runs the lines on the level's page with the "
         "program <code>sok</code>, which is proved.")
OPTIMAL, UNSOLVABLE, BEST, UNSOLVED = VERDICTS = ("optimal: no solution has fewer pushes", "unsolvable", "best known", "unsolved")
KEPT = "The book has it from a certificate, which is not among the files here."
WITHOUT = {OPTIMAL: KEPT, UNSOLVABLE: KEPT, BEST: "Nothing here shows whether a solution can have fewer pushes.",
           UNSOLVED: "No solution is known here, and nothing shows that there is none."}
RANGES = (("side", "Longer side"), ("boxes", "Boxes"), ("pushes", "Best pushes"), ("moves", "Best moves"))


def filled(name, values):
    return string.Template((HERE / name).read_text(encoding="utf-8")).substitute(values, policy=POLICY, doubt=DOUBT)


def count(number, thing, things=None):
    return f"{number} {thing if number == 1 else things or thing + 's'}"


def verdict_of(level):
    return {"untested": UNSOLVED if level.letters is None else BEST, "optimal": OPTIMAL, "unsolvable": UNSOLVABLE}[level.verdict]


def facts_of(level):
    return f"{level.width} × {level.height}, {count(level.boxes, 'box', 'boxes')}"


def best_of(level):
    """The pushes and moves of the best in words."""
    return "" if level.letters is None else f"{count(level.pushes, 'push', 'pushes')}, {count(level.moves, 'move')}"


def name_of(level):
    return f"{level.id} {html.escape(seen(level.title))}" if level.title else f"Level {level.id}"


def heading_of(level):
    """The number of a level and its title, which is set by itself: one that is written from right to left turns nothing around it."""
    return f'<span class="number">{level.id}</span> <bdi>{html.escape(seen(level.title))}</bdi>' if level.title else name_of(level)


def card(level):
    best = f' data-pushes="{level.pushes}" data-moves="{level.moves}"' if level.letters is not None else ""
    verdict = verdict_of(level)
    return (
        f'<li id="level-{level.id}" data-number="{level.id}" data-size="{level.width * level.height}" data-boxes="{level.boxes}" '
        f'data-side="{max(level.width, level.height)}" data-verdict="{VERDICTS.index(verdict)}"{best}>'
        f'{picture(level.rows, HIDDEN)}<h2><a href="{level.id}.html">{heading_of(level)}</a></h2>'
        f'<p>{facts_of(level)}{"<br>" * (level.letters is not None)}{best_of(level)}</p><p class="verdict">{verdict}</p></li>')


def overview(title, levels):
    found = collections.Counter(map(verdict_of, levels))
    parts = ", ".join(f"{found[it]} {it.split(':')[0]}" for it in VERDICTS if found[it])
    return filled("index.html", {
        "title": html.escape(title),
        "summary": count(len(levels), "level") + (f": {parts}" if parts else "") + ".",
        "verdicts": "".join(f'<option value="{at}">{it}</option>' for at, it in enumerate(VERDICTS)),
        "ranges": "".join(
            f'<fieldset><legend>{words}</legend><label>from <input type="number" min="0" name="{name}-from"></label> '
            f'<label>to <input type="number" min="0" name="{name}-to"></label></fieldset>' for name, words in RANGES),
        "cards": "\n".join(map(card, levels)),
        "legend": legend(),
    })


def shown_by(certificate):
    """What an accepted certificate shows, in words."""
    return "there is no solution" if certificate.pushes is None else f"no solution has fewer than {count(certificate.pushes, 'push', 'pushes')}"


def verdict_part(level, certificate):
    part = f'<p class="verdict">{verdict_of(level)}</p>'
    if certificate:
        part += f"<p>When this page was made, <code>sok check</code> accepted the certificate below: {shown_by(certificate)}.</p>"
    else:
        part += f"<p>{WITHOUT[verdict_of(level)]}</p>"
    return part


def solution_part(level):
    if level.letters is None:
        return ""
    return (
        f'<h2>Best solution</h2><p>{best_of(level)}. <span id="replayed"></span></p>'
        f'<pre id="letters" class="letters" tabindex="0" role="region" aria-label="Letters of the best solution">{html.escape(level.letters)}</pre>'
        '<button type="button" class="copy scripted" data-of="letters" hidden>Copy the letters</button>')


def files_part(level, certificate):
    files = [("xsb", "the level")]
    if level.letters is not None:
        files.append(("lurd", "the letters of the best solution"))
    if certificate:
        files.append(("cert", f"the certificate, {certificate.size:,} bytes"))
    return "".join(f'<li><a href="{level.id}.{kind}" download>{level.id}.{kind}</a>, {words}</li>' for kind, words in files)


def check_part(level, certificate):
    """The lines by which a doubter checks what is told of a level, and what they print."""
    file, lines = f"{level.id}.xsb 1", []
    if level.letters is not None:
        lines.append((f"sok replay {file} - < {level.id}.lurd", f"solved {level.pushes} {level.moves}"))
    if certificate:
        lines.append((f"sok check {file} {level.id}.cert", certificate.answer))
    elif level.verdict == "optimal":
        lines.append((f"sok solve {file} --limit 1000000 --below {level.pushes}", f"at least {level.pushes}"))
    elif level.verdict == "unsolvable":
        lines.append((f"sok solve {file} --limit 1000000", "unsolvable"))
    if not lines:
        return "<p>Nothing is told of this level yet.</p>"
    printed = " and ".join(f"<code>{answer}</code>" for _, answer in lines)
    typed = html.escape("\n".join(line for line, _ in lines))
    return (
        f'<p>In a folder with these files:</p><pre id="lines" tabindex="0" role="region" aria-label="Lines to type">{typed}</pre>'
        f'<p id="printed">{"It prints" if len(lines) == 1 else "They print"} {printed}.</p>')


def link(level, rel, words):
    return f'<a href="{level.id}.html" rel="{rel}">{words} {level.id}</a>' if level else ""


def level_page(title, level, before, behind, certificate):
    """The page of a level that stands between two others, or at an end of the book."""
    best = f' data-pushes="{level.pushes}" data-moves="{level.moves}"' if level.letters is not None else ""
    return filled("level.html", {
        "title": html.escape(title),
        "name": name_of(level),
        "heading": heading_of(level),
        "links": f'<a href="index.html#level-{level.id}">All levels</a> {link(before, "prev", "Previous:")} {link(behind, "next", "Next:")}',
        "facts": f"{facts_of(level)}.",
        "id": level.id,
        "best": best,
        "picture": picture(level.rows, f'role="img" aria-label="Level {level.id}: its text is below" id="picture"', shapes=True),
        "verdict": verdict_part(level, certificate),
        "solution": solution_part(level),
        "files": files_part(level, certificate),
        "check": check_part(level, certificate),
        "board": html.escape(level.text()),
    })
