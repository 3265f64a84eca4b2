"""What a visitor finds in a book of many levels."""
import json
import random
import subprocess

from page.check import books, looks
from page.check.folder import site
from page.check.level import lines, state

WANDER = """(() => {
  const game = new Game(document.querySelector('#board').textContent);
  let leftOut = '';
  for (const letter of %s) game.play(letter);
  for (const letter of %s) if (!game.play(letter)) leftOut = game.done.join('') + letter;
  return [game.done.join(''), leftOut];
})()"""
DRAWN = "new Promise((done) => requestAnimationFrame(() => requestAnimationFrame(() => done(performance.now() / 1000))))"
IN_ORDER = """((titles) => titles.every((it, at) => at === 0 || titles[at - 1].localeCompare(it, 'en', {numeric: true}) <= 0))(
  [...document.querySelectorAll('#levels bdi')].map((it) => it.textContent.toLowerCase()))"""


def check(that, chromium, program, room, book, certs):
    """The real levels, page by page and on the overview."""
    folder, dice = room / "collection", random.Random(271)
    that("a site of the real levels", site(program, book, folder, "--certs", certs, "--title", "Real levels"), (0, ""))
    told = [line.split(" ", 7) for line in books.told(program, "show", book).splitlines()]
    that("how many levels", len(told), 271)
    chromium.look(1280)
    for number, _, _, _, pushes, moves, *_ in told:
        chromium.open((folder / f"{number}.html").as_uri())
        chromium.press("End")
        that(f"level {number} is solved", state(chromium), (f"Solved: {pushes} pushes, {moves} moves.", pushes, moves))
        half = chromium.text("#letters")[:int(moves) // 2]
        chromium.put("#at", str(len(half)))
        drawn = books.told(program, "draw", folder / f"{number}.xsb", "1", half)
        that(f"level {number} in the middle", [row.rstrip() for row in chromium.text("#position").rstrip("\n").split("\n")], drawn.splitlines())
        that(f"level {number} is told there", chromium.text("#state"), standing(half, drawn))
        wander(that, chromium, program, folder / f"{number}.xsb", half, dice.choices("lurd", k=200))
        that(f"level {number} complains of nothing", chromium.noted, [])
    for number in next(([it[0]] for it in told if it[6] == "optimal"), []):
        lines(that, chromium, program, folder, number)
    looks.check(that, chromium, room, folder, ["index.html", "2.html"])
    chromium.open((folder / "index.html").as_uri())
    that("a sheet of paper has twelve pictures or more", 1 < chromium.paper() <= 23)
    sorting(that, chromium, told)
    filtering(that, chromium, told)


def standing(letters, drawn):
    """What a page says behind letters, where the program draws this."""
    pushes, moves, stored = sum(map(str.isupper, letters)), len(letters), drawn.count("*")
    boxes = stored + drawn.count("$")
    counts = f"{pushes} push{'es' * (pushes != 1)}, {moves} move{'s' * (moves != 1)}."
    return f"Solved: {counts}" if stored == boxes else f"{counts} {stored} of {boxes} box{'es' * (boxes != 1)} on goals."


def wander(that, chromium, program, level, first, others):
    """From the middle on other letters are played in the page, and those left out that are not legal there: the program finds the same
    legal, and the last that is left out not."""
    letters, left_out = chromium.run(WANDER % (json.dumps(first), json.dumps(others)))
    said = subprocess.run([program, "replay", level, "1", letters], capture_output=True, text=True, check=False)
    that(f"{level.name}: letters that are legal", said.stdout.split()[1:], [str(sum(map(str.isupper, letters))), str(len(letters))])
    said = subprocess.run([program, "replay", level, "1", left_out], capture_output=True, text=True, check=False)
    that(f"{level.name}: a letter that is not", said.stderr, f"fault 12 Blocked {len(left_out) - 1}\n")


def numbers(chromium):
    return [number for number, seen in chromium.each("#levels li", "[it.dataset.number, it.checkVisibility()]") if seen]


def value(word):
    return -1 if word == "-" else int(word)


def sorting(that, chromium, told):
    """The overview sorted by each thing, as the lines of `sok show` have it."""
    verdicts = ["optimal", "unsolvable", "untested"]
    keys = {"number": lambda it: value(it[0]), "size": lambda it: value(it[1]) * value(it[2]), "boxes": lambda it: value(it[3]),
            "pushes": lambda it: value(it[4]), "moves": lambda it: value(it[5]), "verdict": lambda it: verdicts.index(it[6])}
    for name, key in keys.items():
        for down in (False, True):
            chromium.put("[name=sort]", name)
            chromium.put("[name=down]", down)
            wanted = sorted(told, key=lambda it: (-key(it) if down else key(it), value(it[0])))
            that(f"sorted by {name}, {down}", numbers(chromium), [it[0] for it in wanted])
    chromium.put("[name=sort]", "title")
    chromium.put("[name=down]", False)
    that("sorted by title", chromium.run(IN_ORDER))
    chromium.put("[name=sort]", "number")


def filtering(that, chromium, told):
    """The overview filtered by each thing."""
    keys = {"side": lambda it: max(value(it[1]), value(it[2])), "boxes": lambda it: value(it[3]), "pushes": lambda it: value(it[4]),
            "moves": lambda it: value(it[5])}
    for name, key in keys.items():
        chromium.put(f"[name={name}-from]", "8")
        chromium.put(f"[name={name}-to]", "60")
        that(f"filtered by {name}", numbers(chromium), [it[0] for it in told if 8 <= key(it) <= 60])
        chromium.put(f"[name={name}-from], [name={name}-to]", "")
    chromium.put("[name=title]", "TRIPLE shelf")
    that("found by title", (numbers(chromium), chromium.text("#shown")), (["6"], "1 of 271 levels"))
    chromium.click("[type=reset]")
    chromium.idle()
    that("all again", chromium.text("#shown"), "271 of 271 levels")
    for at, verdict in ((0, "optimal"), (2, "untested")):
        chromium.put("[name=verdict]", str(at))
        that(f"filtered by {verdict}", numbers(chromium), [it[0] for it in told if it[6] == verdict])


def thousand(that, chromium, program, room, book):
    """1,000 levels of 20 by 20: the least of three times from the address to the second picture of the window."""
    folder = room / "thousand"
    that("a site of 1,000 levels", site(program, book, folder), (0, ""))
    chromium.look(1280)
    took = []
    for _ in range(3):
        chromium.open((folder / "index.html").as_uri())
        took.append(chromium.run(DRAWN))
    that("its pictures", len(chromium.each("#levels svg", "1")), 1000)
    that("it opens in two seconds", min(took) < 2)
    print(f"1,000 levels of 20 by 20 open in {min(took):.2f} s, {(folder / 'index.html').stat().st_size / 1e6:.1f} MB")
