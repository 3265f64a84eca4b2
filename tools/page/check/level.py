"""What a visitor finds on the pages of the tutorial's book."""
import functools
import http.server
import json
import re
import subprocess
import threading

from page.check import books, looks
from page.check.chromium import CONTROL
from page.check.folder import site

# Scripts that no policy but the page's own keeps from running.
INLINE = """(() => {
  const script = document.createElement('script');
  script.textContent = 'window.inlined = 1';
  document.body.append(script);
  document.body.setAttribute('onclick', 'window.inlined = 2');
  document.body.click();
  return window.inlined ?? 0;
})()"""
# Notes what is said while a film runs.
LISTEN = """window.told = [];
new MutationObserver(() => told.push(document.querySelector('#state').textContent)).observe(document.querySelector('#state'), {childList: true});
document.activeElement.blur();"""
# Letters that are not legal, and those that are.
RULES = {("#######\n#@$$..#\n#######\n", "r"): False, ("#####\n#@$##\n#####\n", "r"): False, ("#####\n#@ ##\n#####\n", "l"): False,
         ("#####\n#@$ #\n#####\n", "r"): True, ("#####\n#@.##\n#####\n", "r"): True, ("####\n#@*\n####\n", "r"): False}
ARROWS = {"l": "ArrowLeft", "u": "ArrowUp", "r": "ArrowRight", "d": "ArrowDown"}
NO_SOLUTION = "Broken: after the last letter not all boxes stand on goals. This is no solution."
NOT_LEGAL = "Broken at letter {}: it is not legal there. This is no solution."
BROKEN = {
    "rrulldRR": NOT_LEGAL.format("2 of 8"),
    "ulDldR": NOT_LEGAL.format("3 of 6"),
    "ul\u00e4": NOT_LEGAL.format("3 of 3"),
    "ulldR": NO_SOLUTION,
    "": NO_SOLUTION,
    "rlulldRR": "Broken: these letters have 2 pushes, 8 moves, and the page says otherwise.",
}


def state(chromium):
    return chromium.text("#state"), chromium.text("#pushes"), chromium.text("#moves")


def clean(that, chromium, name, root):
    """A page complained of nothing, asked for nothing outside its folder, and runs no script but its own."""
    that(f"{name}: no complaint", chromium.noted, [])
    that(f"{name}: nothing from elsewhere", [it for it in chromium.asked if not it.startswith(root)], [])
    that(f"{name}: no inline script runs", chromium.run(INLINE), 0)


def check(that, chromium, program, room, book, certs):
    folder = room / "small"
    that("a site of the tutorial", site(program, book, folder, "--certs", certs, "--title", "A small <collection>"), (0, ""))
    chromium.look(1280)
    chromium.open((folder / "1.html").as_uri())
    that("a page replays its solution", chromium.text("#replayed"), "This page replayed it: it solves the level.")
    clean(that, chromium, "from a file", folder.as_uri())
    for (rows, letter), legal in RULES.items():
        that(f"the rules, {rows!r}", chromium.run(f"new Game({json.dumps(rows)}).play('{letter}')"), legal)
    for number in (1, 2):
        lines(that, chromium, program, folder, number)
    chromium.open((folder / "1.html").as_uri())
    watch(that, chromium, chromium.text("#letters"))
    looks.check(that, chromium, room, folder, ["index.html", "1.html", "2.html"])
    served(that, chromium, folder)
    for letters, fault in BROKEN.items():
        broken(that, chromium, folder, letters, fault)
    wishes(that, chromium, folder)


def lines(that, chromium, program, folder, number):
    """The lines of a page, run in the folder of the site, print what it says; and its files are there to download."""
    chromium.open((folder / f"{number}.html").as_uri())
    typed = chromium.text("#lines")
    done = subprocess.run(["bash", "-c", typed.replace("sok ", '"$0" '), program], cwd=folder, capture_output=True, text=True, check=False)
    that(f"the lines of {folder.name} {number}", done.stdout.splitlines(), chromium.each("#printed code", "it.textContent"))
    files = chromium.each("a[download]", "it.getAttribute('href')")
    that(f"the files of {folder.name} {number}", [name for name in files if not (folder / name).is_file()], [])


def watch(that, chromium, letters):
    """The keys, buttons and slider of the film, on a page that shows letters with two pushes."""
    whole, solved = len(letters), f"Solved: 2 pushes, {len(letters)} moves."

    def at(name, place, said=None):
        shown = (chromium.each("#at", "it.value")[0], chromium.text("#moves"), said and chromium.text("#state"))
        that(name, shown, (str(place), str(place), said))

    that("ten moves a second", chromium.each("#speed", "it.value"), ["10"])
    chromium.press("ArrowRight", "ArrowRight", "ArrowLeft")
    at("arrows go by a move", 1)
    chromium.press("End")
    at("End solves", whole, solved)
    that("the position as text", chromium.text("#position").split("\n")[2].rstrip(), "#  @*#")
    chromium.press("ArrowRight", "Home", "ArrowLeft")
    at("Home goes to the start", 0, "0 pushes, 0 moves. 0 of 1 box on goals.")
    chromium.press("ArrowRight", modifiers=CONTROL)
    at("keys with Control are left alone", 0)
    chromium.each("#speed", "it.focus()")
    chromium.press("ArrowRight")
    at("keys of a field are left alone", 0)
    chromium.each("#at", "it.focus()")
    chromium.press("ArrowRight", "ArrowRight")
    at("the slider goes by a move", 2)
    chromium.press("End")
    at("the slider solves", whole, solved)
    that("the slider has words", chromium.each("#at", "it.getAttribute('aria-valuetext')"), [f"{whole} of {whole}"])
    for key, place in {"Home": 0, "ArrowRight": 1, "End": whole, "ArrowLeft": whole - 1}.items():
        chromium.click(f"#watch [aria-keyshortcuts={key}]")
        at(f"the button for {key}", place)
    chromium.put("#speed", "50")
    chromium.run(LISTEN)
    chromium.press("Home", "Space")
    that("space watches", chromium.text("#run"), "Pause")
    that("a film says nothing before it stops", chromium.run("new Promise((done) => setTimeout(() => done(told.slice(1)), 1000))"), [solved])
    at("a film runs to its end", whole)
    chromium.press("Space", "Space")
    that("space pauses", chromium.text("#run"), "Watch")
    chromium.click("[data-of=letters]")
    that("the letters are copied", (chromium.text("[data-of=letters]"), chromium.run("String(getSelection())")), ("Copied", letters))


def served(that, chromium, folder):
    """The same from a web server."""
    quiet = type("Quiet", (http.server.SimpleHTTPRequestHandler,), {"log_message": lambda *_: None})
    with http.server.ThreadingHTTPServer(("127.0.0.1", 0), functools.partial(quiet, directory=folder)) as server:
        threading.Thread(target=server.serve_forever, daemon=True).start()
        root = f"http://127.0.0.1:{server.server_port}/"
        chromium.open(root + "1.html")
        chromium.press("End")
        that("a page from a web server", chromium.text("#state").split(",")[0], "Solved: 2 pushes")
        clean(that, chromium, "from a web server", root)
        loaded = folder.parent / "downloads"
        loaded.mkdir()
        for name in ("1.xsb", "1.lurd", "1.cert"):
            chromium.download(f"[href='{name}']", loaded)
            that(f"{name} is downloaded", (loaded / name).read_bytes(), (folder / name).read_bytes())
        chromium.open(root)
        that("the overview from a web server", chromium.text("#shown"), "2 of 2 levels")
        server.shutdown()


def broken(that, chromium, folder, letters, fault):
    """The page of the first level with letters that are no solution, or one of other moves than the page tells."""
    page = (folder / "1.html").read_text(encoding="utf-8")
    page = re.sub(r'(solution">)\w+<', rf"\g<1>{letters}<", re.sub(r'data-moves="\d+"', 'data-moves="99"', page))
    (folder / "broken.html").write_text(page, encoding="utf-8")
    chromium.open((folder / "broken.html").as_uri())
    said = [chromium.text("#replayed"), chromium.text("#state")]
    for key in ("End", "ArrowLeft", "Home"):
        chromium.press(key)
        said.append(chromium.text("#state"))
    that(f"a solution that is broken: {letters}", said, [fault] * 5)
    (folder / "broken.html").unlink()


def wishes(that, chromium, folder):
    """Where the system wants less motion a film begins slowly; without a script there is everything but what plays."""
    chromium.call("Emulation.setEmulatedMedia", features=[{"name": "prefers-reduced-motion", "value": "reduce"}])
    chromium.open((folder / "1.html").as_uri())
    that("with less motion: two moves a second", chromium.each("#speed", "it.value"), ["2"])
    chromium.look(1280)
    chromium.call("Emulation.setScriptExecutionDisabled", value=True)
    chromium.open((folder / "1.html").as_uri())
    chromium.call("Emulation.setScriptExecutionDisabled", value=False)
    that("without a script: no control", chromium.visible("button, input, select"), 0)
    that("without a script: picture, letters, lines and files", chromium.visible("#picture, #letters, #lines, a[download]"), 6)


def play(that, chromium, program, room, book):
    """A visitor plays a level whose best goes round about, by keys and buttons."""
    folder = room / "round"
    that("a site to play on", site(program, book, folder), (0, ""))
    chromium.open((folder / "1.html").as_uri())
    chromium.press("ArrowUp")
    that("arrows play nothing before", state(chromium)[1:], ("0", "0"))
    chromium.click("#mode")
    chromium.press("ArrowUp", "ArrowUp")
    that("an arrow into a wall", state(chromium), ("Blocked. 0 pushes, 1 move. 0 of 1 box on goals.", "0", "1"))
    chromium.press("Backspace", "Backspace")
    that("undo", state(chromium), ("0 pushes, 0 moves. 0 of 1 box on goals.", "0", "0"))
    for key in ("Up", "Left", "Left", "Down", "Right"):
        chromium.click(f"#play [aria-keyshortcuts=Arrow{key}]")
    that("buttons play", state(chromium), ("1 push, 5 moves. 0 of 1 box on goals.", "1", "5"))
    chromium.press("Backspace")
    that("a push is undone", (state(chromium)[1:], chromium.text("#position").split("\n")[2]), (("0", "4"), "#@$ .#"))
    chromium.press("Home")
    that("restart", state(chromium)[1:], ("0", "0"))
    chromium.press(*(ARROWS[letter] for letter in books.ROUND_ABOUT.lower()))
    that("played as the best", state(chromium), ("Solved: 4 pushes, 18 moves.", "4", "18"))
    that("nothing to send with as many pushes", chromium.visible("#found"), 0)
    chromium.press("Home")
    chromium.press(*(ARROWS[letter] for letter in "ulldrr"))
    that("played to solved", state(chromium), ("Solved: 2 pushes, 6 moves.", "2", "6"))
    that("fewer pushes than the best are shown", (chromium.visible("#found"), chromium.text("#found-letters")), (1, "ulldRR"))
    chromium.click("#mode")
    that("the film is back", chromium.text("#state"), "0 pushes, 0 moves. 0 of 1 box on goals.")
    chromium.open((folder / "2.html").as_uri())
    that("no film without a solution", (chromium.visible("#watch"), chromium.visible("#mode")), (0, 1))
