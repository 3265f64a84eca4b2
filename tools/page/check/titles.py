"""What becomes of titles that would be markup, control a terminal or turn what is around them."""
from page.check import books, looks
from page.check.folder import site
from page.check.level import clean

SITE = "<script>window.ran = 1</script>\x1b\u202e"
SITE_SEEN = "<script>window.ran = 1</script>\\x1b\\u202e"
STRAY = "[document.scripts.length, document.images.length, window.ran ?? 0]"


def check(that, chromium, program, room, book):
    folder = room / "hostile"
    that("a site with hostile titles", site(program, book, folder, "--title", SITE), (0, ""))
    names = [books.SEEN.get(it, it.decode(errors="replace")) for it in books.HOSTILE]
    chromium.look(1280)
    chromium.open((folder / "index.html").as_uri())
    that("titles are text", chromium.each("#levels bdi", "it.textContent"), names)
    that("the title of the site is text", (chromium.text("h1"), chromium.run("document.title")), (SITE_SEEN, SITE_SEEN))
    that("no element but the page's own", (chromium.run(STRAY), len(chromium.each("#levels li > *", "1"))), ([1, 0, 0], 4 * len(names)))
    clean(that, chromium, "hostile titles", folder.as_uri())
    for number, name in enumerate(names, 1):
        chromium.open((folder / f"{number}.html").as_uri())
        that(f"title {number}", chromium.text("h1 bdi"), name)
        that(f"title {number} of the window", chromium.run("document.title"), " ".join(f"{number} {name} - {SITE_SEEN}".split()))
        that(f"title {number} is no element", chromium.run(STRAY), [1, 0, 0])
        that(f"title {number} turns nothing around it", chromium.each("h1 bdi", "getComputedStyle(it).unicodeBidi"), ["isolate"])
        clean(that, chromium, f"hostile title {number}", folder.as_uri())
    looks.check(that, chromium, room, folder, ["index.html", "8.html"])
