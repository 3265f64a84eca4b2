"""What a run writes, and what it refuses to."""
import os
import shutil
import subprocess
import sys

from page import pages
from page.check import books

ALWAYS = ["index.html", "made-by-sok-page.txt", "page.css", "page.js", "published.xsb"]
TOOL = books.TOP / "tools" / "sok-page"


def site(program, book, folder, *words):
    """Runs the tool: its status, and its error stream."""
    done = subprocess.run([sys.executable, TOOL, book, folder, "--sok", program, *words], capture_output=True, text=True, check=False)
    return done.returncode, done.stderr


def files(folder):
    """Each file below a folder by its bytes, and each link by what it names."""
    return {it.name: os.readlink(it) if it.is_symlink() else it.read_bytes() for it in sorted(folder.iterdir())}


def check(that, program, room, book, certs):
    folder = room / "folders"
    folder.mkdir()
    one, two = folder / "one", folder / "two"
    two.mkdir()
    that("a site in a new folder", site(program, book, one, "--certs", certs), (0, ""))
    that("a site in an empty folder", site(program, book, two, "--certs", certs), (0, ""))
    that("its files", list(files(one)), ["1.cert", "1.html", "1.lurd", "1.xsb", "2.cert", "2.html", "2.xsb", *ALWAYS])
    that("the same twice, to the byte", files(two), files(one))
    that("the same in its own folder", (site(program, book, one, "--certs", certs), files(one)), ((0, ""), files(two)))
    that("certificates are those of the folder", [files(one)[name] == text for name, text in files(certs).items()], [True, True])
    that("published is the export", files(one)["published.xsb"].decode(), books.told(program, "export", book, "--solutions"))

    refuse(that, program, book, folder, one)
    # Of another book with one level the second level's files are no longer made.
    (folder / "first.xsb").write_bytes(books.TUTORIAL.read_bytes().split(b"\n\n")[0] + b"\n")
    books.told(program, "add", folder / "first.db", folder / "first.xsb")
    that("a site of a smaller book", site(program, folder / "first.db", one), (0, ""))
    that("only its files are left", list(files(one)), ["1.html", "1.xsb", *ALWAYS])
    that("a level of which nothing is known", b"unsolved</p>" in files(one)["1.html"])

    shutil.copy(certs / "2.cert", folder / "1.cert")
    (folder / "2.cert").mkdir()
    status, told = site(program, book, two, "--certs", folder)
    that("certificates that are left out", status, 0)
    that("are told", told, f"{folder}/1.cert: left out: refused 23 Start\n{folder}/2.cert: left out: it is no file\n")
    that("are not in the site", [name for name in files(two) if name.endswith(".cert")], [])
    that("whose pages say so", [f"{pages.KEPT}</p>".encode() in files(two)[name] for name in ("1.html", "2.html")], [True, True])


def refuse(that, program, book, folder, own):
    """Folders that are not the tool's, of which nothing may change."""
    other, forged, linked, mixed = (folder / name for name in ("other", "forged", "linked", "mixed"))
    for it in (other, forged):
        it.mkdir()
    (other / "notes.txt").write_text("mine")
    (other / "index.html").write_text("mine")
    marker = files(own)["made-by-sok-page.txt"]
    (folder / "victim").write_text("mine")
    (forged / "made-by-sok-page.txt").write_bytes(marker + b"../victim\nnotes.txt\n")
    (forged / "notes.txt").write_text("mine")
    for it in (linked, mixed):
        shutil.copytree(own, it)
    (linked / "1.html").unlink()
    (linked / "1.html").symlink_to(folder / "victim")
    (mixed / "notes.txt").write_text("mine")
    for it, named in ((other, "index.html"), (forged, "notes.txt"), (linked, "1.html"), (mixed, "notes.txt")):
        before = files(it)
        status, told = site(program, book, it)
        that(f"a folder that is {it.name}", (status, f"{it}: '{named}' is there, which this tool did not make" in told), (1, True))
        that(f"stays as it was: {it.name}", files(it), before)
    that("a file in place of the folder", site(program, book, folder / "victim"), (1, f"{folder}/victim: it is there, and no folder\n"))
    that("is not written", (folder / "victim").read_text(), "mine")
    status, told = site(program, folder / "none.db", folder / "none")
    that("no book", (status, told.split("\n")[0], (folder / "none").exists()), (1, "fault 32 Database", False))
    that("no certificates", site(program, book, folder / "none", "--certs", folder / "nowhere"), (1, f"{folder}/nowhere: there is no such folder\n"))
    that("no words", subprocess.run([sys.executable, TOOL], capture_output=True, check=False).returncode, 2)
