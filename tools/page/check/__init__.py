"""Checks the tool and its pages, in headless Chromium.

usage: sok-page --check [SOK [FOLDER]]     (SOK: the built program, by default what tools/sok builds; FOLDER: keeps sites and screenshots)

Sites are made of the tutorial's book, of 271 real levels with their solutions, which ../shared/bench has beside this repository (where
it is not there, that is told, and these levels are not checked), of levels with hostile titles, and of 1,000 made levels.
The last line is `N passed, M failed`, and what failed is told before it.
"""
import pathlib
import shutil
import sys
import tempfile

from page.check import books, collection, folder, level, titles
from page.check.chromium import MISSING, Chromium


class Checks:
    """Counts what is as it should be, and tells what is not."""

    def __init__(self):
        self.passed = self.failed = 0

    def __call__(self, name, found, wanted=True):
        if found == wanted:
            self.passed += 1
        else:
            self.failed += 1
            print(f"{name}: {str(found)[:2000]}\n  and not: {str(wanted)[:2000]}", flush=True)


def main(program, words):
    if len(words) > 2:
        print(__doc__, file=sys.stderr)
        return 2
    if not shutil.which("chromium"):
        sys.exit(MISSING)
    with tempfile.TemporaryDirectory(prefix="sok-page-") as made:
        that, room = Checks(), pathlib.Path(*words[1:] or [made]).resolve()
        room.mkdir(exist_ok=True)
        if any(room.iterdir()):
            sys.exit(f"{room}: it has to be new or empty")
        every(that, program(*words[:1] or [None]), room)
    print(f"{that.passed} passed, {that.failed} failed")
    return 1 if that.failed else 0


def every(that, program, room):
    book, certs = books.tutorial(program, room)
    folder.check(that, program, room, book, certs)
    real = books.BENCH.is_dir()
    with Chromium() as chromium:
        level.check(that, chromium, program, room, book, certs)
        level.play(that, chromium, program, room, books.round_about(program, room))
        titles.check(that, chromium, program, room, books.hostile(program, room))
        if real:
            collection.check(that, chromium, program, room, *books.collection(program, room))
        collection.thousand(that, chromium, program, room, books.thousand(program, room))
    if not real:
        print(f"{books.BENCH} is not there: the real levels were not checked")
