"""The folder of a site, in which this tool writes nothing but what is its own."""
import os
import pathlib
import re
import shutil

from page.book import Refused

MARKER = "made-by-sok-page.txt"
PART = "made-by-sok-page.part"
HEAD = "sok-page made the files of this folder that are named here, and a next run makes them anew or removes them:"
OWN = re.compile(r"index\.html|page\.(css|js)|published\.xsb|[1-9]\d*\.(html|xsb|lurd|cert)")


class Site:
    """A folder that is new, empty or made by this tool before; any other is refused, and nothing is written to it."""

    def __init__(self, path):
        self.path = pathlib.Path(path)
        self.before, self.names = set(), set()
        if not os.path.lexists(self.path):
            return
        if not self.path.is_dir():
            raise Refused(f"{path}: it is there, and no folder")
        there = {entry.name: entry for entry in os.scandir(self.path)}
        own = {PART}
        if MARKER in there and there[MARKER].is_file(follow_symlinks=False):
            head, *lines = (self.path / MARKER).read_text(encoding="utf-8", errors="replace").split("\n")
            if head == HEAD:
                self.before = set(filter(OWN.fullmatch, lines))
                own |= self.before | {MARKER}
        for name, entry in sorted(there.items()):
            if name not in own or not entry.is_file(follow_symlinks=False):
                raise Refused(f"{path}: {name!a} is there, which this tool did not make; give it a folder that is new or empty")

    def begin(self, names):
        """Makes the folder, and notes what is going to be in it, so that a run that is cut off leaves no file without a note."""
        self.path.mkdir(exist_ok=True)
        self.note(self.before | set(names))

    def note(self, names):
        self.put(MARKER, "\n".join([HEAD, *sorted(names)]) + "\n")

    def put(self, name, text):
        """Writes a file in the place of the one that had its name, through no link."""
        with self.part() as file:
            file.write(text if isinstance(text, bytes) else text.encode())
        self.keep(name)

    def part(self):
        (self.path / PART).unlink(missing_ok=True)
        return open(self.path / PART, "xb")

    def keep(self, name):
        os.replace(self.path / PART, self.path / name)
        self.names.add(name)

    def copy(self, source):
        """Copies a file to where `keep` finds it, and returns that place."""
        with open(source, "rb") as file, self.part() as part:
            shutil.copyfileobj(file, part)
        return PART

    def end(self):
        """Removes what an earlier run made and this one did not."""
        (self.path / PART).unlink(missing_ok=True)
        for name in self.before - self.names:
            (self.path / name).unlink(missing_ok=True)
        self.note(self.names - {MARKER})
