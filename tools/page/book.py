"""Reads a book of levels through the program, which checks every row of it."""
import dataclasses
import itertools
import re
import subprocess
import unicodedata

# Formatting characters that reorder the text behind them, past the end of a title.
REORDERING = {"LRE", "RLE", "LRO", "RLO", "PDF", "LRI", "RLI", "FSI", "PDI"}

CHANGED = "the book changed while it was read: try again"


class Refused(Exception):
    """What ends a run, in words for the error stream."""


@dataclasses.dataclass(frozen=True)
class Level:
    """A level of a book. `pushes`, `moves` and `letters` are those of its best, or none; `verdict` is a word of `sok show`."""

    id: int
    title: bytes
    rows: tuple[str, ...]
    height: int
    width: int
    boxes: int
    pushes: int | None
    moves: int | None
    letters: str | None
    verdict: str

    def text(self):
        """The rows, as a collection of this level has them."""
        return "".join(f"{row}\n" for row in self.rows)

    def collection(self):
        """The level with its title, as `sok export` writes it."""
        return (b"; " + self.title + b"\n" if self.title else b"") + self.text().encode()


def told(program, *words):
    """What the program writes. Where it fails, its own words tell why."""
    try:
        done = subprocess.run([program, *words], capture_output=True, check=False)
    except OSError as error:
        raise Refused(f"{program}: {error.strerror}") from None
    if done.returncode:
        raise Refused(done.stderr.decode(errors="replace").strip())
    return done.stdout


def shown(title):
    """The bytes of a title as the lines of `sok show` have them."""
    return re.sub(rb"[\x00-\x1f\x7f]|\xc2[\x80-\x9f]", lambda control: b"\\x%02x" % control[0][-1], title)


def level_of(line, block):
    """A level from its line of `sok show` and its block of `sok export --solutions`, which have to tell the same."""
    number, height, width, boxes, pushes, moves, verdict, *titles = line.split(b" ", 7)
    lines = block.split(b"\n")
    head = lines[:len(titles)]
    rows = list(itertools.takewhile(lambda row: not row.startswith((b"Solution: ", b"Unsolvable")), lines[len(head):]))
    notes = lines[len(head) + len(rows):]
    letters = notes[0].removeprefix(b"Solution: ") if notes and pushes != b"-" else None
    wanted = [b"Unsolvable"] if verdict == b"unsolvable" else []
    if letters is not None:
        wanted = [b"Solution: " + letters, b"Pushes: " + pushes + (b" optimal" if verdict == b"optimal" else b"")]
    titled = [shown(note) for note in head] == [b"; " + title for title in titles]
    if not titled or notes != wanted or len(rows) != int(height) or moves != (b"-" if letters is None else b"%d" % len(letters)):
        raise Refused(CHANGED)
    best = (None, None, None) if letters is None else (int(pushes), int(moves), letters.decode())
    return Level(int(number), b"".join(head)[2:], tuple(row.decode() for row in rows), int(height), int(width), int(boxes), *best, verdict.decode())


def read(program, path):
    """The levels of a book, in the order of their ids, and the book as a collection with its solutions."""
    lines = told(program, "show", path).split(b"\n")[:-1]
    published = told(program, "export", path, "--solutions")
    blocks = published.split(b"\n\n")[:-1]
    if len(lines) != len(blocks):
        raise Refused(CHANGED)
    return [level_of(line, block) for line, block in zip(lines, blocks)], published


def is_hidden(char):
    """Whether a character controls how text is shown, and is not seen itself."""
    return unicodedata.category(char) in ("Cc", "Zl", "Zp") or unicodedata.bidirectional(char) in REORDERING


def seen(name):
    """The bytes of a title as text in which each control character is seen: `\\x1b`, `\\u202e`."""
    text = name.decode("utf-8", "replace")
    return "".join((f"\\x{ord(it):02x}" if ord(it) < 256 else f"\\u{ord(it):04x}") if is_hidden(it) else it for it in text)
