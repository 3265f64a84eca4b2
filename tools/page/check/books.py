"""The books that the check makes sites of, each made by the program."""
import pathlib
import random
import subprocess

TOP = pathlib.Path(__file__).resolve().parents[3]
TUTORIAL = TOP / "crates" / "sok_tutorial" / "data" / "small.xsb"
BENCH = TOP.parent / "shared" / "bench"
# Its best has 4 pushes where 2 are enough.
ROUND_ABOUT = "rlulldRurrdLulldRR"
HOSTILE = [
    b"<script>window.ran = 1</script>",
    b"</title></bdi></h1><img src=x onerror='window.ran = 1'>",
    b"\"quotes' & &lt;entities&gt; `back` ${x} $title",
    b"control \x00 \x07 \x1b[31m \x7f \xc2\x9b \xe2\x80\xa8 inside",
    b"\xe2\x80\xae reversed \xe2\x81\xa6 and isolated",
    "\u05d0\u05d1\u05d2 123 \u200f(marked)".encode(),
    b"no UTF-8 \xff\xfe\xc3(",
    b"a" * 3000,
    b"javascript:window.ran=1",
]
SEEN = {
    b"control \x00 \x07 \x1b[31m \x7f \xc2\x9b \xe2\x80\xa8 inside": "control \\x00 \\x07 \\x1b[31m \\x7f \\x9b \\u2028 inside",
    b"\xe2\x80\xae reversed \xe2\x81\xa6 and isolated": "\\u202e reversed \\u2066 and isolated",
    b"no UTF-8 \xff\xfe\xc3(": "no UTF-8 \ufffd\ufffd\ufffd(",
}


def told(program, *words, statuses=(0,)):
    done = subprocess.run([program, *words], capture_output=True, check=False)
    if done.returncode not in statuses:
        raise RuntimeError(f"{words}: {done.stderr}")
    return done.stdout.decode(errors="replace")


def made(program, room, name, levels):
    """A book of levels, which are bytes of a collection."""
    book = room / f"{name}.db"
    (room / f"{name}.xsb").write_bytes(levels)
    told(program, "add", book, room / f"{name}.xsb")
    return book


def tutorial(program, room):
    """The tutorial's book, settled, and the folder of its certificates."""
    book, certs = made(program, room, "small", TUTORIAL.read_bytes()), room / "certs"
    certs.mkdir()
    told(program, "settle", book, "--certs", certs)
    return book, certs


def collection(program, room):
    """The real levels with their recorded solutions; what a short search settles has its certificate."""
    book, certs = made(program, room, "collection", (BENCH / "collection.xsb").read_bytes()), room / "collection-certs"
    certs.mkdir()
    told(program, "offers", book, BENCH / "solutions.lurd")
    told(program, "settle", book, "--limit", "2000", "--certs", certs, statuses=(0, 4))
    return book, certs


def hostile(program, room):
    """Levels with titles that would be markup, or turn what is around them."""
    text = b""
    for more, title in enumerate(HOSTILE):
        floor, wall = b" " * more, b"#" * more
        text += b"; %s\n######%s\n#    %s#\n# $@.%s#\n######%s\n\n" % (title, wall, floor, floor, wall)
    return made(program, room, "hostile", text)


def round_about(program, room):
    """The tutorial's book with a best that can be improved."""
    book = made(program, room, "round", TUTORIAL.read_bytes())
    told(program, "offer", book, "1", ROUND_ABOUT)
    return book


def thousand(program, room):
    """1,000 levels of 20 by 20, made by a fixed seed."""
    dice = random.Random(20)
    return made(program, room, "thousand", b"\n".join(b"; Made %d\n%s" % (number, level(dice)) for number in range(1, 1001)))


def level(dice):
    """An enclosed level of 20 by 20, of which a quarter is wall, with ten boxes and goals that the player can come to."""
    squares = {(x, y): "#" if x in (0, 19) or y in (0, 19) or dice.random() < .25 else " " for y in range(20) for x in range(20)}
    squares[10, 10] = "@"
    area, todo = {(10, 10)}, [(10, 10)]
    while todo:
        x, y = todo.pop()
        near = [at for at in ((x - 1, y), (x + 1, y), (x, y - 1), (x, y + 1)) if squares[at] == " " and at not in area]
        area.update(near)
        todo += near
    places = dice.sample(sorted(area - {(10, 10)}), 20) if len(area) > 21 else None
    if places is None:
        return level(dice)
    squares.update({at: "$."[index % 2] for index, at in enumerate(places)})
    return "".join("".join(squares[x, y] for x in range(20)) + "\n" for y in range(20)).encode()
