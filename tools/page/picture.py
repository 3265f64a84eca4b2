"""Draws a level as SVG: one path for all things of a kind, in squares of 10 by 10."""
WALL = "#"
# Of a picture whose words stand beside it.
HIDDEN = 'aria-hidden="true"'
# Each thing by the letters of squares where it is drawn, and as a path from the corner of its square. The shapes differ without colour: a
# goal is a diamond, a box is crossed, on a goal it shows the diamond through a hole, and a player on a goal is a hole in a large diamond.
THINGS = {
    "goal": (".*", "m5 2.8l2.2 2.2-2.2 2.2-2.2-2.2z"),
    "box": ("$", "m1 1h8v8h-8zl8 8m0-8l-8 8"),
    "box-on-goal": ("*", "m1 1h8v8h-8zm4 1.8l2.2 2.2-2.2 2.2-2.2-2.2z"),
    "player": ("@", "m5 1.2a1.9 1.9 0 1 1 0 3.8 1.9 1.9 0 1 1 0-3.8zm-3.3 7.5c0-4.4 6.6-4.4 6.6 0z"),
    "player-on-goal": ("+", "m5 0l5 5-5 5-5-5zm0 2a1.4 1.4 0 1 1 0 2.8 1.4 1.4 0 1 1 0-2.8zm-2.1 5.5c0-3.2 4.2-3.2 4.2 0z"),
}


def inside(squares):
    """The squares that the player could come to if there were no boxes, and those outside that hold something."""
    todo = [at for at, thing in squares.items() if thing in "@+"]
    found = {at for at, thing in squares.items() if thing not in " #"} | set(todo)
    reached = set(todo)
    while todo:
        x, y = todo.pop()
        for at in ((x - 1, y), (x, y - 1), (x + 1, y), (x, y + 1)):
            if squares.get(at, WALL) != WALL and at not in reached:
                reached.add(at)
                todo.append(at)
    return found | reached


def blocks(squares):
    """A path of whole squares, those side by side in one piece."""
    path, end = [], None
    for y, x in sorted((y, x) for x, y in squares):
        if end == (x, y):
            path[-1][2] += 1
        else:
            path.append([x, y, 1])
        end = (x + 1, y)
    return "".join(f"M{10 * x} {10 * y}h{10 * length}v10h-{10 * length}z" for x, y, length in path)


def picture(rows, words, shapes=False):
    """The level as an element, with these attributes in words. With `shapes` it has a path for each thing, with its letters and its shape,
    so that a script can draw other positions."""
    squares = {(x, y): thing for y, row in enumerate(rows) for x, thing in enumerate(row)}
    paths = {"floor": blocks(inside(squares)), "wall": blocks(at for at, thing in squares.items() if thing == WALL)}
    for name, (letters, shape) in THINGS.items():
        paths[name] = "".join(f"M{10 * x} {10 * y}{shape}" for (x, y), thing in squares.items() if thing in letters)
    width, height = 10 * max(map(len, rows)) + 2, 10 * len(rows) + 2
    drawn = ""
    for name, path in paths.items():
        told = ' data-on="{}" data-shape="{}"'.format(*THINGS[name]) if shapes and name in THINGS else ""
        drawn += f'<path class="{name}" d="{path}"{told}/>' if path or told else ""
    return f'<svg viewBox="-1 -1 {width} {height}" {words}>{drawn}</svg>'


def legend():
    """Each thing with its name."""
    letters = {"wall": "#", **{name: letters[0] for name, (letters, _) in THINGS.items()}}
    return "".join(f"<li>{picture([letter], HIDDEN)} {name.replace('-', ' ')}</li>" for name, letter in letters.items())
