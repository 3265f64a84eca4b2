"""The crates of the repository, and what each stands on."""
import shutil


def listed(top):
    """What each crate of crates.txt uses, by its name."""
    lines = (line.partition("#")[0].partition(":") for line in (top / "crates.txt").read_text(encoding="utf-8").splitlines())
    return {name.strip(): uses.split() for name, colon, uses in lines if colon}


def below(name, uses):
    """The repository's crates that a crate stands on, near or far, and itself."""
    return {name}.union(*(below(other, uses) for other in uses[name] if other in uses))


def copy(top, room, names, parts):
    """Copies these crates and those below them, of each these files and folders, as a repository of its own. Returns the names of all."""
    uses = listed(top)
    wanted = set().union(*(below(name, uses) for name in names))
    (room / "crates.txt").write_text("".join(f"{name}: {' '.join(it)}\n" for name, it in uses.items() if name in wanted), encoding="utf-8")
    shutil.copy(top / "HANDLES", room)
    for name in wanted:
        for part in parts:
            source, there = top / "crates" / name / part, room / "crates" / name / part
            if source.is_dir():
                shutil.copytree(source, there)
            elif source.is_file():
                there.parent.mkdir(parents=True, exist_ok=True)
                shutil.copy(source, there)
    return wanted
