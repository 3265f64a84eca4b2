"""The wrong bodies of a crate: edits in its folders must-fail (which the gate tries) and wrong (which tools/wrong_bodies tries)."""
import pathlib


def edits_of(crate, *folders):
    """The edits of a crate's folder in these folders of it, by name."""
    return sorted((it for folder in folders for it in pathlib.Path(crate, folder).glob("*.edit")), key=lambda it: it.stem)


def edited(edit):
    """The files that an edit changes, by their path in the crate, each with its new text. Raises ValueError where it can't be applied."""
    crate, texts, path, old = edit.parent.parent, {}, "", None
    for line in edit.read_text(encoding="utf-8").splitlines():
        if line.startswith("file: "):
            path = line.removeprefix("file: ").strip()
        elif line.startswith("old: "):
            old = line.removeprefix("old: ")
        elif line.startswith("new:"):
            text = texts[path] if path in texts else (crate / path).read_text(encoding="utf-8")
            if not old or text.count(old) != 1:
                raise ValueError(f"{edit.stem}: its old text does not stand just once in {path}")
            texts[path] = text.replace(old, line.removeprefix("new:").removeprefix(" "))
    if not texts:
        raise ValueError(f"{edit.stem}: it changes nothing")
    return texts
