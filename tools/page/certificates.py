"""Takes certificates from a keeper's folder into a site, each only if the program accepts it."""
import dataclasses
import os
import re
import subprocess
import sys


@dataclasses.dataclass(frozen=True)
class Certificate:
    """An accepted certificate: the line that the program wrote, the pushes that a solution needs at least (none where there is no
    solution), and its bytes."""

    answer: str
    pushes: int | None
    size: int


def taken(program, level, folder, site):
    """The certificate `ID.cert` of a level, which is then in the site. One that is refused is left out and told on the error stream."""
    name = f"{level.id}.cert"
    source = os.path.join(folder, name)
    if not os.path.lexists(source):
        return None
    if not os.path.isfile(source):
        return left_out(source, "it is no file")
    try:
        copy = site.copy(source)
    except OSError as error:
        return left_out(source, error.strerror)
    size = (site.path / copy).stat().st_size
    said = subprocess.run([program, "check", f"{level.id}.xsb", "1", copy], cwd=site.path, capture_output=True, text=True, check=False)
    accepted = re.fullmatch(r"accepted (?:at least (\d+) pushes|unsolvable)\n", said.stdout)
    if said.returncode or not accepted:
        return left_out(source, (said.stdout or said.stderr).strip().replace("\n", ", "))
    site.keep(name)
    return Certificate(said.stdout.strip(), int(accepted[1]) if accepted[1] else None, size)


def left_out(source, why):
    print(f"{source}: left out: {why}", file=sys.stderr)
