"""What several scripts ask of this repository: the crates of the program, the sum of its sources, and the program kept under release/."""
import hashlib
import lzma
import pathlib
import platform
import subprocess
import sys

TOP = pathlib.Path(__file__).resolve().parent.parent
PROGRAM = "nmstatectl"
BUILT = TOP / "crates" / PROGRAM / "out" / PROGRAM
RELEASE = TOP / "release"
VERSION = (TOP / "VERSION").read_text(encoding="utf-8").strip()


def crates():
    """The program's crates bottom up, each with the libraries that it uses."""
    lines = [line.partition("#")[0].partition(":") for line in (TOP / "crates.txt").read_text(encoding="utf-8").splitlines()]
    uses = {name.split()[0]: words.split() for name, _, words in lines if name.strip()}
    found = {}

    def add(name):
        for below in uses[name]:
            if below in uses and below not in found:
                add(below)
        found[name] = uses[name]

    add(PROGRAM)
    return found


def sum_of(content):
    return hashlib.sha256(content).hexdigest()


def sources():
    """The sum of what the program is made of beside the kit: crates.txt, HANDLES, and all files in src/, specs/ and proofs/ of its crates.
    It is the sum of the lines that sha256sum(1) prints of these files in the order of their paths, as bytes."""
    files = [TOP / "HANDLES", TOP / "crates.txt"]
    for name in crates():
        files += [it for part in ("src", "specs", "proofs") for it in (TOP / "crates" / name / part).rglob("*") if it.is_file()]
    paths = sorted(str(it.relative_to(TOP)) for it in files)
    return sum_of("".join(f"{sum_of((TOP / it).read_bytes())}  {it}\n" for it in paths).encode())


def kit():
    """What `rt version` prints; nothing where there is no kit."""
    try:
        return subprocess.run(["rt", "version"], stdout=subprocess.PIPE, text=True, check=False).stdout.strip()
    except OSError:
        return ""


class Released:
    """The program kept under release/: nmstatectl.xz, and RELEASE, a line for each of LINES that says what it is."""

    LINES = ("version", "machine", "kit", "sources", "program")

    def __init__(self):
        lines = (RELEASE / "RELEASE").read_text(encoding="utf-8").splitlines()
        said = dict(line.partition(" ")[::2] for line in lines)
        if tuple(said) != self.LINES or not all(said.values()):
            raise ValueError(f"release/RELEASE hasn't the lines {', '.join(self.LINES)}")
        self.version, self.machine, self.kit, self.sources, self.sum = said.values()

    @classmethod
    def here(cls):
        """What is kept, or nothing; a ValueError where it can't be read."""
        return cls() if (RELEASE / "RELEASE").exists() else None

    def is_other(self):
        """Why it isn't the program of this checkout on this machine; nothing where it is."""
        if self.machine != platform.machine():
            return f"the program under release/ is one for {self.machine}"
        return "" if self.sources == sources() else "the program under release/ is of other sources"

    def program(self):
        """The program's bytes; a ValueError where they haven't the sum."""
        try:
            content = lzma.decompress((RELEASE / f"{PROGRAM}.xz").read_bytes())
        except (OSError, lzma.LZMAError) as fault:
            raise ValueError(f"the program under release/ can't be read: {fault}") from fault
        if sum_of(content) != self.sum:
            raise ValueError("the program under release/ hasn't the sum that release/RELEASE says")
        return content


if __name__ == "__main__":
    if sys.argv[1:] != ["sources"]:
        sys.exit("usage: repository.py sources, which prints the sum of the sources")
    print(sources())
