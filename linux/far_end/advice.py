"""What the program's error lines mean and what to write instead, from the tables in docs/COMMANDS.md; and what is wrong with a folder of
the state."""
import os
import re
import sys

# A row of the table of statuses: a status, a line, which command prints it where that is said, and what it means.
STATUS_ROW = re.compile(r"\| \d+ \| `(error: [^`]+)`.* \| (.*) \|$")
# A row of the table of what was printed: what stands after `error:` or `error: document:`, of what; what it means; what to write instead.
PRINTED_ROW = re.compile(r"\| `([^`]+)`(?:, ([^|]*))? \| (.*) \| (.*) \|$")
PRINTED = "\n## What was printed"
# Words in capitals stand for what a line has there.
PLACEHOLDER = re.compile(r"\b[A-Z]+\b")


def plain(markdown):
    return re.sub(r"\[([^]]*)\]\([^)]*\)", r"\1", markdown).replace("`", "")


def pattern_of(form):
    return re.compile(".*".join(map(re.escape, PLACEHOLDER.split(form))) + ".*")


def pattern_of_example(printed):
    """Numbers of entries and lines, and the name that a rule of the merge is broken at, are those of an example."""
    text = re.sub(r"(?<=\\\[)\d+(?=\\\])|(?<=\\ line\\ )\d+", r"\\d+", re.escape(printed))
    return re.compile("error: (?:document: )?" + re.sub(r"^(merge\\ rule.*\\ at\\ ).*", r"\1(.*)", text))


class Advice:
    """The tables, where the page is at hand: in a checkout, or beside the modules."""

    def __init__(self, folder):
        pages = [folder.parent / "docs" / "COMMANDS.md", folder / "COMMANDS.md"]
        page = next((it.read_text(encoding="utf-8") for it in pages if it.exists()), "")
        statuses, _, printed = page.partition(PRINTED)
        rows = map(STATUS_ROW.match, statuses.splitlines())
        self.statuses = [(pattern_of(row[1]), row[1], plain(row[2])) for row in rows if row]
        self.printed, means = [], ""
        for row in filter(None, map(PRINTED_ROW.match, printed.splitlines())):
            means = means if row[3] == "likewise" else row[3]
            text = plain(": ".join(filter(None, (row[2], means))) + (f"; write instead: {row[4]}" if row[4].strip() else ""))
            self.printed.append((pattern_of_example(row[1]), row[1].split()[-1], text))

    def of(self, line):
        """What the tables say of a line: every example that is like it, with the line's own name; else of several forms that of the most words."""
        alike = [(pattern.fullmatch(line), name, text) for pattern, name, text in self.printed]
        if found := [text.replace(name, *match.groups()) if match.groups() else text for match, name, text in alike if match]:
            return found
        found = [(len(form), text) for pattern, form, text in self.statuses if pattern.fullmatch(line)]
        return [max(found)[1]] if found else []

    def say(self, lines):
        for line in lines:
            for text in self.of(line) if line.startswith("error: ") else ():
                print(f"  {text}", file=sys.stderr, flush=True)


def locker_of(folder):
    """The process that holds the folder's lock, by what the kernel lists: asking for the lock would keep others off."""
    inode = os.stat(folder).st_ino
    with open("/proc/locks", encoding="ascii") as file:
        locks = [line.split() for line in file]
    return next((words[4] for words in locks if words[1] == "FLOCK" and words[5].rpartition(":")[2] == str(inode)), None)


def folder_trouble(folder):
    """Why the program couldn't work with the folder of the state, or none."""
    if not os.path.isdir(folder):
        return f"the folder of the state isn't there: {folder}"
    if not os.access(folder, os.W_OK | os.X_OK):
        return f"the folder of the state isn't yours to write: {folder}"
    locker = locker_of(folder)
    return f"the folder of the state is in use by process {locker}: {folder}" if locker else None
