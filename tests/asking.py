"""What the scripts tests/NAME/run share: what passed and failed, a script as a module, the rows of a text, and a run that has to end."""
import importlib.machinery
import importlib.util
import subprocess

# So many runs may not end: of more each would take its whole time.
MOST_HANGS = 3


class Rows:
    """What passed and failed so far, and how many runs did not end."""

    def __init__(self):
        self.passed, self.failed, self.hangs = 0, 0, 0

    def see(self, what, why):
        """A row passes where nothing is against it."""
        self.passed, self.failed = self.passed + (not why), self.failed + bool(why)
        if why:
            print(f"FAILED: {what}: {str(why)[:400]}", flush=True)

    def same(self, what, held, wanted):
        self.see(what, held != wanted and f"{held!r}, not {wanted!r}")

    def ask(self, words, seconds, given=None, **how):
        """What a program that was run with these words left, and what is against that: that it did not end, or was not asked, since
        others did not end."""
        if self.hangs >= MOST_HANGS:
            return None, "not asked, since other runs did not end"
        stdin = {"stdin": subprocess.DEVNULL} if given is None else {"input": given}
        how = {"stdout": subprocess.PIPE, "stderr": subprocess.PIPE, **stdin, **how}
        try:
            return subprocess.run(words, timeout=seconds, check=False, **how), ""
        except subprocess.TimeoutExpired:
            self.hangs += 1
            return None, f"it did not end in {seconds} seconds"

    def end(self):
        """Prints the last line, and returns the exit status."""
        print(f"{self.passed} passed, {self.failed} failed")
        return 1 if self.failed else 0


def module(name, path):
    """A script without an ending, as a module."""
    loader = importlib.machinery.SourceFileLoader(name, path)
    found = importlib.util.module_from_spec(importlib.util.spec_from_loader(name, loader))
    loader.exec_module(found)
    return found


def rows(text):
    """The rows of a text: name, words, status, and parts, each with the words of its line and its own lines (tests/program/run)."""
    found = []
    for line in text.split("\n"):
        if line.startswith("== "):
            found.append({"name": line[3:], "words": "", "status": None, "parts": []})
        elif not found:
            continue
        elif line.startswith("-- "):
            found[-1]["parts"].append((line[3:].split(), []))
        elif found[-1]["parts"]:
            found[-1]["parts"][-1][1].append(line)
        elif line.startswith("words:"):
            found[-1]["words"] = line[6:]
        elif line.startswith("status:"):
            found[-1]["status"] = int(line[7:])
    return found


def content(how, lines):
    """The bytes that the lines of a part say."""
    while lines and lines[-1] == "":
        lines = lines[:-1]
    if how[:1] in (["hex"], ["times"]):
        return bytes.fromhex("".join(lines)) * (int(how[1]) if how[0] == "times" else 1)
    text = "".join(line + "\n" for line in lines)
    return (text[:-1] if how[:1] == ["open"] else text).encode()


def whole(row, wanted):
    """What the parts of a row say of one file."""
    return b"".join(content(how, lines) for (kind, *how), lines in row["parts"] if kind == wanted)
