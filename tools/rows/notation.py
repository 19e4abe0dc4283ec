"""How rows write bytes: parts with commas between them, each pairs of hexadecimal digits or characters behind a `'`,
with `*N` behind it where it stands N times. `-` is no bytes."""
import re

# Characters that stand as themselves behind a `'`.
PLAIN = re.compile(rb"[A-Za-z0-9/;:.\[\]()<>$_+~\\-]+")
# A byte that stands eight times or more is written once; six plain characters or more are written as they are.
RUN = re.compile(rb"(.)\1{7,}|[A-Za-z/<>]{6,}", re.DOTALL)


def part(data):
    """Bytes in which nothing is repeated."""
    if PLAIN.fullmatch(data):
        return "'" + data.decode("ascii")
    return data.hex()


def word(data):
    """Any bytes."""
    parts = []
    done = 0
    for run in RUN.finditer(data):
        if run.start() > done:
            parts.append(part(data[done : run.start()]))
        count = run.end() - run.start()
        parts.append("%02x*%d" % (data[run.start()], count) if run.group(1) and count > 7 else part(run.group()))
        done = run.end()
    if done < len(data):
        parts.append(part(data[done:]))
    return ",".join(parts) or "-"


def repeated(*pieces):
    """The word of pieces, each bytes or a pair of bytes and how often they stand."""
    parts = []
    for piece in pieces:
        if isinstance(piece, tuple):
            if piece[1]:
                parts.append("%s*%d" % (part(piece[0]), piece[1]))
        elif piece:
            parts.append(part(piece))
    return ",".join(parts) or "-"


def joined(*pieces):
    """The bytes of such pieces."""
    return b"".join(p[0] * p[1] if isinstance(p, tuple) else p for p in pieces)


class Rows:
    """The lines of a text of rows."""

    def __init__(self):
        self.lines = []
        self.count = 0

    def about(self, text):
        """A remark: what the rows behind it are."""
        self.lines.append("# " + text)

    def ask(self, question, words, answer):
        words = [words] if isinstance(words, str) else words
        assert "=" not in "".join(words)
        self.lines.append("%s %s = %s" % (question, " ".join(words), answer))
        self.count += 1
