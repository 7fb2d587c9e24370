"""What the prover says where it refuses: read by tests/traps/run and tests/edits/run."""
import os
import re

ERROR = re.compile(r"^(\S+?):(\d+):\d+: (?:error: `([^`]+)`|`([^`]+)` is not admitted)", re.M)
UNPROVED = re.compile(r"^fn (\S+): no proof: expected answers in (\S+?); `search` did not prove (.*)$", re.M)
FIRST = re.compile(r"^(?!.*was not admitted)\S.*(?:: error: |: it is not proved that |; `search` did not prove ).*(?:\n\s.*)*(?:\nnote: what antt said.*(?:\n\s.*)*)?", re.M)


def refusals(text, base):
    """The declarations that are refused themselves, not only for another's sake, in the order of the prover's words:
    the file as seen from the folder `base`, the name, the line."""
    found = []
    for m in ERROR.finditer(text):
        line = text[m.start() : text.find("\n", m.start())]
        one = (os.path.relpath(os.path.join(base, m.group(1)), base), m.group(3) or m.group(4), int(m.group(2)))
        if "was not admitted" not in line and one not in found:
            found.append(one)
    return found


def unproved(text):
    """The goals that have no answer and that the prover does not prove itself: the file where their answers would stand, as seen from the crate, the name."""
    return [(os.path.normpath(m.group(2)), goal) for m in UNPROVED.finditer(text) for goal in re.findall(r"`([^`]+)`", m.group(3).partition(":")[0])]


def first_words(text):
    """All that is said of the first thing that does not hold."""
    m = FIRST.search(text)
    return m.group() if m else ""
