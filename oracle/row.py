"""Rows in the form of crates/test_rows/data, and what a broker written apart answers to them."""
import broker
from configurations import CONFIGURATIONS
from formulas import HOME, NAS, S1


class Differs(Exception):
    """A row, and what broker.py answers."""


def most_growths(line, packets, refusal):
    """How many growths an event may ask for at most, where that is few: none where it is refused before a realm
    looks at it, and the copy of its octets where an arrival gives nothing. None where it isn't few.
    """
    if refusal is not None and (refusal <= 10 or refusal in (20, 24, 25, 26, 28, 29) or line[0] == "T"):
        return 0
    if line[0] in "AL" and not packets:
        return 1
    return None


def answer_lines(line, packets, refusal):
    """What stands behind an event or a probe."""
    lines = ["#> " + packet for packet in packets]
    if refusal is not None:
        lines.append(f"#> refused {refusal}")
    most = most_growths(line, packets, refusal)
    if most is not None:
        lines.append(f"#! growths {most}")
    return lines


class Row:
    """A row said by hand: for each event its packets' lines, or its refusal's number."""
    rows = []

    def __init__(self, name, configuration, source):
        self.name, self.configuration, self.source = name, configuration, source
        self.lines = []
        Row.rows.append(self)

    def note(self, what, line, expected, probe):
        refusal = expected if isinstance(expected, int) else None
        packets = [] if refusal is not None else expected
        self.lines.append("# " + ("a probe: " if probe else "") + what)
        self.lines.append(("#? " if probe else "") + line)
        self.lines += answer_lines(line, packets, refusal)

    def arrive(self, now, octets, expected, what, place="acct", source=NAS, probe=False):
        self.note(what, f"A {now} {place} {source} {octets.hex() or '-'}", expected, probe)

    def access(self, now, octets, expected, what, source=NAS, probe=False):
        self.arrive(now, octets, expected, what, "auth", source, probe)

    def reverse(self, now, octets, expected, what, realm=0, source=HOME, probe=False):
        self.arrive(now, octets, expected, what, f"reverse:{realm}", source, probe)

    def reply(self, now, octets, expected, what, realm=0, source=S1, probe=False):
        self.arrive(now, octets, expected, what, f"out:{realm}", source, probe)

    def lost(self, now, octets, expected, what, realm=0, source=S1):
        """A reply for whose session there is no memory."""
        self.note(what, f"L {now} out:{realm} {source} {octets.hex()}", expected, False)

    def tick(self, now, expected, what, shard=0, probe=False):
        self.note(what, f"T {now} {shard}", expected, probe)

    def text(self):
        head = [f"# Said by hand in oracle/{self.source}.py.", f"#@ {self.configuration}"]
        return "".join(line + "\n" for line in head + self.lines)


def parts_of(text):
    """The rows of a file: the configuration's name and the lines of each."""
    parts = text.split("\n#@ ")[1:]
    return [(part.split("\n")[0].split(" ")[0], part.split("\n")[1:]) for part in parts]


def steps_of(lines):
    """The events and probes of a row: whether it is a probe, its line, and what stands behind it."""
    steps = []
    for line in lines:
        if line.startswith(("#> ", "#! ")):
            steps[-1][2].append(line)
        elif line.startswith("#? "):
            steps.append((True, line[3:], []))
        elif line and not line.startswith("# "):
            steps.append((False, line, []))
    return steps


def played(a_broker, line):
    """What stands behind an event by this broker."""
    packets, refusal = a_broker.event(line)
    return answer_lines(line, [broker.spelled(packet) for packet in packets], refusal)


def check(name, text):
    """Plays the rows of a file by broker.py: once without the probes, and once with those of an event before it."""
    for configuration, lines in parts_of(text):
        steps = steps_of(lines)
        alone, probed = (broker.Broker(broker.Config(CONFIGURATIONS[configuration])) for _ in range(2))
        place = 0
        while place < len(steps):
            end = place + 1
            while end < len(steps) and steps[end][0]:
                end += 1
            for _, line, wanted in steps[place + 1:end] + steps[place:place + 1]:
                got = played(probed, line)
                if got != wanted:
                    raise Differs(f"{name}: {line}\n  says {wanted}\n  played {got}")
            if played(alone, steps[place][1]) != steps[place][2]:
                raise Differs(f"{name}: {steps[place][1]}: a probe changes something")
            place = end
