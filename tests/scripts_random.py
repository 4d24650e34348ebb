"""Random scripts for tests/compare. Each follows from a seed, a number, and the stored scripts."""

import pathlib
import random

import model

LETTERS = b"wrplfsx"
PRINTABLE = bytes(range(33, 127))


class Rates:
    """How often each kind of line comes: drawn once for each script, so that scripts differ."""

    def __init__(self, rng):
        # how fast each line is posted, lands and is fetched: with slow ones, requests are overtaken and grow stale
        self.speed = {
            (step, s, i): rng.choice((0.03, 0.3, 1, 1, 3))
            for step in "plf"
            for s in range(1, model.SEATS + 1)
            for i in range(1, model.PROVIDERS + 1)
        }
        self.begin = rng.choice((0.3, 1, 3, 10))
        # how often the line that was last used goes on, if it can, and else how often the same seat does
        self.same_line = rng.choice((0, 0.5, 0.9))
        self.same_seat = rng.choice((0, 0.8, 0.95))
        self.write = rng.choice((0.2, 0.5, 0.8, 1.0))
        self.settled = rng.choice((0.0, 0.5, 1.0))
        self.stop = rng.choice((0, 0, 0, 0.003, 0.01))
        self.lose = rng.choice((0, 0, 0, 0.003, 0.01))
        # how many lines are of the right form but with numbers at random, and how many are junk
        self.blind = rng.choice((0, 0.02, 0.1))
        self.junk = rng.choice((0, 0, 0.02))


def text(rng):
    length = rng.choice((1, 1, 2, 3, 8, 47, 48))
    return bytes(rng.choice(PRINTABLE) for _ in range(length))


def begin_line(rng, rates, s):
    if rng.random() < rates.write:
        return b"w %d " % s + text(rng)
    return b"r %d " % s + (b"s" if rng.random() < rates.settled else b"p")


def useful_lines(relay, rates):
    """The calls that would now move something: weight, step, seat and provider of each."""
    lines = []
    for s, seat in enumerate(relay.seats, 1):
        if seat.phase == "idle":
            lines.append((rates.begin, "begin", s, 0))
        for i, line in enumerate(seat.lines, 1):
            step = None
            if line.state == "free" and not line.done and seat.phase not in ("idle", "stopped"):
                step = "p"
            elif line.state == "sent" and not relay.providers[i - 1].lost:
                step = "l"
            elif line.state == "answered" and seat.phase != "stopped":
                step = "f"
            if step is not None:
                lines.append((rates.speed[step, s, i], step, s, i))
    return lines


def blind_line(rng):
    """A line of the right form, with numbers at random."""
    number = lambda: b"%d" % rng.choice((0, 1, 1, 1, 2, 2, 2, 3, 3, 4, 7, 65, 9999))
    letter = rng.choice(LETTERS)
    if letter in b"sx":
        # not too often a seat or a provider that is there: the script could go no further
        return b"%c " % letter + (number() if rng.random() < 0.05 else rng.choice((b"0", b"4", b"9999")))
    if letter in b"w":
        return b"w " + number() + b" " + text(rng)
    if letter in b"r":
        return b"r " + number() + b" " + rng.choice((b"p", b"s"))
    return b"%c " % letter + number() + b" " + number()


def odd_line(rng):
    """A line that is nearly of the right form: one part is changed, in a way that may leave it right."""
    line = blind_line(rng)
    parts = line.split(b" ")
    at = rng.randrange(len(parts))
    change = rng.randrange(12)
    if change == 0:
        parts.insert(at, b"")
    elif change == 1:
        parts.append(b"")
    elif change == 2:
        parts.pop(at)
    elif change == 3:
        parts.append(rng.choice((b"1", b"p", b"x")))
    elif change == 4:
        parts[at] = rng.choice((b"+", b"-", b"0", b"00", b"000", b"0000", b"1", b" ", b"\t")) + parts[at]
    elif change == 5:
        parts[at] += rng.choice((b"\r", b"\t", b"\0", b"\x7f", b"\x80", b"\xc3\xa9", b".", b"e0", b"_", b"0"))
    elif change == 6:
        parts[at] = parts[at].swapcase()
    elif change == 7:
        parts[at] = rng.choice((b"9999", b"10000", b"0001", b"00001", b"65537", b"4294967297", b"18446744073709551617"))
    elif change == 8:
        parts[-1] = bytes(rng.choice(PRINTABLE) for _ in range(rng.choice((48, 49, 50, 300))))
    elif change == 9:
        parts[at] = rng.choice((b"\xd9\xa1", b"\xef\xbc\x91", b"\xb9", b"\xff\xfe", b"p", b"s", b"ps", b"S"))
    elif change == 10:
        parts[0] = b"%c" % rng.randrange(256)
    else:
        return line.replace(b" ", rng.choice((b"  ", b"\t", b"\x0b", b"\xc2\xa0", b"")))
    return b" ".join(parts)


def noise_line(rng):
    """Bytes at random."""
    some = rng.choice((bytes(range(256)), bytes(range(32, 127)), LETTERS + b"  0123", b" ", b"\r\0"))
    return bytes(rng.choice(some) for _ in range(rng.choice((0, 1, 2, 5, 12, 80))))


def junk_line(rng):
    draw = rng.random()
    if draw < 0.3:
        return blind_line(rng)
    if draw < 0.8:
        return odd_line(rng)
    return noise_line(rng)


def progress_line(rng, rates, relay, last):
    draw = rng.random()
    if draw < rates.stop:
        return b"s %d" % rng.randint(1, model.SEATS)
    draw -= rates.stop
    if draw < rates.lose:
        return b"x %d" % rng.randint(1, model.PROVIDERS)
    draw -= rates.lose
    if draw < rates.blind:
        return blind_line(rng)
    draw -= rates.blind
    if draw < rates.junk:
        return junk_line(rng)
    lines = useful_lines(relay, rates)
    if not lines:
        return blind_line(rng)
    lines = narrowed(rng, lines, rates.same_seat, lambda s, i: s == last[0])
    lines = narrowed(rng, lines, rates.same_line, lambda s, i: (s, i) == last)
    weights = [weight for weight, *_ in lines]
    _, step, s, i = rng.choices(lines, weights)[0]
    return begin_line(rng, rates, s) if step == "begin" else b"%c %d %d" % (ord(step), s, i)


def narrowed(rng, lines, chance, keeps):
    """With a chance, only those of the useful calls that are to be kept, if there are any."""
    if rng.random() >= chance:
        return lines
    return [line for line in lines if keeps(*line[2:])] or lines


def seat_and_provider(line, last):
    """The seat and the provider of a line, for the one after it; where it has none, those of the line before."""
    call = model.call_of(line)
    if call is None or call[0] in ("stop", "lose"):
        return last
    return (call[1], 0 if call[0] in ("begin_write", "begin_read") else call[2])


def stored_scripts():
    """The lines of each stored script, in the order of their names."""
    paths = sorted((pathlib.Path(__file__).resolve().parent / "scripts").glob("*.in"))
    return [model.lines_of(path.read_bytes()) for path in paths]


class Writer:
    """A script as it is written, and the state that its lines lead to."""

    def __init__(self, rng):
        self.rng = rng
        self.rates = Rates(rng)
        self.relay = model.Relay()
        self.last = (0, 0)
        self.lines = []

    def add(self, drawn):
        for line in drawn.split(b"\n"):
            self.lines.append(line)
            model.answer(self.relay, line)
            self.last = seat_and_provider(line, self.last)

    def add_progress(self):
        self.add(progress_line(self.rng, self.rates, self.relay, self.last))

    def add_varied(self, lines):
        """The lines of a script, with a few left out, put off or done twice, and a few others between them."""
        rate = self.rng.choice((0, 0.01, 0.05, 0.2))
        late = None
        for line in lines:
            draw = self.rng.random() / rate if rate else 5
            if draw < 1:
                continue
            if draw < 2 and late is None:
                late = line
                continue
            if draw < 3:
                self.add_progress()
            if draw < 4 and late is not None:
                self.add(late)
                late = None
            self.add(line)
            if 4 <= draw < 5:
                self.add(line)


def script(seed, number, length):
    """Script NUMBER of a seed, of so many lines. Of eight scripts one is junk, one goes on from a stored script with
    changes, and the others mostly make the next useful call."""
    rng = random.Random("%d %d" % (seed, number))
    writer = Writer(rng)
    junk = number % 8 == 7
    if number % 8 == 6:
        writer.add_varied(rng.choice(STORED))
    while len(writer.lines) < length:
        if junk:
            writer.add(junk_line(rng))
        else:
            writer.add_progress()
    ending = b"" if rng.random() < 0.1 else b"\n"
    return b"\n".join(writer.lines[:length]) + ending


STORED = stored_scripts()
