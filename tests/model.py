#!/usr/bin/env python3
"""A model of the script program, written apart from it: it shares no code and no definition with the crates.

It reads script lines from standard input and prints the answer to each. docs/FORMATS.md has the lines, docs/RELAY.md
the rules. tests/compare runs it beside the program.

How it differs from the program: a provider is a dictionary, whatever its make; a line carries the list of requests that
it has yet to make, and not a stage; and a script is worked through line by line, with no list of calls in between. Sheets
are always those that the calls of a script leave, so they are never too short, and no line is foreign.
"""

import sys

SEATS = 2
PROVIDERS = 3
CAPACITY = 4
MAJORITY = PROVIDERS // 2 + 1

# A key or version is a pair of a number and a seat. Python compares pairs as versions compare.
STANDING = (0, 0)
NO_VERSION = (0, 0)
LAST_NUMBER = 999_999
MOST_LOOKS = 4_294_967_295

LIST = ("list",)

# the answer to a put that found no room: the refusal's number
NO_ROOM = 15


class Refused(Exception):
    """A call that is refused, with the refusal's number. It has changed nothing."""

    def __init__(self, number):
        super().__init__(number)
        self.number = number


class Provider:
    """A key-value store with room for so many keys."""

    def __init__(self, capacity):
        self.capacity = capacity
        self.pairs = {}
        self.lost = False

    def carry_out(self, request):
        """Does what a request asks, and gives the answer."""
        kind, *rest = request
        if kind == "list":
            return sorted(self.pairs)
        if kind == "get":
            return self.pairs.get(rest[0])
        if kind == "remove":
            self.pairs.pop(rest[0], None)
            return "done"
        key, pair = rest
        if key not in self.pairs and len(self.pairs) >= self.capacity:
            return NO_ROOM
        self.pairs[key] = pair
        return "done"


class Line:
    """What one seat has to do with one provider."""

    def __init__(self):
        self.state = "free"
        self.stale = False
        self.request = None
        self.answer = None
        self.largest = NO_VERSION
        self.found = None
        self.restart()

    def restart(self):
        """A phase of the seat starts, or its operation ends. The largest key and the pair stay as they were."""
        if self.state != "free":
            self.stale = True
        self.todo = [LIST]
        self.done = False
        self.mark = None

    def finish(self):
        self.todo = []
        self.done = True


class Seat:
    def __init__(self):
        self.phase = "idle"
        self.operation = None
        self.version = NO_VERSION
        self.text = ""
        self.lines = [Line() for _ in range(PROVIDERS)]

    def turn(self, phase):
        self.phase = phase
        for line in self.lines:
            line.restart()


def storing_requests(temporary, version, text):
    """What a line that stores a version asks for, once it has listed these temporary keys."""
    largest = temporary[-1] if temporary else NO_VERSION
    requests = [("remove", key) for key in temporary[:-1]]
    requests.append(("put", STANDING, (version, text)))
    if not temporary or largest < version:
        requests.append(("put", version, (version, text)))
        if temporary:
            requests.append(("remove", largest))
    return requests


class Relay:
    def __init__(self, capacity=CAPACITY):
        self.seats = [Seat() for _ in range(SEATS)]
        self.providers = [Provider(capacity) for _ in range(PROVIDERS)]
        self.looks = 0

    # The checks of a call stand in the order in which they are made.

    def seat(self, s):
        if not 1 <= s <= SEATS:
            raise Refused(5)
        return self.seats[s - 1]

    def provider(self, i):
        if not 1 <= i <= PROVIDERS:
            raise Refused(6)
        return self.providers[i - 1]

    def begin(self, s, operation, phase):
        """Begins an operation, and gives its seat."""
        seat = self.seat(s)
        if seat.phase == "stopped":
            raise Refused(7)
        if seat.phase != "idle":
            raise Refused(8)
        seat.operation = operation
        seat.version = NO_VERSION
        seat.turn(phase)
        return seat

    def begin_write(self, s, text):
        self.begin(s, "write", "listing").text = text
        return "ok"

    def begin_read(self, s, settled):
        self.begin(s, "settled" if settled else "plain", "gathering")
        return "ok"

    def post(self, s, i):
        seat = self.seat(s)
        self.provider(i)
        line = seat.lines[i - 1]
        if seat.phase == "stopped":
            raise Refused(7)
        if seat.phase == "idle":
            raise Refused(9)
        if line.done:
            raise Refused(10)
        if line.state != "free":
            raise Refused(11)
        line.request = line.todo[0]
        line.state = "sent"
        line.stale = False
        return "ok"

    def land(self, s, i):
        seat = self.seat(s)
        provider = self.provider(i)
        line = seat.lines[i - 1]
        if provider.lost:
            raise Refused(12)
        if line.state != "sent":
            raise Refused(13)
        line.answer = provider.carry_out(line.request)
        line.state = "answered"
        return "ok"

    def fetch(self, s, i):
        seat = self.seat(s)
        self.provider(i)
        line = seat.lines[i - 1]
        if seat.phase == "stopped":
            raise Refused(7)
        if line.state != "answered":
            raise Refused(14)
        line.state = "free"
        if line.stale:
            return "dropped"
        if line.answer == NO_ROOM:
            return "on"
        self.move(seat, line)
        done = [each for each in seat.lines if each.done]
        if len(done) < MAJORITY:
            return "on"
        return self.end_phase(s, seat, done)

    def stop(self, s):
        seat = self.seat(s)
        if seat.phase == "stopped":
            raise Refused(7)
        seat.phase = "stopped"
        return "ok"

    def lose(self, i):
        provider = self.provider(i)
        if provider.lost:
            raise Refused(12)
        provider.lost = True
        return "ok"

    # How an answer moves a line.

    def move(self, seat, line):
        request = line.todo.pop(0)
        if request == LIST:
            temporary = [key for key in line.answer if key != STANDING]
            line.largest = temporary[-1] if temporary else NO_VERSION
            if seat.phase == "listing":
                line.finish()
            elif seat.phase == "storing":
                line.todo = storing_requests(temporary, seat.version, seat.text)
            else:
                self.gather_from(line, temporary)
        elif request[0] == "get":
            self.gather(line, request[1])
        elif not line.todo:
            line.finish()

    def gather_from(self, line, temporary):
        """A line that gathers has listed these temporary keys."""
        if not temporary:
            line.found = None
            line.finish()
            return
        if line.mark is None:
            line.mark = line.largest
        line.todo = [("get", line.largest)]

    def gather(self, line, key):
        """A line that gathers has got what stands under a key, or nothing."""
        pair = line.answer
        if key != STANDING:
            if pair is None:
                line.todo = [("get", STANDING)]
            else:
                line.found = pair
                line.finish()
        elif pair is not None and pair[0] >= line.mark:
            line.found = pair
            line.finish()
        else:
            self.looks = min(self.looks + 1, MOST_LOOKS)
            line.todo = [LIST]

    # What happens once a majority of a seat's lines are done.

    def end_phase(self, s, seat, done):
        if seat.phase == "listing":
            return self.end_listing(s, seat, max(line.largest for line in done))
        if seat.phase == "gathering":
            return self.end_gathering(seat, [line.found for line in done if line.found is not None])
        seat.turn("idle")
        if seat.operation == "write":
            return "wrote %d %d" % seat.version
        return "read %d %d %s" % (*seat.version, seat.text)

    def end_listing(self, s, seat, largest):
        number = largest[0]
        if number >= LAST_NUMBER:
            seat.turn("idle")
            return "used"
        seat.version = (number + 1, s)
        seat.turn("storing")
        return "on"

    def end_gathering(self, seat, found):
        best = (NO_VERSION, "")
        for pair in found:
            if pair[0] > best[0]:
                best = pair
        if best[0] == NO_VERSION:
            seat.turn("idle")
            return "none"
        version, text = best
        if seat.operation == "plain":
            seat.turn("idle")
            return "read %d %d %s" % (*version, text)
        seat.version, seat.text = version, text
        seat.turn("storing")
        return "on"


def number_of(part):
    """The number of 1 to 4 decimal digits, or nothing."""
    if 1 <= len(part) <= 4 and all(48 <= byte <= 57 for byte in part):
        return int(part)
    return None


def text_of(part):
    """The text of 1 to 48 printable bytes, or nothing."""
    if 1 <= len(part) <= 48 and all(33 <= byte <= 126 for byte in part):
        return part.decode("ascii")
    return None


def call_of(line):
    """The call in a line, as the name of a method of the relay and its arguments; or nothing, for another form."""
    letter, *parts = line.split(b" ")
    numbers = [number_of(part) for part in parts]
    if letter in (b"p", b"l", b"f") and len(parts) == 2 and None not in numbers:
        name = {b"p": "post", b"l": "land", b"f": "fetch"}[letter]
        return (name, *numbers)
    if letter in (b"s", b"x") and len(parts) == 1 and None not in numbers:
        return ("stop" if letter == b"s" else "lose", *numbers)
    if letter == b"r" and len(parts) == 2 and numbers[0] is not None and parts[1] in (b"p", b"s"):
        return ("begin_read", numbers[0], parts[1] == b"s")
    if letter == b"w" and len(parts) == 2 and numbers[0] is not None:
        text = text_of(parts[1])
        if text is not None:
            return ("begin_write", numbers[0], text)
    return None


def answer(relay, line):
    """What the script program prints for a line."""
    call = call_of(line)
    if call is None:
        return "bad"
    try:
        return getattr(relay, call[0])(*call[1:])
    except Refused as refused:
        return "no %d" % refused.number


def lines_of(script):
    """The lines of a script: each ends at byte 10, and the last may lack it."""
    lines = script.split(b"\n")
    if lines[-1] == b"":
        lines.pop()
    return lines


def output(script):
    """What the script program prints for a script."""
    relay = Relay()
    return "".join(answer(relay, line) + "\n" for line in lines_of(script)).encode("ascii")


if __name__ == "__main__":
    sys.stdout.buffer.write(output(sys.stdin.buffer.read()))
