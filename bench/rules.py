"""What files stand for by the written rules: docs/formats, docs/GEOMETRY.md, docs/REFERENCE.md, and docs/RECOVERY.md for the lines of
damage, read anew in Python and not taken from the program. `judged` decides of two files; `Writer` makes some. For damage.py; changes
by `let` are left out."""
import functools
import hashlib
import re
from fractions import Fraction

ROOM = 4_054
# The side of the grid, for all scripts.
SIDE = 2 ** 30
# The versions of the format. Both are read by the same rules, and the last one is written.
VERSIONS = (1, 2)
NUMBER = re.compile(rb"0|[1-9][0-9]{0,18}")
NAME = re.compile(rb"[a-z][a-z0-9_]{0,31}")
KINDS = {1: "points", 2: "lines", 3: "regions"}
KEPT = 16


class Outside(Exception):
    """Bytes are outside their grammar."""


class Refused(Exception):
    """A change is refused, or its steps don't settle the drawing."""


class Damaged(Exception):
    """The damage that decides, as the program's line has it."""


# ---- points and segments
def side(s, p):
    (ax, ay), (bx, by) = s
    return (bx - ax) * (p[1] - ay) - (by - ay) * (p[0] - ax)


def size(s):
    (ax, ay), (bx, by) = s
    return bx - ax, by - ay


def is_flat(s):
    return abs(size(s)[0]) >= abs(size(s)[1])


def is_diagonal(s):
    return abs(size(s)[0]) == abs(size(s)[1])


def in_box(s, p):
    (ax, ay), (bx, by) = s
    return min(ax, bx) <= p[0] <= max(ax, bx) and min(ay, by) <= p[1] <= max(ay, by)


def is_inside(p, s):
    return p not in s and in_box(s, p) and side(s, p) == 0


def cross(s, t):
    return side(s, t[0]) * side(s, t[1]) < 0 and side(t, s[0]) * side(t, s[1]) < 0


def crossing(s, t):
    """The common point of two segments that cross."""
    f, g = abs(side(t, s[0])), abs(side(t, s[1]))
    return tuple(Fraction(g * p + f * q, f + g) for p, q in zip(s[0], s[1]))


def cell_of(place):
    """The lower left corner of the cell of which this is the centre, if it is one."""
    if all(c.denominator == 2 for c in place):
        return tuple(int(c - Fraction(1, 2)) for c in place)
    return None


def meet_point(s, t):
    """None where there is none."""
    place = crossing(s, t)
    cell = cell_of(place)
    if cell and is_diagonal(s) and is_diagonal(t):
        return None
    if cell and (is_diagonal(s) or is_diagonal(t)):
        diagonal = s if is_diagonal(s) else t
        corners = [(cell[0] + 1, cell[1]), (cell[0] + 1, cell[1] + 1)]
        return next(c for c in corners if side(diagonal, c) == 0)
    return tuple(int((c + Fraction(1, 2)).__floor__()) for c in place)


def is_near(s, p):
    return in_box(s, p) and abs(side(s, p)) < max(abs(size(s)[0]), abs(size(s)[1]))


def beside(t, turn):
    """In each column of a flat piece, or row of a steep one, the grid point that is on it, or else the next one on its left
    (turn 1) or right (turn -1)."""
    (ax, ay), (bx, by) = t
    dx, dy = size(t)
    found = []
    for i in range(max(abs(dx), abs(dy)) + 1):
        if is_flat(t):
            y = ay + Fraction(dy * i, dx)
            found.append((ax + i, y.__ceil__() if turn > 0 else y.__floor__()))
        else:
            step = 1 if dy > 0 else -1
            x = ax + Fraction(dx * i, abs(dy))
            # upwards the left is where x is less, downwards where it is greater
            found.append((x.__floor__() if turn * step > 0 else x.__ceil__(), ay + step * i))
    return found


def band(points, turn):
    """A band along these points that is pulled towards the piece: each vertex is strictly on the piece's side."""
    kept = []
    for p in points:
        while len(kept) > 1 and side((kept[-2], kept[-1]), p) * turn <= 0:
            kept.pop()
        kept.append(p)
    return kept


def hook(t, x):
    """The way of a rubber band along the piece that is pulled to this near point."""
    if side(t, x) == 0:
        return [t[0], t[1]] if x in t else [t[0], x, t[1]]
    turn = 1 if side(t, x) > 0 else -1
    points = beside(t, turn)
    at = points.index(x)
    return band(points[:at + 1], turn) + band(points[at:], turn)[1:]


def is_close(o, piece):
    """No grid point lies between the piece and the original."""
    if not is_flat(o):
        o, piece = tuple((y, x) for x, y in o), tuple((y, x) for x, y in piece)
        o = tuple(sorted(o))
    (ax, ay), (px, py), (qx, qy) = o[0], *sorted(piece)
    for x in range(px, qx + 1):
        place = ay + Fraction(size(o)[1] * (x - ax), size(o)[0])
        ends = [py, qy] if px == qx else [py + Fraction((qy - py) * (x - px), qx - px)]
        for end in ends:
            between = range(place.__ceil__(), Fraction(end).__ceil__()) if place < end else range(
                Fraction(end).__floor__() + 1, place.__floor__() + 1)
            if len(between) > 0:
                return False
    return True


def links(chain):
    """Its pieces, each with its lesser end first."""
    return [tuple(sorted(pair)) for pair in zip(chain, chain[1:])]


def corner_links(o, chain):
    """The numbers of those links that are one of the two of a corner."""
    found = set()
    for i, (p, q, r) in enumerate(zip(chain, chain[1:], chain[2:])):
        for first, last in ((p, r), (r, p)):
            if first == (q[0], q[1] + 1) and last == (q[0] + 1, q[1]) and is_close(o, (first, last)):
                found |= {i, i + 1}
    return found


def may_stand(o, chain):
    """Whether the chain may stand for its original."""
    (a, b), corners = o, corner_links(o, chain)
    if len(chain) < 2 or chain[0] != a or chain[-1] != b:
        return False
    for i, (p, q) in enumerate(zip(chain, chain[1:])):
        rises, falls = b[1] >= a[1], b[1] <= a[1]
        if p == q or q[0] < p[0] or (rises and q[1] < p[1]) or (falls and q[1] > p[1]):
            return False
        if i not in corners and not is_close(o, tuple(sorted((p, q)))):
            return False
    return True


# ---- states
class State:
    def __init__(self):
        self.changes, self.next_id = 0, 1
        self.points, self.originals, self.values, self.traces = [], {}, {}, []

    def pieces(self):
        return sorted({s for _, chain in self.originals.values() for s in links(chain)})

    def all_points(self):
        return sorted(set(self.points) | {p for _, chain in self.originals.values() for p in chain})

    def violation(self):
        """A step that is permitted where the drawing has a violation; none where it has none."""
        pieces, points = self.pieces(), self.all_points()
        for t in pieces:
            for p in points:
                if is_inside(p, t):
                    return 1, p, t
        for i, t in enumerate(pieces):
            for u in pieces[i + 1:]:
                if cross(t, u):
                    return self.step_at(t, u)
        return None

    def step_at(self, t, u):
        x = meet_point(t, u)
        if x:
            return 2, t, u, x
        return (3, t, u) if size(t)[1] > 0 else (3, u, t)

    def redraw(self, piece, path):
        """Puts a path in the place of a piece in every chain, in the chain's own direction."""
        for number, (ends, chain) in self.originals.items():
            new = [chain[0]]
            for p, q in zip(chain, chain[1:]):
                way = [p, q]
                if (p, q) == piece:
                    way = path
                if (q, p) == piece:
                    way = path[::-1]
                new += way[1:]
            self.originals[number] = ends, new

    def take(self, step):
        """Takes a step, where it is permitted."""
        pieces = set(self.pieces())
        if step[0] == 1:
            _, p, t = step
            if t not in pieces or p not in self.all_points() or not is_inside(p, t):
                raise Refused
            self.redraw(t, hook(t, p))
        elif step[0] == 2:
            _, t, u, x = step
            if t not in pieces or u not in pieces or not cross(t, u) or meet_point(t, u) != x:
                raise Refused
            self.redraw(t, hook(t, x))
            self.redraw(u, hook(u, x))
        else:
            self.take_corner(*step[1:])

    def take_corner(self, t, u):
        pieces = self.pieces()
        if t not in pieces or u not in pieces or not cross(t, u) or not is_diagonal(t) or not is_diagonal(u):
            raise Refused
        cell = cell_of(crossing(t, u))
        if not cell or size(t)[1] < 0 or size(u)[1] > 0:
            raise Refused
        x, y = cell
        self.redraw(u, without_repeats([u[0], (x, y + 1), (x, y), (x + 1, y), u[1]]))
        self.redraw(t, without_repeats([t[0], (x, y), t[1]]))

    def is_empty(self):
        """Whether it is the state of files of which neither counts. Nothing is in it then, and no id was given."""
        return (self.changes, self.next_id) == (0, 1) and not (self.points or self.originals or self.values or self.traces)

    def copy(self):
        other = State()
        other.changes, other.next_id = self.changes, self.next_id
        other.points, other.values, other.traces = list(self.points), dict(self.values), list(self.traces)
        other.originals = {number: (ends, list(chain)) for number, (ends, chain) in self.originals.items()}
        return other

    def told(self):
        """The lines of `check`."""
        counts = [("changes", self.changes), ("originals", len(self.originals)), ("values", len(self.values)),
                  ("points", len(self.all_points())), ("pieces", len(self.pieces()))]
        return "".join(f"{word} {count}\n" for word, count in counts)


def without_repeats(path):
    return [p for i, p in enumerate(path) if i == 0 or path[i - 1] != p]


# ---- changes
def parsed(line):
    """A change: its word, its name or number, and its places."""
    word, *tokens = line.split(b" ")
    if word in (b"point", b"unpoint", b"segment"):
        places = places_of(tokens)
        if len(places) != (2 if word == b"segment" else 1):
            raise Outside
        return word.decode(), None, places
    if word == b"delete":
        return "delete", numbers_of(tokens, 1)[0], None
    if word == b"let":
        raise NotImplementedError("let")
    if word not in (b"points", b"lines", b"regions", b"drop") or not tokens or not NAME.fullmatch(tokens[0]):
        raise Outside
    name, tokens = tokens[0].decode(), tokens[1:]
    if word == b"drop":
        if tokens:
            raise Outside
        return "drop", name, None
    if word == b"points":
        return "points", name, places_of(tokens)
    return word.decode(), name, lists_of(tokens)


def numbers_of(tokens, count):
    if len(tokens) != count or not all(NUMBER.fullmatch(token) for token in tokens):
        raise Outside
    return [int(token) for token in tokens]


def places_of(tokens):
    numbers = numbers_of(tokens, len(tokens) // 2 * 2)
    return list(zip(numbers[::2], numbers[1::2]))


def lists_of(tokens):
    if not tokens:
        return []
    lists = [[]]
    for token in tokens:
        if token == b";":
            lists.append([])
        else:
            lists[-1].append(token)
    if not all(lists):
        raise Outside
    return [places_of(tokens) for tokens in lists]


def pairs_of(word, lists):
    """The ends of new originals, as they are written."""
    if word == "lines":
        return [pair for path in lists for pair in zip(path, path[1:])]
    return [pair for cycle in lists for pair in zip(cycle, cycle[1:] + cycle[:1])]


def refuse_shape(word, places, lists):
    if any(c >= SIDE for p in places for c in p):
        raise Refused("range")
    if word in ("lines", "regions") and any(len(places) < (2 if word == "lines" else 3) for places in lists):
        raise Refused("shape")


def changed(state, line):
    """The state with the change made and not yet settled, where it isn't refused."""
    word, about, written = parsed(line)
    lists = written if word in ("lines", "regions") else [written or []]
    refuse_shape(word, [p for places in lists for p in places], lists)
    pairs = pairs_of(word, lists) if word in ("lines", "regions") else []
    if word == "segment":
        pairs = [tuple(written)]
    if any(p == q for p, q in pairs):
        raise Refused("degenerate")
    if word in ("points", "lines", "regions") and about in state.values:
        raise Refused("name-taken")
    new = state.copy()
    undo(new, word, about, written)
    if pairs and state.next_id + len(pairs) > 2 ** 32:
        raise Refused("ids")
    if state.changes >= 2 ** 63:
        raise Refused("changes")
    if word in ("point", "points"):
        new.points = sorted(set(new.points) | set(written))
    for p, q in pairs:
        ends = tuple(sorted((p, q)))
        new.originals[new.next_id] = ends, list(ends)
        new.next_id += 1
    if word == "points":
        new.values[about] = word, sorted(set(written))
    if word in ("lines", "regions"):
        new.values[about] = word, list(range(state.next_id, new.next_id))
    return new


def undo(new, word, about, written):
    """What takes away, where it isn't refused."""
    if word == "drop":
        if about not in new.values:
            raise Refused("no-name")
        del new.values[about]
    if word == "delete":
        if about not in new.originals:
            raise Refused("no-id")
        if any(kind != "points" and about in parts for kind, parts in new.values.values()):
            raise Refused("in-use")
        del new.originals[about]
    if word == "unpoint":
        if written[0] not in new.points:
            raise Refused("no-point")
        if any(kind == "points" and written[0] in parts for kind, parts in new.values.values()):
            raise Refused("in-use")
        new.points.remove(written[0])


@functools.lru_cache(maxsize=1024)
def led(state, line, steps):
    """The state after a change that these steps settle. No state is changed afterwards, so that one is counted once."""
    new = changed(state, line)
    for step in steps:
        new.take(step)
    if new.violation():
        raise Refused
    new.changes += 1
    new.traces = (new.traces + [(new.changes, steps)])[-KEPT:]
    return new


# ---- bytes
class Source:
    """Bytes that are read one after another."""

    def __init__(self, data):
        self.data, self.at = data, 0

    def bytes(self, count):
        if count > len(self.data) - self.at:
            raise Outside
        self.at += count
        return self.data[self.at - count:self.at]

    def number(self, count):
        return int.from_bytes(self.bytes(count), "big")

    def items(self, read):
        return [read() for _ in range(min(self.number(8), len(self.data) + 1))]

    def point(self):
        p = self.number(4), self.number(4)
        if max(p) >= SIDE:
            raise Outside
        return p

    def segment(self):
        s = self.point(), self.point()
        if s[0] >= s[1]:
            raise Outside
        return s

    def step(self):
        kind = self.number(1)
        if kind == 1:
            return 1, self.point(), self.segment()
        if kind not in (2, 3):
            raise Outside
        t, u = self.segment(), self.segment()
        if kind == 3:
            return 3, t, u
        if t >= u:
            raise Outside
        return 2, t, u, self.point()

    def original(self):
        return self.number(4), self.point(), self.point(), self.items(self.point)

    def value(self):
        name = self.bytes(self.number(1))
        kind = self.number(1)
        if kind not in KINDS:
            raise Outside
        return name, KINDS[kind], self.items(self.point if kind == 1 else lambda: self.number(4))

    def trace(self):
        return self.number(8), self.items(self.step)

    def entry(self):
        line = self.bytes(self.number(4))
        if len(line) > 2 ** 20:
            raise Outside
        return line, tuple(self.items(self.step))

    def end(self):
        if self.at < len(self.data):
            raise Outside


def ascend(items):
    return all(p < q for p, q in zip(items, items[1:]))


@functools.lru_cache(maxsize=16)
def state_of(payload):
    """The valid state whose payload this is."""
    if not payload:
        return State()
    source, state = Source(payload), State()
    state.changes, state.next_id = source.number(8), source.number(8)
    state.points = source.items(source.point)
    originals = source.items(source.original)
    values = source.items(source.value)
    state.traces = source.items(source.trace)
    source.end()
    if state.is_empty() and not originals and not values:
        raise Outside
    if state.changes > 2 ** 63 or not 1 <= state.next_id <= 2 ** 32:
        raise Outside
    ids = [number for number, _, _, _ in originals]
    if not ascend(state.points) or not ascend(ids) or any(not 1 <= number < state.next_id for number in ids):
        raise Outside
    for number, a, b, chain in originals:
        if a >= b or not may_stand((a, b), chain):
            raise Outside
        state.originals[number] = (a, b), chain
    for name, kind, parts in values:
        add_value(state, name, kind, parts)
    first = max(1, state.changes - KEPT + 1)
    if state.violation() or [number for number, _ in state.traces] != list(range(first, state.changes + 1)[:KEPT + 1]):
        raise Outside
    return state


def add_value(state, name, kind, parts):
    there = state.points if kind == "points" else state.originals
    if not NAME.fullmatch(name) or name.decode() in state.values or not ascend(parts) or any(p not in there for p in parts):
        raise Outside
    if kind == "regions":
        ends = [end for part in parts for end in state.originals[part][0]]
        if any(ends.count(end) % 2 for end in ends):
            raise Outside
    state.values[name.decode()] = kind, parts


def head_of(file):
    """Generation, pages and length of the payload of a file that counts."""
    source = Source(file[1:4096])
    name, version = source.bytes(7), source.number(2)
    generation, pages, length = source.number(8), source.number(8), source.number(8)
    if source.bytes(4062).strip(b"\0") or name != b"ROSEREL" or version not in VERSIONS or not 1 <= generation <= 2 ** 63:
        raise Outside
    if pages != -(-length // ROOM) or 4096 * (pages + 1) >= 2 ** 64:
        raise Outside
    return generation, pages, length


def body_of(number, part):
    return number.to_bytes(8, "big") + len(part).to_bytes(2, "big") + part + bytes(ROOM - len(part))


def payload_of(letter, file, pages, length):
    payload = b""
    for number in range(1, pages + 1):
        page = file[4096 * number:4096 * (number + 1)]
        where = f"file {letter} page {number}"
        if len(page) < 4096:
            raise Damaged(where)
        kept, found = page[4064:].hex(), hashlib.sha256(page[:4064]).hexdigest()
        if kept != found:
            raise Damaged(f"{where} kept {kept} found {found}")
        used = min(ROOM, length - len(payload))
        if page[:4064] != body_of(number, page[10:10 + used]):
            raise Damaged(where)
        payload += page[10:10 + used]
    return payload


def record_in(source):
    """The number of the first change of the next record, and its entries: the line and the steps of each change."""
    body = Source(source.bytes(source.number(8)))
    number, entries = body.number(8), []
    if number > 0:
        entries.append(body.entry())
    else:
        number, entries = body.number(8), body.items(body.entry)
        if number == 0 or len(entries) < 2:
            raise Outside
    body.end()
    return number, entries


def state_behind(letter, file, at, state):
    """The state after the records from this gate on."""
    count = 0
    source = Source(file)
    source.at = at
    while source.at < len(file) and source.bytes(1) == b"\xa5":
        count += 1
        try:
            number, entries = record_in(source)
            if number != state.changes + 1:
                raise Refused
            for line, steps in entries:
                state = led(state, line, steps)
        except (Outside, Refused) as error:
            raise Damaged(f"file {letter} record {count}") from error
    return state


def counts(file):
    return len(file) >= 2 and file[:1] == b"\xa5"


def newest(a, b):
    """The letter and the bytes of the newest file, and its head; none where neither counts."""
    found = []
    for letter, file in (("a", a), ("b", b)):
        if counts(file):
            try:
                found.append((head_of(file), letter, file))
            except Outside as error:
                raise Damaged(f"file {letter} page 0") from error
    if len(found) == 2 and found[0][0][0] == found[1][0][0]:
        raise Damaged(f"twins {found[0][0][0]}")
    return max(found, default=None)


def stood_for(a, b):
    """The state that the files stand for."""
    found = newest(a, b)
    if not found:
        return State()
    (_, pages, length), letter, file = found
    payload = payload_of(letter, file, pages, length)
    try:
        state = state_of(payload)
    except Outside as error:
        raise Damaged(f"file {letter} snapshot") from error
    return state_behind(letter, file, 4096 * (pages + 1), state)


def judged(a, b):
    """What `rose check` answers of two files: its status, what it gives, and its line on standard error."""
    try:
        return 0, stood_for(a, b).told(), ""
    except Damaged as damage:
        return 5, "", f"rose: damaged: {damage}\n"


# ---- files, made by the same rules
def point_bytes(p):
    return p[0].to_bytes(4, "big") + p[1].to_bytes(4, "big")


def list_bytes(items):
    return len(items).to_bytes(8, "big") + b"".join(items)


def step_bytes(step):
    places = [p for part in step[1:] for p in (part if isinstance(part[0], tuple) else (part,))]
    return bytes([step[0]]) + b"".join(point_bytes(p) for p in places)


def entry_bytes(line, steps):
    return len(line).to_bytes(4, "big") + line + list_bytes([step_bytes(step) for step in steps])


def points_bytes(points):
    return list_bytes([point_bytes(p) for p in points])


def payload_bytes(state):
    if state.is_empty():
        return b""
    originals = [number.to_bytes(4, "big") + point_bytes(a) + point_bytes(b) + points_bytes(chain)
                 for number, ((a, b), chain) in state.originals.items()]
    numbers = {kind: number for number, kind in KINDS.items()}
    values = [bytes([len(name)]) + name.encode() + bytes([numbers[kind]])
              + (points_bytes(parts) if kind == "points" else list_bytes([part.to_bytes(4, "big") for part in parts]))
              for name, (kind, parts) in state.values.items()]
    traces = [number.to_bytes(8, "big") + list_bytes([step_bytes(step) for step in steps]) for number, steps in state.traces]
    return (state.changes.to_bytes(8, "big") + state.next_id.to_bytes(8, "big") + points_bytes(state.points)
            + list_bytes(originals) + list_bytes(values) + list_bytes(traces))


class Writer:
    """The state after some lines, and the two files that stand for it, written by this version of the format. Another version may
    be given between two lines, as when a newer program goes on with the files."""

    def __init__(self, version=VERSIONS[-1]):
        self.state, self.files, self.generation, self.version = State(), [b"", b""], 0, version
        # That of the newest file; 0 where neither counts.
        self.version_of_newest = 0

    def newest(self):
        return 1 - self.generation % 2

    def checkpoint(self):
        """Puts the state on the file that isn't the newest, as the next generation."""
        self.generation, self.version_of_newest = self.generation + 1, self.version
        payload = payload_bytes(self.state)
        parts = [payload[i:i + ROOM] for i in range(0, len(payload), ROOM)]
        file = b"\xa5ROSEREL" + self.version.to_bytes(2, "big")
        file += b"".join(n.to_bytes(8, "big") for n in (self.generation, len(parts), len(payload))) + bytes(4062)
        for number, part in enumerate(parts, 1):
            body = body_of(number, part)
            file += body + hashlib.sha256(body).digest()
        self.files[self.newest()] = file + b"\0"

    def change(self, line):
        """A change with a record of its own."""
        self.append(lambda number: number + self.entry(line))

    def group(self, lines):
        """Changes, two or more, that have one record."""
        self.append(lambda number: bytes(8) + number + list_bytes([self.entry(line) for line in lines]))

    def entry(self, line):
        """Makes a change, and settles it by the first step that is found, again and again."""
        steps, new = [], changed(self.state, line)
        while (step := new.violation()):
            new.take(step)
            steps.append(step)
        self.state = led(self.state, line, tuple(steps))
        return entry_bytes(line, steps)

    def append(self, body_behind):
        """Puts a record with this body, whose first change is the next one, behind the last. Where no file counts, or the newest is
        of an earlier version, it comes behind a generation of its own."""
        if self.version_of_newest < self.version:
            self.checkpoint()
        body = body_behind((self.state.changes + 1).to_bytes(8, "big"))
        file = self.files[self.newest()]
        self.files[self.newest()] = file[:-1] + b"\xa5" + len(body).to_bytes(8, "big") + body + b"\0"
