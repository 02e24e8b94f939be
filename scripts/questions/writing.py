"""How questions are written: lines with notes, in which bytes are as short as names make them."""


class Questions:
    """Lines of questions. Bytes are written in digits, or by what `let` named and by repeated bytes where that
    is shorter."""

    window = 8  # bytes that have to be equal before a named value is looked at

    def __init__(self):
        self.lines, self.named, self.places = [], {}, {}

    def note(self, text):
        self.lines.append(f"# {text}")

    def subject(self, text):
        """A note before a group; names of the groups before it are used no more."""
        self.lines += ["", f"# {text}"]
        self.named, self.places = {}, {}

    def let(self, name, data):
        self.lines.append(f"let {name} {self.word(data)}")
        is_known = name in self.named
        self.named[name] = data
        if is_known:
            self.places = {}
        for known, value in (self.named if is_known else {name: data}).items():
            self.find_places(known, value)
        return data

    def let_be(self, name, word):
        """Names the bytes of a word that is written out here. Later words have to write `$NAME` themselves."""
        self.lines.append(f"let {name} {word}")

    def find_places(self, name, data):
        for at in range(len(data) - self.window + 1):
            places = self.places.setdefault(data[at : at + self.window], [])
            if len(places) < 4 and (not places or places[-1][0] != name):
                places.append((name, at))

    def ask(self, verb, *words):
        """A question: bytes as a word, numbers in decimal, texts as they are."""
        told = [self.word(word) if isinstance(word, bytes) else str(word) for word in words]
        line = " ".join([verb, *told])
        assert len(line) <= 65536, len(line)
        self.lines.append(line)

    def word(self, data):
        parts, plain, at = [], b"", 0
        while at < len(data):
            part, size = self.longest(data, at)
            if part is None:
                plain += data[at : at + 1]
                at += 1
                continue
            if plain:
                parts.append(plain.hex())
                plain = b""
            parts.append(part)
            at += size
        if plain:
            parts.append(plain.hex())
        return "+".join(parts) or "-"

    def longest(self, data, at):
        """How the bytes at a place are written shorter than in digits, and how many they are."""
        run, rows, name, size, start = repeats(data, at, 1), repeats(data, at, 32), None, 0, 0
        whole = [(known, 0) for known, value in self.named.items() if value and data.startswith(value, at)]
        for known, place in [*whole, *self.places.get(data[at : at + self.window], ())]:
            same = equal_bytes(data, at, self.named[known], place)
            if same > size:
                name, start, size = known, place, same
        if rows > 1 and 32 * rows > max(run, size):
            return f"{data[at : at + 32].hex()}*{rows}", 32 * rows
        whole = name is not None and size == len(self.named[name])
        if size > run and 2 * size > len(name) + 12 or whole and size == run and len(name) < 4:
            return (f"${name}" if whole else f"${name}/{start}/{start + size}"), size
        return (f"{data[at]:02x}*{run}", run) if run >= 5 else (None, 0)


def repeats(data, at, size):
    """How often the bytes of this size at a place stand there one after another."""
    part, end = data[at : at + size], at
    while len(part) == size and data[end : end + size] == part:
        end += size
    return (end - at) // size


def equal_bytes(one, at, other, place):
    """How many bytes are equal from two places on."""
    size = 0
    while one[at + size : at + size + 64] == other[place + size : place + size + 64] != b"":
        size += 64
    while one[at + size : at + size + 1] == other[place + size : place + size + 1] != b"":
        size += 1
    return min(size, len(one) - at, len(other) - place)


def subjects():
    """A list, and what marks the questions of a subject, which are then in the list with its text. Each subject
    has a generator of its own."""
    found = []

    def subject(text):
        def marked(of):
            found.append((text, of))
            return of

        return marked

    return found, subject
