"""Calls of disks: a raw image is a list of bytes, an image of words is nothing or a list of bytes, and a chain shows at each place the
first layer that has it.
"""
from random_cases.texts import WIDTH, rounded_up, runs

TOP = 2 ** 64
MODES = ["none", "zero", "format", "full", "data"]
READ_ONLY, PAST_END, RANGE_OVERFLOW, UNSUPPORTED, BARRED, OUTDATED, LIMIT = (f"error {n}" for n in (1, 2, 3, 7, 8, 9, 12))


def some_bytes(rng, length):
    """Bytes in a few runs."""
    data = bytearray()
    while len(data) < length:
        data += bytes([rng.randrange(256)]) * rng.randint(1, 40)
    return bytes(data[:length])


class Raw:
    """A raw image: its bytes, over a storage of these alignments."""

    def __init__(self, rng, size, writable):
        self.memory, self.requests, self.zero, self.discard = (1 << rng.choice([0, 0, 2, 3, 9]) for _ in range(4))
        self.has = rng.choice(["zd", "z", "d", "-"])
        self.writable = writable
        self.data = bytearray(some_bytes(rng, size))
        self.lets_through = False

    def words(self):
        access = "" if self.writable else "read_only "
        given = f" {runs(self.data)}" if self.data else ""
        return f"raw {access}{self.memory} {self.requests} {self.zero} {self.discard} {self.has}{given}"

    def size(self):
        return len(self.data)

    def unit(self):
        return max(self.memory, self.requests)

    def run(self):
        return "raw"

    def give_up(self, at, n):
        """The whole units of a range read as 0, where the storage has discards."""
        unit = max(self.unit(), self.discard)
        start, end = rounded_up(at, unit), (at + n) // unit * unit
        if start < end and self.has.endswith("d"):
            self.data[start:end] = bytes(end - start)


class Words:
    """An image of words: `unmapped`, `zeroed`, `barred` or `mapped`."""

    def __init__(self, size, number, kind, writable, backed, through, data=b""):
        self.length, self.number, self.kind, self.writable, self.backed = size, number, kind, writable, backed
        self.through, self.data = through, bytearray(data)
        self.lets_through = writable and through

    def words(self):
        if self.kind == "mapped":
            return f"holding {self.number} {runs(self.data)}"
        marks = [("read_only", not self.writable), ("backed", self.backed), ("through", self.through), (self.kind, self.kind != "unmapped")]
        return " ".join([f"words {self.length} {self.number}"] + [word for word, is_so in marks if is_so])

    def size(self):
        return self.length

    def unit(self):
        return 1

    def run(self):
        return "raw" if self.kind == "mapped" else self.kind


class Disk:
    """A chain, the lowest layer first."""

    def __init__(self, layers):
        self.layers = layers
        self.top = layers[-1]

    def unit(self):
        return max(layer.unit() for layer in self.layers)

    def value(self, at):
        """The byte at a place, or None where it can't be read."""
        for layer in reversed(self.layers):
            if at >= layer.size():
                return 0
            if layer.run() == "raw":
                return layer.data[at]
            if layer.run() == "barred":
                return None
            if layer.run() == "zeroed" or not layer.backed:
                return 0
        return 0

    def read(self, at, n):
        if n and rounded_up(at + n, self.unit()) >= TOP:
            return RANGE_OVERFLOW
        values = [self.value(at + i) for i in range(n)]
        return BARRED if None in values else runs(values)

    def map(self, at, n):
        """Where a run of at least one byte lies."""
        length, access = n, True
        for depth, layer in enumerate(reversed(self.layers)):
            if at >= layer.size():
                return "end for 0" if depth == 0 else f"zero for {length}"
            length = min(length, layer.size() - at)
            if layer.run() == "raw":
                return f"raw {depth} 0 {at} {'writable' if access and layer.writable else 'read_only'} for {length}"
            if layer.run() == "barred":
                return f"barred {depth} {at} for {length}"
            if layer.run() == "zeroed":
                return f"{'explicit ' if depth == 0 else ''}zero for {length}"
            if not layer.backed:
                return f"zero for {length}"
            access = access and layer.lets_through
        return f"zero for {length}"

    def refusal(self, at, n):
        """Why a change of a range is refused before anything is done."""
        if n == 0:
            return None
        if not self.top.writable:
            return READ_ONLY
        if rounded_up(at + n, self.unit()) >= TOP:
            return RANGE_OVERFLOW
        return PAST_END if at + n > self.top.size() else None

    def held(self):
        """The top layer's bytes, which it maps if it can, or None."""
        if self.top.run() == "unmapped" and not self.top.backed:
            self.top.kind, self.top.data = "mapped", bytearray(self.top.length)
        return self.top.data if self.top.run() == "raw" else None

    def splice(self, at, new):
        """A write of bytes."""
        refusal = self.refusal(at, len(new))
        if refusal or not new:
            return refusal or "ok"
        data = self.held()
        if data is None:
            return LIMIT
        data[at:at + len(new)] = new
        return "ok"

    def discard(self, word, at, n):
        if word in ("zeroes", "to_zero") or (word == "to_backing" and isinstance(self.top, Raw)):
            return self.splice(at, bytes(n))
        refusal = self.refusal(at, n)
        if not refusal and isinstance(self.top, Raw):
            self.top.give_up(at, n)
        return refusal or "ok"

    def resize(self, size):
        top = self.top
        if size == top.size():
            return "ok"
        if not top.writable:
            return READ_ONLY
        if not isinstance(top, Raw):
            return UNSUPPORTED
        del top.data[size:]
        top.data.extend(bytes(size - len(top.data)))
        return "ok"


def a_range(rng, size):
    """A range, mostly of the disk, and seldom at the end of 64 bits."""
    if rng.random() < 0.05:
        return TOP - rng.choice([1, 2, 511, 512, 513, 600]), rng.choice([1, 2])
    return rng.randrange(size + size // 4 + 2), rng.choice([0, 1, 2, rng.randint(1, 40), rng.randint(1, size // 2 + 1)])


def a_chain(rng, number):
    """Layers of random sizes and kinds, the lowest first."""
    size = lambda: rng.choice([rng.randint(1, 40), rng.randint(1, 900)])
    kind = rng.choice(["raw", "raw", "raw", "mapped", "words", "barred"])
    if kind == "raw":
        layers = [Raw(rng, size(), rng.random() < 0.85)]
    elif kind == "mapped":
        data = some_bytes(rng, rng.randint(1, 60))
        layers = [Words(len(data), number, "mapped", True, False, False, data)]
    else:
        layers = [Words(size(), number, "unmapped" if kind == "words" else "barred", rng.random() < 0.9, False, False)]
    for i in range(rng.choice([0, 0, 0, 1, 2, 3])):
        kind = rng.choice(["unmapped"] * 6 + ["zeroed", "barred"])
        layers.append(Words(size(), number + 1 + i, kind, rng.random() < 0.8, True, rng.random() < 0.6))
    return Disk(layers)


def mapping_lines(rng, disk):
    """A run is prepared, written to once and committed or given up."""
    at, n = a_range(rng, disk.top.size())
    refusal = disk.refusal(at, n)
    unmapped = disk.top.run() == "unmapped"
    if refusal or n == 0 or (disk.top.run() != "raw" and (not unmapped or disk.top.backed)):
        answer = refusal or ("0 0 0 done" if n == 0 else LIMIT)
        yield f"prepare {at} {n} = {answer}"
        if n == 0:
            yield "commit"
        return
    yield f"prepare {at} {n} = 0 {at} {n} {'to commit' if unmapped else 'done'}"
    start = rng.randrange(n)
    new = some_bytes(rng, min(rng.randint(1, 20), n - start))
    yield f"write_mapped {at + start} {at + start + 1} {runs(new)} = {disk.refusal(at + start, len(new)) or OUTDATED}"
    yield f"write_mapped {at + start} {at + start} {runs(new)}"
    if unmapped:
        yield f"read {at} {min(n, 8)} = {disk.read(at, min(n, 8))}"
    if not unmapped or rng.random() < 0.6:
        yield "commit"
        disk.splice(at + start, new)
    else:
        yield "cancel"


def a_call(rng, disk):
    """Lines of one call."""
    word = rng.choice(["write", "write", "zeroes", "to_zero", "to_any", "to_backing", "map", "read", "resize", "prepare", "keep"])
    at, n = a_range(rng, disk.top.size())
    if word == "write":
        new = some_bytes(rng, min(n, 30))
        yield f"write {at} {runs(new) if new else ''}".rstrip() + f" = {disk.splice(at, new)}"
    elif word == "map":
        yield f"map {at} {n + 1} = {disk.map(at, n + 1)}"
    elif word == "read":
        yield from reads(disk, at, min(n, 200))
    elif word == "resize":
        size = max(0, disk.top.size() + rng.randint(-60, 60))
        grown = rng.choice([f"resize {size}", f"grow {max(size, disk.top.size())}", f"shrink {min(size, disk.top.size())}"])
        mode = "" if grown.startswith("shrink") else f" {rng.choice(MODES)}"
        yield f"{grown}{mode} = {disk.resize(int(grown.split()[1]))}"
    elif word == "prepare":
        yield from mapping_lines(rng, disk)
    elif word == "keep":
        yield rng.choice(["flush", "sync", "invalidate"])
    else:
        yield f"{word} {at} {n} = {disk.discard(word, at, n)}"


def reads(disk, at, n):
    """A read, in as many lines as are needed."""
    line = f"read {at} {n} = {disk.read(at, n)}"
    if len(line) <= WIDTH or n < 2:
        yield line
    else:
        yield from reads(disk, at, n // 2)
        yield from reads(disk, at + n // 2, n - n // 2)


def disk(rng):
    made = a_chain(rng, 1)
    for layer in made.layers:
        line = f"layer {layer.words()}"
        while len(line) > WIDTH:
            layer.data = layer.data[:len(layer.data) // 2]
            layer.length = len(layer.data)
            line = f"layer {layer.words()}"
        yield line
    for _ in range(rng.randint(4, 14)):
        yield from a_call(rng, made)
    yield f"sizes = {' '.join(str(layer.size()) for layer in reversed(made.layers))}"
    yield from reads(made, 0, made.top.size() + 3)
