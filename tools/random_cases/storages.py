"""Calls of storages: any storage shows a list of bytes."""
import itertools

from random_cases.texts import reads, rounded_up, runs


class Storage:
    """What any storage shows: bytes, under padded calls and under calls of whole units."""

    def __init__(self, unit, zero_align, discard_align, has_zeroes, has_discards, keeps=True):
        self.unit = unit
        self.zero_unit = max(unit, zero_align)
        self.discard_unit = max(unit, discard_align)
        self.has_zeroes = has_zeroes
        self.has_discards = has_discards
        self.keeps = keeps
        self.data = bytearray()

    def splice(self, at, new):
        """Writes over what is there and past the end."""
        end = at + len(new)
        if len(self.data) < end:
            self.data.extend(bytes(end - len(self.data)))
        if self.keeps:
            self.data[at:end] = new

    def padded(self, at, new):
        """The same, and the length reaches the end of the last unit."""
        if new:
            self.splice(at, new)
            end = rounded_up(at + len(new), self.unit)
            self.data.extend(bytes(max(0, end - len(self.data))))
        return "ok"

    def whole(self, at, length, unit):
        """The whole units of a range."""
        start, end = rounded_up(at, unit), (at + length) // unit * unit
        return (start, end) if start < end else None

    def write(self, at, new):
        return self.padded(at, new)

    def zeroes(self, at, length):
        return self.padded(at, bytes(length))

    def full(self, at, length):
        return self.padded(at, bytes(length))

    def allocated(self, at, length):
        if self.whole(at, length, self.zero_unit) and not self.has_zeroes:
            return "error 7"
        return self.padded(at, bytes(length))

    def discard(self, at, length):
        whole = self.whole(at, length, self.discard_unit)
        if whole and self.has_discards:
            self.clear(*whole)
        return "ok"

    def clear(self, start, end):
        end = min(end, len(self.data))
        if start < end:
            self.data[start:end] = bytes(end - start)

    def pure_write(self, at, new):
        self.splice(at, new)
        return "ok"

    def pure_zeroes(self, at, length):
        if not self.has_zeroes:
            return "error 7"
        self.splice(at, bytes(length))
        return "ok"

    def pure_allocated(self, at, length):
        return self.pure_zeroes(at, length)

    def pure_discard(self, at, length):
        if not self.has_discards:
            return "error 7"
        self.clear(at, at + length)
        return "ok"

    def resize(self, size):
        del self.data[size:]
        self.data.extend(bytes(size - len(self.data)))
        return "ok"


def a_storage(rng):
    """The words of a storage, and its model."""
    kind = rng.choice(["memory", "empty", "null", "shaped", "shaped", "fuse", "log", "log", "fuse_log"])
    largest = rng.choice([0, 3, 6, 6, 9, 12])
    align = lambda: 1 << rng.randint(0, largest)
    first = bytes(itertools.chain.from_iterable([rng.randrange(256)] * rng.randint(1, 60) for _ in range(rng.randint(0, 4))))
    given = f" {runs(first)}" if first else ""
    if kind == "null":
        model = Storage(1, 1, 1, True, True, keeps=False)
        size = rng.randrange(300)
        model.data = bytearray(size)
        return f"null {size}", model, kind
    if kind in ("memory", "empty"):
        one = align()
        model = Storage(one, one, one, True, True)
        if kind == "memory":
            model.data[:] = first
        return f"{kind} {one}{given if kind == 'memory' else ''}", model, kind
    mem, req, zero, discard = align(), align(), align(), align()
    has = rng.choice(["zd", "zd", "z", "d", "-"])
    passes_discards = kind in ("shaped", "fuse")
    model = Storage(max(mem, req), zero, discard, "z" in has, "d" in has and passes_discards)
    model.data[:] = first
    over = {"shaped": "", "fuse": "fuse 0 ", "log": "log 0 ", "fuse_log": "fuse_log 0 0 "}[kind]
    return f"{over}{mem} {req} {zero} {discard} {has}{given}", model, kind


def some_bytes(rng, length):
    """Bytes in few runs."""
    data = bytearray()
    while len(data) < length:
        data.extend([rng.randrange(256)] * rng.randint(1, max(1, length // 2)))
    return bytes(data[:length])


def a_change(rng, model):
    """A random change: its line, made in the model too."""
    unit = max(rng.choice([1, 8, 32]), rng.choice([1, model.unit, model.zero_unit, model.discard_unit]))
    near = lambda most: max(0, rng.randint(0, most) * unit + rng.choice([0, 0, 1, -1, 3]))
    word = rng.choice(["write", "write", "zeroes", "allocated", "full", "discard", "resize", "pure"])
    if word == "resize":
        size = near(6)
        return f"resize {size} {rng.choice(['none', 'zero', 'allocate', 'data'])} = {model.resize(size)}"
    if word == "pure":
        return a_pure_change(rng, model)
    at, length = near(5), near(4)
    if word == "write":
        data = some_bytes(rng, length)
        return f"write {at}{' ' + runs(data) if data else ''} = {model.write(at, data)}"
    return f"{word} {at} {length} = {getattr(model, word)(at, length)}"


def a_pure_change(rng, model):
    """A random change of whole units."""
    word = rng.choice(["pure_write", "pure_zeroes", "pure_allocated", "pure_discard"])
    unit = {"pure_write": model.unit, "pure_discard": model.discard_unit}.get(word, model.zero_unit)
    at, length = rng.randint(0, 5) * unit, rng.randint(1, 4) * unit
    if word == "pure_write":
        data = some_bytes(rng, length)
        return f"pure_write {at} {runs(data)} = {model.pure_write(at, data)}"
    return f"{word} {at} {length} = {getattr(model, word)(at, length)}"


def storage(rng):
    """A case of one storage: changes, what is read at once, and all that is there at the end."""
    words, model, kind = a_storage(rng)
    yield f"on {words}"
    for _ in range(rng.randint(4, 12)):
        yield a_change(rng, model)
        at, length = rng.randint(0, len(model.data)), rng.randint(0, 40)
        yield from reads(bytes(model.data), at, at + length)
        if rng.random() < 0.2:
            yield f"{rng.choice(['flush', 'sync', 'invalidate'])} = ok"
        if kind == "log" and rng.random() < 0.3:
            yield "in_step = true"
    yield f"size = {len(model.data)}"
    yield from reads(bytes(model.data), 0, len(model.data) + 9)
    if kind == "log":
        yield "in_step = true"
