"""Writes to qcow2 images over other layers. The image is laid out at random, with each cluster counted as often as it is named; what its
disk shows is read out of the bytes by the rules of the format alone. From there on a disk is a list of bytes: a write in one guest cluster
changes its range at once, whatever the stop, and nothing leaks behind a flush. A call that clears a range changes the whole guest clusters of
it at once that have their entries in one L2 table, and writes zeroes to the rest or leaves that.
"""
from random_cases.images import COMPRESSED, COPIED, ZERO, Chain, Qcow2, Raw, header, lines_of, some_runs
from random_cases.texts import WIDTH, runs

BARRED, OUTSIDE, OLD_VERSION = "error 8", "error 2", "error 11"
STATES = " / "


def shown_by(layers, cluster):
    """The bytes that a chain shows, and which of its clusters can't be read, as they are compressed."""
    found, packed, chain = bytearray(), set(), Chain(layers)
    while len(found) < layers[0].size():
        at = len(found)
        kind, depth, place, length = chain.find(at, cluster - at % cluster)
        if kind == "barred":
            packed.add(at // cluster)
        layer = layers[depth] if kind == "raw" else None
        found += bytes(layer.byte(place[0], place[1] + i) for i in range(length)) if layer else bytes(length)
    return found, packed


class Disk:
    """The bytes that a chain shows, but for guest clusters that can't be read, as they are compressed. `below` has those of the layers below
    the top one, as long as the disk."""

    def __init__(self, layers):
        top = layers[0]
        self.size, self.cluster, self.version, self.words = top.size(), top.cluster, top.version, top.words
        self.bytes, self.packed = shown_by(layers, self.cluster)
        lower = shown_by(layers[1:], self.cluster)[0] if layers[1:] else bytearray()
        self.below = (lower + bytes(self.size))[:self.size]

    def shows(self, at, n):
        if any(guest in self.packed for guest in range(at // self.cluster, (min(at + n, self.size) - 1) // self.cluster + 1)):
            return BARRED
        found = self.bytes[at:at + n]
        return runs(found + bytes(n - len(found)))

    def write(self, at, data):
        """Why it is refused, or nothing."""
        if at + len(data) > self.size:
            return OUTSIDE
        guest = at // self.cluster
        start, end = guest * self.cluster, min(self.size, (guest + 1) * self.cluster)
        if guest in self.packed and (at, at + len(data)) != (start, end):
            return BARRED
        self.packed.discard(guest)
        self.bytes[at:at + len(data)] = data
        return None


    def seen(self):
        return self.bytes[:], set(self.packed)

    def part(self, at, end):
        """The part of a range that the driver clears: where it starts, and how long it is."""
        guest = -(-at // self.cluster)
        last = -(-end // self.cluster) if end == self.size else end // self.cluster
        count = max(0, min(last - guest, self.words - guest % self.words))
        start = guest * self.cluster
        return start, min(end - start, count * self.cluster) if count else 0

    def clear_part(self, start, n, call):
        self.bytes[start:start + n] = self.below[start:start + n] if call == "to_backing" else bytes(n)
        self.packed -= set(range(start // self.cluster, -(-(start + n) // self.cluster)))

    def write_zeroes(self, at, end, states):
        """Why zeroes are refused, or nothing. They are written cluster by cluster."""
        refused = None
        while at < end and refused is None:
            count = min(end - at, self.cluster - at % self.cluster)
            refused, at = self.write(at, bytes(count)), at + count
            states.append(self.seen())
        return refused

    def clear(self, at, n, call, states):
        """Why a call of the chain is refused that clears a range, or nothing. `states` gets what the disk is behind each change."""
        end, writes = at + n, call in ("zeroes", "to_zero")
        if end > self.size:
            return OUTSIDE
        declines, refused = self.version == 2 and call != "to_backing", None
        while at < end and refused is None:
            start, length = (end, 0) if declines else self.part(at, end)
            if length:
                self.clear_part(start, length, call)
                states.append(self.seen())
            elif start == at or declines:
                start = end
            if writes:
                refused = self.write_zeroes(at, min(start, end), states)
            at = start + length
        return refused


class Layout:
    """The clusters of an image: who takes one, and how often each is counted."""

    def __init__(self, rng, bits, order):
        self.rng, self.bits, self.most = rng, bits, min(1 << (1 << order), 1 << 16) - 1
        self.counts, self.shared = [1, 1, 1], []
        self.data = bytearray(3 << bits)

    def take(self):
        """A new cluster, behind some that are free, and hold anything."""
        for count in [0] * self.rng.choice([0, 0, 0, 1, 2]) + [1]:
            self.counts.append(count)
            self.data += some_runs(self.rng, 1 << self.bits)
        return len(self.counts) - 1

    def share(self):
        """A cluster that others name, too, or a new one."""
        if self.shared and self.rng.random() < 0.6 and self.counts[self.shared[-1]] < self.most:
            self.counts[self.shared[-1]] += 1
        else:
            self.shared.append(self.take())
        return self.shared[-1]

    def put(self, at, word):
        self.data[at:at + 8] = word.to_bytes(8, "big")


def a_word(rng, layout, version):
    """The L2 word of a guest cluster."""
    kinds = ["unmapped"] * 3 + ["data"] * 3 + ["single", "shared", "packed"] + (["zero", "kept", "left"] if version > 2 else [])
    kind = rng.choice(kinds)
    if kind == "packed":
        return COMPRESSED | layout.take() << layout.bits | rng.randrange(512)
    if kind in ("unmapped", "zero"):
        return ZERO if kind == "zero" else 0
    place = layout.share() if kind == "shared" else layout.take()
    return place << layout.bits | {"data": COPIED, "kept": COPIED | ZERO, "left": ZERO}.get(kind, 0)


def a_sound_image(rng, backed):
    """The bytes of an image that a checker takes, of which nothing leaks."""
    version = rng.choice([2, 3, 3, 3])
    order = 4 if version == 2 else rng.choice([0, 1, 2, 3, 4, 4, 5, 6])
    bits = rng.choice([9, 9, 9, 10, 12])
    words = 1 << bits - 3
    layout = Layout(rng, bits, order)
    count = rng.choice([rng.randint(1, 14), words + rng.randint(1, 6) if bits == 9 else rng.randint(1, 14)])
    size = (count << bits) - rng.choice([0, 0, 1, rng.randrange(1 << bits)])
    tables = -(-count // words)
    l1_words = tables if tables == 1 or rng.random() < 0.7 else tables - 1
    l1 = layout.take()
    layout.data[l1 << bits:] = bytes(1 << bits)
    for index in range(l1_words):
        if rng.random() < 0.2:
            continue
        table = layout.take()
        layout.data[table << bits:] = bytes(1 << bits)
        layout.put((l1 << bits) + 8 * index, table << bits | rng.choice([COPIED, COPIED, 0]))
        for place in rng.sample(range(min(words, count - index * words)), min(8, count - index * words)):
            layout.put((table << bits) + 8 * place, a_word(rng, layout, version))
    layout.data[:1 << bits] = bytes(1 << bits)
    made = header(version, bits, size, l1_words, l1 << bits, order=order, backing=b"below" if backed else b"")
    layout.data[:len(made)] = made
    layout.put(1 << bits, 2 << bits)
    layout.data[2 << bits:3 << bits] = counters(layout.counts, order, 1 << bits)
    return bytes(layout.data)


def counters(counts, order, length):
    """The bytes of a refcount block: counters of less than 8 bits stand in a byte from its lowest bits on."""
    width = 1 << order
    if width >= 8:
        data = b"".join(count.to_bytes(width // 8, "big") for count in counts)
    else:
        per = 8 // width
        data = bytes(sum(count << width * i for i, count in enumerate(counts[at:at + per])) for at in range(0, len(counts), per))
    return data + bytes(length - len(data))


def a_chain(rng):
    """Layers, the highest first, with the words of each and the lines that make their files."""
    layers, words, lines = [], [], []
    if rng.random() < 0.7:
        data = some_runs(rng, rng.randint(1, 6000))
        layers.append(Raw(data))
        words.append("raw low")
        lines.append(f"file low {runs(data)}")
    for name in rng.choice([["top"], ["top"], ["mid", "top"]]):
        while True:
            data = a_sound_image(rng, bool(layers))
            image = Qcow2(data, bool(layers))
            if name == "top" or not Disk([image] + layers).packed:
                break
        layers.insert(0, image)
        words.insert(0, f"qcow2 {name}")
        lines += lines_of(name, data)
    return layers, words, lines


def a_write(rng, disk):
    """A write or zeroes in one guest cluster, or a bit past the disk's end: its line, and the call's answer."""
    count = -(-disk.size // disk.cluster)
    guest = rng.choice([rng.randrange(count), rng.randrange(count), *sorted(disk.packed)])
    start, end = guest * disk.cluster, min(disk.size, (guest + 1) * disk.cluster)
    at = start if rng.random() < 0.4 else rng.randrange(start, end)
    n = end - at if rng.random() < 0.4 else rng.randint(1, end - at)
    if end == disk.size and rng.random() < 0.1:
        n += 1
    if rng.random() < 0.2:
        call, data = f"zeroes {at} {n}", bytes(n)
    else:
        data = some_runs(rng, n)
        while len(runs(data)) > 100:
            data = some_runs(rng, n)
        call = f"write {at} {runs(data)}"
    refused = disk.write(at, data)
    return at, n, call if refused is None else f"{call} = {refused}"


def a_range(rng, disk):
    """A write or zeroes over any range, or a bit past the disk's end: its line. Guest clusters are written as they rise, up to one that
    refuses its part; zeroes are written to those that aren't whole, behind the whole ones that follow."""
    at = rng.randrange(disk.size)
    if rng.random() < 0.4:
        at -= at % disk.cluster
    n = rng.randint(1, min(disk.size - at, 8 * disk.cluster))
    if rng.random() < 0.4:
        n = min(disk.size, -(-(at + n) // disk.cluster) * disk.cluster) - at
    if at + n == disk.size and rng.random() < 0.1:
        n += 1
    if rng.random() < 0.2:
        refused = disk.clear(at, n, "zeroes", [])
        return f"zeroes {at} {n}" if refused is None else f"zeroes {at} {n} = {refused}"
    data = some_runs(rng, n)
    while len(runs(data)) > 100:
        data = some_runs(rng, n)
    call = f"write {at} {runs(data)}"
    refused = OUTSIDE if at + n > disk.size else None
    while data and refused is None:
        count = disk.cluster - at % disk.cluster
        refused = disk.write(at, data[:count])
        at, data = at + count, data[count:]
    return call if refused is None else f"{call} = {refused}"


def a_clearing(rng, disk, states):
    """A call of a chain or of its driver that clears a range, or a bit more than is on the disk: its line."""
    at = rng.randrange(disk.size)
    if rng.random() < 0.6:
        at -= at % disk.cluster
    n = rng.choice([rng.randint(1, disk.size - at), rng.randint(1, min(disk.size - at, 3 * disk.cluster))])
    if rng.random() < 0.5:
        n = min(disk.size, -(-(at + n) // disk.cluster) * disk.cluster) - at
    if at + n == disk.size and rng.random() < 0.1:
        n += 1
    call = rng.choice(["zeroes", "to_zero", "to_any", "to_backing"])
    if rng.random() < 0.7:
        refused = disk.clear(at, n, call, states)
        return f"{call} {at} {n}" if refused is None else f"{call} {at} {n} = {refused}"
    line = f"driver {'zero' if call == 'zeroes' else call} {at} {n}"
    if at + n > disk.size:
        return f"{line} = {OUTSIDE}"
    if disk.version == 2 and call != "to_backing":
        return f"{line} = {OLD_VERSION}"
    start, length = disk.part(at, at + n)
    disk.clear_part(start, length, call)
    states.append(disk.seen())
    return f"{line} = {start} {length}"


def fitting(line_of, n):
    """The line of a range of n bytes, or of the first ones of these, if it would be too long."""
    while n > 1 and len(line_of(n)) > WIDTH:
        n = n // 2
    return line_of(n)


def some_writes(rng, disk, chain):
    """A few writes, and what each stop of them shows near one of their ends."""
    places, seen = [], [(disk.bytes[:], set(disk.packed))]
    for _ in range(rng.randint(1, 3)):
        at, n, line = a_write(rng, disk)
        yield line
        places += [at, at + n]
        seen.append((disk.bytes[:], set(disk.packed)))
        if rng.random() < 0.2:
            yield "flush"
    at = max(0, rng.choice(places) - rng.randint(1, 6))
    yield fitting(lambda n: f"states {at} {n} {chain} = {states(disk, seen, at, n)}", rng.randint(7, 16))


def states(disk, seen, at, n):
    """What a range shows in one state behind the other."""
    now, texts = (disk.bytes, disk.packed), []
    for disk.bytes, disk.packed in seen:
        text = disk.shows(at, n)
        if texts[-1:] != [text]:
            texts.append(text)
    disk.bytes, disk.packed = now
    return STATES.join(texts)


def opened(rng, words, lines):
    """The lines that open a chain whose top is written, by files of requests of 1 and 4,096 bytes."""
    yield from lines
    yield "keep_logs 1 4096"
    for layer in reversed(words[1:]):
        yield f"layer {layer}"
    yield f"layer {words[0]} writing{rng.choice(['', ' caches 2 2'])}"


def a_read(rng, disk):
    at = rng.randrange(disk.size)
    return fitting(lambda n: f"read {at} {n} = {disk.shows(at, n)}", rng.randint(1, 3 * disk.cluster))


def flushed(rng, disk, chain):
    """A flush, and what the files show by themselves behind it: nothing leaks."""
    yield "flush"
    yield "forget"
    for _ in range(4):
        at = rng.randrange(disk.size)
        yield fitting(lambda n: f"stops {at} {n} {chain} = 1: 0 {disk.shows(at, n)}", rng.randint(1, 3 * disk.cluster))


def written(rng):
    """A chain whose top is written in one guest cluster each time, each stop of which is judged."""
    layers, words, lines = a_chain(rng)
    disk, chain = Disk(layers), " over ".join(words)
    yield from opened(rng, words, lines)
    for _ in range(rng.randint(3, 7)):
        yield from some_writes(rng, disk, chain)
        yield "forget"
        yield a_read(rng, disk)
    yield from flushed(rng, disk, chain)


def ranges(rng):
    """A chain whose top is written over several guest clusters each time."""
    layers, words, lines = a_chain(rng)
    disk, chain = Disk(layers), " over ".join(words)
    yield from opened(rng, words, lines)
    for _ in range(rng.randint(5, 9)):
        yield a_range(rng, disk)
        if rng.random() < 0.2:
            yield "flush"
        yield a_read(rng, disk)
    yield from flushed(rng, disk, chain)


def cleared(rng):
    """A chain whose top is zeroed, discarded and written, each stop of which is judged."""
    layers, words, lines = a_chain(rng)
    disk, chain = Disk(layers), " over ".join(words)
    yield from opened(rng, words, lines)
    for _ in range(rng.randint(4, 8)):
        if rng.random() < 0.4:
            yield a_write(rng, disk)[2]
            if rng.random() < 0.3:
                yield "flush"
            yield "forget"
        seen = [disk.seen()]
        yield a_clearing(rng, disk, seen)
        if rng.random() < 0.2:
            yield "flush"
        # In version 2 zeroes are written to several clusters, of which some may be in a row in the file and change at once.
        for _ in range(2 if disk.version > 2 or len(seen) < 3 else 0):
            at = rng.randrange(disk.size)
            yield fitting(lambda n: f"states {at} {n} {chain} = {states(disk, seen, at, n)}", rng.randint(7, 3 * disk.cluster))
        yield "forget"
        yield a_read(rng, disk)
    yield from flushed(rng, disk, chain)
