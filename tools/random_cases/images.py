"""Lookups and reads in chains of qcow2, VMDK and raw files. The files are laid out at random; what they show is read out of their bytes by
the rules of the formats alone.
"""
from random_cases.texts import WIDTH, runs

BARRED, DAMAGED = "error 8", "error 5"
COPIED, COMPRESSED, ZERO = 1 << 63, 1 << 62, 1
GREATEST = 0x00FF_FFFF_FFFF_FE00


class Damage(Exception):
    """A table says nothing of a place."""


def number(data, at, width):
    """A number at a place, the highest byte first. Past the end all bytes are 0."""
    found = data[at:at + width]
    return int.from_bytes(found + bytes(width - len(found)), "big")


class Qcow2:
    """An image by the bytes of its file, which shows layers below or not."""

    def __init__(self, data, backed):
        self.data, self.backed = data, backed
        self.version, self.bits, self.length = number(data, 4, 4), number(data, 20, 4), number(data, 24, 8)
        self.l1_words, self.l1 = number(data, 36, 4), number(data, 40, 8)
        self.cluster, self.words = 1 << self.bits, 1 << self.bits - 3
        self.known = {}

    def size(self):
        return self.length

    def is_place(self, offset):
        return offset % self.cluster == 0 and offset <= GREATEST

    def entry(self, word):
        """What a word of an L2 table says: kind, host cluster and mark."""
        offset, mark = word & 0x00FF_FFFF_FFFF_FE00, word >> 63
        if word & COMPRESSED:
            offset_bits = 62 - (self.bits - 8)
            if mark or (word & (1 << offset_bits) - 1) >> 56:
                return None
            return "packed", None, None
        reserved = word & 0x3F00_0000_0000_01FE | (word & 1 if self.version == 2 else 0)
        if reserved or not self.is_place(offset):
            return None
        place = offset // self.cluster if offset else None
        if word & ZERO:
            return "zero", place, mark
        return ("data", place, mark) if offset else ("unmapped", None, None)

    def entries(self, table):
        """All entries of an L2 table; one that is damaged damages all."""
        if table not in self.known:
            self.known[table] = [self.entry(number(self.data, table + 8 * i, 8)) for i in range(self.words)]
        if None in self.known[table]:
            raise Damage
        return self.known[table]

    def follows(self, before, after):
        if before[0] != after[0] or before[0] == "packed":
            return False
        if before[0] == "unmapped" or (before[1] is None and after[1] is None):
            return True
        return None not in (before[1], after[1]) and after[1] == before[1] + 1 and before[2] == after[2]

    def lookup(self, at, n):
        """What a run of at least one byte is, where it is, and how long."""
        if at >= self.length:
            return "end", None, 0
        guest = at // self.cluster
        first = guest % self.words
        last = min(self.words - 1, first + (at + n - 1) // self.cluster - guest)
        l1_word = number(self.data, self.l1 + 8 * (guest // self.words), 8) if guest // self.words < self.l1_words else 0
        table = l1_word & 0x00FF_FFFF_FFFF_FE00
        found = self.entries(table) if table else [("unmapped", None, None)] * self.words
        end = first
        while end < last and self.follows(found[end], found[end + 1]):
            end += 1
        length = min(n, self.length - at, (guest - first + end + 1) * self.cluster - at)
        kind, place, _ = found[first]
        if kind == "data":
            return "raw", (0, place * self.cluster + at % self.cluster), length
        if kind == "unmapped":
            return "below" if self.backed else "zero", False, length
        return "zero" if kind == "zero" else "barred", True, length

    def byte(self, storage, place):
        return number(self.data, place, 1)


class Raw:
    """A raw image."""

    backed = False

    def __init__(self, data):
        self.data = data

    def size(self):
        return len(self.data)

    def lookup(self, at, n):
        if at >= len(self.data):
            return "end", None, 0
        return "raw", (0, at), min(n, len(self.data) - at)

    def byte(self, storage, place):
        return number(self.data, place, 1)


class Vmdk:
    """The extents of a descriptor: access, sectors, and a file with its first sector, or None for zeroes."""

    backed = False

    def __init__(self, extents):
        self.extents = extents
        self.files = [file for access, _, file, _ in extents if access != "NOACCESS" and file is not None]

    def size(self):
        return 512 * sum(sectors for _, sectors, _, _ in self.extents)

    def lookup(self, at, n):
        start, storage = 0, 0
        for access, sectors, file, sector in self.extents:
            has_file = access != "NOACCESS" and file is not None
            storage += has_file
            end = start + 512 * sectors
            if at < end:
                length = min(n, end - at)
                if access == "NOACCESS":
                    return "barred", True, length
                return ("raw", (storage, 512 * sector + at - start), length) if has_file else ("zero", True, length)
            start = end
        return "end", None, 0

    def byte(self, storage, place):
        return number(self.files[storage - 1], place, 1)


class Chain:
    """Layers, the highest first."""

    def __init__(self, layers):
        self.layers = layers

    def find(self, at, n):
        """Kind, depth, place and length of a run of at least one byte."""
        for depth, layer in enumerate(self.layers):
            kind, place, length = layer.lookup(at, n)
            if kind == "end":
                return ("end", depth, None, 0) if depth == 0 else ("zero", depth, False, n)
            n = length
            if kind != "below":
                return kind, depth, place if kind == "raw" else place and depth == 0, n
        return "zero", len(self.layers), False, n

    def map(self, at, n):
        try:
            kind, depth, place, length = self.find(at, n)
        except Damage:
            return DAMAGED
        if kind == "raw":
            access = "writable" if isinstance(self.layers[depth], Raw) and depth == 0 else "read_only"
            return f"raw {depth} {place[0]} {place[1]} {access} for {length}"
        if kind == "barred":
            return f"barred {depth} {at} for {length}"
        return f"{'explicit ' if place else ''}{kind} for {length}"

    def read(self, at, n):
        """Bytes as runs, or why they can't be read."""
        found, causes, end = bytearray(), set(), at + n
        while at < end:
            try:
                kind, depth, place, length = self.find(at, end - at)
            except Damage:
                causes.add(DAMAGED)
                kind, length = "damaged", 1
            if kind == "end":
                kind, length = "zero", end - at
            if kind == "barred":
                causes.add(BARRED)
            layer = self.layers[depth] if kind == "raw" else None
            found += bytes(layer.byte(place[0], place[1] + i) for i in range(length)) if layer else bytes(length)
            at += length
        return " | ".join(sorted(causes)) or runs(found)


def header(version, bits, size, l1_words, l1, order=4, backing=b"", extensions=b"", length=104, changes=()):
    """The bytes of a header, with a backing file's name behind it, if one is given."""
    start = length if version > 2 else 72
    area = extensions + bytes(8)
    name = start + len(area)
    fields = [(0, 4, 0x514649FB), (4, 4, version), (8, 8, name if backing else 0), (16, 4, len(backing)), (20, 4, bits), (24, 8, size),
              (36, 4, l1_words), (40, 8, l1), (48, 8, 1 << bits), (56, 4, 1)]
    if version > 2:
        fields += [(96, 4, order), (100, 4, length)]
    data = bytearray(name)
    for at, width, value in fields + list(changes):
        data[at:at + width] = value.to_bytes(width, "big")
    data[start:name] = area
    return bytes(data + backing)


def lines_of(name, data):
    """Lines that make a file of these bytes: zeroes of some length are left out."""
    pieces, at = [], 0
    while at < len(data):
        if not data[at]:
            at += 1
            continue
        end = at + 1
        while end < len(data) and any(data[end:end + 24]):
            end += 1
        pieces.append((at, data[at:end]))
        at = end
    yield f"file {name}"
    for at, piece in pieces:
        while piece:
            length = len(piece)
            while len(f"put {name} {at} {runs(piece[:length])}") > WIDTH:
                length = length * 3 // 4
            yield f"put {name} {at} {runs(piece[:length])}"
            at, piece = at + length, piece[length:]
    yield f"cut {name} {len(data)}"


def an_image(rng, backed):
    """The bytes of an image, at random."""
    version, bits = rng.choice([2, 3, 3]), rng.choice([9, 9, 9, 10, 11, 12])
    cluster, words = 1 << bits, 1 << bits - 3
    count = rng.choice([rng.randint(1, 14), rng.randint(1, 14), words + rng.randint(1, 8)])
    size = count * cluster - rng.choice([0, 0, 1, rng.randrange(cluster)])
    tables = -(-size // (cluster * words))
    order = list(range(2, 2 + 1 + tables + 8))
    if rng.random() < 0.7:
        rng.shuffle(order)
    l1 = order.pop()
    data = bytearray(header(version, bits, size, tables, l1 << bits, backing=b"below" if backed else b""))
    data += bytes((3 + tables + 8) * cluster - len(data))
    contents = order[tables:]
    free = sorted(contents, reverse=True)
    for index in range(tables):
        if rng.random() < 0.05:
            continue
        table = order[index]
        mark = rng.choice([COPIED, 0])
        data[(l1 << bits) + 8 * index:(l1 << bits) + 8 * index + 8] = (table << bits | mark).to_bytes(8, "big")
        fill_table(rng, data, version, bits, table, free, words - 4 if index + 1 < tables else 0)
    for place in contents:
        data[place << bits:place + 1 << bits] = some_runs(rng, cluster)
    return bytes(data)


def some_runs(rng, length):
    """Bytes in few runs."""
    data = bytearray()
    while len(data) < length:
        data += bytes([rng.randrange(1, 256)]) * rng.randint(1, length)
    return bytes(data[:length])


def fill_table(rng, data, version, bits, table, free, start):
    """Words of an L2 table, from one on or near to it: runs of data, of zeroes and of neither."""
    words = 1 << bits - 3
    index = max(0, start - rng.randint(0, 3)) if start else rng.choice([0, 0, 1, 3])
    while index < words and free and rng.random() < 0.9:
        mark = rng.choice([COPIED, COPIED, 0])
        for _ in range(rng.randint(1, 3)):
            kind = rng.choice(["data"] * 6 + ["zero", "kept", "packed", "unmapped"])
            if version == 2 and kind in ("zero", "kept"):
                kind = "unmapped"
            word = {"zero": ZERO | mark, "unmapped": mark, "packed": COMPRESSED | rng.randrange(1 << bits, 3 << bits)}.get(kind)
            if word is None:
                if not free:
                    break
                word = free.pop() << bits | mark | (ZERO if kind == "kept" else 0)
            if index < words:
                data[(table << bits) + 8 * index:(table << bits) + 8 * index + 8] = word.to_bytes(8, "big")
            index += 1
        index += rng.choice([0, 0, 1, 2])
    if rng.random() < 0.03:
        at = (table << bits) + 8 * rng.randrange(words)
        data[at + 7] |= 2


def image(rng):
    """A chain of qcow2 images over a raw file, a descriptor or nothing, and calls that only look."""
    depth = rng.choice([1, 1, 2, 3])
    base = rng.choice(["raw", "vmdk", "none"])
    layers = []
    if base == "raw":
        data = some_runs(rng, rng.randint(1, 3000))
        layers.append(Raw(data))
        yield f"file low {runs(data)}"
        yield "layer raw low"
    elif base == "vmdk":
        made, lines = a_descriptor(rng)
        layers.append(made)
        yield from lines
    for index in range(depth):
        backed = bool(layers)
        data = an_image(rng, backed)
        layers.insert(0, Qcow2(data, backed))
        yield from lines_of(f"image{index}", data)
        yield f"layer qcow2 image{index}{rng.choice(['', ' caches 2 2'])}"
    chain = Chain(layers)
    for _ in range(rng.randint(4, 12)):
        at, n = a_place(rng, layers[0])
        if rng.random() < 0.5:
            yield f"map {at} {n} = {chain.map(at, n)}"
        else:
            yield from reads(chain, at, min(n, 4 * 4096))
    yield f"sizes = {' '.join(str(layer.size()) for layer in layers)}"


def a_place(rng, layer):
    """A range, mostly of the disk, with its ends near those of clusters."""
    size = layer.size()
    near = rng.choice([0, 0, 1, -1, rng.randrange(512)])
    unit = getattr(layer, "cluster", 512)
    at = rng.choice([rng.randrange(size + 600), rng.randrange(min(size // unit + 1, 12)) * unit + near, size - rng.randrange(9 * unit)])
    return max(0, at), rng.choice([1, 2, 512, 513, rng.randint(1, 3000), rng.randint(1, size + 1)])


def reads(chain, at, n):
    """A read, in as many lines as are needed."""
    line = f"read {at} {n} = {chain.read(at, n)}"
    if len(line) <= WIDTH or n < 2:
        yield line
    else:
        yield from reads(chain, at, n // 2)
        yield from reads(chain, at + n // 2, n - n // 2)


def a_descriptor(rng):
    """A descriptor of a few extents, and the lines that make it and its files."""
    extents, lines, files = [], ["line base # Disk DescriptorFile", "line base version=1"], 0
    made = []
    for _ in range(rng.randint(1, 4)):
        access = rng.choice(["RW", "RW", "RDONLY", "NOACCESS"])
        sectors = rng.randint(0, 4)
        if rng.random() < 0.3:
            extents.append((access, sectors, None, 0))
            lines.append(f"line base {access} {sectors} ZERO")
            continue
        sector = rng.choice([0, 0, 1])
        data = some_runs(rng, rng.randint(1, 1800))[:rng.randint(1, 1800)]
        extents.append((access, sectors, data, sector))
        lines.append(f'line base {access} {sectors} FLAT "e{files}" {sector}')
        made.append(f"file e{files} {runs(data)}")
        files += 1
    return Vmdk(extents), ["file base"] + lines + made + ["layer vmdk base"]
