"""Calls of refcount blocks: each is a list of counters."""
import itertools

from random_cases.texts import reads, runs


class Block:
    """The counters of a refcount block, of 2^order bits each."""

    def __init__(self, cluster_bits, order):
        self.order = order
        self.size = 1 << cluster_bits
        self.greatest = (1 << (1 << order)) - 1
        self.counters = [0] * (self.size * 8 >> order)
        self.is_modified = False

    def data(self):
        """The bytes of the block: big-endian numbers, or parts of a byte, the lowest first."""
        width = 1 << self.order
        if width >= 8:
            return b"".join(c.to_bytes(width // 8, "big") for c in self.counters)
        data = bytearray(self.size)
        for index, counter in enumerate(self.counters):
            data[index * width // 8] |= counter << index * width % 8
        return bytes(data)

    def changed(self, index, by):
        new = self.counters[index] + by
        if not 0 <= new <= self.greatest:
            return "error 17"
        self.counters[index] = new
        self.is_modified = True
        return new


def told(flag):
    return "true" if flag else "false"


def a_count(rng, block, indices):
    """A random call of one counter: its line, made in the model too."""
    index = rng.choice(indices)
    word = rng.choice(["increment", "increment", "decrement", "get", "is_zero", "guard is_zero", "modified"])
    if word == "modified":
        return f"block modified = {told(block.is_modified)}"
    if word == "get":
        return f"block get {index} = {block.counters[index]}"
    if word.endswith("is_zero"):
        return f"block {word} {index} = {told(block.counters[index] == 0)}"
    return f"block {word} {index} = {block.changed(index, 1 if word == 'increment' else -1)}"


def counters(rng):
    """A case of one block: counters are loaded, counted up and down, and written."""
    cluster_bits, order = rng.randint(9, 12), rng.randint(0, 6)
    block = Block(cluster_bits, order)
    count = len(block.counters)
    indices = [0, count - 1] + [rng.randrange(count) for _ in range(4)]
    indices.append(min(count - 1, indices[-1] + 1))
    for index in indices:
        near = rng.choice([0, 1, block.greatest, block.greatest - 1, rng.randint(0, block.greatest)])
        block.counters[index] = max(0, near)
    yield from puts(block.size, block.data())
    yield "on 1"
    yield f"header new {cluster_bits} {order} - - -"
    yield "block load 1"
    yield f"block entries = {count}"
    yield "block modified = false"
    for _ in range(rng.randint(8, 24)):
        yield a_count(rng, block, indices)
    for index in sorted(set(indices)):
        yield f"block get {index} = {block.counters[index]}"
    yield f"block modified = {told(block.is_modified)}"
    yield f"block {rng.choice(['write', 'write_if_modified'])}"
    yield "block modified = false"
    yield from reads(bytes(block.size) + block.data(), block.size, 2 * block.size)


def puts(at, data):
    """Lines that put bytes into a file, but for the zeroes between them."""
    place = at
    for is_zero, group in itertools.groupby(data, lambda byte: byte == 0):
        part = bytes(group)
        if not is_zero:
            yield f"put {place} {runs(part)}"
        place += len(part)
