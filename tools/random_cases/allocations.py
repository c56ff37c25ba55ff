"""Calls of the allocator, over an image that words describe.

The model is a list of counters, the blocks that there are, and the cluster where a search begins. The first run of clusters that
aren't counted is handed out; a block that is lacking for it is made first, in the first free cluster that a block before it counts,
or else in the first cluster of its own, and the run is searched for again. Behind each call the stops that it made are judged.
"""

WIDTHS = [1, 2, 4, 8, 16, 32, 64]


def runs(numbers):
    """Numbers as a script has them: `1*8 0`."""
    parts = []
    for number in numbers:
        if parts and parts[-1][0] == number:
            parts[-1][1] += 1
        else:
            parts.append([number, 1])
    return " ".join(str(n) if count == 1 else f"{n}*{count}" for n, count in parts) or "-"


def spans(clusters):
    """Clusters as a script has them: `8-31 40`."""
    parts = []
    for cluster in sorted(clusters):
        if parts and parts[-1][1] + 1 == cluster:
            parts[-1][1] = cluster
        else:
            parts.append([cluster, cluster])
    return " ".join(str(a) if a == b else f"{a}-{b}" for a, b in parts) or "none"


class Model:
    """What is counted, which blocks there are, and what waits."""

    def __init__(self, width, counted):
        self.per_block = 512 * 8 // width
        self.most = 64 * self.per_block
        self.counts = [1] * counted
        self.blocks = {0: 2}
        self.mark = 0
        self.waiting = []

    def count_of(self, cluster):
        return self.counts[cluster] if cluster < len(self.counts) else 0

    def set_count(self, cluster, count):
        if cluster >= len(self.counts):
            self.counts.extend([0] * (cluster + 1 - len(self.counts)))
        self.counts[cluster] = count

    def make_block(self, index):
        """Makes a lacking block; tells whether it was lacking."""
        if index in self.blocks:
            return False
        for cluster in range(self.mark, index * self.per_block):
            if cluster // self.per_block in self.blocks and self.count_of(cluster) == 0:
                place = cluster
                break
        else:
            place = index * self.per_block
        self.blocks[index] = place
        self.set_count(place, 1)
        return True

    def free_run(self, count):
        first = self.mark
        at = first
        while at - first < count:
            if self.count_of(at) != 0:
                first = at + 1
            at += 1
        return first

    def free(self):
        for first, count, _ in self.waiting:
            for cluster in range(first, first + count):
                assert self.count_of(cluster) > 0
                self.set_count(cluster, self.count_of(cluster) - 1)
                self.mark = min(self.mark, cluster)
        self.waiting = []

    def take(self, count):
        self.free()
        if count == 0:
            return self.mark
        while True:
            first = self.free_run(count)
            indices = range(first // self.per_block, (first + count - 1) // self.per_block + 1)
            if not any([self.make_block(index) for index in indices]):
                break
        assert first + count <= self.most
        for cluster in range(first, first + count):
            self.set_count(cluster, 1)
        if first == self.mark:
            self.mark = first + count
        elif count == 1:
            self.mark = first + 1
        return first

    def take_at(self, cluster):
        self.make_block(cluster // self.per_block)
        if self.count_of(cluster) != 0:
            return False
        self.set_count(cluster, 1)
        if cluster == self.mark:
            self.mark = cluster + 1
        return True

    def structure(self):
        return {0, 1} | set(self.blocks.values())


class Writer:
    """A case, its model, and which clusters words name."""

    def __init__(self, rng, width, counted):
        self.rng = rng
        self.model = Model(width, counted)
        self.lines = []
        self.named = {}
        self.fixed = set()

    def line(self, call, answer=None):
        self.lines.append(call if answer is None else f"{call} = {answer}")

    def settle(self, first, count, kind):
        if self.rng.random() < 0.5:
            self.line("keep")
        else:
            self.model.waiting.append((first, count, kind))
            self.line("return")

    def take(self):
        count = self.rng.choice([0, 1, 1, 2, 3, 5, 8, 13, 21, 30])
        kind = self.rng.choice(["data", "metadata"])
        first = self.model.take(count)
        self.line(f"take {count} {kind}", f"{kind} {first}+{count}")
        self.settle(first, count, kind)

    def take_at(self):
        cluster = self.rng.randrange(min(600, self.model.most))
        if self.model.take_at(cluster):
            self.line(f"take_at {cluster}", f"data {cluster}+1")
            self.settle(cluster, 1, "data")
        else:
            self.line(f"take_at {cluster}", "none")

    def free(self):
        self.line("list", " ".join(f"{k} {f}+{c}" for f, c, k in self.model.waiting) or "nothing")
        self.model.free()
        self.line("free")
        self.line("list", "nothing")

    def flush(self):
        self.line("flush")
        most = len(self.model.counts) + 2
        counts = [self.model.count_of(cluster) for cluster in range(most)]
        self.line(f"counted 0 {most}", runs(counts))
        named = self.model.structure() | self.fixed | set(self.named.values())
        leaks = {cluster for cluster in range(most) if counts[cluster] > 0} - named
        self.line("leaks", spans(leaks))

    def turn(self):
        choice = self.rng.randrange(9)
        if choice < 3:
            self.take()
        elif choice < 5:
            self.take_at()
        elif choice == 5:
            self.free()
        elif choice == 6:
            self.flush()
        elif choice == 7:
            self.line("tables_first")
        else:
            self.line("blocks_first")
        self.line("stops", "sound")

    def table_of(self, guest):
        return 4 + guest // 64, guest % 64

    def map(self, guest):
        cluster = self.model.take(1)
        self.line("take 1 data", f"data {cluster}+1")
        table, index = self.table_of(guest)
        before = self.named.get(guest)
        self.line(f"name {table} {index}", "nothing" if before is None else f"data {before}+1")
        if before is not None:
            self.model.waiting.append((before, 1, "data"))
        self.named[guest] = cluster

    def discard(self, guest):
        table, index = self.table_of(guest)
        before = self.named.pop(guest, None)
        self.line(f"unname {table} {index}", "nothing" if before is None else f"data {before}+1")
        if before is not None:
            self.model.waiting.append((before, 1, "data"))

    def guest_turn(self):
        choice = self.rng.randrange(4)
        guest = self.rng.randrange(24) * 8
        if choice < 2:
            self.map(guest)
        elif choice == 2:
            self.discard(guest)
        else:
            self.turn()
            return
        self.line("stops", "sound")

    def end(self):
        for guest in range(0, 192, 8) if self.fixed else []:
            table, index = self.table_of(guest)
            self.line(f"mapping {table} {index}", self.named.get(guest, "none"))
        self.free()
        self.flush()
        self.line("stops", "sound")


def allocations(rng):
    """Clusters are handed out, kept, given back and freed, in images with counters of each width."""
    width = rng.choice(WIDTHS)
    counted = rng.choice([3, 8, 60, 64])
    writer = Writer(rng, width, counted)
    writer.line(f"made {width} {counted}")
    writer.line(f"open {rng.choice([1, 2])} {rng.choice([1, 2, 4])}")
    for _ in range(24):
        writer.turn()
    writer.end()
    return writer.lines


def mapped(rng):
    """The same, where words of L2 tables name clusters."""
    writer = Writer(rng, 64, 7)
    writer.fixed = {3, 4, 5, 6}
    for line in ["made 64 7", "l1 3 3 98304", "table 0 4", "table 1 5", "table 2 6", "open 2 2"]:
        writer.line(line)
    for _ in range(48):
        writer.guest_turn()
    writer.end()
    return writer.lines


def growing_turn(rng):
    choice = rng.randrange(9)
    settle = f"{rng.choice(['keep', 'return'])} = ok | none"
    if choice < 3:
        return [f"any take {rng.randrange(31)} {rng.choice(['data', 'metadata'])}", settle]
    if choice < 5:
        return [f"any take_at {rng.randrange(6000)}", settle]
    return [["free"], ["flush"], ["tables_first"], [f"grow_by {rng.randrange(3)}"]][choice - 5]


def growing(rng):
    """The same in a small image whose refcount table grows: what is handed out is left open there.

    `any CALL` answers `ok` for each answer but a fault's; `leaks_are_kept` whether as many clusters leak as were kept.
    """
    lines = ["made 64 3", "open 2 2"]
    for _ in range(24):
        lines += growing_turn(rng) + ["stops = sound"]
    return lines + ["free", "flush", "leaks_are_kept = yes", "stops = sound"]
