"""A reader of device images after docs/FORMATS.md, which shares nothing with the program."""

PAGE, BLOCK = 256, 65536
MOST_STORES, MOST_PATTERNS, MOST_RESERVED = 32, 64, 504


class Unlawful(Exception):
    """The octets hold no table."""


def want(condition):
    if not condition:
        raise Unlawful


class Octets:
    """Octets that are taken from the front."""

    def __init__(self, octets):
        self.octets, self.at = octets, 0

    def take(self, count):
        want(self.at + count <= len(self.octets))
        self.at += count
        return self.octets[self.at - count : self.at]

    def number(self, count):
        return int.from_bytes(self.take(count), "big")

    def is_empty(self):
        return self.at == len(self.octets)

    def pattern(self):
        octets = self.take(5)
        form, apid = octets[0], int.from_bytes(octets[1:3], "big")
        want(form <= 3 and apid <= 2047 and not any(octets[(0, 3, 4, 5)[form] or 1 :]))
        return bytes(octets)

    def links(self, count):
        return [(self.number(2), self.number(4)) for _ in range(count)]


def covers(one, other):
    """Whether a pattern covers another, which is its front: a form is followed by so many fields."""
    return one[0] <= other[0] and one[1 : (1, 3, 4, 5)[one[0]]] == other[1 : (1, 3, 4, 5)[one[0]]]


def with_pattern(patterns, pattern, is_added):
    if not is_added:
        want(pattern in patterns)
        return [it for it in patterns if it != pattern]
    if any(covers(it, pattern) for it in patterns):
        return patterns
    patterns = sorted([it for it in patterns if not covers(pattern, it)] + [pattern])
    want(len(patterns) <= MOST_PATTERNS)
    return patterns


def is_up_to(number, other):
    return (other - number) % 2**32 < 2**31


class Store:
    def __init__(self, octets):
        self.patterns, self.blocks = [], []
        self.set_row(octets)

    def set_row(self, octets):
        row = Octets(octets)
        self.identifier, self.kind, self.size, self.channel, self.flags = (row.number(n) for n in (2, 1, 4, 1, 1))
        self.first, self.count, self.behind, self.next, self.end = (row.number(4) for _ in range(5))
        want(self.kind <= 1 and 1 <= self.size <= 100_000 and 1 <= self.channel <= 7 and self.flags < 16)
        want(self.behind <= self.count <= self.size)
        want(self.next < self.end <= self.count if self.flags & 8 else self.next == self.end == 0)

    def reserved(self):
        return self.size // 240 + 3

    def trim(self):
        while self.blocks and (self.count == 0 or len(self.blocks) > 1 and is_up_to(self.blocks[1][1], self.first)):
            self.blocks.pop(0)
        want(len(self.blocks) <= self.reserved())


class Directory:
    def __init__(self):
        self.now, self.reports, self.forward, self.stores = 0, 0, [], []

    def store(self, identifier):
        found = [it for it in self.stores if it.identifier == identifier]
        want(found)
        return found[0]

    def put(self, octets):
        found = [it for it in self.stores if it.identifier == int.from_bytes(octets[:2], "big")]
        if found:
            found[0].set_row(octets)
        else:
            self.stores.append(Store(octets))
        want(len(self.stores) <= MOST_STORES and sum(it.reserved() for it in self.stores) <= MOST_RESERVED)
        (found or self.stores[-1:])[0].trim()

    def clock(self, octets):
        self.now, self.reports = octets.number(6), octets.number(2)
        want(self.reports < 16384)

    def append(self, identifier, links):
        store = self.store(identifier)
        store.blocks += links
        want(links and len(store.blocks) <= store.reserved())

    def change(self, octets):
        tag = octets.number(1)
        if tag == 1:
            self.clock(octets)
        elif tag == 2:
            self.put(octets.take(29))
        elif tag == 3:
            self.stores.remove(self.store(octets.number(2)))
        elif tag in (4, 5):
            identifier = octets.number(2) if tag == 5 else None
            is_added, pattern = octets.number(1), octets.pattern()
            want(is_added <= 1)
            if tag == 4:
                self.forward = with_pattern(self.forward, pattern, is_added)
            else:
                store = self.store(identifier)
                store.patterns = with_pattern(store.patterns, pattern, is_added)
        elif tag == 6:
            identifier = octets.number(2)
            self.append(identifier, octets.links(octets.number(2)))
        else:
            want(tag == 7)
            store = self.store(octets.number(2))
            want(store.blocks)
            store.blocks[-1] = octets.links(1)[0]

    def facts(self):
        return self.now, self.reports, self.forward, [vars(it) for it in self.stores]


def patterns_of(octets):
    patterns = [octets.pattern() for _ in range(octets.number(1))]
    built = []
    for pattern in patterns:
        want(not any(covers(it, pattern) or covers(pattern, it) for it in built))
        built.append(pattern)
    want(patterns == sorted(patterns) and len(patterns) <= MOST_PATTERNS)
    return patterns


def checkpoint_of(text, blocks):
    octets, directory = Octets(text), Directory()
    directory.clock(octets)
    directory.forward = patterns_of(octets)
    for _ in range(octets.number(1)):
        row = octets.take(29)
        want(all(it.identifier != int.from_bytes(row[:2], "big") for it in directory.stores))
        directory.put(row)
        store = directory.stores[-1]
        store.patterns = patterns_of(octets)
        links = octets.links(octets.number(2))
        if links:
            directory.append(store.identifier, links)
    octets.take(4 * blocks)
    want(octets.is_empty())
    return directory


def directory_of(half, blocks):
    """The directory of a half of the journal: its checkpoint, and the entries behind it."""

    def text_at(page, most, end):
        size = int.from_bytes(half[PAGE * page : PAGE * page + 4], "big")
        pages = (size + 4 + PAGE - 1) // PAGE
        want(1 <= size <= most and page + pages <= end)
        return half[PAGE * page + 4 :][:size], page + pages

    text, at = text_at(0, 20476, 512)
    directory = checkpoint_of(text, blocks)
    while at < 511 and half[PAGE * at : PAGE * (at + 1)] == b"\x5a" * PAGE:
        text, at = text_at(at + 1, 5116, 512)
        octets = Octets(text)
        while not octets.is_empty():
            directory.change(octets)
    return directory


def roots_of(image):
    roots = []
    for block in range(3):
        page = image[BLOCK * block : BLOCK * block + PAGE]
        is_root = page[:8] == b"PUSSTORE" and not any(page[21:])
        roots.append(page[8:21] if is_root else None)
    return roots


def agreed(roots, blocks):
    """The halves that count."""
    if roots[0] is not None and roots[0] in roots[1:]:
        chosen = roots[:1]
    elif roots[1] is not None and roots[1] == roots[2]:
        chosen = roots[1:2]
    else:
        want(roots[0] is not None and roots[2] is not None)
        chosen = [roots[0], roots[2]]
    for root in chosen:
        want(root[0] == 1 and int.from_bytes(root[1:5], "big") == blocks)
    return [chosen[0][12] % 2] if len(chosen) == 1 else [0, 1]


def record_at(block, page, number):
    """The stamp and the packet of the record with this number, and the page behind it."""
    octets = Octets(block[PAGE * page :])
    stamp, found, size, zeros = (octets.number(n) for n in (6, 4, 2, 4))
    want(found == number and zeros == 0 and 7 <= size <= 4096)
    packet = octets.take(size)
    want(packet[0] < 0x20 and int.from_bytes(packet[4:6], "big") + 7 == size)
    end = page + (size + 16 + PAGE - 1) // PAGE
    want(end <= PAGE)
    return stamp, packet, end


def records_of(store, image):
    """The stamps and packets of a store that its row counts."""
    blocks, kept = store.blocks, []
    want(bool(blocks) == (store.count != 0))
    if blocks:
        want(is_up_to(blocks[0][1], store.first))
        want(len(blocks) == 1 or not is_up_to(blocks[1][1], store.first))
    behind = [number for _, number in blocks[1:]] + [(store.first + store.count) % 2**32]
    for (block, number), end in zip(blocks, behind):
        octets, page = image[BLOCK * block : BLOCK * (block + 1)], 0
        while number != end:
            stamp, packet, page = record_at(octets, page, number)
            if is_up_to(store.first, number):
                kept.append((stamp, packet))
            number = (number + 1) % 2**32
        want(block == blocks[-1][0] or page >= 240)
    return kept


def words_of(pattern):
    fields = [int.from_bytes(pattern[1:3], "big"), pattern[3], pattern[4]]
    return " ".join([("every", "app", "service", "kind")[pattern[0]], *(str(it) for it in fields[: pattern[0]])])


def store_lines(store, kept, now):
    stamps = [stamp for stamp, _ in kept]
    want(stamps == sorted(stamps) and (not stamps or stamps[-1] <= now))
    pages = sum((len(packet) + 16 + PAGE - 1) // PAGE for _, packet in kept)
    want(pages <= store.size)
    on = lambda flag: "on" if store.flags & flag else "off"
    yield (
        f"store {store.identifier} {('circular', 'bounded')[store.kind]} size {store.size} channel {store.channel}"
        f" storage {on(1)} open {on(2)} behind {store.behind}"
        f" range {f'{store.next} {store.end}' if store.flags & 8 else 'none'}"
        f" told {'yes' if store.flags & 4 else 'no'} packets {len(kept)} pages {pages}"
    )
    yield from (f"pattern {words_of(it)}" for it in store.patterns)
    yield from (f"packet {stamp:012x} {packet.hex()}" for stamp, packet in kept)


def listing_of(image):
    """The listing of the table that an image holds, or None."""
    try:
        blocks = len(image) // BLOCK
        halves = agreed(roots_of(image), blocks)
        found = [directory_of(image[BLOCK * (3 + 2 * it) : BLOCK * (5 + 2 * it)], blocks) for it in halves]
        want(all(it.facts() == found[0].facts() for it in found))
        directory = found[0]
        want(sum(it.reserved() for it in directory.stores) <= blocks - 8)
        used = [block for store in directory.stores for block, _ in store.blocks]
        want(len(set(used)) == len(used) and all(7 <= it < blocks for it in used))
        lines = [f"now {directory.now:012x} reports {directory.reports}"]
        lines += [f"forward {words_of(it)}" for it in directory.forward]
        for store in directory.stores:
            lines += store_lines(store, records_of(store, image), directory.now)
    except Unlawful:
        return None
    return "".join(f"{line}\n" for line in lines)
