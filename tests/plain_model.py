"""The packet store after docs/MODEL.md and docs/FORMATS.md, which shares nothing with the program."""

from plain_reader import Unlawful, covers, with_pattern, words_of

CIRCULAR, BOUNDED = 0, 1


def number_in(octets):
    return int.from_bytes(octets, "big")


def charge(packet):
    """The pages that a packet costs."""
    return (len(packet) + 16 + 255) // 256


def key_of(packet):
    """What patterns cover of a packet: the pattern of its APID, and of its subtype too if it is a report."""
    apid = [packet[0] & 7, packet[1]]
    is_report = packet[0] & 0x18 == 8 and len(packet) >= 19 and packet[6] >> 4 == 2
    return bytes([3, *apid, packet[7], packet[8]] if is_report else [1, *apid, 0, 0])


class Refused(Exception):
    """An instruction fails with this code."""


def refuse(code, condition):
    if condition:
        raise Refused(code)


class Store:
    def __init__(self, identifier, kind, size, channel):
        self.identifier, self.kind, self.size, self.channel = identifier, kind, size, channel
        self.storage = self.is_open = self.told = False
        self.patterns, self.packets, self.behind, self.range = [], [], 0, None

    def pages(self):
        return sum(charge(packet) for _, packet in self.packets)

    def free(self):
        return self.size - self.pages()

    def takes(self, packet):
        return self.storage and any(covers(it, key_of(packet)) for it in self.patterns)

    def put(self, time, packet):
        """Whether the packet has room, which the oldest ones make in a circular store. It is the last one then."""
        need = charge(packet)
        if need > self.size or self.kind == BOUNDED and need > self.free():
            return False
        while need > self.free():
            self.drop(1)
        self.packets.append((time, packet))
        self.told = False
        return True

    def drop(self, count):
        """So many packets leave the front."""
        del self.packets[:count]
        self.behind = max(self.behind - count, 0)
        if self.range:
            self.set_range(*(max(it - count, 0) for it in self.range))

    def set_range(self, first, end):
        self.range = (first, end) if first < end else None

    def count(self, passes):
        return sum(passes(time) for time, _ in self.packets)

    def lines(self):
        on = lambda flag: "on" if flag else "off"
        yield (
            f"store {self.identifier} {('circular', 'bounded')[self.kind]} size {self.size} channel {self.channel}"
            f" storage {on(self.storage)} open {on(self.is_open)} behind {self.behind}"
            f" range {'none' if self.range is None else '%d %d' % self.range}"
            f" told {'yes' if self.told else 'no'} packets {len(self.packets)} pages {self.pages()}"
        )
        yield from (f"pattern {words_of(it)}" for it in self.patterns)
        yield from (f"packet {time:012x} {packet.hex()}" for time, packet in self.packets)


WIDTHS = {"store": 2, "pattern": 5, "time": 6, "channel": 1}

# The kinds of request that are carried out: whether the data is a list, and the fields of an instruction.
KINDS = {
    (14, 1): (True, ["pattern"]),
    (14, 2): (True, ["pattern"]),
    (14, 3): (False, []),
    (15, 1): (True, ["store"]),
    (15, 2): (True, ["store"]),
    (15, 3): (True, ["store", "pattern"]),
    (15, 4): (True, ["store", "pattern"]),
    (15, 5): (False, ["store"]),
    (15, 9): (True, ["store", "time", "time"]),
    (15, 11): (True, ["store", "time"]),
    (15, 12): (True, ["store"]),
    (15, 14): (True, ["store", "time"]),
    (15, 15): (True, ["store"]),
    (15, 16): (True, ["store"]),
    (15, 17): (True, ["store"]),
    (15, 18): (False, []),
    (15, 21): (True, ["store"]),
    (15, 22): (False, []),
    (15, 26): (True, ["store"]),
    (15, 27): (True, ["store"]),
    (15, 28): (True, ["store", "channel"]),
}


def wrong_in_pattern(octets):
    """The place of the first octet that cannot stand there, or None."""
    if octets[0] > 3:
        return 0
    used = (0, 2, 3, 4)[octets[0]]
    for at in range(1, 5):
        if at > used and octets[at] or at == 1 and octets[at] > 7:
            return at
    return None


class Malformed(Exception):
    """The data of a request is malformed at this place."""


def items_of(kind, data):
    """The instructions of the data, each a list of its fields."""
    is_list, fields = KINDS[kind]
    if is_list and not (data and 1 <= data[0] <= 32):
        raise Malformed(0)
    at = 1 if is_list else 0
    many = data[0] if is_list else 1
    end = at + many * sum(WIDTHS[it] for it in fields)
    if len(data) != end:
        raise Malformed(min(len(data), end))
    items = []
    for _ in range(many):
        item = []
        for field in fields:
            octets = data[at : at + WIDTHS[field]]
            wrong = wrong_in_pattern(octets) if field == "pattern" else None
            if wrong is not None:
                raise Malformed(at + wrong)
            item.append(bytes(octets) if field == "pattern" else number_in(octets))
            at += WIDTHS[field]
        items.append(item)
    return items


def changed_patterns(patterns, pattern, is_added):
    try:
        return with_pattern(patterns, pattern, is_added)
    except Unlawful:
        raise Refused(20 if is_added else 21) from None


class Model:
    """The table, and what goes out for each line of a session text."""

    def __init__(self, stores):
        self.now, self.reports, self.forward, self.stores = 0, 0, [], stores

    def listing(self):
        lines = [f"now {self.now:012x} reports {self.reports}"]
        lines += [f"forward {words_of(it)}" for it in self.forward]
        for store in self.stores:
            lines += store.lines()
        return "".join(f"{line}\n" for line in lines)

    def output(self, line):
        """The output lines for an input line."""
        letter, time, *packet = line.split()
        packet = bytes.fromhex("".join(packet))
        lines = {"A": self.arrival, "R": self.request, "G": self.grant, "I": lambda time, packet: []}[letter](
            int(time, 16), packet
        )
        return "".join(f"{it}\n" for it in lines)

    def report(self, service, subtype, time, data):
        head = (0x080A).to_bytes(2, "big") + (0xC000 + self.reports).to_bytes(2, "big")
        body = bytes([0x20, service, subtype, 0, 0, 0, 0]) + time.to_bytes(6, "big") + data
        self.reports = (self.reports + 1) % 16384
        return f"0 {(head + (len(body) - 1).to_bytes(2, 'big') + body).hex()}"

    def arrival(self, time, packet):
        self.now = max(self.now, time)
        if number_in(packet[:2]) & 2047 == 2047:
            return []
        lines = [f"0 {packet.hex()}"] if any(covers(it, key_of(packet)) for it in self.forward) else []
        for store in self.stores:
            if store.takes(packet) and not store.put(self.now, packet):
                if not store.told:
                    numbers = charge(packet).to_bytes(4, "big") + store.free().to_bytes(4, "big")
                    data = b"\x00\x01" + store.identifier.to_bytes(2, "big") + numbers
                    lines.append(self.report(5, 2, time, data))
                store.told = True
        return lines

    def grant(self, time, packet):
        for store in self.stores:
            if store.range:
                at, end = store.range
                store.set_range(at + 1, end)
                return [f"{store.channel} {store.packets[at][1].hex()}"]
        for store in self.stores:
            if store.is_open and store.behind < len(store.packets):
                store.behind += 1
                return [f"{store.channel} {store.packets[store.behind - 1][1].hex()}"]
        return []

    def judgement(self, packet):
        """The code and the detail with which a packet is refused that is no request, or None."""
        if number_in(packet[:2]) & 2047 != 10:
            return 1, number_in(packet[:2]) & 2047
        if not packet[0] & 0x10:
            return 2, 0
        if not packet[0] & 8 or len(packet) < 11:
            return 2, 1
        if packet[6] >> 4 != 2:
            return 2, 256 + (packet[6] >> 4)
        if packet[7] not in (14, 15):
            return 3, packet[7]
        if (packet[7], packet[8]) not in KINDS:
            return 4, packet[8]
        try:
            items_of((packet[7], packet[8]), packet[11:])
        except Malformed as fault:
            return 5, fault.args[0]
        return None

    def request(self, time, packet):
        name = packet[:4]
        refusal = self.judgement(packet)
        if refusal:
            return [self.report(1, 2, time, name + bytes([refusal[0]]) + refusal[1].to_bytes(2, "big"))]
        kind, flags = (packet[7], packet[8]), packet[6] & 15
        items = items_of(kind, packet[11:])
        failures = []
        for number, item in enumerate(items, 1):
            try:
                self.instruct(kind, item)
            except Refused as refused:
                failures.append((number, refused.args[0]))
        lines = [self.report(1, 1, time, name)] if flags & 1 else []
        lines += [self.report(1, 4, time, name + bytes([code]) + n.to_bytes(2, "big")) for n, code in failures]
        lines += [self.report(1, 3, time, name)] if flags & 2 and not failures else []
        content = self.content(kind, items)
        lines += [self.report(kind[0], kind[1] + 1, time, content)] if content is not None else []
        if failures:
            lines.append(self.report(1, 8, time, name + b"\x17" + len(failures).to_bytes(2, "big")))
        elif flags & 8:
            lines.append(self.report(1, 7, time, name))
        return lines

    def found(self, identifier):
        return next((it for it in self.stores if it.identifier == identifier), None)

    def instruct(self, kind, item):
        if kind in ((14, 1), (14, 2)):
            self.forward = changed_patterns(self.forward, item[0], kind == (14, 1))
        elif kind[0] == 15 and kind[1] not in (18, 22):
            store = self.found(item[0])
            refuse(6, store is None)
            self.instruct_store(kind[1], store, item[1:])

    def instruct_store(self, subtype, store, fields):
        if subtype in (1, 2):
            refuse(22, store.storage == (subtype == 1))
            store.storage = subtype == 1
        elif subtype in (3, 4):
            store.patterns = changed_patterns(store.patterns, fields[0], subtype == 3)
        elif subtype == 9:
            refuse(15, fields[0] > fields[1])
            refuse(14, store.range)
            store.set_range(store.count(lambda time: time < fields[0]), store.count(lambda time: time <= fields[1]))
        elif subtype == 11:
            refuse(13, store.is_open)
            refuse(14, store.range)
            store.drop(store.count(lambda time: time <= fields[0]))
            store.told = False
        elif subtype == 14:
            refuse(13, store.is_open)
            store.behind = store.count(lambda time: time < fields[0])
        elif subtype in (15, 16):
            refuse(22, store.is_open == (subtype == 15))
            store.is_open = subtype == 15
        elif subtype == 17:
            refuse(22, not store.range)
            store.range = None
        elif subtype in (21, 26, 27):
            refuse(12, store.storage)
            refuse(13, store.is_open)
            refuse(14, store.range)
            if subtype == 21:
                self.stores.remove(store)
            else:
                refuse(22, store.kind == subtype - 26)
                store.kind, store.told = subtype - 26, False
        elif subtype == 28:
            refuse(11, not 1 <= fields[0] <= 7)
            refuse(13, store.is_open)
            refuse(14, store.range)
            store.channel = fields[0]

    def content(self, kind, items):
        """The data of the report of service 14 or 15 that a request asks for, or None."""
        listed = lambda rows: bytes([len(rows)]) + b"".join(rows)
        if kind == (14, 3):
            return listed(self.forward)
        if kind == (15, 5):
            store = self.found(items[0][0])
            return store and store.identifier.to_bytes(2, "big") + listed(store.patterns)
        if kind == (15, 12):
            stores = [store for store in (self.found(item[0]) for item in items) if store]
            return listed([self.summary(it) for it in stores]) if stores else None
        if kind == (15, 18):
            flags = lambda it: bytes([it.storage, it.is_open, it.range is not None])
            return listed([it.identifier.to_bytes(2, "big") + flags(it) for it in self.stores])
        if kind == (15, 22):
            numbers = lambda it: bytes([it.kind]) + it.size.to_bytes(4, "big") + bytes([it.channel])
            return listed([it.identifier.to_bytes(2, "big") + numbers(it) for it in self.stores])
        return None

    def summary(self, store):
        times = [time for time, _ in store.packets] or [0]
        row = store.identifier.to_bytes(2, "big") + len(store.packets).to_bytes(4, "big")
        row += store.pages().to_bytes(4, "big") + times[0].to_bytes(6, "big") + times[-1].to_bytes(6, "big")
        return row + (len(store.packets) - store.behind).to_bytes(4, "big")
