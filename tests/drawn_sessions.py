"""Sessions that are drawn by a number, on devices of several stores that hold no packet yet."""

from plain_model import KINDS, WIDTHS, Store

BLOCKS = 24


def device_of(stores):
    """An image of a device that holds these stores without a packet, after docs/FORMATS.md."""
    text = (0).to_bytes(6, "big") + (0).to_bytes(2, "big") + b"\x00" + bytes([len(stores)])
    for it in stores:
        flags = it.storage + 2 * it.is_open
        text += it.identifier.to_bytes(2, "big") + bytes([it.kind]) + it.size.to_bytes(4, "big")
        text += bytes([it.channel, flags]) + bytes(20)
        text += bytes([len(it.patterns)]) + b"".join(it.patterns) + (0).to_bytes(2, "big")
    text += bytes(4 * BLOCKS)
    root = b"PUSSTORE\x01" + BLOCKS.to_bytes(4, "big") + bytes(8)
    image = bytearray(b"\xff" * (65536 * BLOCKS))
    for block in range(3):
        image[65536 * block : 65536 * block + 256] = root.ljust(256, b"\x00")
    checkpoint = len(text).to_bytes(4, "big") + text
    checkpoint += bytes(-len(checkpoint) % 256)
    image[65536 * 3 : 65536 * 3 + len(checkpoint)] = checkpoint
    return bytes(image)


def stores_of(draw):
    """One to four stores of different sizes and both kinds, whose storage is on."""
    stores = []
    for identifier in draw.sample(range(1, 9), draw.randint(1, 4)):
        store = Store(identifier, draw.randint(0, 1), draw.choice([1, 3, 17, 20, 64, 250]), draw.randint(1, 7))
        store.storage, store.is_open = True, draw.random() < 0.7
        store.patterns = [draw.choice([bytes(5), bytes([1, 0, 100, 0, 0]), bytes([2, 0, 101, 3, 0])])]
        stores.append(store)
    return stores


class Session:
    """The lines of a session text, drawn one after another."""

    def __init__(self, draw, identifiers):
        self.draw, self.identifiers, self.time = draw, identifiers + [9], 16

    def line(self):
        self.time = max(self.time + self.draw.choice([0, 0, 1, 1, 2, 30, -20]), 0)
        letter = self.draw.choices("ARGI", [9, 6, 6, 1])[0]
        packet = {"A": self.packet, "R": self.request}.get(letter)
        return f"{letter} {self.time:012x}" + (f" {packet().hex()}" if packet else "")

    def packet(self):
        size = self.draw.choice([7, 20, 60, 240, 241, 300, 1000, 2000, 4096])
        apid = self.draw.choice([100, 100, 101, 102, 2047])
        head = (0x0800 * (size > 19) + apid).to_bytes(2, "big") + self.draw.randbytes(2)
        body = bytes([0x20, 3, self.draw.randint(24, 26)]) + self.draw.randbytes(4089)
        return head + (size - 7).to_bytes(2, "big") + body[: size - 6]

    def field(self, name):
        if name == "store":
            return self.draw.choice(self.identifiers).to_bytes(2, "big")
        if name == "time":
            return max(self.time + self.draw.randint(-40, 20), 0).to_bytes(6, "big")
        if name == "channel":
            return bytes([self.draw.randint(0, 8)])
        form = self.draw.randint(0, 3)
        fields = [0, self.draw.randint(100, 102), 3, self.draw.randint(24, 26)]
        return bytes([form, *fields[: (0, 2, 3, 4)[form]]]).ljust(5, b"\x00")

    def request(self):
        # stores are seldom deleted, and a few requests are of an unknown kind or malformed
        kinds = [it for it in KINDS if it != (15, 21) or self.draw.random() < 0.2]
        service, subtype = self.draw.choice(kinds)
        is_list, fields = KINDS[(service, subtype)]
        many = self.draw.choice([1, 1, 1, 2, 3]) if is_list else 1
        data = bytes([many]) * is_list + b"".join(self.field(it) for _ in range(many) for it in fields)
        if self.draw.random() < 0.05:
            at = self.draw.randint(0, len(data))
            data = data[:at] + self.draw.randbytes(1) + data[at + self.draw.randint(0, 1) :]
        head = self.draw.choices([0x180A, 0x080A, 0x180B], [60, 1, 1])[0].to_bytes(2, "big")
        version = self.draw.choices([0x20, 0x10], [60, 1])[0] + self.draw.randint(0, 15)
        subtype = self.draw.choices([subtype, self.draw.randint(0, 255)], [60, 1])[0]
        body = bytes([version, service, subtype, 0, 0]) + data
        return head + self.draw.randbytes(2) + (len(body) - 1).to_bytes(2, "big") + body


assert set(WIDTHS) == {it for _, fields in KINDS.values() for it in fields}
