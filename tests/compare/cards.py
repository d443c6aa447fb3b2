"""Building blocks: commands, stores, sessions, and the answers of a probe program."""

STORE_BYTES = 33400
WORK_BYTES = 13321
RESPONSE_BYTES = 258
MOST_87 = 266

CONTACT, CONTACTLESS = 0, 1

FIXED_PIN = b"123456\xff\xff"
FIXED_PUK = b"12345678"

KEYS = (0x9A, 0x9C, 0x9D, 0x9E)
PIN_KEYS = (0x9A, 0x9C, 0x9D)

FULL_AID = bytes.fromhex("A000000308000010000100")


class Slot:
    def __init__(self, name, tag, capacity, offset, with_pin, contactless):
        self.name = name
        self.tag = bytes.fromhex(tag)
        self.capacity = capacity
        self.offset = offset
        self.with_pin = with_pin
        self.contactless = contactless
        self.ask = tlv(0x5C, self.tag)

    def put_field(self, value):
        """The data field of the PUT DATA that stores this value."""
        if self.tag == b"\x7e":
            return tlv(0x7E, value)
        return self.ask + tlv(0x53, value)

    def read_form(self, value):
        """What GET DATA hands back, joined."""
        return tlv(0x7E if self.tag == b"\x7e" else 0x53, value)


def ber(length):
    if length < 0x80:
        return bytes([length])
    if length < 0x100:
        return bytes([0x81, length])
    return b"\x82" + length.to_bytes(2, "big")


def tlv(tag, value):
    return bytes([tag]) + ber(len(value)) + value


SLOTS = [
    Slot("Capability container", "5FC107", 512, 32, False, False),
    Slot("CHUID", "5FC102", 4096, 546, False, True),
    Slot("Certificate 9A", "5FC105", 2048, 4644, False, False),
    Slot("Fingerprints", "5FC103", 4096, 6694, True, False),
    Slot("Security object", "5FC106", 2048, 10792, False, False),
    Slot("Face", "5FC108", 13312, 12842, True, False),
    Slot("Certificate 9E", "5FC101", 2048, 26156, False, True),
    Slot("Certificate 9C", "5FC10A", 2048, 28206, False, False),
    Slot("Certificate 9D", "5FC10B", 2048, 30256, False, False),
    Slot("Printed information", "5FC109", 512, 32306, True, False),
    Slot("Key history", "5FC10C", 512, 32820, False, False),
    Slot("Discovery", "7E", 64, 33334, False, True),
]
SLOT = {slot.name: slot for slot in SLOTS}


def apdu(cla, ins, p1, p2, data=b"", le=None):
    """A command of the short form. le: None for none, else its byte (0 to 255)."""
    out = bytes([cla, ins, p1, p2])
    if data:
        out += bytes([len(data)]) + data
    if le is not None:
        out += bytes([le])
    return out


def record(limit, tries, value):
    return bytes([limit, tries]) + value


def build_store(pin=FIXED_PIN, puk=FIXED_PUK, pin_limit=3, pin_tries=None, puk_limit=3, puk_tries=None,
                keys=(0, 0, 0, 0), objects=None, filler=None):
    """A store. objects: slot name to contents. filler: None for zeros, else a function that gives n bytes for the slots."""
    out = bytearray(b"OPC\x00\x01\x00\x00\x00")
    out += record(pin_limit, pin_limit if pin_tries is None else pin_tries, pin)
    out += record(puk_limit, puk_limit if puk_tries is None else puk_tries, puk)
    out += bytes(keys)
    for slot in SLOTS:
        contents = (objects or {}).get(slot.name, b"")
        rest = slot.capacity - len(contents)
        out += len(contents).to_bytes(2, "big") + contents + (filler(rest) if filler else bytes(rest))
    assert len(out) == STORE_BYTES
    return bytes(out)


class Session:
    """The session of a probe line: 64 bytes, of which 28 are used."""

    __slots__ = ("interface", "pin", "administrator", "chain", "rest", "challenge", "job")

    def __init__(self, interface=CONTACT, pin=0, administrator=0, chain=None, rest=None, challenge=None, job=None):
        self.interface = interface
        self.pin = pin
        self.administrator = administrator
        self.chain = chain          # (ins, p1, p2, length)
        self.rest = rest            # (whole, fetched)
        self.challenge = challenge  # the expected reply, 8 bytes
        self.job = job              # (key, algorithm, expected length)

    @staticmethod
    def read(raw):
        """From 64 bytes."""
        two = lambda at: raw[at] << 8 | raw[at + 1]
        return Session(raw[0], raw[1], raw[2],
                       (raw[4], raw[5], raw[6], two(7)) if raw[3] else None,
                       (two(10), two(12)) if raw[9] else None,
                       bytes(raw[15:23]) if raw[14] else None,
                       (raw[24], raw[25], two(26)) if raw[23] else None)

    def write(self):
        out = bytearray(64)
        out[0:3] = bytes([self.interface, self.pin, self.administrator])
        if self.chain:
            out[3] = 1
            out[4:7] = bytes(self.chain[:3])
            out[7:9] = self.chain[3].to_bytes(2, "big")
        if self.rest:
            out[9] = 1
            out[10:12] = self.rest[0].to_bytes(2, "big")
            out[12:14] = self.rest[1].to_bytes(2, "big")
        if self.challenge is not None:
            out[14] = 1
            out[15:23] = self.challenge
        if self.job:
            out[23] = 1
            out[24:26] = bytes(self.job[:2])
            out[26:28] = self.job[2].to_bytes(2, "big")
        return bytes(out)

    def changed(self, **fields):
        out = Session.read(self.write())
        for name, value in fields.items():
            setattr(out, name, value)
        return out


class Answer:
    """An answer line of a probe program, taken apart."""

    __slots__ = ("line", "kind", "data", "session", "sums", "number", "key", "algorithm")

    def __init__(self, line):
        self.line = line
        self.session = None
        self.data = b""
        self.sums = ()
        self.number = self.key = self.algorithm = None
        words = line.split(b" ")
        self.kind = words[0].decode("ascii", "replace")
        if len(words) != 6 or self.kind not in ("R", "J", "N", "P"):
            self.kind = line.decode("ascii", "replace")
            return
        self.session = Session.read(bytes.fromhex(words[2].decode()))
        self.sums = tuple(words[3:])
        if self.kind == "R":
            self.data = bytes.fromhex(words[1].decode())
        elif self.kind == "J":
            self.key, self.algorithm = int(words[1][0:2], 16), int(words[1][2:4], 16)
            self.data = bytes.fromhex(words[1][5:].decode())
        elif self.kind == "N":
            self.number = int(words[1])

    @property
    def is_outcome(self):
        return self.session is not None

    @property
    def word(self):
        """The status word of a response, in hex; J for a job; N1 to N7; P; None for a line that is no outcome."""
        if self.kind == "R":
            return self.data[-2:].hex().upper()
        if self.kind == "N":
            return "N%d" % self.number
        return self.kind if self.is_outcome else None

    @property
    def body(self):
        """The response without its status word."""
        return self.data[:-2]


def hexed(raw):
    return raw.hex().upper().encode()


FIXED_STORE = build_store()
RESET_LINES = (
    b"store " + hexed(FIXED_STORE),
    b"work " + hexed(bytes(WORK_BYTES)),
    b"resp " + hexed(bytes(RESPONSE_BYTES)),
    b"session " + hexed(bytes(64)),
)
