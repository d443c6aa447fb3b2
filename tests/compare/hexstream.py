"""Lines for hexcard: contact commands on the fixed card, and lines that are none."""
from cards import SLOTS, FULL_AID, FIXED_PIN, FIXED_PUK, apdu, hexed, tlv

WRONG = b"999999\xff\xff"


class Lines:
    """A stream for one run. It keeps a rough count of tries so that the card is blocked late, not early."""

    def __init__(self, random):
        self.random = random
        self.pin, self.puk = FIXED_PIN, FIXED_PUK
        self.pin_tries = self.puk_tries = 3

    def digits(self):
        count = self.random.choice((6, 7, 8))
        return bytes(self.random.randrange(0x30, 0x3A) for _ in range(count)) + b"\xff" * (8 - count)

    def le(self):
        return self.random.choice((None, 0, 0, 1, 5, 23, 24, 25, 255, self.random.randrange(256)))

    def command(self, may_block):
        r = self.random
        kind = r.randrange(24)
        if kind <= 3:
            return apdu(0x00, 0xA4, 0x04, 0x00, r.choice((FULL_AID, FULL_AID, FULL_AID[:9], FULL_AID[:10], b"")), self.le())
        if kind <= 6:
            return apdu(0x00, 0xC0, 0x00, 0x00, b"", self.le())
        if kind <= 9:
            return apdu(0x00, 0xCB, 0x3F, 0xFF, r.choice(SLOTS).ask, self.le())
        if kind == 10:
            self.pin_tries = 3
            return apdu(0x00, 0x20, 0x00, 0x80, self.pin)
        if kind == 11 and (self.pin_tries > 1 or may_block):
            self.pin_tries = max(0, self.pin_tries - 1)
            return apdu(0x00, 0x20, 0x00, 0x80, WRONG)
        if kind == 12:
            return apdu(0x00, 0x20, r.choice((0x00, 0x00, 0xFF)), 0x80)
        if kind == 13 and self.pin_tries:
            new = self.digits()
            raw = apdu(0x00, 0x24, 0x00, 0x80, self.pin + new)
            self.pin, self.pin_tries = new, 3
            return raw
        if kind == 14 and self.puk_tries:
            new = r.randbytes(8)
            raw = apdu(0x00, 0x24, 0x00, 0x81, self.puk + new)
            self.puk, self.puk_tries = new, 3
            return raw
        if kind == 15 and self.puk_tries:
            self.pin, self.pin_tries, self.puk_tries = self.digits(), 3, 3
            return apdu(0x00, 0x2C, 0x00, 0x80, self.puk + self.pin)
        if kind == 16 and (self.puk_tries > 1 or may_block):
            self.puk_tries = max(0, self.puk_tries - 1)
            return r.choice((apdu(0x00, 0x2C, 0x00, 0x80, WRONG + WRONG), apdu(0x00, 0x24, 0x00, 0x81, WRONG + WRONG)))
        if kind == 17:
            return apdu(0x00, r.choice((0x20, 0x24, 0x2C)), 0x00, 0x80, r.randbytes(r.choice((1, 7, 9, 15, 17))))
        if kind == 18:
            return apdu(0x00, 0x87, 0x00, 0x9B, r.choice((bytes.fromhex("7C028100"), bytes.fromhex("7C0A8208") + bytes(8), b"\x7c")), 0)
        if kind == 19:
            return apdu(r.choice((0x00, 0x10)), 0x87, 0x00, 0x9B, r.choice((b"", b"\x7c\x02", b"\x81\x00", r.randbytes(255))))
        if kind == 20:
            return apdu(r.choice((0x00, 0x10)), 0x87, r.choice((0x07, 0x11, 0x00)), r.choice((0x9A, 0x9C, 0x9D, 0x9E)), b"\x7c\x00")
        if kind == 21:
            return apdu(r.choice((0x00, 0x10)), 0xDB, 0x3F, 0xFF, tlv(0x7E, b"abc"))
        if kind == 22:
            return r.randbytes(r.randrange(1, 280))
        raw = bytearray(apdu(0x00, r.choice((0xA4, 0xCB, 0xC0, 0x87, 0xDB, 0x20)), r.choice((0x00, 0x04, 0x3F)),
                             r.choice((0x00, 0x80, 0xFF)), r.randbytes(r.randrange(20)), self.le()))
        raw[r.randrange(len(raw))] ^= 1 << r.randrange(8)
        return bytes(raw)

    def line(self, may_block):
        r = self.random
        text = hexed(self.command(may_block))
        if r.random() < 0.1:
            text = text.lower()
        if r.random() < 0.08:
            return r.choice((b"", b" ", text[:-1], text + b" ", b" " + text, text + b"\r", text[:3] + b"G" + text[4:], b"0", b"\x00",
                             r.randbytes(30).replace(b"\n", b""), b"bad line", text[:2] + b" " + text[2:], b"0x00200080",
                             b"00" * 300, b"0" * 523, b"00" * r.randrange(255, 270)))
        return text

    def text(self, count):
        lines = [self.line(at > count * 3 // 4) for at in range(count)]
        return b"\n".join(lines) + (b"\n" if self.random.random() < 0.5 else b"")


def special_texts(random):
    """Inputs at the edges of what a line is."""
    return [
        b"",
        b"\n\n00200080\n\n0",
        b"00200080\r\n00200080\r\n" + b"\x00" * 3000 + b"\n" + b"00200080\x00\n" + bytes(range(256)) * 8 + b"\n" +
        random.randbytes(60000) + b"\n00200080",
        b"00" * 200000 + b"\n00200080\n" + b"0" * 200001 + b"\n" + b"00" * 200000 + b"g0\n00200080\n" + b"0g" + b"00" * 100000,
    ]
