"""The systematic part: the same for every seed but for filling bytes. Each section walks one group of 01's rules to its edges."""
from cards import CONTACT, CONTACTLESS, FIXED_PIN, FIXED_PUK, FULL_AID, KEYS, SLOT, SLOTS, STORE_BYTES, WORK_BYTES, Session
from cards import apdu, ber, build_store, hexed, tlv

ALL_INS = (0xA4, 0xCB, 0xC0, 0x20, 0x24, 0x2C, 0x87, 0xDB)
SOME_BYTES = (0x00, 0x01, 0x02, 0x03, 0x04, 0x07, 0x11, 0x14, 0x27, 0x3E, 0x3F, 0x40, 0x7E, 0x7F, 0x80, 0x81, 0x82, 0x96, 0x98,
0x99, 0x9A,
              0x9B, 0x9C, 0x9D, 0x9E, 0x9F, 0xFE, 0xFF)
WRONG = b"999999\xff\xff"
MIXED_KEYS = (0x07, 0x11, 0x11, 0x11)


def key_field(d, key, algorithm, data=None):
    """The data field that opens this key's job."""
    if key == 0x9B:
        return bytes.fromhex("7C028100")
    if algorithm == 0x07:
        return tlv(0x7C, b"\x82\x00" + tlv(0x81, data or d.bytes(256)))
    if key == 0x9D:
        return tlv(0x7C, b"\x82\x00" + tlv(0x85, data or b"\x04" + d.bytes(64)))
    return tlv(0x7C, b"\x82\x00" + tlv(0x81, data or d.bytes(32)))


def result_lengths(key, algorithm):
    """The result lengths that this job takes."""
    if key == 0x9B:
        return (16,)
    if algorithm == 0x07:
        return (256,)
    return (32,) if key == 0x9D else range(1, 73)


def issued(d, **more):
    """A card with keys and objects of many lengths, and dirty slots."""
    objects = {slot.name: d.bytes(min(slot.capacity, length)) for slot, length in
               zip(SLOTS, (127, 300, 254, 600, 128, 13312, 255, 256, 0, 512, 1, 64))}
    options = dict(keys=MIXED_KEYS, objects=objects, filler=d.bytes)
    options.update(more)
    d.fresh(**options)


def first_state(d):
    """Before any other line: what a probe holds at its start."""
    d.expect(d.verify_status(), "63C3")
    d.expect(d.cmd(apdu(0x00, 0x24, 0x00, 0x81, FIXED_PUK + FIXED_PUK)), "9000")
    d.expect(d.verify(), "9000")
    d.fail()
    d.on(CONTACT)


# ---------------------------------------------------------------------------------------------- from bytes to a command

def headers(d):
    for interface in (CONTACT, CONTACTLESS):
        d.fresh(interface=interface, keys=MIXED_KEYS, response=d.bytes(400))
        for cla in range(256):
            d.cmd(apdu(cla, 0x20, 0x00, 0x80))
        for ins in range(256):
            d.cmd(apdu(0x00, ins, 0x00, 0x80))
            if ins in ALL_INS or ins % 8 == 0:
                for cla in (0x10, 0x0C, 0x1C, 0x01, 0x80):
                    d.cmd(apdu(cla, ins, 0x00, 0x80))
    d.fresh(interface=CONTACTLESS)
    for ins in ALL_INS:
        for p1, p2 in ((0x00, 0x80), (0x3F, 0xFF), (0x04, 0x00), (0x00, 0x9B)):
            for cla in (0x00, 0x10):
                d.cmd(apdu(cla, ins, p1, p2, b"\x31"))


def lengths(d):
    d.fresh(keys=MIXED_KEYS)
    for length in list(range(0, 24)) + list(range(125, 131)) + list(range(250, 275)) + [300, 400, 511, 512, 1000, 4000, 65541]:
        d.cmd(bytes(length))
        d.cmd((b"\x00\x20\x00\x80\x08" + FIXED_PIN + bytes(65536))[:length])
        d.cmd((b"\x00\xcb\x3f\xff\xff" + bytes(65536))[:length])
        d.cmd((b"\x00\x20\x00\x80" + bytes(65540))[:length])
        d.cmd((b"\x10\x87\x11\x9e" + bytes([max(0, min(255, length - 5))]) + bytes(65540))[:length])
        d.cmd((b"\x10\x87\x11\x9e" + bytes([max(0, min(255, length - 6))]) + bytes(65540))[:length])
    for lc in range(256):
        d.cmd(bytes([0x00, 0xA4, 0x04, 0x00, lc]) + FULL_AID)
        d.cmd(bytes([0x00, 0xA4, 0x04, 0x00, lc]) + bytes(lc))
    # A length-5 command's last byte is always Le.
    for le in range(256):
        d.cmd(bytes([0x00, 0x20, 0x00, 0x80, le]))


def parameters(d):
    issued(d)
    for ins in ALL_INS:
        data = {0xA4: FULL_AID, 0xCB: SLOT["CHUID"].ask, 0x20: WRONG, 0x24: WRONG + WRONG, 0x2C: WRONG + WRONG,
                0x87: key_field(d, 0x9E, 0x11), 0xDB: tlv(0x7E, b"x"), 0xC0: b""}[ins]
        right = {0xA4: (0x04, 0x00), 0xCB: (0x3F, 0xFF), 0xC0: (0x00, 0x00), 0x20: (0x00, 0x80), 0x24: (0x00, 0x80),
                 0x2C: (0x00, 0x80), 0x87: (0x11, 0x9E), 0xDB: (0x3F, 0xFF)}[ins]
        for fixed in (0, 1):
            for other in SOME_BYTES:
                p1, p2 = (right[0], other) if fixed == 0 else (other, right[1])
                d.set_session(Session(administrator=1, pin=other & 1))
                d.records()
                d.cmd(apdu(0x00, ins, p1, p2, data, 0))
                if d.session.job:
                    d.fail()
                if ins in (0x20, 0x24, 0x2C):
                    d.cmd(apdu(0x00, ins, p1, p2))
                if ins in (0x87, 0xDB):
                    d.cmd(apdu(0x10, ins, p1, p2, data, 0))
        # Several things wrong at once: which is said?
        for p1, p2 in ((right[0] ^ 1, right[1] ^ 1), (right[0], right[1] ^ 1), (right[0] ^ 1, right[1]), (0xFF, right[1] ^ 1),
        right):
            for wrong in (b"", b"\x01", data + b"\x00" if data else b"\x5c"):
                for left in (0, 2):
                    for administrator in (0, 1):
                        d.put("store", 8, bytes([3, left]) + FIXED_PIN + bytes([3, left]) + FIXED_PUK)
                        d.set_session(Session(administrator=administrator))
                        d.cmd(apdu(0x00, ins, p1, p2, wrong, 0))


# ---------------------------------------------------------------------------------------------- SELECT, GET DATA, GET RESPONSE

def selects(d):
    for interface in (CONTACT, CONTACTLESS):
        d.fresh(interface=interface, response=d.bytes(300), work=d.bytes(WORK_BYTES))
        for length in range(0, 16):
            d.cmd(apdu(0x00, 0xA4, 0x04, 0x00, (FULL_AID + b"\x00\x00\x00\x00\x00")[:length], 0))
        for at in range(11):
            wrong = bytearray(FULL_AID)
            wrong[at] ^= 1
            d.cmd(apdu(0x00, 0xA4, 0x04, 0x00, bytes(wrong)))
            d.cmd(apdu(0x00, 0xA4, 0x04, 0x00, bytes(wrong[:9])))
        for le in range(0, 30):
            for more in (0, 1, 5, 255):
                d.select(le)
                while d.session.rest:
                    d.get_response(more)
    # Statuses are unchanged, and a held rest, chain or challenge is dropped, in every case.
    for data in (FULL_AID, FULL_AID[:9], b"\x01", b""):
        for p1 in (0x04, 0x00):
            d.fresh(work=d.bytes(WORK_BYTES))
            d.set_session(Session(pin=1, administrator=1, rest=(1000, 10), challenge=d.bytes(8)))
            d.cmd(apdu(0x00, 0xA4, p1, 0x00, data))
            d.set_session(Session(pin=1, administrator=1, chain=(0xDB, 0x3F, 0xFF, 77)))
            d.cmd(apdu(0x00, 0xA4, p1, 0x00, data))


def tags(d):
    for interface in (CONTACT, CONTACTLESS):
        for pin in (0, 1):
            issued(d, interface=interface)
            d.set_session(Session(interface=interface, pin=pin))
            if pin:
                for slot in SLOTS:
                    d.get_data(slot)
            for last in range(256) if not pin else range(16):
                d.cmd(apdu(0x00, 0xCB, 0x3F, 0xFF, bytes([0x5C, 3, 0x5F, 0xC1, last]), 0))
            for tag in ("7E", "7F61", "00007E", "7E0000", "5FC107", "5FC007", "5EC107", "5FC1", "5FC10700", "DFC107", "7F", "00",
            "53",
                        ""):
                raw = bytes.fromhex(tag)
                for form in (tlv(0x5C, raw), tlv(0x5C, raw) + b"\x00", b"\x5c\x81" + bytes([len(raw)]) + raw,
                             b"\x5c\x82\x00" + bytes([len(raw)]) + raw, bytes([0x5C, len(raw) + 1]) + raw,
                             bytes([0x5D, len(raw)]) + raw, bytes([0x5C, max(0, len(raw) - 1)]) + raw, raw):
                    d.cmd(apdu(0x00, 0xCB, 0x3F, 0xFF, form, 0))
            for data in ("5C", "5C03", "5C035F", "5C035FC1", "5C80", "5C81", "5C8103", "5C83000003", "5CFF", "03", "00"):
                d.cmd(apdu(0x00, 0xCB, 0x3F, 0xFF, bytes.fromhex(data), 0))
            d.cmd(apdu(0x00, 0xCB, 0x3F, 0xFF))


def every_le(d):
    """Contents 254 make 257 bytes: each Le from 1 to 256 leaves another number, so each 61XX comes."""
    chuid = SLOT["CHUID"]
    d.fresh(objects={"CHUID": d.bytes(254)}, response=d.bytes(258), work=d.bytes(WORK_BYTES))
    for le in range(256):
        d.get_data(chuid, le)
        if le % 8 == 3:
            while d.session.rest:
                d.get_response(le)
    d.fresh(objects={"CHUID": d.bytes(520)}, response=d.bytes(1024), work=d.bytes(WORK_BYTES))
    for le in range(256):
        d.get_data(chuid, 1)
        d.get_response(le)
        d.get_response(255 - le)
    for le in (None, 0, 1, 255):
        d.cmd(apdu(0x00, 0xCB, 0x3F, 0xFF, chuid.ask, le))
        d.cmd(apdu(0x00, 0xC0, 0x00, 0x00, b"", le))
    # A GET RESPONSE that hands nothing out drops the rest.
    for raw in (apdu(0x00, 0xC0, 0x00, 0x01), apdu(0x00, 0xC0, 0x01, 0x00, b"", 4), apdu(0x00, 0xC0, 0x00, 0x00, b"\x01"),
                apdu(0x00, 0xC0, 0x00, 0x00, b"\x01", 0), apdu(0x10, 0xC0, 0x00, 0x00), apdu(0x0C, 0xC0, 0x00, 0x00),
                bytes.fromhex("00C0000000000000")):
        d.get_data(chuid, 9)
        d.cmd(raw)
        d.get_response(0)
    d.fresh()
    d.get_response(0)
    # From a made-up session: any whole length, anything fetched.
    d.fresh(work=d.bytes(WORK_BYTES))
    for whole, fetched in ((1, 0), (255, 0), (256, 0), (257, 0), (512, 255), (513, 256), (13316, 13315), (13321, 0), (13321, 13320),
                           (13321, 13065), (13321, 13064), (2, 1), (300, 43), (300, 44), (300, 45)):
        for le in (0, 1, 255):
            d.buffer("work", d.bytes(WORK_BYTES)) if le == 0 else d.put("work", 0, d.bytes(600))
            d.set_session(Session(rest=(whole, fetched), challenge=d.bytes(8) if le else None))
            d.get_response(le)
            d.get_response(le)


# ---------------------------------------------------------------------------------------------- PIN and PUK

def tries(d):
    for limit in range(1, 16):
        d.fresh(pin_limit=limit, puk_limit=16 - limit)
        d.verify_status()
        for _ in range(limit + 1):
            d.verify(WRONG)
            d.verify_status()
            d.verify(b"12345")
        d.verify()
        d.cmd(apdu(0x00, 0x24, 0x00, 0x80, d.pin + WRONG))
        d.cmd(apdu(0x00, 0x24, 0x00, 0x80, b""))
        for _ in range(15 - limit):
            d.cmd(apdu(0x00, 0x2C, 0x00, 0x80, WRONG + WRONG))
        d.cmd(apdu(0x00, 0x2C, 0x00, 0x80, d.puk + WRONG))
        d.verify()
        for _ in range(17 - limit):
            d.cmd(apdu(0x00, 0x24, 0x00, 0x81, WRONG + WRONG))
        d.cmd(apdu(0x00, 0x24, 0x00, 0x81, d.puk + WRONG))
        d.cmd(apdu(0x00, 0x2C, 0x00, 0x80, d.puk + WRONG))
        d.cmd(apdu(0x00, 0x2C, 0x00, 0x80, b""))
        d.verify_status()


def references(d):
    """Every command on both references, from every state of PIN status and tries, with every kind of data."""
    halves = {"pin": FIXED_PIN, "puk": FIXED_PUK, "wrong": WRONG, "long": b"12345678", "seven": b"1234567\xff",
              "five": b"12345\xff\xff\xff", "letter": b"12345A\xff\xff", "hole": b"123456\xff7", "low": b"12345\x2f\xff\xff",
              "high": b"12345\x3a\xff\xff",
              "any": bytes(range(8))}
    d.fresh(response=d.bytes(300))
    for pin_tries, puk_tries in ((3, 3), (1, 1), (0, 3), (3, 0), (0, 0)):
        for pin in (0, 1):
            def start():
                d.put("store", 8, bytes([3, pin_tries]) + FIXED_PIN + bytes([3, puk_tries]) + FIXED_PUK)
                d.set_session(Session(pin=pin, administrator=pin))
            some = halves.values() if pin_tries == puk_tries == 3 else [halves[name] for name in ("pin", "puk", "wrong", "five")]
            for first in some:
                start()
                d.cmd(apdu(0x00, 0x20, 0x00, 0x80, first))
                for ins, p2 in ((0x24, 0x80), (0x24, 0x81), (0x2C, 0x80)):
                    for second in (WRONG, halves["hole"], halves["any"]):
                        start()
                        d.cmd(apdu(0x00, ins, 0x00, p2, first + second))
                        if pin_tries == 3 and puk_tries == 3:
                            d.verify_status()
            for ins, p1, p2 in ((0x20, 0x00, 0x80), (0x20, 0xFF, 0x80), (0x24, 0x00, 0x80), (0x24, 0x00, 0x81), (0x2C, 0x00, 0x80)):
                for data in (b"", b"1", FIXED_PIN[:7], FIXED_PIN, FIXED_PIN + b"\xff", FIXED_PIN + FIXED_PIN[:7],
                             FIXED_PUK + FIXED_PIN + b"\xff", FIXED_PIN * 3):
                    start()
                    d.cmd(apdu(0x00, ins, p1, p2, data))
    # Each digit of the PIN and each byte of the PUK counts.
    d.fresh(pin=b"12345678", puk=bytes(range(200, 208)))
    for at in range(8):
        near = bytearray(d.pin)
        near[at] = 0x39 if near[at] != 0x39 else 0x30
        d.records()
        d.verify(bytes(near))
        near = bytearray(d.puk)
        near[at] ^= 0x80
        d.cmd(apdu(0x00, 0x2C, 0x00, 0x80, bytes(near) + d.pin))
        d.cmd(apdu(0x00, 0x24, 0x00, 0x81, bytes(near) + d.puk))
    for at in range(8):
        for byte in range(256):
            value = bytearray(b"12345678")
            value[at] = byte
            if byte in (0x00, 0x2F, 0x30, 0x35, 0x39, 0x3A, 0x7F, 0xFE, 0xFF):
                d.records()
                d.verify(bytes(value))


# ---------------------------------------------------------------------------------------------- GENERAL AUTHENTICATE

def key_rules(d):
    """The rules for each piece, in their order: key, algorithm, interface, PIN, total."""
    for keys in ((0, 0, 0, 0), (7, 7, 7, 7), (0x11, 0, 0x11, 0x11)):
        d.fresh(keys=keys)
        for interface in (CONTACT, CONTACTLESS):
            for pin in (0, 1):
                for key in (0x99, 0x9A, 0x9B, 0x9C, 0x9D, 0x9E, 0x9F):
                    for algorithm in (0x00, 0x03, 0x07, 0x11):
                        if algorithm == 0x03 and pin:
                            continue
                        field = key_field(d, key, algorithm if algorithm in (7, 0x11) else 0x11)
                        d.set_session(Session(interface=interface, pin=pin))
                        if len(field) <= 255:
                            d.cmd(apdu(0x00, 0x87, algorithm, key, field, 0))
                        else:
                            d.chain(0x87, algorithm, key, field)
                        if d.session.job:
                            d.fail()
                        d.cmd(apdu(0x10, 0x87, algorithm, key, b"\x7c"))
                        # A chain of made-up length: the total is tested last.
                        for length in (264, 265) if pin else (266,):
                            d.set_session(Session(interface=interface, pin=pin, chain=(0x87, algorithm, key, length)))
                            d.cmd(apdu(0x10 if algorithm else 0x00, 0x87, algorithm, key, b"\x00\x00"))


def key_forms(d):
    """The one form each key takes, and many that are near it."""
    for key, algorithm, keys in ((0x9C, 0x11, MIXED_KEYS), (0x9D, 0x11, MIXED_KEYS), (0x9D, 0x07, (0, 0, 7, 0)),
                                 (0x9B, 0x00, MIXED_KEYS)):
        d.fresh(keys=keys, work=d.bytes(WORK_BYTES))

        def send(field):
            d.set_session(Session(pin=1))
            d.chain(0x87, algorithm, key, field, 255 if len(field) > 60 else 60, 0)
            if d.session.job:
                d.fail()

        right = key_field(d, key, algorithm)
        send(right)
        for at in range(min(len(right), 12)):
            for flip in (0x01, 0x02, 0x80, 0xFF):
                wrong = bytearray(right)
                wrong[at] ^= flip
                send(bytes(wrong))
            send(right[:at] + right[at + 1:])
            send(right[:at] + b"\x00" + right[at:])
        for cut in (1, 2, 3):
            send(right[:-cut])
        for more in (b"\x00", b"\x81\x00", b"\x82\x00"):
            send(right + more)
        inner = right[4:] if algorithm == 0x07 else right[2:]
        data_tag = 0x85 if (key, algorithm) == (0x9D, 0x11) else 0x81
        for length in (0, 1, 8, 31, 32, 33, 64, 65, 66, 127, 128, 255, 256, 257):
            data = b"\x04" + d.bytes(length - 1) if length else b""
            for tag in (0x81, 0x85):
                send(tlv(0x7C, b"\x82\x00" + tlv(tag, data)))
        for first in (0x00, 0x02, 0x03, 0x04, 0x05):
            send(tlv(0x7C, b"\x82\x00" + tlv(0x85, bytes([first]) + d.bytes(64))))
        data = inner[2:]
        for form in (data + b"\x82\x00", b"\x82\x01\x00" + data, b"\x82\x81\x00" + data, data, b"\x82\x00" + data + data,
                     b"\x80\x00\x82\x00" + data, b"\x82\x00\x80\x00" + data, b"\x82\x00" + data + b"\x80\x00", b"\x82\x00", b"",
                     b"\x80\x00", b"\x81\x00", b"\x82\x08" + d.bytes(8), b"\x82\x07" + d.bytes(7), b"\x82\x09" + d.bytes(9),
                     b"\x81\x00\x82\x00", b"\x82\x08" + d.bytes(8) + b"\x81\x00", b"\x80\x08" + d.bytes(8)):
            send(tlv(0x7C, form))
            send(form)
            send(tlv(0x7D, form))
            send(b"\x7c\x81" + bytes([len(form) & 255]) + form)
            send(b"\x7c\x82" + len(form).to_bytes(2, "big") + form)
            send(b"\x7c\x83\x00" + len(form).to_bytes(2, "big") + form)
            send(b"\x7c\x80" + form + b"\x00\x00")
        send(b"")
        send(b"\x7c")
        send(b"\x7c\x00")
        # The data's own length not in the shortest form, the outer one matching.
        payload = right[-32:]
        for form in (b"\x81\x20", b"\x82\x00\x20"):
            send(tlv(0x7C, b"\x82\x00" + bytes([data_tag]) + form + payload))


def key_pieces(d):
    """Chains of every shape, with every Le at the last piece, and the total of 266."""
    d.fresh(keys=(7, 7, 7, 7), work=d.bytes(WORK_BYTES), response=d.bytes(700))
    d.set_session(Session(pin=1))
    for key in KEYS:
        right = key_field(d, key, 0x07)
        for size in (255, 254, 133, 64, 11, 200):
            d.chain(0x87, 0x07, key, right, size, 0)
            d.done(d.bytes(256))
            while d.session.rest:
                d.get_response(0)
        for split in (0, 1, 11, 12, 254, 255):
            head = right[:split]
            for middle in (b"", right[split:split + 1]):
                tail = right[split + len(middle):]
                if len(tail) > 255:
                    d.cmd(apdu(0x10, 0x87, 0x07, key, tail[:0]))
                    d.cmd(apdu(0x10, 0x87, 0x07, key, head))
                    d.cmd(apdu(0x10, 0x87, 0x07, key, middle))
                    d.cmd(apdu(0x10, 0x87, 0x07, key, tail[:200]))
                    tail = tail[200:]
                else:
                    d.cmd(apdu(0x10, 0x87, 0x07, key, head))
                    d.cmd(apdu(0x10, 0x87, 0x07, key, middle))
                d.cmd(apdu(0x00, 0x87, 0x07, key, tail, 0))
                if d.session.job:
                    d.fail()
        # Le on a piece that is not the last has no effect; that of the last counts.
        for first, last in ((1, 9), (9, None), (None, 1), (0, 255)):
            d.cmd(apdu(0x10, 0x87, 0x07, key, right[:255], first))
            d.cmd(apdu(0x00, 0x87, 0x07, key, right[255:], last))
            d.done(d.bytes(256))
            while d.session.rest:
                d.get_response(100)
        # The whole, and then an empty last piece; one byte more; a first piece sent again.
        for extra in (b"", b"\x00"):
            d.cmd(apdu(0x10, 0x87, 0x07, key, right[:255]))
            d.cmd(apdu(0x10, 0x87, 0x07, key, right[255:]))
            d.cmd(apdu(0x10, 0x87, 0x07, key, extra))
            d.cmd(apdu(0x00, 0x87, 0x07, key, extra))
            if d.session.job:
                d.fail()
        d.cmd(apdu(0x10, 0x87, 0x07, key, right[:255]))
        d.cmd(apdu(0x10, 0x87, 0x07, key, right[:255]))
        d.cmd(apdu(0x00, 0x87, 0x07, key, right[255:]))
    # The small forms in pieces, at every split.
    d.fresh(keys=(0x11, 0x11, 0x11, 0x11), work=d.bytes(WORK_BYTES))
    for key in KEYS + (0x9B,):
        algorithm = 0 if key == 0x9B else 0x11
        right = key_field(d, key, 0x11)
        for split in list(range(0, 9)) + [len(right) - 1, len(right)]:
            d.set_session(Session(pin=1))
            d.cmd(apdu(0x10, 0x87, algorithm, key, right[:split]))
            d.cmd(apdu(0x00, 0x87, algorithm, key, right[split:], 40))
            if d.session.job:
                d.fail()
    # Pieces that break a rule although the chain goes on: only made-up sessions get there.
    for key, algorithm in ((0x9A, 0x11), (0x9A, 0x07), (0x77, 0x11), (0x9B, 0x01)):
        for cla in (0x00, 0x10):
            for pin in (0, 1):
                for interface in (CONTACT, CONTACTLESS):
                    d.put("work", 0, d.bytes(300))
                    d.set_session(Session(interface=interface, pin=pin, chain=(0x87, algorithm, key, 100)))
                    d.cmd(apdu(cla, 0x87, algorithm, key, d.bytes(20)))
    # Made-up chains that a right command does not go on with, by one of INS, P1 and P2 alone.
    d.fresh(keys=(0x11, 0x11, 0x11, 0x11), work=d.bytes(WORK_BYTES))
    for key in KEYS + (0x9B,):
        algorithm = 0 if key == 0x9B else 0x11
        right = key_field(d, key, 0x11)
        for chain in ((0x87, algorithm ^ 1, key, 3), (0x87, 0x07, key, 3), (0x87, algorithm, key ^ 1, 3), (0xDB, algorithm, key, 3),
                      (0x87, algorithm, key, 0), (0x87, algorithm, key, 3)):
            for cla in (0x00, 0x10):
                d.put("work", 0, right[:3] + d.bytes(20))
                d.set_session(Session(pin=1, administrator=1, chain=chain))
                d.cmd(apdu(cla, 0x87, algorithm, key, right))
                if d.session.job:
                    d.fail()
    for chain in ((0xDB, 0x00, 0xFF, 2), (0xDB, 0x3F, 0x00, 2), (0x87, 0x3F, 0xFF, 2), (0xDB, 0x3F, 0xFF, 0),
                  (0xDB, 0x3F, 0xFF, 2)):
        for cla in (0x00, 0x10):
            d.put("work", 0, b"\x7e\x03" + d.bytes(20))
            d.set_session(Session(administrator=1, chain=chain))
            d.cmd(apdu(cla, 0xDB, 0x3F, 0xFF, b"\x7e\x01a"))


def results(d):
    """Every length of a result, every Le, and failed jobs."""
    d.fresh(keys=MIXED_KEYS, response=d.bytes(300), work=d.bytes(WORK_BYTES))
    for key in KEYS + (0x9B,):
        for algorithm in (0x00, 0x07, 0x11):
            if (algorithm == 0) != (key == 0x9B):
                continue
            good = result_lengths(key, algorithm)
            edges = {0, 1, 8, 15, 16, 17, 31, 32, 33, 64, 65, 71, 72, 73, 74, 127, 128, 255, 256, 257, 300, 600}
            for length in sorted(edges | set(range(76) if key == 0x9C else ())):
                for le in (1, 256) if length in good else (256,):
                    # A job of an algorithm that the store does not have is a possible session.
                    d.set_session(Session(job=(key, algorithm, le), pin=length & 1))
                    d.done(d.bytes(length))
            for le in range(1, 257, 1 if key in (0x9B, 0x9D) else 7):
                d.set_session(Session(interface=le & 1, job=(key, algorithm, le)))
                d.done(d.bytes(good[-1]))
                if le % 5 == 0:
                    d.get_response(le & 255)
                    d.get_response(0)
            d.set_session(Session(job=(key, algorithm, 256)))
            d.done(b"")
            d.select()
            d.fail()
            d.fail()
            d.done(d.bytes(good[-1]))
    # Nothing is looked at again when the result comes: no PIN status, no key in the store, no interface.
    d.put("store", 28, bytes(4))
    for key in KEYS:
        for interface in (CONTACT, CONTACTLESS):
            d.set_session(Session(interface=interface, job=(key, 0x11, 256)))
            d.done(d.bytes(32))


def administrator(d):
    """The log-in in all its ways."""
    request = bytes.fromhex("7C028100")
    d.fresh(work=d.bytes(WORK_BYTES), response=d.bytes(400))
    for le in [0, None] + list(range(1, 16)) + [100, 255]:
        for fetch in (False, True):
            reply = d.bytes(8)
            d.challenge(d.bytes(8), reply, le)
            if fetch:
                d.get_response(0)
            d.reply(reply)
            d.set_session(Session())
    for held in (0, 1):
        for near in range(8):
            reply = d.bytes(8)
            d.set_session(Session(administrator=held))
            d.challenge(d.bytes(8), reply)
            wrong = bytearray(reply)
            wrong[near] ^= 0x10
            d.reply(bytes(wrong))
            d.reply(reply)
        for form in ("7C0A8208", "7C0A8208{r}00", "7C0B8209{r}00", "7C098207{r}", "7C0C8208{r}8100", "7C0E8208{r}82020000",
        "7C810A8208{r}",
                     "7C0B828108{r}", "7C0A8108{r}", "7C0A8008{r}", "7C0A8308{r}", "7D0A8208{r}", "820A{r}", "{r}", "7C028200",
                     "7C028000",
                     "7C03810000", "7C0281", "7C02810000", "7C0381 8100", "7C00", "7C", ""):
            reply = d.bytes(8)
            d.set_session(Session(administrator=held))
            d.challenge(d.bytes(8), reply)
            d.cmd(apdu(0x00, 0x87, 0x00, 0x9B, bytes.fromhex(form.replace("{r}", reply.hex()).replace(" ", "")), 0))
            if d.session.job:
                d.fail()
            d.reply(reply)
        # The right reply with CLA 10 answers 9000 and authenticates nobody.
        reply = d.bytes(8)
        d.challenge(d.bytes(8), reply)
        d.cmd(apdu(0x10, 0x87, 0x00, 0x9B, bytes.fromhex("7C0A8208") + reply))
        d.cmd(apdu(0x00, 0x87, 0x00, 0x9B))
        # An empty first piece loses the challenge.
        d.challenge(d.bytes(8), reply)
        d.cmd(apdu(0x10, 0x87, 0x00, 0x9B))
        d.reply(reply)
        # A failed job; a second challenge in place of the first; a refused call in between drops nothing.
        d.cmd(apdu(0x00, 0x87, 0x00, 0x9B, request))
        d.fail()
        d.reply(reply)
        d.challenge(d.bytes(8), d.bytes(8))
        d.challenge(d.bytes(8), reply)
        d.done(b"")
        d.fail()
        d.reply(reply)
        d.reply(reply)
    # Chain beside challenge: the last piece compares.
    for held in (b"", bytes.fromhex("7C0A82"), bytes.fromhex("7C0A82080102030405060708")):
        for reply in (bytes([1, 2, 3, 4, 5, 6, 7, 8]), bytes(8)):
            for cla in (0x00, 0x10):
                field = bytes.fromhex("7C0A82080102030405060708")
                d.put("work", 0, held + d.bytes(40))
                d.set_session(Session(chain=(0x87, 0x00, 0x9B, len(held)), challenge=reply, administrator=1))
                d.cmd(apdu(cla, 0x87, 0x00, 0x9B, field[len(held):]))
                d.put("work", 0, held + d.bytes(40))
                d.set_session(Session(chain=(0xDB, 0x3F, 0xFF, len(held)), challenge=reply))
                d.cmd(apdu(cla, 0x87, 0x00, 0x9B, field))
    # Rest beside challenge.
    d.set_session(Session(rest=(200, 100), challenge=bytes(8)))
    d.reply(bytes(8))
    # On contactless there is no 9B.
    d.set_session(Session(interface=CONTACTLESS, challenge=bytes(8), administrator=1))
    d.reply(bytes(8))
    d.cmd(apdu(0x00, 0x87, 0x00, 0x9B, request))


# ---------------------------------------------------------------------------------------------- PUT DATA

def edge_lengths(capacity):
    return sorted({0, 1, 127, 128, 255, 256, capacity - 1, capacity, capacity + 1})


def put_edges(d):
    """Every slot at every edge, read back whole."""
    issued(d, response=d.bytes(258))
    d.log_in()
    d.verify()
    for slot in SLOTS:
        for length in edge_lengths(slot.capacity):
            size = 255 if length > 600 else (255, 250, 100)[length % 3]
            d.put_object(slot, d.bytes(length), size)
            if length in (1, 256, slot.capacity):
                d.verify()
            if length < 600 or length >= slot.capacity:
                d.read_back(slot, 0)
        for length in (slot.capacity, 1, 0):
            d.put_object(slot, d.bytes(length))
        d.read_back(slot, 100)
    for slot in SLOTS:
        d.put_object(slot, d.bytes(min(slot.capacity, 700)))
    for slot in SLOTS:
        d.read_back(slot, 0)
        d.read_back(slot, 77)
    d.on(CONTACTLESS)
    for slot in SLOTS:
        if slot.contactless:
            d.read_back(slot, 0)


def put_totals(d):
    """The total of 13,321 and one more; and the capacity with long values."""
    face = SLOT["Face"]
    d.fresh(work=d.bytes(WORK_BYTES))
    for length in (13311, 13312, 13313):
        d.log_in()
        d.put_object(face, d.bytes(length), 255)
        d.log_in()
        d.put_object(face, d.bytes(length), 254)
    d.log_in()
    d.chain(0xDB, 0x3F, 0xFF, SLOT["Discovery"].put_field(d.bytes(13317)), 255)   # 13,321 bytes: over the capacity
    d.chain(0xDB, 0x3F, 0xFF, SLOT["Discovery"].put_field(d.bytes(13318)), 255)   # one more: over the total
    d.chain(0xDB, 0x3F, 0xFF, SLOT["Key history"].put_field(d.bytes(13312)), 255)
    d.chain(0xDB, 0x3F, 0xFF, b"\x5c\x03\x5f\xc1\x00" + tlv(0x53, d.bytes(13312)), 255)
    # At the edge, from a made-up chain.
    for held in (13320, 13321):
        for extra in (b"", b"\x00", b"\x00\x00"):
            for cla in (0x00, 0x10):
                d.put("work", 13300, d.bytes(21))
                d.set_session(Session(administrator=1, chain=(0xDB, 0x3F, 0xFF, held)))
                d.cmd(apdu(cla, 0xDB, 0x3F, 0xFF, extra))
                if d.session.chain:
                    d.cmd(apdu(0x10, 0xDB, 0x3F, 0xFF, b"\x00"))
    # No administrator, other parameters, contactless: with a chain that goes on.
    for session in (Session(chain=(0xDB, 0x3F, 0xFF, 30)), Session(chain=(0xDB, 0x3F, 0xFF, 13321)),
                    Session(administrator=1, chain=(0xDB, 0x3F, 0xFE, 30)),
                    Session(interface=1, administrator=1, chain=(0xDB, 0x3F, 0xFF, 30)), Session(chain=(0xDB, 0x00, 0x00, 13321))):
        for cla in (0x00, 0x10):
            for data in (b"", d.bytes(10)):
                d.put("work", 0, d.bytes(60))
                d.set_session(session)
                d.cmd(apdu(cla, *session.chain[:3], data))


def put_forms(d):
    """The two forms, and many that are near them."""
    d.fresh(objects={"CHUID": d.bytes(40), "Discovery": d.bytes(20)}, work=d.bytes(WORK_BYTES))

    def send(field, size=255):
        d.set_session(Session(administrator=1))
        d.chain(0xDB, 0x3F, 0xFF, field, size)

    chuid = SLOT["CHUID"]
    for value in (b"", d.bytes(40), d.bytes(128), d.bytes(256)):
        for right in (chuid.put_field(value), tlv(0x7E, value), b"\x5c\x03\x5f\xc1\x20" + tlv(0x53, value)):
            send(right)
            send(right, 7 if len(right) < 60 else 100)
            send(right + b"\x00")
            send(right[:-1])
            send(right[1:])
            for at in range(min(len(right), 10)):
                for flip in (0x01, 0x80):
                    wrong = bytearray(right)
                    wrong[at] ^= flip
                    send(bytes(wrong))
                send(right[:at] + right[at + 1:])
                send(right[:at])
    for value in (b"", b"x", d.bytes(40), d.bytes(127), d.bytes(128), d.bytes(240), d.bytes(255), d.bytes(256), d.bytes(300)):
        for length in (bytes([len(value) & 255]), b"\x81" + bytes([len(value) & 255]), b"\x82" + len(value).to_bytes(2, "big"),
                       b"\x83\x00" + len(value).to_bytes(2, "big"), b"\x84\x00\x00" + len(value).to_bytes(2, "big"), b"\x80"):
            send(chuid.ask + b"\x53" + length + value)
            send(b"\x7e" + length + value)
            send(b"\x5c" + b"\x81\x03" + chuid.tag + b"\x53" + length + value)
        for field in (b"\x5c\x01\x7e" + tlv(0x53, value), b"\x5c\x01\x7e" + tlv(0x7E, value),
                      b"\x5c\x03\x00\x00\x7e" + tlv(0x53, value),
                      b"\x5c\x02\x7f\x61" + tlv(0x53, value), b"\x7f\x61" + ber(len(value)) + value, chuid.ask + tlv(0x7E, value),
                      tlv(0x53, value) + chuid.ask, tlv(0x53, value), chuid.ask, chuid.ask + chuid.ask + tlv(0x53, value),
                      chuid.ask + tlv(0x53, value) + tlv(0x53, value), tlv(0x7E, value) + tlv(0x7E, value),
                      chuid.ask + tlv(0x53, value) + b"\xfe\x00", b"\x5c\x04\x5f\xc1\x02\x00" + tlv(0x53, value)):
            send(field)
    for last in list(range(0, 32)) + [0x3F, 0x7E, 0x7F, 0x80, 0x82, 0xFF]:
        send(bytes([0x5C, 3, 0x5F, 0xC1, last]) + tlv(0x53, b"abc"))
    for first in (0x00, 0x53, 0x5B, 0x5C, 0x5D, 0x5F, 0x7C, 0x7D, 0x7E, 0x7F, 0xDC, 0xFF):
        send(bytes([first, 3, 0x5F, 0xC1, 0x02]) + tlv(0x53, b"abc"))
    send(b"")
    for session in (Session(), Session(pin=1)):  # no administrator
        for cla in (0x00, 0x10):
            for field in (b"", chuid.put_field(b"abc"), chuid.ask, b"\x7e\x01a"):
                d.set_session(session)
                d.cmd(apdu(cla, 0xDB, 0x3F, 0xFF, field))
    # Pieces of every shape.
    d.fresh(work=d.bytes(WORK_BYTES))
    d.log_in()
    field = chuid.put_field(d.bytes(300))
    for size in (1, 2, 5, 6, 9, 17, 64, 150, 254, 255):
        d.chain(0xDB, 0x3F, 0xFF, field, size)
    for split in range(0, 12):
        d.cmd(apdu(0x10, 0xDB, 0x3F, 0xFF))
        d.cmd(apdu(0x10, 0xDB, 0x3F, 0xFF, field[:split]))
        d.cmd(apdu(0x10, 0xDB, 0x3F, 0xFF))
        d.cmd(apdu(0x10, 0xDB, 0x3F, 0xFF, field[split:200]))
        d.cmd(apdu(0x10, 0xDB, 0x3F, 0xFF, field[200:]))
        d.cmd(apdu(0x00, 0xDB, 0x3F, 0xFF))
    d.read_all(chuid)
    # A whole form sent while a chain is open is appended like any other piece.
    whole = SLOT["Discovery"].put_field(b"abc")
    d.cmd(apdu(0x10, 0xDB, 0x3F, 0xFF, whole))
    d.cmd(apdu(0x00, 0xDB, 0x3F, 0xFF, whole))
    d.cmd(apdu(0x10, 0xDB, 0x3F, 0xFF, whole))
    d.cmd(apdu(0x00, 0xDB, 0x3F, 0xFF, b"", 0))


# ---------------------------------------------------------------------------------------------- things that cross

def crossing_lines(d):
    """Lines of every kind, to be sent while something is held."""
    c = lambda raw: b"cmd " + hexed(raw)
    chuid, face = SLOT["CHUID"], SLOT["Face"]
    out = [c(bytes.fromhex(text)) for text in
           ("", "00", "00A404", "0087119E", "1087119E05AABB", "00A40400000000", "0C87119E", "1C87119E", "8087119E", "0187119E",
           "00000000",
            "00880000", "10A40400", "10CB3FFF", "10C00000", "10200080", "10240080", "102C0080", "00C00000", "00C0000001",
            "00C0000100",
            "00C000000101", "00200080", "00FF0080", "0020FF80", "00200180", "00200081", "00240081", "00240082", "002C0081",
            "002C0080",
            "0087009B", "0087009B047C02810000", "1087009B047C028100", "1087009B", "0087009C", "0087079E", "0087119F", "10DB3FFF",
            "00DB3FFF",
            "10DB3FFE", "00DB3FFF037E0161", "10DB3FFF025C03", "1087119E027C24", "0087119E027C24", "1087079A027C82",
            "0087079A027C82",
            "1087119C", "0087119D")]
    out += [c(bytes(300)), c(apdu(0x00, 0xA4, 0x04, 0x00, FULL_AID)), c(apdu(0x00, 0xA4, 0x04, 0x00, FULL_AID, 3)),
            c(apdu(0x00, 0xA4, 0x00, 0x00, FULL_AID)), c(apdu(0x00, 0xA4, 0x04, 0x00, b"\xa0")),
            c(apdu(0x00, 0xCB, 0x3F, 0xFF, chuid.ask, 0)), c(apdu(0x00, 0xCB, 0x3F, 0xFF, face.ask, 0)),
            c(apdu(0x00, 0xCB, 0x3F, 0xFF, SLOT["Certificate 9D"].ask, 0)), c(apdu(0x00, 0xCB, 0x3F, 0xFF, b"\x5c\x01\x7e")),
            c(apdu(0x00, 0xCB, 0x3F, 0xFF, b"\x5c")), c(apdu(0x00, 0x20, 0x00, 0x80, d.pin)),
            c(apdu(0x00, 0x20, 0x00, 0x80, WRONG)),
            c(apdu(0x00, 0x20, 0x00, 0x80, b"12345")), c(apdu(0x00, 0x24, 0x00, 0x80, d.pin + d.pin)),
            c(apdu(0x00, 0x24, 0x00, 0x81, WRONG + d.puk)), c(apdu(0x00, 0x2C, 0x00, 0x80, d.puk + d.pin)),
            c(apdu(0x00, 0x2C, 0x00, 0x80, WRONG + d.pin)), c(apdu(0x00, 0x87, 0x11, 0x9E, key_field(d, 0x9E, 0x11))),
            c(apdu(0x00, 0x87, 0x00, 0x9B, bytes.fromhex("7C0A8208") + bytes(8))),
            b"on 0", b"on 1", b"done ", b"done 00", b"done " + b"11" * 16, b"fail", b"bad", b"cmd 0", b"put work 20000 00"]
    return out


def crossings(d):
    """Each line of every kind, sent in the middle of each thing that can be held; then the thing is gone on with."""
    rsa, ec, challenge_reply = key_field(d, 0x9A, 0x07), key_field(d, 0x9E, 0x11), bytes(range(8))
    stored = SLOT["Key history"].put_field(d.bytes(300))

    def first(ins, p1, p2, data):
        return lambda: d.cmd(apdu(0x10, ins, p1, p2, data))

    def last(ins, p1, p2, data):
        return lambda: d.cmd(apdu(0x00, ins, p1, p2, data, 0))

    def held_rest():
        d.get_data(SLOT["CHUID"], 50)
        d.get_response(20)

    states = [
        (first(0x87, 0x07, 0x9A, rsa[:255]), last(0x87, 0x07, 0x9A, rsa[255:])),
        (first(0x87, 0x11, 0x9E, ec[:20]), last(0x87, 0x11, 0x9E, ec[20:])),
        (first(0x87, 0x00, 0x9B, b"\x7c\x02"), last(0x87, 0x00, 0x9B, b"\x81\x00")),
        (first(0xDB, 0x3F, 0xFF, stored[:160]), last(0xDB, 0x3F, 0xFF, stored[160:])),
        (held_rest, lambda: d.get_response(0)),
        (lambda: d.challenge(d.bytes(8), challenge_reply), lambda: d.reply(challenge_reply)),
        (lambda: d.challenge(d.bytes(8), challenge_reply, 5), lambda: d.reply(challenge_reply)),
        (lambda: d.cmd(apdu(0x00, 0x87, 0x11, 0x9E, ec, 30)), lambda: d.done(d.bytes(40))),
        (lambda: d.verify(), lambda: d.verify_status()),
    ]
    for begin, go_on in states:
        issued(d, work=d.bytes(WORK_BYTES), response=d.bytes(500))
        for line in crossing_lines(d):
            d.records()
            d.put("work", 0, d.bytes(400))
            d.set_session(Session(pin=1, administrator=1))
            begin()
            verb = line.split(b" ")[0].decode()
            if verb == "cmd" and line != b"cmd 0":
                d.cmd(bytes.fromhex(line[4:].decode()))
            elif verb == "done":
                d.done(bytes.fromhex(line[5:].decode()))
            elif verb == "fail":
                d.fail()
            elif verb == "on":
                d.on(int(line[3:]))
                if line == b"on 0":
                    d.set_session(d.session.changed(pin=1, administrator=1))
            else:
                d.raw(line)
            go_on()
            if d.session.job:
                d.fail()


# ---------------------------------------------------------------------------------------------- calls the host may not make

def sessions(d):
    """Refusal 2, clause by clause, with the possible sessions next to it."""
    d.fresh(keys=MIXED_KEYS)
    eight = bytes(range(8))
    cases = []
    for length in (0, 1, 265, 266, 267, 13320, 13321, 13322, 65535):
        cases += [Session(chain=(0x87, 0x11, 0x9E, length)), Session(chain=(0xDB, 0x3F, 0xFF, length)),
                  Session(chain=(0xDB, 0x00, 0x00, length), administrator=1)]
    for whole in (0, 1, 2, 256, 13316, 13320, 13321, 13322, 65535):
        for fetched in (0, 1, 256, whole - 1, whole, whole + 1, 65535):
            if 0 <= fetched <= 65535:
                cases.append(Session(rest=(whole, fetched)))
    chain, rest, job = (0xDB, 0x3F, 0xFF, 10), (20, 10), (0x9E, 0x11, 256)
    for mask in range(16):
        cases.append(Session(chain=chain if mask & 1 else None, rest=rest if mask & 2 else None,
                             challenge=eight if mask & 4 else None, job=job if mask & 8 else None))
        cases.append(cases[-1].changed(interface=1, pin=1, administrator=1))
    for key in [0x00, 0x03, 0x04, 0x80, 0x81, 0x82, 0x95, 0xFF] + list(range(0x98, 0xA1)):
        for algorithm in (0x00, 0x07, 0x11) if key in range(0x98, 0xA0) else (0x07,):
            cases.append(Session(job=(key, algorithm, 100)))
    for algorithm in (0x01, 0x03, 0x05, 0x06, 0x08, 0x0A, 0x0C, 0x10, 0x12, 0x14, 0x27, 0x2E, 0x87, 0x91, 0xFF):
        for key in (0x9B, 0x9A + algorithm % 5):
            cases.append(Session(job=(key, algorithm, 100)))
    for expected in (0, 1, 2, 255, 256, 257, 512, 65535):
        for key, algorithm in ((0x9B, 0x00), (0x9A, 0x07), (0x9D, 0x11)):
            cases.append(Session(job=(key, algorithm, expected)))
    for session in cases:
        d.set_session(session)
        d.cmd(bytes.fromhex("00200080"))
        if d.session.write() != session.write():  # a refused call hands the same session back
            d.set_session(session)
        d.done(bytes(16))
        if d.session.write() != session.write():
            d.set_session(session)
        d.fail()
    for ins in range(256):
        d.set_session(Session(chain=(ins, 0x3F, 0xFF, ins)))
        d.cmd(apdu(0x00, ins, 0x3F, 0xFF))
    for key in range(256):
        for algorithm in (0x00, 0x11):
            d.set_session(Session(job=(key, algorithm, 100)))
            d.fail()
    # Possible, though no run from power-on gets there.
    d.set_session(Session(interface=1, pin=1, administrator=1))
    for slot in SLOTS:
        d.get_data(slot)
    d.verify_status()
    d.cmd(apdu(0x00, 0xDB, 0x3F, 0xFF, tlv(0x7E, b"a")))


def well_formed(d):
    """Each clause of a well-formed store, from both sides."""
    d.fresh(work=d.bytes(WORK_BYTES))
    job = Session(job=(0x9E, 0x11, 256))

    def calls():
        d.set_session(job)
        d.done(b"\x01")
        d.set_session(job)
        d.fail()
        d.set_session(Session(pin=1))
        d.cmd(bytes.fromhex("00200080"))
        d.on(1)

    def put_and_back(offset, raw, before):
        d.put("store", offset, raw)
        calls()
        d.put("store", offset, before)

    mark = b"OPC\x00\x01\x00\x00\x00"
    for at in range(8):
        for other in {0, 1, 2, 0xFF, mark[at] ^ 0x20, mark[at] ^ 1} - {mark[at]}:
            put_and_back(at, bytes([other]), mark[at:at + 1])
    put_and_back(3, b"\x01\x00", b"\x00\x01")
    for at in (8, 18):
        for limit, left in ((0, 0), (1, 0), (1, 1), (1, 2), (3, 4), (15, 0), (15, 15), (15, 16), (16, 0), (16, 16), (16, 17),
                            (255, 255), (255, 0),
                            (128, 3), (3, 255), (0, 1)):
            put_and_back(at, bytes([limit, left]), b"\x03\x03")
    for at in range(8):
        for byte in (0x00, 0x2F, 0x30, 0x39, 0x3A, 0x7F, 0xFE, 0xFF):
            put_and_back(10 + at, bytes([byte]), FIXED_PIN[at:at + 1])
            if byte in (0x00, 0xFF):
                put_and_back(20 + at, bytes([byte]), FIXED_PUK[at:at + 1])
    for pin in (b"12345678", b"1234567\xff", b"123456\xff7", b"12345\xff\xff\xff", b"\xff" * 8, bytes(8)):
        put_and_back(10, pin, FIXED_PIN)
    for at in range(4):
        for algorithm in range(256) if at == 0 else (0, 3, 5, 6, 7, 8, 0x10, 0x11, 0x12, 0x14, 0x27, 0x2E, 0x87, 0x91, 0xFF):
            d.put("store", 28 + at, bytes([algorithm]))
            d.on(0)
            if at or algorithm in (7, 8, 0x11, 0x12):
                calls()
        d.put("store", 28 + at, b"\x00")
    for slot in SLOTS:
        for length in (0, 1, slot.capacity - 1, slot.capacity, slot.capacity + 1, 0xFFFF, 0x8000):
            d.put("store", slot.offset, length.to_bytes(2, "big"))
            calls()
            d.set_session(Session(pin=1))
            d.get_data(slot)
        d.put("store", slot.offset, b"\x00\x00")


def sizes(d):
    """Buffers of every size around the right one; what no program takes; and nothing changes on a bad line."""
    d.fresh(response=d.bytes(258), work=d.bytes(WORK_BYTES))
    job = Session(job=(0x9E, 0x11, 256))

    def calls():
        d.set_session(Session(pin=1))
        d.select()
        d.set_session(job)
        d.done(b"\x01\x02")
        d.set_session(job)
        d.fail()
        d.set_session(job)
        d.select()
        d.set_session(Session())
        d.done(b"")
        d.fail()
        d.on(1)
        d.on(0)

    for length in (0, 1, 2, 255, 256, 257, 258, 259, 300, 1023, 1024):
        d.buffer("resp", d.bytes(length))
        calls()
    d.raw(b"resp " + b"00" * 1025)
    calls()
    d.buffer("resp", d.bytes(258))
    for length in (0, 1, 13319, 13320, 13321, 13322, 13323, 20000):
        d.buffer("work", d.bytes(length))
        calls()
    d.raw(b"work " + b"00" * 20001)
    calls()
    d.buffer("work", d.bytes(WORK_BYTES))
    good = build_store()
    for store in (b"", good[:1], good[:8], good[:32], good[:33399], good + b"\x00", good + d.bytes(6600), good[1:],
    bytes(STORE_BYTES)):
        d.buffer("store", store)
        calls()
    d.raw(b"store " + b"00" * 40001)
    d.raw(b"store " + b"00" * 40000 + b"0")
    calls()
    d.buffer("store", good)
    calls()


def order_of_refusals(d):
    """All sixteen ways in which the first four can hold or not, with each call."""
    d.fresh()
    possible = {"cmd": Session(job=(0x9E, 0x11, 256)), "done": Session(), "wrong": Session(job=(0x9E, 0x11, 256)),
    "plain": Session()}
    impossible = {"cmd": Session(job=(0x9E, 0x11, 0)), "done": Session(rest=(10, 10)), "wrong": Session(job=(0x9E, 0x12, 256)),
                  "plain": Session(chain=(0x20, 0, 0, 0))}
    for wrong_work in (False, True):
        d.buffer("work", d.bytes(13320 if wrong_work else 13321))
        for wrong_response in (False, True):
            d.buffer("resp", d.bytes(257 if wrong_response else 258))
            for wrong_store in (False, True):
                d.put("store", 0, b"P" if wrong_store else b"O")
                for table in (possible, impossible):
                    d.set_session(table["cmd"])
                    d.select()
                    d.set_session(table["plain"])
                    d.select()
                    d.set_session(table["done"])
                    d.done(b"")
                    d.fail()
                    d.set_session(table["wrong"])
                    d.done(b"")
                    d.done(d.bytes(73))
                    d.fail()
                    d.on(0)
                    d.on(1)
    d.put("store", 0, b"O")


# ---------------------------------------------------------------------------------------------- lines that are none

def bad_lines(d):
    d.fresh()
    zeros = b"00" * 64
    lines = [b"", b" ", b"cmd", b"done", b"store", b"work", b"resp", b"session", b"on", b"put", b"cmd  ", b"cmd 0", b"cmd 000",
    b"cmd 0G",
             b"cmd 00 ", b"cmd 00 00", b" cmd 00", b"cmd\t00", b"cmd 00\r", b"CMD 00", b"Cmd 00", b"cmdx 00", b"cm 00", b"cmd:00",
             b"cmd 0x00",
             b"done 0", b"done 0g", b"done 00 ", b"done  00", b"fail ", b"fail 00", b" fail", b"FAIL", b"fai", b"failed",
             b"fail\r", b"fail\x00",
             b"on 2", b"on 00", b"on 01", b"on ", b"on 0 ", b"on  0", b"on x", b"on -1", b"on 0\r", b"on\x000",
             b"session ", b"session 00", b"session " + zeros[:-2], b"session " + zeros + b"00", b"session " + zeros + b" ",
             b"session " + zeros[:-1],
             b"session " + b"0g" + zeros[2:],
             b"store 0", b"store 0G", b"store 00 00", b"work 0", b"work zz", b"resp 0", b"resp 0 ", b"resp  00",
             b"put ", b"put store", b"put store ", b"put store 0", b"put store  00", b"put  store 0 00", b"put store 0  00",
             b"put store 0 0",
             b"put store 0 0g", b"put store x 00", b"put store -1 00", b"put store +1 00", b"put store 1. 00", b"put store 0x1 00",
             b"put store 1a 00",
             b"put store 33400 00", b"put store 33399 0000", b"put store 33401 ", b"put store 99999 00", b"put store 65536 00",
             b"put store 4294967296 00", b"put store 4294967304 00", b"put store 18446744073709551616 00",
             b"put store 18446744073709551624 00",
             b"put store 340282366920938463463374607431768211456 00", b"put work 13321 00", b"put work 13320 0000",
             b"put work 13322 ",
             b"put resp 258 00", b"put resp 257 0000", b"put resp 259 ", b"put resp 0 " + b"00" * 259, b"put foo 0 00",
             b"put session 0 00",
             b"put store 0 00 ", b"put store 0 00 00", b"putstore 0 00", b"PUT store 0 00", b"put STORE 0 00",
             b"\x00", b"\xff\xfe", b"cmd \xc3\xa9", b"cmd 00\x00", b"cmd \x0000", b"hello world", b"#", b"R 9000", b"ok",
             b"bad line",
             b"cmd " + b"0" * 150001, b"cmd " + b"00" * 75000 + b"g0", b"done " + b"0" * 99999, b"x" * 200000,
             b"put store 0 " + b"00" * 60000,
             b"store " + b"00" * 60000, b"session " + b"00" * 60000, b"fail" + b" " * 120000, b"cmd " + b"00" * 60000 + b" "]
    # A byte of a thing that is not there, a mark that is neither 0 nor 1, a byte past the 28.
    for at in range(64):
        for byte in (1, 2, 0x80, 0xFF):
            if not (byte == 1 and at in (0, 1, 2)) and not (byte == 1 and at in (3, 9, 14, 23)):
                lines.append(b"session " + zeros[:2 * at] + b"%02X" % byte + zeros[2 * at + 2:])
    for line in lines:
        answer = d.raw(line)
        d.must(answer, "bad line")
    # Nothing has changed.
    d.cmd(bytes.fromhex("00200080"))
    # Lines that are good, though they look odd.
    d.raw(b"put store 33400 ")
    d.raw(b"put work 13321 ")
    d.raw(b"put resp 258 ")
    d.raw(b"put store 0 ")
    d.put("store", 33399, b"\x5a")
    d.put("work", 13320, b"\xa5")
    d.put("resp", 257, b"\x77")
    d.cmd(b"")
    d.done(b"")
    d.cmd(bytes(70000))
    d.done(bytes(70000))
    d.cmd(b"\x00\x20\x00\x80" + bytes(100000))
    d.set_session(Session(job=(0x9E, 0x11, 256)))
    d.done(bytes(60000))
    d.done(bytes(150000))
    d.raw(b"cmd 00200080")
    d.raw(b"fail")
    for line in (b"cmd 00a4040009a00000030800001000", b"cmd 00A4040009a00000030800001000", b"resp " + b"aB" * 258,
    b"put resp 3 fF"):
        d.raw(line)
    d.raw(b"session " + b"01" + zeros[2:])
    d.verify_status()
    # Marks alone: the things with all their bytes 00. Some are impossible sessions, but all are lines.
    for at in (3, 9, 14, 23):
        d.raw(b"session " + zeros[:2 * at] + b"01" + zeros[2 * at + 2:])
        d.verify_status()
        d.fail()
    d.set_session(Session())


def hidden_lines(d):
    """Numbers with leading zeros are decimal numbers."""
    d.fresh()
    for line in (b"put store 00 4F", b"put store 000 4F", b"put store 033399 11",
    b"put resp 000000000000000000000000000000000000257 22"):
        d.raw(line)
    d.verify_status()


ALL = [headers, lengths, parameters, selects, tags, every_le, tries, references, key_rules, key_forms, key_pieces, results,
administrator,
       put_edges, put_totals, put_forms, crossings, sessions, well_formed, sizes, order_of_refusals, bad_lines, hidden_lines]
