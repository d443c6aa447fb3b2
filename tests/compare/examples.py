"""The checked examples of 01, through the probe and through hexcard, with the answers that 01 states."""
from cards import FIXED_PIN, SLOT, apdu

HEXCARD_INPUT = b"""00A4040009A00000030800001000
00200080
0020008008313233343537FFFF
0020008008313233343536FFFF
00CB3FFF055C035FC10900
"""
HEXCARD_OUTPUT = b"""61164F0BA00000030800001000010079074F05A0000003089000
63C3
63C2
9000
6A82
"""

# Other examples of 01 that hexcard can show, on one card: printed information without PIN, a challenge job, PIN form, limit 3.
HEXCARD_MORE = (
    "00CB3FFF055C035FC10900 00CB3FFF055C035FC109 0087009B047C02810000 0087009B0C7C0A82080102030405060708 "
    "0020008008313233343536FFFF 00200080083132333435363738 00200080083132333435FFFFFF 0020008008313233343536FF37 "
    "0020008008313233343536FFFF "
    "0020008008313233343537FFFF 0020008008313233343537FFFF 00200080083132333435FFFFFF 0020008008313233343537FFFF "
    "0020008008313233343536FFFF 00200080",
    "6982 6982 6F00 6985 9000 63C2 6A80 6A80 9000 63C2 63C1 6A80 63C0 6983 63C0")

WRONG = b"123457\xff\xff"
PRINTED = SLOT["Printed information"]


def first_example(d):
    d.fresh()
    for line, answer in zip(HEXCARD_INPUT.split(), HEXCARD_OUTPUT.split()):
        d.expect(d.cmd(bytes.fromhex(line.decode())), answer.decode())


def pin_form(d):
    for value, good in (("313233343536FFFF", True), ("3132333435363738", True), ("3132333435FFFFFF", False),
                        ("313233343536FF37", False)):
        value = bytes.fromhex(value)
        d.fresh()
        right = value == FIXED_PIN
        d.expect(d.verify(value), "9000" if right else "63C2" if good else "6A80")
        d.expect(d.verify_status(), "9000" if right else "63C2" if good else "63C3")
        # The same rule for the PIN in a store.
        d.put("store", 10, value)
        d.claim(d.on(0).word == ("P" if good else "N1"), "a store is well formed only if its PIN has PIN form")
        # And for a new PIN.
        d.fresh()
        d.expect(d.cmd(apdu(0x00, 0x24, 0x00, 0x80, FIXED_PIN + value)), "9000" if good else "6A80")
        d.fresh()
        d.expect(d.cmd(apdu(0x00, 0x2C, 0x00, 0x80, b"12345678" + value)), "9000" if good else "6A80")


def limit_three(d):
    d.fresh()
    d.expect(d.verify(WRONG), "63C2")
    d.expect(d.verify(WRONG), "63C1")
    d.expect(d.verify(bytes.fromhex("3132333435FFFFFF")), "6A80")
    d.expect(d.verify(WRONG), "63C0")
    d.expect(d.verify(), "6983")
    d.expect(d.verify_status(), "63C0")


def contents_lengths(d):
    chuid = SLOT["CHUID"]
    for length, data, word in ((252, 255, "9000"), (253, 256, "9000"), (254, 256, "6101")):
        d.fresh(objects={"CHUID": d.bytes(length)})
        answer = d.get_data(chuid)
        d.claim(len(answer.body) == data and answer.word == word, "contents %d: %d bytes, %s" % (length, data, word))


def interrupted_put(d):
    """PUT DATA piece, SELECT, last piece."""
    field = PRINTED.put_field(d.bytes(300))
    d.fresh(objects={"Printed information": b"before"})
    d.expect(d.log_in(), "9000")
    before = d.verify_status().sums[0]
    d.expect(d.cmd(apdu(0x10, 0xDB, 0x3F, 0xFF, field[:200])), "9000")
    d.claim(d.select().word == "9000", "SELECT is answered 9000")
    answer = d.cmd(apdu(0x00, 0xDB, 0x3F, 0xFF, field[200:]))
    d.expect(answer, "6A80")
    d.claim(answer.sums[0] == before, "the store is as before")


def challenge_lost(d):
    """Challenge, VERIFY, reply; and a reply in two pieces."""
    d.fresh()
    reply = d.bytes(8)
    d.expect(d.challenge(b"\x01\x02\x03\x04\x05\x06\x07\x08", reply), "7C0A810801020304050607089000")
    d.expect(d.verify(), "9000")
    d.expect(d.reply(reply), "6985")
    for split in range(13):
        d.expect(d.challenge(b"\x01\x02\x03\x04\x05\x06\x07\x08", reply), "7C0A810801020304050607089000")
        field = bytes.fromhex("7C0A8208") + reply
        d.expect(d.cmd(apdu(0x10, 0x87, 0x00, 0x9B, field[:split])), "9000")
        d.expect(d.cmd(apdu(0x00, 0x87, 0x00, 0x9B, field[split:])), "6985")


def printed_information(d):
    """Empty or full, PIN not given."""
    for contents in (b"", d.bytes(512)):
        d.fresh(objects={"Printed information": contents} if contents else None)
        d.expect(d.get_data(PRINTED), "6982")


def length_bytes(d):
    """Lengths 127, 128, 255, 256: 1, 2, 2, 3 bytes; written by GET DATA and taken by PUT DATA in that form only."""
    chuid = SLOT["CHUID"]
    for length, count in ((127, 1), (128, 2), (255, 2), (256, 3)):
        value = d.bytes(length)
        d.fresh()
        d.expect(d.log_in(), "9000")
        d.expect(d.put_object(chuid, value), "9000")
        d.claim(len(d.read_all(chuid)) == 1 + count + length, "length %d: %d bytes" % (length, count))
        forms = {1: bytes([length & 255]), 2: bytes([0x81, length & 255]), 3: b"\x82" + length.to_bytes(2, "big")}
        for other, form in forms.items():
            field = chuid.ask + b"\x53" + form + value
            d.expect(d.chain(0xDB, 0x3F, 0xFF, field), "9000" if other == count else "6A80")


def harmless_looking(d):
    """Errors that look harmless."""
    # 1. The access condition before the object.
    d.fresh(objects={"Face": d.bytes(20)})
    for name in ("Face", "Fingerprints", "Printed information"):
        d.expect(d.get_data(SLOT[name]), "6982")
    d.fresh(interface=1)
    for slot in SLOT.values():
        d.expect(d.get_data(slot), "6A82" if slot.contactless else "6982")
    # 2. A PIN without PIN form costs no try, even if the stored bytes were equal to a part of it.
    d.fresh()
    for value in (FIXED_PIN[:7], FIXED_PIN + b"\xff", b"12345\xff\xff\xff", b"12345a\xff\xff"):
        d.expect(d.verify(value), "6A80")
    d.expect(d.verify_status(), "63C3")
    # 3. RESET RETRY COUNTER gives no PIN status.
    d.expect(d.cmd(apdu(0x00, 0x2C, 0x00, 0x80, d.puk + FIXED_PIN)), "9000")
    d.expect(d.verify_status(), "63C3")
    d.expect(d.verify(), "9000")
    d.expect(d.cmd(apdu(0x00, 0x2C, 0x00, 0x80, d.puk + b"654321\xff\xff")), "9000")
    d.expect(d.verify_status(), "9000")


ALL = [first_example, pin_form, limit_three, contents_lengths, interrupted_put, challenge_lost, printed_information, length_bytes,
       harmless_looking]
