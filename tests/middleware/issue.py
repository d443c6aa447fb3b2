"""The issuing desk: certificates and objects put on a card by real commands through pcscd.

   certificate(unit, key, name)   a self-signed certificate for a key of the cipher unit
   objects(certificates)          what is stored, by tag
   Desk                           administrator's login, PUT DATA in pieces, GET DATA back
"""
import datetime

from cryptography import x509
from cryptography.hazmat.primitives import hashes, serialization
from cryptography.x509.oid import NameOID
from smartcard.System import readers

AID = bytes.fromhex("A000000308000010000100")
CERTIFICATE_TAGS = {0x9A: 0x5FC105, 0x9C: 0x5FC10A, 0x9D: 0x5FC10B, 0x9E: 0x5FC101}
PRINTED = 0x5FC109


def length(count):
    if count < 128:
        return bytes([count])
    if count < 256:
        return bytes([0x81, count])
    return bytes([0x82, count >> 8, count & 255])


def tlv(tag, value):
    return bytes.fromhex("%X" % tag if len("%X" % tag) % 2 == 0 else "0%X" % tag) + length(len(value)) + value


def certificate(unit, key, name):
    subject = x509.Name([x509.NameAttribute(NameOID.COMMON_NAME, name)])
    day = datetime.datetime(2026, 1, 1)
    made = (
        x509.CertificateBuilder()
        .subject_name(subject)
        .issuer_name(subject)
        .public_key(unit.keys[key].public_key())
        .serial_number(key)
        .not_valid_before(day)
        .not_valid_after(day + datetime.timedelta(days=3650))
        .sign(unit.keys[key], hashes.SHA256())
    )
    return made.public_bytes(serialization.Encoding.DER)


def objects(certificates):
    chuid = (
        tlv(0x30, bytes.fromhex("D4E739DA739CED39CE739D836858210842108421384210C3F5"))
        + tlv(0x34, bytes.fromhex("00112233445566778899AABBCCDDEEFF"))
        + tlv(0x35, b"20351231")
        + tlv(0x3E, b"")
        + tlv(0xFE, b"")
    )
    container = tlv(0xF0, bytes.fromhex("A000000116FF02" + "00" * 14)) + tlv(0xF1, b"\x21") + tlv(0xF2, b"\x21") + tlv(0xFE, b"")
    stored = {
        0x5FC107: container,
        0x5FC102: chuid,
        0x7E: tlv(0x4F, AID) + tlv(0x5F2F, bytes.fromhex("4000")),
        PRINTED: tlv(0x01, b"Operator 7") + tlv(0x02, b"Night shift") + tlv(0xFE, b""),
        0x5FC106: tlv(0xBA, b"") + tlv(0xBB, b"") + tlv(0xFE, b""),
        0x5FC108: tlv(0xBC, bytes(i * 7 % 256 for i in range(13000))) + tlv(0xFE, b""),
    }
    for key, tag in CERTIFICATE_TAGS.items():
        stored[tag] = tlv(0x70, certificates[key]) + tlv(0x71, b"\x00") + tlv(0xFE, b"")
    return stored


class Desk:
    def __init__(self, unit):
        self.unit = unit
        self.connection = readers()[0].createConnection()
        self.connection.connect()

    def send(self, data):
        body, high, low = self.connection.transmit(list(data))
        return bytes(body), high << 8 | low

    def login(self):
        self.send(bytes.fromhex("00A404000B") + AID + b"\x00")
        challenge, word = self.send(bytes.fromhex("0087009B047C02810000"))
        if word != 0x9000:
            return word
        reply = self.unit.reply_to(challenge[4:12])
        return self.send(bytes.fromhex("0087009B0C7C0A8208") + reply)[1]

    def put(self, tag, value):
        field = tlv(0x7E, value) if tag == 0x7E else tlv(0x5C, bytes.fromhex("%06X" % tag)) + tlv(0x53, value)
        while len(field) > 255:
            word = self.send(b"\x10\xDB\x3F\xFF\xFF" + field[:255])[1]
            if word != 0x9000:
                return word
            field = field[255:]
        return self.send(b"\x00\xDB\x3F\xFF" + bytes([len(field)]) + field)[1]

    def get(self, tag):
        name = bytes([tag]) if tag == 0x7E else bytes.fromhex("%06X" % tag)
        listed = tlv(0x5C, name)
        body, word = self.send(b"\x00\xCB\x3F\xFF" + bytes([len(listed)]) + listed + b"\x00")
        while word >> 8 == 0x61:
            more, word = self.send(b"\x00\xC0\x00\x00" + bytes([word & 255]))
            body += more
        return body, word

    def close(self):
        self.connection.disconnect()
