"""The card in a virtual reader: a line program (probe) that decides, a cipher unit that does its jobs, and the wire to pcscd's driver.

   LineCard      the line program: power-on and commands by lines of text; a job is done by the cipher unit at once
   CipherUnit    the private keys and the administrator's key
   Reader        plays the card on the virtual reader's port
"""
import os
import socket
import struct
import subprocess
import threading

from cryptography.hazmat.primitives import hashes, serialization
from cryptography.hazmat.primitives.asymmetric import ec, rsa, utils
from cryptography.hazmat.primitives.ciphers import Cipher, algorithms, modes

ATR = bytes.fromhex("3BDC18FF8131FE4580534F504373C001808290009F")
KEYS = (0x9A, 0x9C, 0x9D, 0x9E)


class CipherUnit:
    """Keys of one algorithm for 9A, 9C, 9D and 9E, and a triple-DES key for the administrator."""

    def __init__(self, algorithm):
        self.algorithm = algorithm
        self.admin = bytes.fromhex("0102030405060708" "1112131415161718" "2122232425262728")
        self.keys = {key: self.make() for key in KEYS}

    def make(self):
        if self.algorithm == 0x07:
            return rsa.generate_private_key(public_exponent=65537, key_size=2048)
        return ec.generate_private_key(ec.SECP256R1())

    def reply_to(self, challenge):
        cipher = Cipher(algorithms.TripleDES(self.admin), modes.ECB()).encryptor()
        return cipher.update(challenge) + cipher.finalize()

    def do(self, key, algorithm, data):
        """The result of a job, or None where it failed."""
        if key == 0x9B:
            challenge = os.urandom(8)
            return challenge + self.reply_to(challenge)
        private = self.keys.get(key)
        if private is None or algorithm != self.algorithm:
            return None
        if algorithm == 0x07:
            numbers = private.private_numbers()
            value = int.from_bytes(data, "big")
            modulus = numbers.public_numbers.n
            return None if value >= modulus else pow(value, numbers.d, modulus).to_bytes(256, "big")
        if key == 0x9D:
            point = ec.EllipticCurvePublicKey.from_encoded_point(ec.SECP256R1(), data)
            return private.exchange(ec.ECDH(), point)
        return private.sign(data, ec.ECDSA(utils.Prehashed(hashes.SHA256())))

    def public_pem(self, key):
        return self.keys[key].public_key().public_bytes(serialization.Encoding.PEM, serialization.PublicFormat.SubjectPublicKeyInfo)


class LineCard:
    """One card: the line program holds store, work area and session."""

    def __init__(self, command, unit, trace):
        self.process = subprocess.Popen(command, stdin=subprocess.PIPE, stdout=subprocess.PIPE)
        self.unit = unit
        self.trace = trace
        self.lock = threading.Lock()
        self.ask("put store 28 " + "%02X" % unit.algorithm * 4)

    def ask(self, line):
        self.process.stdin.write(line.encode() + b"\n")
        self.process.stdin.flush()
        return self.process.stdout.readline().decode().split()

    def note(self, text):
        self.trace.write(text + "\n")
        self.trace.flush()

    def power_on(self, contactless):
        with self.lock:
            said = self.ask("on %d" % contactless)
            self.note("-- power-on, %s: %s" % ("contactless" if contactless else "contact", said[0]))
            if said[0] != "P":
                raise RuntimeError("power-on was refused: %s" % said)

    def command(self, data):
        with self.lock:
            self.note("> " + data.hex().upper())
            said = self.ask("cmd " + data.hex())
            if said[0] == "J":
                head, body = said[1].split(":")
                key, algorithm = bytes.fromhex(head)
                result = self.unit.do(key, algorithm, bytes.fromhex(body))
                self.note("   job %02X %02X" % (key, algorithm))
                said = self.ask("fail" if result is None else "done " + result.hex())
            if said[0] != "R":
                raise RuntimeError("a call was refused: %s" % said)
            self.note("< " + said[1])
            return bytes.fromhex(said[1])

    def close(self):
        self.process.stdin.close()
        self.process.wait(timeout=20)
        self.process.stdout.close()


class Reader:
    """The virtual reader's card side. Which card it holds, and whether in the field or on contacts, counts from the next power-on."""

    def __init__(self, port):
        self.port = port
        self.card = None
        self.contactless = 0
        self.wire = None
        self.thread = None

    def insert(self, card, contactless=0):
        self.card = card
        self.contactless = contactless
        if self.thread is None:
            self.wire = socket.create_connection(("127.0.0.1", self.port))
            self.wire.setsockopt(socket.IPPROTO_TCP, socket.TCP_NODELAY, 1)
            self.thread = threading.Thread(target=self.play, args=(self.wire,), daemon=True)
            self.thread.start()

    def remove(self):
        if self.thread is None:
            return
        try:
            self.wire.shutdown(socket.SHUT_RDWR)
        except OSError:
            pass
        self.thread.join(timeout=10)
        self.wire.close()
        self.thread = None

    @staticmethod
    def exactly(wire, count):
        got = b""
        while len(got) < count:
            wire.setsockopt(socket.IPPROTO_TCP, socket.TCP_QUICKACK, 1)
            part = wire.recv(count - len(got))
            if not part:
                return None
            got += part
        return got

    def play(self, wire):
        while True:
            head = self.exactly(wire, 2)
            body = head and self.exactly(wire, struct.unpack(">H", head)[0])
            if body is None:
                return
            if len(body) == 1:
                if body[0] in (1, 2):
                    self.card.power_on(self.contactless)
                if body[0] == 4:
                    wire.sendall(struct.pack(">H", len(ATR)) + ATR)
                continue
            answer = self.card.command(body)
            wire.sendall(struct.pack(">H", len(answer)) + answer)
