"""A driver: sends the lines, notes what they cover, and keeps what it needs to know of the card to steer."""
from cards import CONTACT, FIXED_PIN, FIXED_PUK, RESPONSE_BYTES, SLOTS, WORK_BYTES, Answer, Session, apdu, build_store, hexed
from programs import Failure


class Driver:
    def __init__(self, pair, coverage, random):
        self.pair = pair
        self.coverage = coverage
        self.random = random
        self.session = Session()
        self.pin = FIXED_PIN
        self.puk = FIXED_PUK
        self.pin_limit = self.puk_limit = 3
        self.keys = [0, 0, 0, 0]
        self.objects = {}    # slot name to contents, where known
        self.work_whole = True
        self.response_whole = True
        self.lower = 0.0     # how often hex goes out in lower case

    # ------------------------------------------------------------------------------------------ lines

    def _note(self, verb, raw, text):
        answer = Answer(text)
        before = self.session
        self.coverage.note(verb, raw, before, answer)
        if answer.is_outcome:
            self.session = answer.session
            if verb == "cmd" and answer.word == "9000":
                self._learn(raw)
        return answer

    def _learn(self, raw):
        """A command was answered 9000: what does that tell of the store?"""
        ins, p2, data = raw[1], raw[3], raw[5:]
        if ins == 0x24 and p2 == 0x80:
            self.pin = data[8:16]
        elif ins == 0x24:
            self.puk = data[8:16]
        elif ins == 0x2C:
            self.pin = data[8:16]
        elif ins == 0xDB and raw[0] == 0x00:
            self.objects = {}  # one of them changed; the caller knows which, if anyone does

    def _case(self, line):
        return line.lower() if self.lower and self.random.random() < self.lower else line

    def _hex_line(self, verb, raw):
        return verb.encode() + b" " + self._case(hexed(raw))

    def raw(self, line):
        """A line as it stands; most are not meant to do anything."""
        text = self.pair.ask(line)
        words = line.split(b" ")
        verb, raw = None, b""
        if text != b"bad line":
            verb = words[0].decode("ascii", "replace")
            if verb == "put":
                verb += " " + words[1].decode("ascii", "replace")
            elif len(words) > 1 and verb in ("cmd", "session"):
                raw = bytes.fromhex(words[1].decode())
        answer = self._note(verb, raw, text)
        if verb == "session":
            self.session = Session.read(raw)
        return answer

    def cmd(self, raw):
        line = self._hex_line("cmd", raw)
        return self._note("cmd", raw, self.pair.ask(line))

    def cmds(self, raws):
        """Commands that follow each other whatever is answered. Gives the last answer."""
        lines = [self._hex_line("cmd", raw) for raw in raws]
        out = None
        for raw, text in zip(raws, self.pair.ask_all(lines)):
            out = self._note("cmd", raw, text)
        return out

    def done(self, raw):
        line = self._hex_line("done", raw)
        return self._note("done", b"", self.pair.ask(line))

    def fail(self):
        return self._note("fail", b"", self.pair.ask(b"fail"))

    def on(self, interface):
        line = b"on %d" % interface
        return self._note("on", b"", self.pair.ask(line))

    def set_session(self, session):
        line = self._hex_line("session", session.write())
        answer = self._note("session", b"", self.pair.ask(line))
        self.must(answer, "ok")
        self.session = session
        return answer

    def buffer(self, name, raw):
        line = self._hex_line(name, raw)
        answer = self._note(name, b"", self.pair.ask(line))
        self.must(answer, "ok")
        if name == "work":
            self.work_whole = len(raw) == WORK_BYTES
        if name == "resp":
            self.response_whole = len(raw) >= RESPONSE_BYTES
        return answer

    def put(self, name, offset, raw):
        line = b"put %s %d " % (name.encode(), offset) + self._case(hexed(raw))
        answer = self._note("put " + name, b"", self.pair.ask(line))
        self.must(answer, "ok")
        return answer

    # ------------------------------------------------------------------------------------------ starts

    def fresh(self, interface=CONTACT, pin=FIXED_PIN, puk=FIXED_PUK, pin_limit=3, pin_tries=None, puk_limit=3, puk_tries=None,
              keys=(0, 0, 0, 0), objects=None, filler=None, response=None, work=None):
        """A new episode: a whole card, its buffers, and power-on."""
        self.pair.mark()
        if self.session.job:
            self.set_session(Session())
        self.buffer("store", build_store(pin, puk, pin_limit, pin_tries, puk_limit, puk_tries, keys, objects, filler))
        self.pin, self.puk, self.pin_limit, self.puk_limit = pin, puk, pin_limit, puk_limit
        self.keys = list(keys)
        self.objects = {slot.name: b"" for slot in SLOTS}
        self.objects.update(objects or {})
        if not self.work_whole:
            self.buffer("work", bytes(WORK_BYTES))
        if response is not None:
            self.buffer("resp", response)
        elif not self.response_whole:
            self.buffer("resp", bytes(RESPONSE_BYTES))
        self.must(self.on(interface), "P")
        if work is not None:
            self.buffer("work", work)

    def bytes(self, count):
        return self.random.randbytes(count)

    # ------------------------------------------------------------------------------------------ what must be

    def must(self, answer, kind):
        if answer.kind != kind:
            raise Failure("expected %s, got %r after\n%s" % (kind, answer.line[:200], self.tail()))

    def expect(self, answer, data):
        """An answer that 01 states: data and status word in hex."""
        self.coverage.asserted += 1
        if answer.kind != "R" or answer.data.hex().upper() != data:
            raise Failure("01 says %s, the right program %r after\n%s" % (data, answer.line[:200], self.tail()))

    def claim(self, true, what):
        self.coverage.asserted += 1
        if not true:
            raise Failure("01 says: %s; not so after\n%s" % (what, self.tail()))

    def tail(self):
        return "\n".join(repr(line[:160]) for line in self.pair.lines[-8:])

    # ------------------------------------------------------------------------------------------ commands of a kind

    def select(self, le=None):
        return self.cmd(apdu(0x00, 0xA4, 0x04, 0x00, bytes.fromhex("A000000308000010000100"), le))

    def verify(self, value=None):
        return self.cmd(apdu(0x00, 0x20, 0x00, 0x80, self.pin if value is None else value))

    def verify_status(self):
        return self.cmd(apdu(0x00, 0x20, 0x00, 0x80))

    def get_data(self, slot, le=0):
        return self.cmd(apdu(0x00, 0xCB, 0x3F, 0xFF, slot.ask, le))

    def get_response(self, le=0):
        return self.cmd(apdu(0x00, 0xC0, 0x00, 0x00, b"", le))

    def read_all(self, slot, le=0):
        """GET DATA and the GET RESPONSEs straight after it, joined; None if there was no data."""
        answer = self.get_data(slot, le)
        out = b""
        while answer.kind == "R" and answer.word.startswith("61"):
            out += answer.body
            answer = self.get_response(le)
        if answer.word != "9000":
            return None
        return out + answer.body

    def read_back(self, slot, le=0):
        """Reads a known object and compares."""
        value = self.objects[slot.name]
        found = self.read_all(slot, le)
        self.coverage.read_backs += 1
        if found != (slot.read_form(value) if value else None):
            raise Failure("an object does not read back as it was stored: %s, %d bytes, after\n%s" %
                          (slot.name, len(value), self.tail()))

    def challenge(self, challenge, reply, le=0):
        answer = self.cmd(apdu(0x00, 0x87, 0x00, 0x9B, bytes.fromhex("7C028100"), le))
        return self.done(challenge + reply) if answer.kind == "J" else answer

    def reply(self, reply):
        return self.cmd(apdu(0x00, 0x87, 0x00, 0x9B, bytes.fromhex("7C0A8208") + reply))

    def log_in(self):
        reply = self.bytes(8)
        self.challenge(self.bytes(8), reply)
        return self.reply(reply)

    def chain(self, ins, p1, p2, field, size=255, le=None):
        """A field in pieces of this size."""
        pieces = [field[at:at + size] for at in range(0, len(field), size)] or [b""]
        commands = [apdu(0x10, ins, p1, p2, piece) for piece in pieces[:-1]]
        commands.append(apdu(0x00, ins, p1, p2, pieces[-1], le))
        return self.cmds(commands)

    def put_object(self, slot, value, size=255):
        known = dict(self.objects)
        answer = self.chain(0xDB, 0x3F, 0xFF, slot.put_field(value), size)
        if answer.word == "9000":
            known[slot.name] = value
        self.objects = known
        return answer

    def records(self):
        """Both records as they were at the start, with all tries left."""
        self.put("store", 8, bytes([self.pin_limit, self.pin_limit]) + self.pin +
                 bytes([self.puk_limit, self.puk_limit]) + self.puk)
