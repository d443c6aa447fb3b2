"""The random part: episodes of weighted moves over a random card, steered by what the answers tell."""
from book import key_field, result_lengths, crossing_lines, edge_lengths
from cards import CONTACT, CONTACTLESS, FULL_AID, KEYS, PIN_KEYS, SLOTS, STORE_BYTES, WORK_BYTES, Session, apdu, hexed

WEIGHT_OF_LE = (0, 0, 0, 0, 1, 5, 11, 12, 13, 50, 100, 200, 254, 255)
ALL_INS = (0xA4, 0xCB, 0xC0, 0x20, 0x24, 0x2C, 0x87, 0xDB)


class Player:
    def __init__(self, driver):
        self.d = driver
        self.random = driver.random
        self.moves = [
            (10, self.read_object), (6, self.fetch), (7, self.log_in), (10, self.put_object), (12, self.key_job), (9, self.verify),
            (3, self.change_pin), (2, self.change_puk), (3, self.reset), (3, self.select), (6, self.damaged), (3, self.noise),
            (4, self.crossing), (3, self.made_up_session), (2, self.give_statuses), (1.5, self.power), (1.5, self.dirty_work),
            (1, self.wrong_response_size), (2, self.ill_formed), (2, self.bad_line), (2, self.refused_result), (3, self.loose_piece),
            (1, self.restore_records), (1, self.change_keys), (0.5, self.new_response), (1.5, self.first_reply),
        ]
        self.weights = [weight for weight, _ in self.moves]

    # ------------------------------------------------------------------------------------------ choices

    def chance(self, p):
        return self.random.random() < p

    def pick(self, items):
        return self.random.choice(items)

    def le(self):
        """A random Le byte, or none."""
        if self.chance(0.5):
            return self.pick(WEIGHT_OF_LE)
        return self.random.randrange(256) if self.chance(0.8) else None

    def digits(self):
        count = self.random.choice((6, 6, 7, 8))
        return bytes(self.random.randrange(0x30, 0x3A) for _ in range(count)) + b"\xff" * (8 - count)

    def broken_pin(self):
        pin = bytearray(self.d.pin)
        kind = self.random.randrange(5)
        if kind == 0:
            return bytes(pin[:self.random.randrange(1, 8)])
        if kind == 1:
            return bytes(pin) + self.d.bytes(self.random.randrange(1, 9))
        if kind == 2:
            return b"12345\xff\xff\xff"
        pin[self.random.randrange(8)] = self.random.randrange(256)
        return bytes(pin)

    def slot(self):
        return self.pick(SLOTS)

    def length_for(self, slot):
        if self.chance(0.6):
            length = self.pick(edge_lengths(slot.capacity))
        else:
            length = self.random.randrange(slot.capacity + 1)
        if length > 1200 and self.chance(0.85):
            length = self.random.randrange(min(slot.capacity, 700))
        return length

    # ------------------------------------------------------------------------------------------ cards

    def start(self):
        """A new card."""
        r, d = self.random, self.d
        objects = {}
        for slot in SLOTS:
            if self.chance(0.6):
                objects[slot.name] = d.bytes(min(slot.capacity, self.length_for(slot)))
        pin_limit, puk_limit = r.randrange(1, 16), r.randrange(1, 16)
        d.fresh(
            interface=CONTACTLESS if self.chance(0.2) else CONTACT,
            pin=self.digits(), puk=d.bytes(8),
            pin_limit=pin_limit, pin_tries=pin_limit if self.chance(0.7) else r.randrange(pin_limit + 1),
            puk_limit=puk_limit, puk_tries=puk_limit if self.chance(0.7) else r.randrange(puk_limit + 1),
            keys=[self.pick((0x07, 0x11, 0x11, 0x07, 0x00)) for _ in range(4)], objects=objects,
            filler=d.bytes if self.chance(0.5) else None,
            response=d.bytes(r.choice((258, 258, 259, 300, 1024))) if self.chance(0.5) else None,
            work=d.bytes(WORK_BYTES) if self.chance(0.25) else None)
        d.lower = 0.3 if self.chance(0.1) else 0.0
        if d.session.interface == CONTACT:
            if self.chance(0.5):
                d.verify()
            if self.chance(0.5):
                d.log_in()

    def episode(self, moves):
        self.start()
        for _ in range(moves):
            if self.d.session.job and self.chance(0.85):
                self.answer_job()
            else:
                self.random.choices(self.moves, self.weights)[0][1]()
        self.finish()

    def finish(self):
        """What would spoil the card for the rest of an episode comes at its end."""
        d, kind = self.d, self.random.randrange(12)
        if kind == 0:
            d.buffer("work", d.bytes(self.pick((0, 1, 13320, 13322, 20000))))
        elif kind == 1:
            d.buffer("store", d.bytes(self.pick((0, 1, 100, 33399 // 64))))
        elif kind == 2:
            d.put("store", self.random.randrange(STORE_BYTES - 40), d.bytes(40))
        elif kind == 3:
            for _ in range(4):
                d.put("store", self.random.randrange(32), d.bytes(1))
                self.any_call()
        else:
            return
        for _ in range(4):
            self.any_call()

    # ------------------------------------------------------------------------------------------ single calls

    def good_command(self):
        """A command that is whole, and often right for the state of the card."""
        d, r = self.d, self.random
        kind = r.randrange(16)
        if kind == 0:
            return apdu(0x00, 0xA4, 0x04, 0x00, FULL_AID if self.chance(0.5) else FULL_AID[:9], self.le())
        if kind <= 2:
            return apdu(0x00, 0xCB, 0x3F, 0xFF, self.slot().ask, self.le())
        if kind <= 4:
            return apdu(0x00, 0xC0, 0x00, 0x00, b"", self.le())
        if kind == 5:
            return apdu(0x00, 0x20, 0x00, 0x80, d.pin if self.chance(0.7) else self.digits())
        if kind == 6:
            return apdu(0x00, 0x20, self.pick((0x00, 0xFF)), 0x80)
        if kind == 7:
            return apdu(0x00, 0x24, 0x00, 0x80, d.pin + self.digits())
        if kind == 8:
            return apdu(0x00, 0x24, 0x00, 0x81, d.puk + d.bytes(8))
        if kind == 9:
            return apdu(0x00, 0x2C, 0x00, 0x80, d.puk + self.digits())
        if kind == 10:
            return apdu(0x00, 0x87, 0x00, 0x9B, bytes.fromhex("7C028100"), self.le())
        if kind == 11:
            reply = d.session.challenge if d.session.challenge and self.chance(0.7) else d.bytes(8)
            return apdu(0x00, 0x87, 0x00, 0x9B, bytes.fromhex("7C0A8208") + reply)
        if kind == 12:
            key, algorithm = self.key()
            field = key_field(d, key, algorithm)
            return apdu(self.pick((0x00, 0x10)), 0x87, algorithm, key, field[:255], self.le())
        if kind == 13:
            return apdu(self.pick((0x00, 0x10)), 0xDB, 0x3F, 0xFF, self.slot().put_field(d.bytes(r.randrange(240)))[:255])
        if d.session.chain:  # goes on with whatever is open
            ins, p1, p2, _ = d.session.chain
            return apdu(self.pick((0x00, 0x10)), ins, p1, p2, d.bytes(self.pick((0, 1, 4, 30, 255))), self.le())
        return apdu(0x10, *self.pick(((0xDB, 0x3F, 0xFF), (0x87, 0x00, 0x9B), (0x87, 0x11, 0x9E))), d.bytes(r.randrange(40)))

    def damage(self, raw):
        out, r = bytearray(raw), self.random
        for _ in range(r.choice((1, 1, 1, 2, 3))):
            kind = r.randrange(8)
            at = r.randrange(len(out)) if out else 0
            if not out or kind == 0:
                out.insert(at, r.randrange(256))
            elif kind == 1:
                del out[at]
            elif kind == 2:
                out[at] ^= 1 << r.randrange(8)
            elif kind == 3:
                out[at] = r.randrange(256)
            elif kind == 4:
                del out[at:]
            elif kind == 5:
                out += r.randbytes(r.randrange(1, 5))
            elif kind == 6:
                out[0] = r.choice((0x00, 0x10, 0x0C, 0x1C, 0x80, 0x01))
            else:
                where = r.randrange(min(len(out), 5))
                out[where] = r.choice((0x00, 0x10, 0x20, 0x24, 0x2C, 0x3F, 0x80, 0x81, 0x87, 0x9A, 0x9B, 0x9E, 0xA4, 0xC0, 0xCB,
                                       0xDB, 0xFF))
        return bytes(out)

    def damaged(self):
        self.d.cmd(self.damage(self.good_command()))

    def noise(self):
        r = self.random
        length = r.choice((0, 1, 3, 4, 5, 6, 7, 20, 100, 255, 260, 261, 262, 300, r.randrange(0, 280)))
        raw = bytearray(r.randbytes(length))
        if length > 1 and self.chance(0.7):
            raw[0] = r.choice((0x00, 0x10))
            raw[1] = r.choice(ALL_INS)
        if length > 6 and self.chance(0.7):
            raw[4] = min(255, length - r.choice((5, 6)))
        self.d.cmd(bytes(raw))

    def any_call(self):
        kind = self.random.randrange(10)
        if kind < 5:
            self.d.cmd(self.good_command())
        elif kind == 5:
            self.damaged()
        elif kind == 6:
            self.d.on(self.random.randrange(2))
        elif kind == 7:
            self.d.fail()
        else:
            self.d.done(self.d.bytes(self.pick((0, 1, 16, 32, 72, 73, 256))))

    def crossing(self):
        """One of the lines that go between, of any kind."""
        line = self.pick(crossing_lines(self.d))
        words = line.split(b" ")
        if words[0] == b"cmd" and len(words) == 2 and len(words[1]) % 2 == 0:
            self.d.cmd(bytes.fromhex(words[1].decode()))
        elif words[0] == b"done":
            self.d.done(bytes.fromhex(words[1].decode()))
        elif words[0] == b"fail":
            self.d.fail()
        elif words[0] == b"on":
            if self.chance(0.3):
                self.d.on(int(words[1]))
        else:
            self.d.raw(line)

    def between(self, p):
        """Perhaps something between two steps."""
        if not self.chance(p):
            return
        self.random.choices((self.crossing, self.damaged, self.noise, self.bad_line, self.refused_result, self.any_call,
                             self.dirty_work), (5, 3, 1, 1, 2, 4, 1))[0]()

    def patience(self):
        """How often a run of steps is disturbed."""
        return self.pick((0, 0, 0, 0.02, 0.1, 0.3))

    # ------------------------------------------------------------------------------------------ moves

    def select(self):
        self.d.cmd(apdu(0x00, 0xA4, 0x04, 0x00, self.pick((FULL_AID, FULL_AID[:9], FULL_AID[:10], FULL_AID[:5], b"")), self.le()))

    def read_object(self):
        d, slot, p = self.d, self.slot(), self.patience()
        if slot.with_pin and not d.session.pin and d.session.interface == CONTACT and self.chance(0.6):
            d.verify()
        may = slot.contactless if d.session.interface else (d.session.pin or not slot.with_pin)
        if may and not d.session.job and slot.name in d.objects and self.chance(0.25) and len(d.objects[slot.name]) < 3000:
            d.read_back(slot, self.pick((0, 0, 255, 200)))
            return
        d.get_data(slot, self.le() or 0)
        self.fetch(p)

    def fetch(self, p=0.02):
        steps = 0
        while self.d.session.rest and steps < 12:
            self.between(p)
            self.d.get_response(self.le() or 0)
            steps += 1

    def log_in(self):
        d = self.d
        if d.session.interface == CONTACTLESS and self.chance(0.8):
            return
        request = bytes.fromhex("7C028100")
        le = self.le() if self.chance(0.4) else 0
        if self.chance(0.15):
            split = self.random.randrange(5)
            d.cmd(apdu(0x10, 0x87, 0x00, 0x9B, request[:split], self.le()))
            answer = d.cmd(apdu(0x00, 0x87, 0x00, 0x9B, request[split:], le))
        else:
            answer = d.cmd(apdu(0x00, 0x87, 0x00, 0x9B, request, le))
        if answer.kind != "J":
            return
        self.answer_job()
        self.first_reply()

    def first_reply(self):
        d = self.d
        if self.chance(0.05):
            self.fetch(0)
        self.between(self.pick((0, 0, 0, 0.3)))
        expected = d.session.challenge
        if expected is None and self.chance(0.7):
            return
        reply = expected if expected is not None and self.chance(0.75) else d.bytes(8)
        field = bytes.fromhex("7C0A8208") + reply
        kind = self.random.randrange(12)
        if kind == 0:
            split = self.random.randrange(13)
            d.cmd(apdu(0x10, 0x87, 0x00, 0x9B, field[:split]))
            d.cmd(apdu(0x00, 0x87, 0x00, 0x9B, field[split:]))
        elif kind == 1:
            d.cmd(apdu(0x10, 0x87, 0x00, 0x9B, field))
        elif kind == 2:
            d.cmd(apdu(0x00, 0x87, 0x00, 0x9B, self.damage(field)[:255]))
        else:
            d.cmd(apdu(0x00, 0x87, 0x00, 0x9B, field, self.le()))

    def put_object(self):
        d, slot, p = self.d, self.slot(), self.patience()
        if not d.session.administrator and d.session.interface == CONTACT and self.chance(0.8):
            if self.chance(0.5):
                d.set_session(d.session.changed(administrator=1))
            elif not d.session.job:
                d.log_in()
        value = d.bytes(self.length_for(slot))
        field = slot.put_field(value)
        broken = self.chance(0.15)
        if broken:
            field = self.damage(field[:20]) + field[20:]
        if p == 0 and not broken:
            answer = d.put_object(slot, value, self.random.choice((255, 255, 255, self.random.randrange(100, 256))))
            if answer.word == "9000" and slot.contactless and self.chance(0.3):
                d.read_back(slot)
            return
        at = 0
        while len(field) - at > 255 or (len(field) > at and self.chance(0.5)):
            size = 255 if len(field) > 1500 else self.random.randrange(256)
            answer = d.cmd(apdu(0x10, 0xDB, 0x3F, 0xFF, field[at:at + size], self.le() if self.chance(0.1) else None))
            at += size
            if answer.word != "9000" and self.chance(0.7):
                return
            self.between(p)
        d.cmd(apdu(0x00, 0xDB, 0x3F, 0xFF, field[at:at + 255]))

    def key(self):
        d = self.d
        present = [(key, algorithm) for key, algorithm in zip(KEYS, d.keys) if algorithm]
        if present and self.chance(0.85):
            if d.session.interface == CONTACTLESS and d.keys[3] and self.chance(0.7):
                return 0x9E, d.keys[3]
            return self.pick(present)
        return self.pick(KEYS), self.pick((0x07, 0x11))

    def key_job(self):
        d, p = self.d, self.patience()
        key, algorithm = self.key()
        if key in PIN_KEYS and not d.session.pin and d.session.interface == CONTACT and self.chance(0.85):
            if self.chance(0.5):
                d.verify()
            else:
                d.set_session(d.session.changed(pin=1))
        field = key_field(d, key, algorithm)
        if self.chance(0.2):
            field = self.damage(field[:9]) + field[9:]
        at = 0
        while len(field) - at > 255 or self.chance(0.35):
            size = self.random.choice((255, 200, 100, self.random.randrange(256), 0))
            answer = d.cmd(apdu(0x10, 0x87, algorithm, key, field[at:at + size], self.le() if self.chance(0.2) else None))
            at = min(len(field), at + size)
            if answer.word != "9000" and self.chance(0.7):
                return
            self.between(p)
        answer = d.cmd(apdu(0x00, 0x87, algorithm, key, field[at:], self.le()))
        if answer.kind == "J":
            self.answer_job()
            self.fetch(p)

    def answer_job(self):
        """The open job is answered: rightly, wrongly, as failed, or not yet."""
        d, r = self.d, self.random
        key, algorithm, _ = d.session.job
        if self.chance(0.15):
            self.any_call()
            if not d.session.job:
                return
        if self.chance(0.15):
            d.done(d.bytes(r.choice((0, 1, 15, 17, 31, 33, 72, 73, 255, 257, r.randrange(300)))))
            if not d.session.job:
                return
        if self.chance(0.12):
            d.fail()
        elif self.chance(0.95):
            d.done(d.bytes(r.choice(result_lengths(key, algorithm))))

    def refused_result(self):
        if self.chance(0.5):
            self.d.fail()
        else:
            self.d.done(self.d.bytes(self.pick((0, 1, 16, 32, 256))))

    def verify(self):
        d, r = self.d, self.random
        if d.session.interface == CONTACTLESS and self.chance(0.8):
            return
        kind = r.randrange(10)
        if kind < 4:
            d.verify()
        elif kind < 6:
            d.verify(self.digits())
        elif kind == 6:
            d.verify(self.broken_pin())
        elif kind == 7:
            d.verify_status()
        elif kind == 8:
            d.cmd(apdu(0x00, 0x20, 0xFF, 0x80, b"" if self.chance(0.7) else d.pin))
        else:
            # Wrong until no try is left, or one before.
            for _ in range(r.randrange(1, 17)):
                if d.verify(self.digits()).word in ("6983", "63C1"):
                    break

    def change_pin(self):
        d = self.d
        kind = self.random.randrange(6)
        if kind < 3:
            d.cmd(apdu(0x00, 0x24, 0x00, 0x80, d.pin + self.digits()))
        elif kind == 3:
            d.cmd(apdu(0x00, 0x24, 0x00, 0x80, self.digits() + self.digits()))
        elif kind == 4:
            d.cmd(apdu(0x00, 0x24, 0x00, 0x80, d.pin + self.broken_pin()))
        else:
            d.cmd(apdu(0x00, 0x24, 0x00, 0x80, self.broken_pin() + self.digits()))

    def change_puk(self):
        d = self.d
        kind = self.random.randrange(5)
        if kind < 3:
            d.cmd(apdu(0x00, 0x24, 0x00, 0x81, d.puk + d.bytes(8)))
        elif kind == 3:
            d.cmd(apdu(0x00, 0x24, 0x00, 0x81, d.bytes(16)))
        else:
            d.cmd(apdu(0x00, 0x24, 0x00, 0x81, d.bytes(self.random.randrange(0, 30))))

    def reset(self):
        d = self.d
        kind = self.random.randrange(6)
        if kind < 3:
            d.cmd(apdu(0x00, 0x2C, 0x00, 0x80, d.puk + self.digits()))
        elif kind == 3:
            d.cmd(apdu(0x00, 0x2C, 0x00, 0x80, d.bytes(8) + self.digits()))
        elif kind == 4:
            d.cmd(apdu(0x00, 0x2C, 0x00, 0x80, d.puk + self.broken_pin()))
        else:
            for _ in range(self.random.randrange(1, 17)):
                if d.cmd(apdu(0x00, 0x2C, 0x00, 0x80, d.bytes(8) + self.digits())).word in ("6983", "63C1"):
                    break

    def loose_piece(self):
        """A piece with no thought of what goes before or comes after."""
        d = self.d
        p1, p2 = self.pick(((0x3F, 0xFF), (0x00, 0x9B), (0x11, 0x9E), (0x07, 0x9E), (0x07, 0x9A), (0x11, 0x9D)))
        ins = 0xDB if p1 == 0x3F else 0x87
        d.cmd(apdu(self.pick((0x10, 0x10, 0x00)), ins, p1, p2, d.bytes(self.pick((0, 0, 1, 11, 133, 255))), self.le()))

    def power(self):
        self.d.on(CONTACTLESS if self.chance(0.25) else CONTACT)

    def give_statuses(self):
        """The session as it is, with other statuses."""
        s = self.d.session
        self.d.set_session(s.changed(pin=self.random.randrange(2), administrator=self.random.randrange(2)))

    def made_up_session(self):
        """Any session: mostly near an edge, often possible."""
        d, r = self.d, self.random
        s = Session(interface=r.choice((0, 0, 0, 1)), pin=r.randrange(2), administrator=r.randrange(2))
        what = r.randrange(8)
        number = lambda *edges: r.choice(edges) if self.chance(0.7) else r.randrange(65536)
        if what in (0, 1, 7):
            ins, p1, p2 = r.choice(((0x87, 0x00, 0x9B), (0x87, 0x11, 0x9E), (0x87, 0x07, 0x9A), (0xDB, 0x3F, 0xFF), (0xDB, 0x3F, 0xFF),
                                    (0xDB, 0x00, 0x00), (r.randrange(256), 0x3F, 0xFF)))
            length = number(0, 1, 4, 11, 200, 255, 265, 266) if ins == 0x87 else number(0, 1, 9, 255, 1000, 13066, 13320, 13321, 13322)
            s.chain = (ins, p1, p2, length)
        if what in (2, 3) or (what == 7 and self.chance(0.3)):
            whole = number(1, 2, 255, 256, 257, 264, 512, 13316, 13321, 13322)
            s.rest = (whole, r.randrange(whole) if whole and self.chance(0.8) else number(0, 255, 256))
        if what in (3, 4, 1) and self.chance(0.7):
            s.challenge = d.bytes(8)
        if what in (5, 6) or (what == 7 and self.chance(0.3)):
            key, algorithm = r.choice(((0x9B, 0x00), (0x9A, 0x07), (0x9C, 0x11), (0x9D, 0x11), (0x9D, 0x07), (0x9E, 0x11),
                                       (r.randrange(256), r.choice((0x00, 0x07, 0x11)))))
            s.job = (key, algorithm, number(1, 5, 12, 100, 255, 256, 256, 256))
        if self.chance(0.3):
            d.put("work", 0, d.bytes(r.choice((16, 64, 300))))
        d.set_session(s)
        if s.chain and self.chance(0.6):
            d.cmd(apdu(self.pick((0x00, 0x10)), *s.chain[:3], d.bytes(self.pick((0, 1, 8, 255))), self.le()))
        elif s.rest and self.chance(0.7):
            d.get_response(self.le() or 0)
            self.fetch()
        elif s.challenge and self.chance(0.7):
            d.reply(s.challenge)
        elif s.job and self.chance(0.7):
            good = result_lengths(*s.job[:2]) if s.job[0] in KEYS + (0x9B,) else (32,)
            d.done(d.bytes(r.choice(good)))
        else:
            self.any_call()
        if d.session.write() == s.write():  # refused: this session would stop all that follows
            d.set_session(Session(interface=s.interface, pin=s.pin, administrator=s.administrator))

    def dirty_work(self):
        at = self.random.choice((0, 0, 100, 266, 13300, self.random.randrange(13000)))
        self.d.put("work", at, self.d.bytes(self.random.randrange(1, 22)))

    def wrong_response_size(self):
        d = self.d
        d.buffer("resp", d.bytes(self.pick((0, 2, 100, 256, 257))))
        for _ in range(self.random.randrange(1, 4)):
            self.any_call()
        d.buffer("resp", d.bytes(self.pick((258, 258, 260, 1024))))

    def new_response(self):
        self.d.buffer("resp", self.d.bytes(self.pick((258, 259, 500, 1024))))

    def ill_formed(self):
        """One clause of well-formedness broken, a few calls, and mended."""
        d, r = self.d, self.random
        kind = r.randrange(6)
        if kind == 0:
            at = r.randrange(8)
            raw, mend = bytes([r.randrange(256)]), b"OPC\x00\x01\x00\x00\x00"[at:at + 1]
        elif kind == 1:
            at = r.choice((8, 18))
            limit = d.pin_limit if at == 8 else d.puk_limit
            raw, mend = r.choice((b"\x00\x00", b"\x10\x01", bytes([limit, limit + 1]), b"\x0f\x10", b"\xff\xff")), bytes([limit, limit])
        elif kind == 2:
            at, mend = 10, d.pin
            raw = self.broken_pin().ljust(8, b"\x00")[:8]
        elif kind == 3:
            key = r.randrange(4)
            at, raw, mend = 28 + key, bytes([r.randrange(256)]), bytes([d.keys[key]])
        elif kind == 4:
            slot = self.slot()
            at, raw, mend = slot.offset, (slot.capacity + r.choice((1, 1, 2, 255, 40000))).to_bytes(2, "big"), b"\x00\x00"
            d.objects = {name: value for name, value in d.objects.items() if name != slot.name}
        else:
            at, raw, mend = 20, d.bytes(8), d.puk  # a PUK may be anything: nothing is broken
            d.put("store", at, raw)
            d.put("store", at, mend)
            return
        d.put("store", at, raw)
        kept = d.pin, d.puk, list(d.keys), dict(d.objects)
        for _ in range(r.randrange(1, 4)):
            self.any_call()
        if kind == 2 and d.pin != kept[0]:
            return  # the store was well formed after all, and the PIN was changed since
        d.put("store", at, mend)

    def restore_records(self):
        if self.chance(0.5):
            self.d.records()
        else:
            d = self.d
            d.pin_limit, d.puk_limit = self.random.randrange(1, 16), self.random.randrange(1, 16)
            d.pin, d.puk = self.digits(), d.bytes(8)
            d.records()

    def change_keys(self):
        d = self.d
        d.keys = [self.pick((0x07, 0x11, 0x11, 0x00)) for _ in range(4)]
        d.put("store", 28, bytes(d.keys))

    def bad_line(self):
        r, d = self.random, self.d
        kind = r.randrange(6)
        if kind == 0:
            line = r.randbytes(r.randrange(40)).replace(b"\n", b"")
        elif kind == 1:
            line = b"cmd " + hexed(self.good_command())[:-1]
        elif kind == 2:
            line = r.choice((b"cmd", b"on", b"fail ", b"done", b"session 00", b"put store 33400 00", b"put work 99999 00",
                             b"resp", b"on 2"))
        elif kind == 3:
            raw = bytearray(b"cmd " + hexed(self.good_command()))
            raw[r.randrange(4, len(raw))] = r.choice(b" gG\r\t\x00\xffx-")
            line = bytes(raw)
        elif kind == 4:
            raw = bytearray(d.session.write())
            raw[r.randrange(28, 64)] = r.randrange(1, 256)
            line = b"session " + hexed(bytes(raw))
        else:
            line = r.choice((b"cmd 00  ", b"cmd  00", b" on 0", b"on 0 ", b"Fail", b"put store 1 0", b"put store  0", b"put resp 0 0g"))
        d.raw(line)
