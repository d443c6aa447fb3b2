"""What a comparison has seen, and what it must have seen."""
import collections

NAMES = {
    0xA4: "SELECT", 0xCB: "GET DATA", 0xC0: "GET RESPONSE", 0x20: "VERIFY", 0x24: "CHANGE REFERENCE DATA",
    0x2C: "RESET RETRY COUNTER", 0x87: "GENERAL AUTHENTICATE", 0xDB: "PUT DATA",
}

# Every status word that 01 can give, read off its text.
PLAIN_WORDS = ("9000", "6700", "6882", "6E00", "6D00", "6884", "6A81", "6A86", "6A82", "6A80", "6982", "6985", "6A88", "6983",
               "6A84", "6F00")
WORDS = set(PLAIN_WORDS) | {"63C%X" % x for x in range(16)} | {"61%02X" % x for x in range(256)}

# Every refusal, by the call that can get it.
REFUSALS = {("on", n) for n in (1, 4)} | {("cmd", n) for n in (1, 2, 3, 4, 5)}
REFUSALS |= {("done", n) for n in (1, 2, 3, 4, 6, 7)} | {("fail", n) for n in (1, 2, 3, 4, 6)}

JOBS = {(key, algorithm) for key in (0x9A, 0x9C, 0x9D, 0x9E) for algorithm in (0x07, 0x11)} | {(0x9B, 0x00)}

VERBS = ("store", "work", "resp", "put store", "put work", "put resp", "session", "on", "cmd", "done", "fail", "(none)")

# Every answer that 01 names for each kind of command. J: a job is opened.
TRANSITIONS = {
    "wrong length": "6700",
    "other CLA": "6882 6E00",
    "other INS": "6D00",
    "SELECT": "6884 6A86 6A82 9000 61XX",
    "GET DATA": "6884 6A86 6A80 6A82 6982 9000 61XX",
    "GET RESPONSE": "6884 6A86 6700 6985 9000 61XX",
    "VERIFY": "6884 6A81 6A86 6A88 6A80 9000 63CX 6983",
    "CHANGE REFERENCE DATA": "6884 6A86 6A81 6983 6A80 63CX 9000",
    "RESET RETRY COUNTER": "6884 6A86 6A81 6983 6A80 63CX 9000",
    "GENERAL AUTHENTICATE, one piece": "6A86 6982 6A80 J 6985 9000",
    "GENERAL AUTHENTICATE, first piece": "6A86 6982 9000",
    "GENERAL AUTHENTICATE, next piece": "6A86 6982 6A80 9000",
    "GENERAL AUTHENTICATE, last piece": "6A86 6982 6A80 J 6985 9000",
    "PUT DATA, one piece": "6A81 6A86 6982 6A80 6A82 6A84 9000",
    "PUT DATA, first piece": "6A81 6A86 6982 9000",
    "PUT DATA, next piece": "6A81 6A86 6982 6A84 9000",
    "PUT DATA, last piece": "6A81 6A86 6982 6A80 6A82 6A84 9000",
    "result 9A07": "9000 61XX 6F00",
    "result 9A11": "9000 61XX 6F00",
    "result 9B00": "9000 61XX 6F00",
    "result 9C07": "9000 61XX 6F00",
    "result 9C11": "9000 61XX 6F00",
    "result 9D07": "9000 61XX 6F00",
    "result 9D11": "9000 61XX 6F00",
    "result 9E07": "9000 61XX 6F00",
    "result 9E11": "9000 61XX 6F00",
}
# A 7C{82 result} of 256 bytes is 264 bytes long: an RSA result never fits Le.
for name in ("result 9A07", "result 9C07", "result 9D07", "result 9E07"):
    TRANSITIONS[name] = "61XX 6F00"


def family(word):
    if word.startswith("61"):
        return "61XX"
    if word.startswith("63C"):
        return "63CX"
    return word


def command_kind(raw, session):
    """The kind of a command, as the card with this session meets it."""
    if len(raw) < 4 or len(raw) > 261 or (len(raw) > 5 and (raw[4] == 0 or len(raw) not in (5 + raw[4], 6 + raw[4]))):
        return "wrong length"
    cla, ins = raw[0], raw[1]
    if cla not in (0x00, 0x10):
        return "other CLA"
    if ins not in NAMES:
        return "other INS"
    name = NAMES[ins]
    if ins in (0x87, 0xDB):
        goes_on = session.chain is not None and session.chain[:3] == tuple(raw[1:4])
        if cla == 0x10:
            return name + (", next piece" if goes_on else ", first piece")
        return name + (", last piece" if goes_on else ", one piece")
    return name


class Coverage:
    def __init__(self):
        self.verbs = collections.Counter()
        self.kinds = collections.Counter()
        self.words = collections.Counter()
        self.refusals = collections.Counter()
        self.interfaces = collections.Counter()
        self.jobs = collections.Counter()
        self.transitions = collections.Counter()
        self.hexcard = collections.Counter()
        self.calls = 0
        self.asserted = 0
        self.read_backs = 0

    def note(self, verb, raw, session, answer):
        """verb: None for a line that is none. raw: the bytes of a command. session: as it was before."""
        self.verbs[verb or "(none)"] += 1
        self.kinds[answer.kind] += 1
        if not answer.is_outcome:
            return
        self.calls += 1
        word = answer.word
        interface = session.interface if verb != "on" else answer.session.interface
        self.interfaces["contactless" if interface else "contact", family(word)] += 1
        if answer.kind == "R":
            self.words[word] += 1
        if answer.kind == "N":
            self.refusals[verb, answer.number] += 1
            return
        if answer.kind == "J":
            self.jobs[answer.key, answer.algorithm] += 1
        if verb == "cmd":
            self.transitions[command_kind(raw, session), family(word)] += 1
        elif verb in ("done", "fail"):
            self.transitions["result %02X%02X" % session.job[:2], family(word)] += 1

    def missing(self):
        """What 01 can give and was never given; and what was given and 01 cannot give."""
        out = []
        lost = sorted(WORDS - set(self.words))
        if lost:
            out.append("status words never given: " + " ".join(lost))
        strange = sorted(set(self.words) - WORDS)
        if strange:
            out.append("status words that 01 does not know: " + " ".join(strange))
        lost = sorted(REFUSALS - set(self.refusals))
        if lost:
            out.append("refusals never given: " + ", ".join("%s %d" % pair for pair in lost))
        strange = sorted(set(self.refusals) - REFUSALS)
        if strange:
            out.append("refusals that 01 does not know: " + ", ".join("%s %d" % pair for pair in strange))
        lost = sorted(JOBS - set(self.jobs))
        if lost:
            out.append("jobs never opened: " + " ".join("%02X%02X" % pair for pair in lost))
        for kind in ("ok", "bad line", "R", "J", "N", "P"):
            if not self.kinds[kind]:
                out.append("answers never given: " + kind)
        strange = sorted(set(self.kinds) - {"ok", "bad line", "R", "J", "N", "P"})
        if strange:
            out.append("answers of no known kind: " + "; ".join(strange[:5]))
        lost = [verb for verb in VERBS if not self.verbs[verb]]
        if lost:
            out.append("verbs never sent: " + ", ".join(lost))
        for kind, words in TRANSITIONS.items():
            lost = [word for word in words.split() if not self.transitions[kind, word]]
            if lost:
                out.append("never answered: %s with %s" % (kind, " ".join(lost)))
        for kind, word in sorted(self.transitions):
            if word not in TRANSITIONS.get(kind, "").split():
                out.append("01 does not answer: %s with %s" % (kind, word))
        return out

    def report(self):
        lines = []
        say = lines.append

        def table(title, items, width=118):
            say(title)
            row = "   "
            for item in items:
                if len(row) + 2 + len(item) > width:
                    say(row)
                    row = "   "
                row += " " + item + " "
            say(row)

        table("lines by verb", ["%s %d" % (verb, self.verbs[verb]) for verb in VERBS])
        table("answers", ["%s %d" % pair for pair in sorted(self.kinds.items())])
        table("status words", ["%s %d" % (word, self.words[word]) for word in PLAIN_WORDS])
        table("  63CX", ["63C%X %d" % (x, self.words["63C%X" % x]) for x in range(16)])
        more = {x: self.words["61%02X" % x] for x in range(256)}
        seen = sum(1 for x in more if more[x])
        say("  61XX: %d of 256 values, %d answers, 6100 %d times, the rarest %d times" %
            (seen, sum(more.values()), more[0], min(more.values())))
        table("refusals by call", ["%s %d: %d" % (verb, n, self.refusals[verb, n]) for verb, n in sorted(REFUSALS)])
        table("jobs opened", ["%02X%02X %d" % (key, alg, self.jobs[key, alg]) for key, alg in sorted(JOBS)])
        for name in ("contact", "contactless"):
            table(name, ["%s %d" % (word, count) for (interface, word), count in sorted(self.interfaces.items())
                         if interface == name])
        say("command and answer")
        for kind in TRANSITIONS:
            found = sorted((word, count) for (of, word), count in self.transitions.items() if of == kind)
            say("    %-34s %s" % (kind, "  ".join("%s %d" % pair for pair in found)))
        if self.hexcard:
            table("hexcard lines", ["%s %d" % pair for pair in sorted(self.hexcard.items())])
        say("asserted answers of 01's examples: %d; objects read back: %d" % (self.asserted, self.read_backs))
        return "\n".join(lines)
