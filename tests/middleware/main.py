"""Real clients on the card: issues an RSA and a P-256 card by commands, then lets OpenSC, OpenSSL and OpenSSH use them. A PASS or FAIL line for each.

   main.py FOLDER COMMAND..     FOLDER for keys, logs and the trace; COMMAND runs the line program that is the card

It is started by run, in a network and mount namespace of its own.
"""
import os
import pathlib
import shutil
import signal
import subprocess
import sys
import time

import card
import issue

PORT = 35963
DRIVER = "/usr/lib/pcsc/drivers/serial/libifdvpcd.so.0.8"
RIGHT, WRONG, SHORT, NEW, PUK = "123456", "999999", "12345", "654321", "12345678"

folder = pathlib.Path(sys.argv[1])
program = sys.argv[2:]
started = []
counts = {"PASS": 0, "FAIL": 0}


def say(name, good, why=""):
    word = "PASS" if good else "FAIL"
    counts[word] += 1
    print("%s %s%s" % (word, name, "" if good else ": " + " ".join(why.split())[:300]), flush=True)


def client(*words, given=None, environment=None):
    """What a client prints. Its exit code is not looked at: clients use it in too many ways."""
    done = subprocess.run(words, input=given, stdout=subprocess.PIPE, stderr=subprocess.STDOUT, env=environment, timeout=120)
    with open(folder / "clients.log", "ab") as log:
        log.write(("$ " + " ".join(words) + "\n").encode() + done.stdout + b"\n")
    return done.stdout.decode(errors="replace")


def start(*words):
    log = open(folder / (os.path.basename(words[0]) + ".log"), "ab")
    process = subprocess.Popen(words, stdout=log, stderr=log)
    started.append(process)
    return process


def stop_all():
    for process in reversed(started):
        process.send_signal(signal.SIGTERM)
    for process in started:
        try:
            process.wait(timeout=10)
        except subprocess.TimeoutExpired:
            process.kill()


def wait_for(test, seconds=20):
    end = time.time() + seconds
    while time.time() < end:
        if test():
            return True
        time.sleep(0.1)
    return False


def reader_there():
    from smartcard.System import readers
    try:
        return len(readers()) > 0
    except Exception:
        return False


def start_reader():
    settings = folder / "reader.conf.d"
    settings.mkdir()
    (settings / "card").write_text('FRIENDLYNAME "Virtual PCD"\nDEVICENAME /dev/null:0x8C7B\nLIBPATH %s\nCHANNELID 0x8C7B\n' % DRIVER)
    start("pcscd", "-f", "-c", str(settings))
    return wait_for(reader_there)


def power_cycle():
    """The card without power and with it again, so that no status survives from one client to the next."""
    from smartcard.Exceptions import CardConnectionException, NoCardException
    from smartcard.scard import SCARD_UNPOWER_CARD
    from smartcard.System import readers
    try:
        connection = readers()[0].createConnection()
        connection.connect(disposition=SCARD_UNPOWER_CARD)
        connection.disconnect()
        return True
    except (NoCardException, CardConnectionException):
        return False


class Session:
    """One issued card, and the reader that holds it."""

    def __init__(self, label, algorithm, trace, reader):
        self.label = label
        self.unit = card.CipherUnit(algorithm)
        self.card = card.LineCard(program, self.unit, trace)
        self.reader = reader
        self.certificates = {key: issue.certificate(self.unit, key, "Operator %02X" % key) for key in card.KEYS}
        self.objects = issue.objects(self.certificates)

    def fresh(self, contactless=0):
        self.reader.insert(self.card, contactless)
        wait_for(power_cycle)

    def check(self, name, good, why=""):
        say("%s: %s" % (self.label, name), good, why)


def issues(one):
    one.fresh()
    desk = issue.Desk(one.unit)
    word = desk.login()
    one.check("administrator's login by challenge and reply", word == 0x9000, "%04X" % word)
    words = {tag: desk.put(tag, value) for tag, value in one.objects.items()}
    one.check("PUT DATA of %d objects, in pieces" % len(words), all(w == 0x9000 for w in words.values()), str(words))
    wrong = [tag for tag, value in one.objects.items() if tag not in (issue.PRINTED, 0x5FC108) and desk.get(tag) != (issue.tlv(0x7E if tag == 0x7E else 0x53, value), 0x9000)]
    one.check("GET DATA and GET RESPONSEs hand the objects back", not wrong, "%s" % [hex(t) for t in wrong])
    one.check("PIN-read objects are refused without the PIN", all(desk.get(tag) == (b"", 0x6982) for tag in (issue.PRINTED, 0x5FC108)))
    word = desk.send(bytes.fromhex("0020008008") + RIGHT.encode() + b"\xFF\xFF")[1]
    face = desk.get(0x5FC108)
    one.check("the face, %d bytes, read after VERIFY" % len(one.objects[0x5FC108]), word == 0x9000 and face == (issue.tlv(0x53, one.objects[0x5FC108]), 0x9000))
    desk.close()


def opensc(one):
    one.fresh()
    said = client("opensc-tool", "-n")
    one.check("opensc-tool knows the card", "PIV" in said or "Personal Identity" in said, said)
    one.fresh()
    said = client("pkcs15-tool", "--dump")
    one.check("pkcs15-tool dumps it", "PIV AUTH key" in said and "Certificate for PIV Authentication" in said, said)
    one.fresh()
    client("pkcs15-tool", "--read-certificate", "01", "-o", str(folder / "read.pem"))
    read = client("openssl", "x509", "-in", str(folder / "read.pem"), "-outform", "DER", "-out", str(folder / "read.der"))
    same = (folder / "read.der").exists() and (folder / "read.der").read_bytes() == one.certificates[0x9A]
    one.check("certificate 9A is the issued one", same, read)


def tries(one):
    """The tries left, asked of the card without counting."""
    desk = issue.Desk(one.unit)
    word = desk.send(bytes.fromhex("00200080"))[1]
    desk.close()
    return word


def pins(one):
    def verify(pin):
        one.fresh()
        said = client("pkcs15-tool", "--verify-pin", "--auth-id", "01", "--pin", pin)
        one.fresh()
        return said, tries(one)

    said, left = verify(RIGHT)
    one.check("right PIN", left == 0x63C3, "%s %04X" % (said, left))
    said, left = verify(SHORT)
    one.check("five digits are not counted", left == 0x63C3, "%s %04X" % (said, left))
    said, left = verify(WRONG)
    one.check("wrong PIN is counted", left == 0x63C2, "%s %04X" % (said, left))
    verify(WRONG)
    said, left = verify(WRONG)
    one.check("blocked after three", left == 0x63C0, "%s %04X" % (said, left))
    said, left = verify(RIGHT)
    one.check("blocked for the right PIN too", left == 0x63C0, "%s %04X" % (said, left))
    one.fresh()
    said = client("pkcs15-tool", "--unblock-pin", "--auth-id", "01", "--puk", PUK, "--new-pin", NEW)
    one.fresh()
    left = tries(one)
    one.check("unblocked by the PUK", left == 0x63C3, "%s %04X" % (said, left))
    one.fresh()
    said = client("pkcs15-tool", "--change-pin", "--auth-id", "01", "--pin", NEW, "--new-pin", RIGHT)
    said, left = verify(NEW)
    one.check("PIN changed: the old one is wrong now", left == 0x63C2, "%s %04X" % (said, left))
    said, left = verify(RIGHT)
    one.check("and the new one right", left == 0x63C3, "%s %04X" % (said, left))


def printed(one):
    value = one.objects[issue.PRINTED]
    one.fresh()
    (folder / "printed").unlink(missing_ok=True)
    client("pkcs15-tool", "--read-data-object", "Printed Information", "-o", str(folder / "printed"))
    got = (folder / "printed").read_bytes() if (folder / "printed").exists() else b""
    one.check("printed information refused without PIN", value not in got)
    one.fresh()
    said = client("pkcs15-tool", "--verify-pin", "--auth-id", "01", "--pin", RIGHT, "--read-data-object", "Printed Information", "-o", str(folder / "printed"))
    got = (folder / "printed").read_bytes() if (folder / "printed").exists() else b""
    one.check("and read with it", value in got, said)


def module():
    for path in pathlib.Path("/usr/lib").rglob("opensc-pkcs11.so"):
        return str(path)
    return "opensc-pkcs11.so"


def signs(one):
    note = folder / "note"
    note.write_bytes(b"alarm 17 acknowledged\n")
    mechanism = "SHA256-RSA-PKCS" if one.unit.algorithm == 0x07 else "ECDSA-SHA256"
    one.fresh()
    said = client("pkcs11-tool", "--module", module(), "--login", "--pin", RIGHT, "--sign", "--id", "01", "--mechanism", mechanism,
                  "--signature-format", "openssl", "-i", str(note), "-o", str(folder / "note.sig"))
    (folder / "9a.pem").write_bytes(one.unit.public_pem(0x9A))
    checked = client("openssl", "dgst", "-sha256", "-verify", str(folder / "9a.pem"), "-signature", str(folder / "note.sig"), str(note))
    one.check("pkcs11-tool login and a 9A signature that OpenSSL verifies", "Verified OK" in checked, said + checked)


def logs_in(one):
    home = folder / "ssh"
    shutil.rmtree(home, ignore_errors=True)
    home.mkdir(mode=0o700)
    client("ssh-keygen", "-q", "-t", "ed25519", "-N", "", "-f", str(home / "host"))
    one.fresh()
    keys = [line for line in client("ssh-keygen", "-D", module()).splitlines() if line.startswith(("ssh-", "ecdsa-"))]
    (home / "authorized").write_text("\n".join(keys) + "\n")
    (home / "sshd_config").write_text(
        "Port 2222\nListenAddress 127.0.0.1\nHostKey %s\nAuthorizedKeysFile %s\nStrictModes no\nUsePAM no\nPasswordAuthentication no\n"
        "KbdInteractiveAuthentication no\nPermitRootLogin yes\nPidFile none\n" % (home / "host", home / "authorized"))
    os.makedirs("/run/sshd", exist_ok=True)
    server = start(shutil.which("sshd") or "/usr/sbin/sshd", "-D", "-e", "-f", str(home / "sshd_config"))
    (home / "ask").write_text("#!/bin/sh\necho %s\n" % RIGHT)
    (home / "ask").chmod(0o700)
    environment = dict(os.environ, SSH_ASKPASS=str(home / "ask"), SSH_ASKPASS_REQUIRE="force", DISPLAY=":0")
    time.sleep(1)
    one.fresh()
    said = client("ssh", "-F", "none", "-p", "2222", "-o", "PKCS11Provider=" + module(), "-o", "StrictHostKeyChecking=no", "-o", "UserKnownHostsFile=/dev/null",
                  "-o", "IdentityAgent=none", "root@127.0.0.1", "echo logged in by the card", environment=environment)
    one.check("OpenSSH login to a local sshd", "logged in by the card" in said, said)
    server.terminate()
    server.wait(timeout=10)
    started.remove(server)


def contactless(one):
    one.fresh(contactless=1)
    digest = folder / "digest"
    digest.write_bytes(client_digest())
    (folder / "9e.sig").unlink(missing_ok=True)
    (folder / "9e.pem").write_bytes(one.unit.public_pem(0x9E))
    form = ("--sha-256", "--pkcs1") if one.unit.algorithm == 0x07 else ("--sha-256", "--signature-format", "openssl")
    said = client("pkcs15-crypt", "--sign", "--key", "04", *form, "-i", str(digest), "-o", str(folder / "9e.sig"))
    checked = client("openssl", "dgst", "-sha256", "-verify", str(folder / "9e.pem"), "-signature", str(folder / "9e.sig"), str(folder / "note"))
    one.check("contactless: a 9E signature without PIN", "Verified OK" in checked, said + checked)
    desk = issue.Desk(one.unit)
    word = desk.send(bytes.fromhex("00200080"))[1]
    one.check("contactless: VERIFY is 6A81", word == 0x6A81, "%04X" % word)
    word = desk.get(0x5FC105)[1]
    one.check("contactless: certificate 9A is 6982", word == 0x6982, "%04X" % word)
    desk.close()


def client_digest():
    import hashlib
    return hashlib.sha256((folder / "note").read_bytes()).digest()


def main():
    reader = card.Reader(PORT)
    cards = []
    with open(folder / "trace", "w") as trace:
        try:
            say("pcscd with a virtual reader", start_reader())
            for label, algorithm in (("RSA 2048", 0x07), ("P-256", 0x11)):
                one = Session(label, algorithm, trace, reader)
                for part in (issues, opensc, pins, printed, signs, logs_in, contactless):
                    try:
                        part(one)
                    except Exception as error:
                        one.check(part.__name__, False, repr(error))
                cards.append(one.card)
        finally:
            reader.remove()
            stop_all()
            for each in cards:
                each.close()
    print("%d passed, %d failed" % (counts["PASS"], counts["FAIL"]))
    return 1 if counts["FAIL"] else 0


if __name__ == "__main__":
    sys.exit(main())
