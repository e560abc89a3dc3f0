"""Writes a history: a line for each step of the link service, of which `lynx service` tells whether they are one lawful run (docs/HISTORIES.md). Copy it
into your own system, and call each method where the step takes effect. Ends are written as `mail.a`, texts are bytes."""

PLAIN = frozenset(b"ABCDEFGHIJKLMNOPQRSTUVWXYZabcdefghijklmnopqrstuvwxyz0123456789_.")


def spelled(text):
    return "".join(chr(byte) if byte in PLAIN else f"%{byte:02X}" for byte in text) or "-"


def enclosed(ends):
    return "".join(f" +{end}" for end in ends)


class Log:
    def __init__(self, out, version=1):
        self.out = out
        self.line(f"history {version}")

    def line(self, text):
        self.out.write(text + "\n")

    # The header: all processes, then all links that are there from the start.

    def process(self, name, home=0):
        self.line(f"process {name} on {home}")

    def wire(self, first, second, link):
        self.line(f"wire {first} {second} as {link}")

    # Calls that take effect. The number of a message counts those that were sent on its end, from 1.

    def make(self, p, link):
        self.line(f"{p}: make {link}")

    def destroy(self, p, end):
        self.line(f"{p}: destroy {end}")

    def send(self, p, end, number, text, ends=()):
        self.line(f"{p}: send {end} {number} {spelled(text)}{enclosed(ends)}")

    def receive(self, p, end):
        self.line(f"{p}: receive {end}")

    def cancel(self, p, end, way):
        self.line(f"{p}: cancel {end} {way}")

    def wait(self, p):
        self.line(f"{p}: wait")

    def exit(self, p):
        self.line(f"{p}: exit")

    # A call that is refused, in words: `send mail.a x`, and for a send they are those of `sending`.

    def refuse(self, p, cause, call):
        self.line(f"{p}: refuse {cause} {call}")

    def sending(self, end, text, ends=()):
        return f"send {end} {spelled(text)}{enclosed(ends)}"

    # What a Wait tells.

    def sent(self, p, end):
        self.line(f"{p}: report {end} out done")

    def returned(self, p, end, ends=()):
        self.line(f"{p}: report {end} out destroyed{enclosed(ends)}")

    def received(self, p, end, text, ends=()):
        self.line(f"{p}: report {end} in done {spelled(text)}{enclosed(ends)}")

    def ended(self, p, end):
        self.line(f"{p}: report {end} in destroyed")

    # What the system does between the calls.

    def match(self, end, number):
        self.line(f"match {end} {number}")

    def take(self, end, number, p, late=False):
        self.line(f"take {end} {number} by {p}{' late' if late else ''}")

    def complete(self, end, number):
        self.line(f"complete {end} {number}")

    def withdraw(self, end):
        self.line(f"withdraw {end}")

    def free(self, end):
        self.line(f"free {end}")

    def notice(self, end, dead=False):
        self.line(f"notice {end}{' dead' if dead else ''}")

    def back(self, end, number, dead=False):
        self.line(f"back {end} {number}{' dead' if dead else ''}")
