#!/usr/bin/env python3
"""A toy message layer with two bugs: python3 post.py [1] [2] > run.history

It runs three processes and writes what it did as a history, of which `lynx service` tells whether that was lawful. Its own test, that each text arrives
once, finds neither bug. The words 1 and 2 mend them."""

import sys
from collections import namedtuple

from history_log import Log

MENDED = sys.argv[1:]
Message = namedtuple("Message", "sender number text ends receiver")


class Refused(Exception):
    pass


def opposite(end):
    return end[:-1] + ("b" if end.endswith("a") else "a")


class Post:
    """Links between processes. An end of a link has one owner, and moves in messages."""

    def __init__(self, log):
        self.log = log
        self.owner = {}  # of each end; none while it is in a message
        self.held = {}  # the ends that a process may use
        self.sent = {}  # how many messages were sent on an end
        self.messages = {}  # what was sent on an end and was not taken
        self.receives = set()  # the ends with a receive that waits
        self.news = {}  # what a process was not told yet

    def process(self, name):
        self.held[name], self.news[name] = set(), []
        self.log.process(name)

    def wire(self, first, second, link):
        for p, end in (first, f"{link}.a"), (second, f"{link}.b"):
            self.owner[end], self.sent[end] = p, 0
            self.held[p].add(end)
        self.log.wire(first, second, link)

    def send(self, p, end, text, ends=()):
        if end not in self.held[p]:
            self.log.refuse(p, "NoEnd", self.log.sending(end, text, ends))
            raise Refused
        for moved in ends:
            self.owner[moved] = None
            # Bug 1: without this the end can be used while it is on its way.
            if "1" in MENDED:
                self.held[p].discard(moved)
        self.sent[end] += 1
        # Bug 2: who owns the opposite end may change before the message is taken.
        self.messages[end] = Message(p, self.sent[end], text, ends, self.owner[opposite(end)])
        self.log.send(p, end, self.sent[end], text, ends)

    def receive(self, p, end):
        self.receives.add(end)
        self.log.receive(p, end)

    def deliver(self):
        """Each message for which there is a receive reaches its receiver."""
        for end, message in list(self.messages.items()):
            if opposite(end) in self.receives:
                self.receives.discard(opposite(end))
                self.log.match(end, message.number)
                self.hand_over(end, self.messages.pop(end))

    def hand_over(self, end, message):
        p = self.owner[opposite(end)] if "2" in MENDED else message.receiver
        self.log.take(end, message.number, p)
        for moved in message.ends:
            self.owner[moved] = p
            self.held[message.sender].discard(moved)
            self.held[p].add(moved)
        self.news[p].append((self.log.received, opposite(end), message.text, message.ends))
        self.log.complete(end, message.number)
        self.news[message.sender].append((self.log.sent, end))

    def wait(self, p):
        """The oldest news of a process: the text, where it is a message that was received."""
        self.log.wait(p)
        tell, *what = self.news[p].pop(0)
        tell(p, *what)
        return what[1:2]


def texts_told(post):
    """Each process waits until it was told all, and the texts of which it was told."""
    texts = []
    while any(post.news.values()):
        for p in post.news:
            texts += post.wait(p) if post.news[p] else []
    return texts


def run(post):
    """The texts that arrived."""
    for name in "alice", "bob", "carol":
        post.process(name)
    post.wire("alice", "bob", "mail")
    post.wire("alice", "carol", "box")
    # Alice gives box.a to bob, and tries to use it all the same.
    post.send("alice", "mail.a", b"yours", ["box.a"])
    post.receive("bob", "mail.b")
    post.receive("carol", "box.b")
    try:
        post.send("alice", "box.a", b"hello")
    except Refused:
        pass
    post.deliver()
    if post.sent["box.a"] == 0:
        post.send("bob", "box.a", b"hello")
        post.deliver()
    texts = texts_told(post)
    # A message waits on mail while bob gives its other end to carol.
    post.send("alice", "mail.a", b"late")
    post.receive("carol", "box.b")
    post.send("bob", "box.a", b"take_it", ["mail.b"])
    post.deliver()
    post.receive("carol", "mail.b")
    post.deliver()
    return texts + texts_told(post)


if __name__ == "__main__":
    arrived = run(Post(Log(sys.stdout)))
    if sorted(arrived) != [b"hello", b"late", b"take_it", b"yours"]:
        sys.exit(f"not each text arrived once: {arrived}")
