"""Asking without the pages (document 02, W-212). The answers that are stated here are the request's; the controller of world.py, from which
stdout comes, is held to them."""
from script import master, silence
from world import AREA, DAMAGED, LENGTHS, NOPORT, RANGE


def lent(index=LENGTHS[0], ports=LENGTHS[1], page0=LENGTHS[2], page1=LENGTHS[3]):
    return index, ports, page0, page1


def read(s, lengths, address, answer, *words):
    """Over areas of these lengths asking answers this, and fetching hands back these words."""
    if lengths != s.world.lengths:
        s.lengths(*lengths)
    found = s.world.called(s.world.ask, address), s.world.fetch(address)
    assert found == (answer, list(words)), found
    s.read(address)


def refused(s):
    """What is lent the pages is refused with 1."""
    s.open(6, 6, 0)
    s.write(1, 8)
    s.close(1)
    s.event(silence())
    s.quiet(0)
    answers = ["%s %d" % (call, AREA) for call in ("open", "write", "close", "hear", "quiet")]
    assert [line.replace(" none", "") for line in s.stdout[-5:]] == answers, s.stdout[-5:]


def lengths(s):
    s.begin("Asking without the pages: a source at address 1, filled twice, so that page 0 is valid; a sink never filled at 2")
    s.open(1, 1, 0, sink=False)
    s.open(2, 2, 0)
    s.write(1, 6)
    s.write(1, 7)
    s.entry(3, 256)
    s.entry(5, 2)
    s.mark()
    read(s, lent(), 1, "good", 7)
    for pages in (lent(page0=4095), lent(page0=4097), lent(page1=4095), lent(page1=4097), lent(page0=0, page1=0)):
        read(s, pages, 1, "good")
        read(s, pages, 2, "never")
        read(s, pages, 5000, RANGE)
        read(s, pages, 4, NOPORT)
        read(s, pages, 3, DAMAGED)
        read(s, pages, 5, DAMAGED)
        refused(s)
    read(s, lent(page0=0), 2, "never")
    for tables in (lent(index=4095), lent(index=4097), lent(ports=2047), lent(ports=2049), lent(ports=1024)):
        read(s, tables, 1, AREA)
        read(s, tables, 5000, AREA)
        refused(s)
    s.same()
    s.lengths(*LENGTHS)
    s.write(1, 8)
    read(s, lent(page0=4095), 1, "good")
    read(s, lent(), 1, "good", 8)


def states(s):
    s.begin("Each state where the pages have no words: never, good, stale and held")
    s.open(1, 1, 0, limit=1)
    none = lent(page0=0, page1=0)
    read(s, none, 1, "never")
    s.lengths(*LENGTHS)
    s.exchange(1, 9)
    read(s, none, 1, "good")
    s.lengths(*LENGTHS)
    s.quiet(1500)
    read(s, none, 1, "stale")
    s.lengths(*LENGTHS)
    s.event(master(1))
    s.quiet(64)
    read(s, none, 1, "held")
    read(s, lent(), 1, "held", 9)


def run(s):
    lengths(s)
    states(s)
