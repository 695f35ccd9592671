"""Damaged entries and port words, met by bus events and by quiet time."""
from controller import SINK, SRC
from host import DAMAGED_FLAGS
from script import master, silence, slave

# Where port 1 of address 1 is damaged: the index entry or one of its port words, and its value.
KINDS = [("entry", 1, value) for value in (2, 255, 256, 65535)]
KINDS += [("word", 0, value) for value in (5 * 4096 + 1, 15 * 4096 + 1, 2, 4095, 0)]
KINDS += [("word", 1, flags) for flags in DAMAGED_FLAGS]
KINDS += [("word", 2, 8), ("word", 2, 65535), ("word", 6, 1), ("word", 7, 1)]


def put(s, area, at, value):
    if area == "entry":
        s.entry(at, value)
    else:
        s.word(1, at, value)


def before(s, area, at):
    return s.world.index[at] if area == "entry" else s.world.word(1, at)


def refused(s, call, *arguments):
    """A call that changes nothing."""
    s.mark()
    call(*arguments)
    s.same()


def each_kind(s):
    for area, at, value in KINDS:
        s.begin("Damage, %s %d is %d: met by a master frame, a slave frame and a reply time" % (area, at, value))
        s.open(1, 1, 0)
        s.exchange(1, 7)
        whole = before(s, area, at)
        put(s, area, at, value)
        refused(s, s.event, master(1))
        put(s, area, at, whole)
        s.event(master(1))
        whole = before(s, area, at)
        put(s, area, at, value)
        refused(s, s.event, slave(2))
        refused(s, s.event, slave(2, checks=[0]))
        refused(s, s.quiet, 65535)
        s.quiet(63)
        refused(s, s.quiet, 1)
        put(s, area, at, whole)
        s.event(slave(2))
        s.fetch(1)
        s.state()
        s.areas()


def unneeded(s):
    s.begin("Damage that no event needs: another address, codes above 4, unsound master frames, stray slave frames, silence, quiet")
    s.open(1, 1, 0)
    s.open(2, 2, 0)
    s.entry(1, 256)
    s.exchange(2, 5)
    s.event(master(1, checks=[0]))
    s.event(slave(1))
    s.event(silence())
    s.event(silence(), master(1))
    s.event(master(2), master(1))
    for code in range(5, 16):
        s.event(master(4096 * code + 1))
        s.event(slave(1))
    for code in range(8, 16):
        s.event(master(4096 * code + 1))
        s.quiet(128)
    s.quiet(65535)
    s.state()
    s.areas()
    s.begin("A damaged source is refused to its master frame, filled or not")
    s.open(1, 1, 0, sink=False)
    for flags in (SRC, SRC + 2):
        s.word(1, 1, flags + 8192)
        refused(s, s.event, master(1))
        s.word(1, 1, flags)
        s.event(master(1))
    s.begin("Damage that comes while another address is waited for")
    s.open(1, 1, 0)
    s.event(master(2))
    s.word(1, 1, SINK + 8192)
    s.event(slave(3))
    s.event(master(2))
    s.quiet(64)
    refused(s, s.event, master(1))
    refused(s, s.event, master(4097))
    s.state()
    s.begin("Damage that is needed at the last bit time of a quiet, or one later")
    s.open(1, 1, 0)
    s.event(master(1))
    s.quiet(20)
    s.word(1, 2, 8)
    refused(s, s.quiet, 44)
    s.quiet(43)
    refused(s, s.quiet, 1)
    refused(s, s.quiet, 5000)
    s.word(1, 2, 0)
    s.quiet(1)
    s.port(1)
    s.state()
    s.begin("Entry 0 is no port to a bus event")
    s.event(master(1))
    s.event(slave(2))
    s.event(master(1))
    s.quiet(64)
    s.state()
    s.areas()


def stretch(s):
    for title, stretch_of_damage in (("A stretch of damage, then a sound exchange", True), ("The same without the stretch", False)):
        s.begin(title)
        s.open(1, 1, 1)
        s.open(2, 2, 1, sink=False)
        s.open(3, 3, 0, limit=1)
        s.write(2, 8, 9)
        s.exchange(3, 1)
        s.exchange(4097, 3, 4)
        if stretch_of_damage:
            s.event(master(4097, checks=[0]))
            s.event(slave(1, 1))
            s.event(slave(7, sqe=True), slave(7, 8))
            s.quiet(500)
            s.event(master(4098, violation=True), silence())
            s.quiet(2130)
            s.fetch(1)
        s.event(master(4098))
        s.exchange(4097, 5, 6)
        for address in (1, 2, 3):
            s.read(address)
            s.port(address)
        assert s.world.ask(3) == ("stale" if stretch_of_damage else "good")


def run(s):
    each_kind(s)
    unneeded(s)
    stretch(s)
