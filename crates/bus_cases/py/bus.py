"""Bus events: exchanges, replies, unsound slave frames, marks of blocks, counts, ranges."""
from controller import BLOCKS, SINK, SRC, STATUS_BITS, Hearing
from script import master, noise, silence, slave

def exchanges(s):
    s.begin("DMF: an equal master word while waiting, sound; not another word, not after the answer")
    s.mask(0, 65535)
    for event in (master(1), master(1), master(2), master(1), slave(9), master(1), slave(9), slave(9), master(1, checks=[0]), master(1)):
        s.event(event)
        s.state()
        s.write_status(0, 0)
    for quiet, passed in ((63, 63), (64, 64)):
        s.begin("DSF: a second slave frame %d bit times after the master frame; SFC for each" % passed)
        s.mask(0, 65535)
        s.event(slave(1))
        s.state()
        s.exchange(1, 2)
        s.quiet(quiet)
        s.event(slave(2))
        s.state()
        s.quiet(1)
        s.event(slave(2))
        s.state()
    s.begin("DSF goes by the reply time that was adopted")
    s.mask(0, 65535)
    s.reply_time(128)
    s.exchange(1, 2)
    s.reply_time(32)
    s.quiet(127)
    s.event(slave(2))
    s.state()
    s.begin("After our own reply a slave frame is stray: DSF within the reply time")
    s.mask(0, 65535)
    s.open(1, 1, 0, sink=False)
    s.write(1, 5)
    s.event(master(1))
    s.event(slave(5))
    s.state()
    s.write_status(0, 0)
    s.quiet(64)
    s.event(slave(5))
    s.state()
    s.areas()
    s.begin("EMF ends the wait: a stranger's slave frame is not stored")
    s.mask(0, 65535)
    s.open(1, 1, 0)
    for unsound in (
        master(1, checks=[0]),
        master(1, checks=[]),
        master(1, checks=[52, 52]),
        Hearing("master", []),
        Hearing("master", [0, 1]),
        Hearing("master", [1, 1]),
        master(1, sqe=True),
        master(1, violation=True),
        master(1, alo=True),
    ):
        s.event(master(1))
        s.event(unsound)
        s.state()
        s.event(slave(2))
        s.state()
        s.read(1)
        s.write_status(0, 0)
    s.areas()
    s.begin("The port that the slave frame fills is the one that its address has now")
    s.open(1, 1, 0)
    s.event(master(1))
    s.close(1)
    s.open(1, 2, 0, interrupt=4)
    s.event(slave(6))
    s.read(1)
    s.event(master(1))
    s.close(1)
    s.open(1, 2, 1)
    s.event(slave(7))
    s.read(1)
    s.event(master(4097))
    s.close(1)
    s.event(slave(7, 7))
    s.event(master(1))
    s.open(1, 3, 0, sink=False)
    s.event(slave(7))
    s.read(1)
    s.areas()
    s.begin("Two pages in turn, of each size; each frame raises its interrupt")
    s.mask(0, 65535)
    for code, size in enumerate((1, 2, 4, 8, 16)):
        s.open(code, code + 1, code, interrupt=code + 1)
        for turn in (1000, 2000, 3000):
            s.exchange(4096 * code + code, *range(turn, turn + size))
            s.read(code)
        s.port(code)
        s.pages(code)
        s.state()
        s.write_status(0, 0)
    s.areas()
    s.begin("Interrupts 0, 6 and 7 of a port")
    s.mask(0, 65535)
    for interrupt in (0, 6, 7):
        s.open(interrupt, interrupt + 1, 0, interrupt=interrupt)
        s.exchange(interrupt, 1)
        s.state()
    s.begin("Only the trusted line is judged")
    s.open(1, 1, 0)
    s.event(master(1), master(2))
    s.state()
    s.event(slave(7), slave(8))
    s.fetch(1)
    s.event(silence(), master(1))
    s.event(noise(), slave(8))
    s.state()
    s.event(master(1), silence())
    s.event(noise(), slave(8))
    s.event(silence(), slave(8))
    s.state()
    s.event(slave(9), noise())
    s.fetch(1)
    s.state()
    s.begin("The same with line B trusted")
    s.open(1, 1, 0)
    s.switch(1)
    s.quiet(1)
    s.state()
    s.event(master(2), master(1))
    s.event(slave(8), slave(7))
    s.fetch(1)
    s.event(master(1), silence())
    s.event(slave(8), noise())
    s.fetch(1)
    s.state()


def replies(s):
    s.begin("A source replies its valid words: unfilled, after one write, after two, of each size")
    for code, size in enumerate((1, 2, 4, 8, 16)):
        word = 4096 * code + 50 + code
        s.open(50 + code, code + 1, code, sink=False)
        s.event(master(word))
        s.state()
        for turn in (100, 200):
            s.write(50 + code, *range(turn, turn + size))
            s.event(master(word))
            s.state()
    s.areas()
    s.begin("A source replies only to exactly its master word; what another sends in its place is not stored")
    s.open(1, 1, 1, sink=False)
    s.write(1, 3, 4)
    for word in (1, 8193, 4098, 61441):
        s.event(master(word))
    s.event(master(1))
    s.event(slave(9))
    s.state()
    s.areas()
    s.begin("A source with every status bit set still replies")
    s.open(1, 1, 0, sink=False)
    s.write(1, 3)
    s.word(1, 1, s.world.word(1, 1) + STATUS_BITS)
    s.event(master(1))
    s.state()
    s.begin("Device status: unset, set, another address, another word; a status of 0 is a status")
    s.address(7)
    for word in (61447, 61440):
        s.event(master(word))
        s.state()
    for status in (0, 4660):
        s.status(status)
        for word in (61447, 61440, 57351):
            s.event(master(word))
            s.state()
    s.address(0)
    s.event(master(61440))
    s.event(master(61447))
    s.begin("Codes 5, 6, 7, 10 and 11 expect no reply: idle; the others wait for theirs")
    s.mask(0, 65535)
    s.open(1, 1, 0)
    s.status(3)
    s.address(9)
    for code in range(5, 16):
        s.event(master(1))
        s.event(master(4096 * code + 1))
        s.state()
        s.event(slave(*range(16 if code == 12 else 1)))
        s.state()
        s.write_status(0, 0)
    s.areas()


def unsound_slaves(s):
    for code, size in enumerate((1, 2, 4, 8, 16)):
        s.begin("Unsound slave frames of F-code %d: each mark, size, number of check bytes, and each check byte wrong" % code)
        s.mask(0, 65535)
        s.open(1, 1, code, interrupt=1)
        word = 4096 * code + 1
        words = list(range(7, 7 + size))
        right = slave(*words).checks
        s.exchange(word, *words)
        cases = [slave(*words, **{mark: True}) for mark in ("sqe", "violation", "alo")]
        cases += [slave(*words[:-1]), slave(*words[:-1], checks=right), slave(*words, checks=right[:-1]), slave(*words, checks=right + [0])]
        cases += [slave(*words, checks=right + right[-1:])] if len(right) < 4 else []
        cases += [slave(*(words + [0])) if size < 16 else slave(checks=right), slave(*([0] + words[:-1]), checks=right)]
        cases += [slave(*words, checks=right[:k] + [right[k] ^ 1] + right[k + 1 :]) for k in range(len(right))]
        cases += [slave(*words, checks=[right[0] ^ 128] + right[1:], sqe=True, alo=True)]
        for case in cases[: None if code in (0, 3) else 8]:
            s.event(master(word))
            s.quiet(5)
            s.event(case)
            s.port(1)
            s.ask(1)
        s.fetch(1)
        s.state()
        s.exchange(word, *words[::-1])
        s.port(1)
        s.read(1)
        s.pages(1)
        s.areas()
    s.begin("Leading zero words do not change the check: the size comes from the waiting F-code")
    s.open(1, 1, 0)
    s.open(2, 2, 1)
    s.event(master(1))
    s.event(slave(0, 5))
    s.port(1)
    s.event(master(4098))
    s.event(slave(5))
    s.port(2)
    s.exchange(4098, 0, 5)
    s.exchange(1, 5)
    s.port(1)
    s.port(2)
    s.begin("An unsound slave frame to an unfilled sink, a source, a sink of another F-code, and to no port")
    s.mask(0, 65535)
    s.open(1, 1, 0)
    s.open(2, 2, 0, sink=False)
    s.open(3, 3, 1)
    for address in (1, 2, 3, 4):
        s.event(master(address))
        s.event(slave(5, checks=[0]))
        s.state()
    s.read(1)
    s.areas()


def turned(frame, *blocks, **marks):
    """The frame with a bit of the check bytes of these blocks turned, and these quality marks."""
    checks = [check ^ (2**k if k in blocks else 0) for k, check in enumerate(frame.checks)]
    return slave(*frame.words, checks=checks, **marks)


def blocks(s):
    """Which block was bad: the word 1 that stands beside each frame is the one that must be printed."""
    s.begin("The marks of the blocks: a sink of F-code 4, filled once")
    s.open(1, 1, 4)
    word = 16385
    good = slave(*range(16))
    s.exchange(word, *good.words)
    other = good.words[:]
    other[9] ^= 64
    for flags, frame in (
        (0x026B, turned(good, 0)),
        (0x106B, turned(good, 3)),
        (0x0A6B, turned(good, 0, 2)),
        (0x1E6B, turned(good, 0, 1, 2, 3)),
        (0x086B, slave(*other, checks=good.checks)),
        (0x04EB, turned(good, 1, sqe=True)),
        (0x012B, turned(good, alo=True)),
        (0x002B, slave(*good.words, checks=turned(good, 1).checks[:3])),
        (0x002B, turned(slave(*range(8)), 0)),
        (0x001B, None),
        (0x1E6B, turned(good, 0, 1, 2, 3)),
        (0x000A, good),
    ):
        s.event(master(word))
        if frame is None:
            s.quiet(64)
        else:
            s.event(frame)
        s.port(1)
        assert s.world.word(1, 1) == flags, "word 1 is %04X" % s.world.word(1, 1)
    s.ask(1)
    s.begin("A one-word sink that was never filled")
    s.open(1, 1, 0)
    s.event(master(1))
    s.event(turned(slave(5), 0))
    s.port(1)
    assert s.world.word(1, 1) == 0x0268
    s.read(1)
    s.close(1)
    s.open(1, 1, 0)
    s.port(1)
    assert s.world.word(1, 1) == SINK
    s.begin("A write clears the marks of a source")
    s.open(1, 1, 0, sink=False)
    s.word(1, 1, SRC + sum(BLOCKS))
    s.write(1, 3)
    s.port(1)


def counts(s):
    s.begin("FC and EC: judged frames and unsound ones; stray slave frames, silence and noise are not counted")
    s.mask(1, 65535)
    strays = (slave(1), slave(1, checks=[0]))
    for event in (master(1), slave(1), *strays, master(1, sqe=True), slave(1), silence(), noise(), master(1), slave()):
        s.event(event)
        s.state()
    s.clear()
    s.state()
    s.begin("FEV at the 65,536th judged frame")
    s.mask(1, 65535)
    s.event(master(1), times=65535)
    s.state()
    s.event(slave(1, checks=[0]))
    s.state()
    s.event(master(1), times=65536)
    s.state()
    s.begin("EC stops at 65,535, and is cleared by the host")
    s.event(master(1, checks=[0]), times=65534)
    s.state()
    s.event(master(1, checks=[0]))
    s.state()
    s.event(master(1, checks=[0]))
    s.state()
    s.clear()
    s.state()
    s.event(master(1, checks=[0]))
    s.state()


def ranges(s):
    s.begin("Hearings out of range: 17 words, 5 check bytes, on either line; 16 and 4 are in range")
    s.open(1, 1, 4)
    s.event(master(16385))
    s.mark()
    good = slave(*range(16))
    words, checks = slave(*range(17), checks=[1, 2, 3, 4]), slave(*range(16), checks=[1, 2, 3, 4, 5])
    for long in (words, checks):
        for a, b in ((long, good), (good, long), (long, long)):
            s.event(a, b)
            s.same()
    for kind in ("silence", "noise", "master"):
        s.event(good, Hearing(kind, range(17), []))
        s.event(Hearing(kind, [], range(5)), good)
        s.same()
    s.event(good, words)
    s.same()
    s.event(good)
    s.read(1)
    s.event(Hearing("silence", range(16), range(4)))
    s.state()
    s.begin("Quiet 65,535 and 65,536")
    s.event(master(1))
    s.mark()
    for quiet in (65536, 65537, 131072):
        s.quiet(quiet)
    s.same()
    s.quiet(65535)
    s.state()
    s.begin("Refusals of bus events in their order: an area of another length before a number out of range before damage")
    s.open(1, 1, 0)
    s.event(master(1))
    s.word(1, 0, 20481)
    s.mark()
    long = slave(*range(17), checks=[1])
    for lengths in ((4095, 2048, 4096, 4096), (4096, 2049, 4096, 4096), (4096, 2048, 4095, 4096), (4096, 2048, 4096, 4097)):
        s.lengths(*lengths)
        s.event(long)
        s.event(slave(1))
        s.event(silence())
        s.quiet(65536)
        s.quiet(64)
    s.lengths(4096, 2048, 4096, 4096)
    s.event(long)
    s.event(slave(1), long)
    s.event(slave(1))
    s.quiet(65536)
    s.quiet(64)
    s.same()


def run(s):
    exchanges(s)
    replies(s)
    unsound_slaves(s)
    blocks(s)
    counts(s)
    ranges(s)
