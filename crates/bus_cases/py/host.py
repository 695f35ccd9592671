"""The host's calls on ports and its settings."""
from controller import ALO, BLOCKS, CRC, EVER, SINK, SQE, SRC, STO, TERR
from script import master


def openings(s):
    for title, arguments in (
        ("address 4095", (4095, 1, 0)),
        ("address 4096", (4096, 1, 0)),
        ("address 65535", (65535, 1, 0)),
        ("port 255", (1, 255, 0)),
        ("port 0", (1, 0, 0)),
        ("port 256", (1, 256, 0)),
        ("F-code 4", (1, 1, 4)),
        ("F-code 5", (1, 1, 5)),
        ("interrupt 7", (1, 1, 0, True, 7)),
        ("interrupt 8", (1, 1, 0, True, 8)),
    ):
        s.begin("Ranges: open " + title)
        s.open(*arguments)
        s.areas()
    s.begin("What an opening sets: sinks and sources of each F-code")
    for code in range(5):
        for sink in (True, False):
            address = 100 * code + sink
            s.open(address, 10 * code + 1 + sink, code, sink, code + 2 * sink)
            s.port(address)
            s.read(address)
    s.areas()


def refusals(s):
    full = (4096, 2048, 4096, 4096)
    s.begin("Refusal 1: an area of another length, in every call that is lent it")
    s.open(1, 1, 0, sink=False)
    s.mark()
    for at in range(4):
        for change in (-1, 1):
            s.lengths(*(n + change * (at == k) for k, n in enumerate(full)))
            s.open(2, 2, 0)
            s.write(1, 7)
            s.read(1)
            s.close(1)
            s.quiet(1)
            s.same()
    s.lengths(0, 0, 0, 0)
    s.read(1)
    s.quiet(0)
    s.lengths(*full)
    s.same()
    s.begin("Refusals in their order, two at a time")
    s.lengths(4095, 2048, 4096, 4096)
    s.read(4096)
    s.open(4096, 1, 0)
    s.write(4096, 1)
    s.close(4096)
    s.lengths(*full)
    s.read(4096)
    s.close(4096)
    s.write(4096, 1)
    s.read(1)
    s.close(1)
    s.write(1, 1)
    s.open(1, 1, 0)
    s.mark()
    s.open(1, 2, 5)
    s.open(1, 0, 0)
    s.open(1, 2, 0)
    s.open(2, 1, 0)
    s.same()
    s.open(2, 2, 0)
    s.same()
    s.entry(3, 256)
    s.mark()
    s.open(3, 1, 0)
    s.open(3, 1, 5)
    s.write(3)
    s.close(3)
    s.read(3)
    s.same()
    s.begin("Refusal 4: word 1 of the port is not 0, whatever else its words are")
    s.word(1, 0, 1)
    s.word(1, 2, 9)
    s.word(1, 3, 3)
    s.open(1, 1, 2, sink=False)
    s.port(1)
    s.word(2, 1, 512)
    s.open(2, 2, 0)
    s.begin("Refusals of a write: size, side, damaged port words")
    s.open(1, 1, 1, sink=False)
    s.open(2, 2, 1, sink=True)
    s.mark()
    s.write(1)
    s.write(1, 1)
    s.write(1, 1, 2, 3)
    s.write(1, *range(17))
    s.write(2, 1, 2)
    s.write(2, 1, 2, 3)
    s.same()
    s.word(2, 2, 8)
    s.write(2, 1, 2)
    s.write(2, 1)
    s.write(1, 1, 2)
    s.port(1)
    s.pages(1)


# What a port's words and entry may be damaged to, and what they may be changed to without damage.
DAMAGED_FLAGS = [SRC | SINK, 0] + [SINK + 2**bit for bit in range(13, 16)]
SOUND_FLAGS = [SRC, SINK, SRC | EVER, SINK | EVER | STO | TERR | CRC | SQE | ALO | sum(BLOCKS)] + [SINK + block for block in BLOCKS]


def damaged(s):
    s.begin("Damaged entries and port words: a sink of F-code 0 at address 1")
    s.open(1, 1, 0)
    for entry in (0, 2, 255, 256, 65535, 1):
        s.entry(1, entry)
        s.read(1)
    for word in (2, 4097, 16385, 20481, 65535, 0, 1):
        s.word(1, 0, word)
        s.read(1)
    for flags in DAMAGED_FLAGS + SOUND_FLAGS + [SINK]:
        s.word(1, 1, flags)
        s.read(1)
    for interrupt in (7, 8, 65535, 0):
        s.word(1, 2, interrupt)
        s.read(1)
    for fills in (65535, 0):
        s.word(1, 3, fills)
        s.read(1)
    s.begin("A damaged port can be neither written nor closed")
    s.open(1, 1, 0, sink=False)
    s.word(1, 2, 8)
    s.mark()
    s.write(1, 7)
    s.close(1)
    s.same()
    s.word(1, 2, 0)
    s.write(1, 7)
    s.close(1)
    s.areas()


def reading(s):
    s.begin("Asking and fetching: never, good and held")
    for bits in (0, STO, TERR, CRC, SQE, ALO, sum(BLOCKS), STO | TERR):
        for ever in (0, EVER):
            s.open(1, 1, 0, sink=False)
            if ever:
                s.write(1, 77)
            s.word(1, 1, s.world.word(1, 1) | bits)
            s.read(1)
            s.close(1)
    s.begin("Fills 65,535 plus one is 0, and the port is still filled: by a write, then by a slave frame")
    s.open(1, 1, 0, sink=False)
    s.word(1, 3, 65535)
    s.write(1, 77)
    s.port(1)
    s.read(1)
    s.open(2, 2, 0)
    s.exchange(2, 88)
    s.word(2, 3, 65535)
    s.exchange(2, 99)
    s.port(2)
    s.read(2)
    s.begin("Writes of each size: one, a second, a third")
    for code, size in enumerate((1, 2, 4, 8, 16)):
        s.open(code, code + 1, code, sink=False)
        for turn in (100, 200, 300):
            s.write(code, *range(turn, turn + size))
            s.read(code)
            s.port(code)
        s.pages(code)
    s.areas()
    s.begin("A write clears the status bits of a source, and raises no interrupt")
    s.open(1, 1, 0, sink=False, interrupt=3)
    s.mask(0, 65535)
    s.word(1, 1, SRC | STO | TERR | CRC | SQE | ALO)
    s.write(1, 5)
    s.port(1)
    s.state()
    s.begin("Closing leaves the pages; what is opened next shows nothing")
    s.open(1, 1, 1, sink=False, interrupt=5)
    s.write(1, 11, 12)
    s.write(1, 21, 22)
    s.pages(1)
    s.areas()
    s.close(1)
    s.areas()
    s.read(1)
    s.close(1)
    s.open(7, 1, 1)
    s.port(7)
    s.pages(7)
    s.read(7)
    s.open(1, 2, 1)
    s.read(1)


def settings(s):
    s.begin("The host's settings, in and out of range")
    s.state()
    s.mark()
    for address in (4096, 65535):
        s.address(address)
    for time in (0, 31, 33, 63, 65, 95, 97, 127, 129, 160, 65535):
        s.reply_time(time)
    s.same()
    for address in (4095, 0, 5):
        s.address(address)
        s.state()
    for time in (32, 96, 128, 64):
        s.reply_time(time)
        s.state()
    s.status(0)
    s.state()
    s.status(65535)
    s.single(1)
    s.switch(1)
    s.state()
    s.single(0)
    s.switch(0)
    s.state()
    s.begin("Reset: a fresh controller, no area touched")
    s.open(1, 1, 0)
    s.exchange(1, 9)
    s.address(5)
    s.status(9)
    s.reply_time(96)
    s.single(1)
    s.switch(1)
    s.mask(0, 65535)
    s.mask(1, 65535)
    s.event(master(1, checks=[0]))
    s.event(master(1))
    s.quiet(100)
    s.state()
    s.areas()
    s.reset()
    s.state()
    s.areas()
    s.read(1)


def run(s):
    openings(s)
    refusals(s)
    damaged(s)
    reading(s)
    settings(s)
