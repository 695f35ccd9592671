"""How old a value is: ages, limits and stale (document 02, W-205). The ages and states that are stated here are worked out from the
request by hand; the controller of world.py, from which stdout comes, is held to them."""
from controller import SINK, SRC
from script import master, slave
from world import AGE, AREA, DAMAGED, LIMIT


def filled(s, title, limit=2):
    """A sink of address 1, filled at phase 0."""
    s.begin(title)
    s.open(1, 1, 0, limit=limit)
    s.exchange(1, 9)


def shown(s, age, state):
    """The port of address 1 is asked and shown: this is its age, and this the answer."""
    found = s.world.word(1, AGE), s.world.called(s.world.ask, 1)
    assert found == (age, state), found
    s.ask(1)
    s.port(1)


def later(s, bit_times, age, state):
    s.quiet(bit_times)
    shown(s, age, state)


def ports_aged(s, **ages):
    """The ages of these ports, p1 for port 1; they need no entry."""
    found = {name: s.world.word(int(name[1:]), AGE) for name in ages}
    assert found == ages, found
    s.areas()


def limits(s):
    for bit_times, age, state in ((1499, 0, "good"), (1500, 1, "good"), (2999, 1, "good"), (3000, 2, "stale")):
        filled(s, "Limit 2: %d quiet bit times after a fill the age is %d, %s" % (bit_times, age, state))
        later(s, bit_times, age, state)
        s.fetch(1)
        s.state()
        assert s.world.controller.phase == bit_times % 1500
    filled(s, "Limit 2: the same in four calls")
    for bit_times, age, state in ((1499, 0, "good"), (1, 1, "good"), (1499, 1, "good"), (1, 2, "stale")):
        later(s, bit_times, age, state)
    filled(s, "Polled while stale: stale, and held when the reply time has passed; a taken frame is good with age 0")
    later(s, 3000, 2, "stale")
    s.event(master(1))
    shown(s, 2, "stale")
    later(s, 64, 2, "held")
    s.exchange(1, 8)
    shown(s, 0, "good")
    filled(s, "Stale, then a taken frame")
    later(s, 3000, 2, "stale")
    s.exchange(1, 8)
    shown(s, 0, "good")
    filled(s, "An unsound frame leaves the age, and the port is held")
    later(s, 1500, 1, "good")
    s.event(master(1))
    s.event(slave(7, checks=[0]))
    shown(s, 1, "held")
    filled(s, "Not supervised: good at any age", limit=0)
    later(s, 65535, 43, "good")
    s.word(1, AGE, 65535)
    shown(s, 65535, "good")
    filled(s, "An age stops at 65,535", limit=65535)
    s.word(1, AGE, 65534)
    shown(s, 65534, "good")
    later(s, 1500, 65535, "stale")
    later(s, 65535, 65535, "stale")


def other_ports(s):
    s.begin("Never filled: it ages, and is never")
    s.open(1, 1, 0, limit=1)
    later(s, 65535, 43, "never")
    s.begin("A source does not age; a write sets the age to 0")
    s.open(1, 1, 0, sink=False, limit=1)
    s.write(1, 5)
    later(s, 3000, 0, "good")
    s.word(1, AGE, 3)
    later(s, 1500, 3, "stale")
    s.write(1, 6)
    shown(s, 0, "good")
    filled(s, "Closing zeroes the limit and the age too")
    later(s, 3000, 2, "stale")
    s.close(1)
    s.entry(1, 1)
    s.port(1)
    assert s.world.words(1) == [0] * 8
    s.begin("Opening sets all eight words, whatever they were but word 1")
    for number, value in ((LIMIT, 1), (AGE, 7), (6, 8), (7, 9)):
        s.word(1, number, value)
    s.open(1, 1, 0, limit=2)
    assert s.world.words(1) == [1, SINK, 0, 0, 2, 0, 0, 0]
    shown(s, 0, "never")
    s.exchange(1, 9)
    later(s, 1500, 1, "good")


def phases(s):
    filled(s, "Milliseconds are counted from reset, whatever is heard")
    s.quiet(1499)
    s.exchange(1, 8)
    s.state()
    later(s, 1, 1, "good")
    s.state()
    filled(s, "A reset restarts the millisecond, and leaves the ages")
    later(s, 2999, 1, "good")
    s.reset()
    s.state()
    later(s, 1499, 1, "good")
    later(s, 1, 2, "stale")
    filled(s, "A refused quiet ages nothing; port words of 1024 are refusal 1")
    s.quiet(1499)
    s.mark()
    s.quiet(65536)
    s.lengths(4096, 1024, 4096, 4096)
    s.quiet(1)
    shown(s, 0, AREA)
    s.same()


def by_words_alone(s):
    s.begin("Ageing goes by port words alone: without an entry, port 255, and not port 0")
    for port in (0, 1, 255):
        s.word(port, 1, SINK)
    s.word(2, 1, SRC)
    s.quiet(3000)
    ports_aged(s, p0=0, p1=2, p2=0, p255=2)
    s.begin("It passes over words that are not well formed")
    for port, (number, value) in enumerate(((1, SINK + 8192), (1, SINK + SRC), (2, 8), (0, 20480), (6, 1), (7, 1), (2, 7)), 1):
        s.word(port, 1, SINK)
        s.word(port, number, value)
    s.quiet(1500)
    ports_aged(s, p1=0, p2=0, p3=0, p4=0, p5=0, p6=0, p7=1)
    s.begin("Words 6 and 7: refusal 6, and not aged")
    s.open(1, 1, 0)
    for number in (6, 7):
        s.word(1, number, 1)
        later(s, 1500, 0, DAMAGED)
        s.word(1, number, 0)
        shown(s, 0, "never")


def run(s):
    limits(s)
    other_ports(s)
    phases(s)
    by_words_alone(s)
