"""The two lines: each of document 01's five rules, on both trusted lines, with and without RLD and SLM; and what a status reply tells of
them."""
from itertools import product

from controller import checks_of
from script import master, noise, silence, slave

# A status poll to device address 0.
POLL = 15 * 4096


def on(s, trusted, observed):
    """An event of which the trusted line hears one thing and the observed line another."""
    s.event(*((trusted, observed) if s.world.controller.laa else (observed, trusted)))
    s.state()


def prepare(s, title, laa, rld, slm):
    s.begin("%s; trusted line %s, RLD %d, SLM %d" % (title, "A" if laa else "B", rld, slm))
    if not laa:
        s.switch(1)
        s.quiet(1)
    if rld:
        on(s, slave(1), silence())
    if slm:
        s.single(1)


def each_state():
    return product((True, False), (False, True), (False, True))


def rule_1(s):
    for laa, rld, slm in each_state():
        prepare(s, "Rule 1: an unsound master frame, an unsound slave frame, a reply timeout", laa, rld, slm)
        on(s, master(1, checks=[0]), master(1))
        prepare(s, "an unsound slave frame", laa, rld, slm)
        on(s, master(1), master(1))
        on(s, slave(1, sqe=True), slave(1))
        prepare(s, "a reply timeout", laa, rld, slm)
        on(s, master(1), master(1))
        s.quiet(63)
        s.state()
        s.quiet(1)
        s.state()
    for code in (4, 8, 9, 12, 13, 14, 15):
        word = 4096 * code + 1
        for title in ("an unsound slave frame", "a timeout", "an unsound master frame"):
            s.begin("Rule 1 while code %d is waited for: %s" % (code, title))
            s.event(master(word))
            if title == "a timeout":
                s.quiet(64)
            elif title == "an unsound master frame":
                s.event(master(word, sqe=True))
            else:
                s.event(slave(1, 2, 3))
            s.state()
    s.begin("Rule 1 switches once: with RLD set a second unsound frame does not switch back")
    for _ in range(3):
        s.event(master(1, checks=[0]))
        s.state()
    s.begin("Rule 1 does not act for code 9, so rule 4 may")
    on(s, master(9 * 4096), master(9 * 4096))
    on(s, slave(1, checks=[0]), silence())
    s.begin("Rule 1 acts by the trusted line alone")
    on(s, master(1), master(1, checks=[0]))
    on(s, slave(1), slave(1, checks=[0]))
    on(s, silence(), master(1, checks=[0]))


def rule_2(s):
    for laa, rld, slm in each_state():
        prepare(s, "Rule 2: a line timeout", laa, rld, slm)
        s.quiet(2128)
        s.state()
        s.quiet(2)
        s.state()
        s.quiet(2130)
        s.state()


def rule_3(s):
    for laa, rld, slm in each_state():
        prepare(s, "Rule 3: a status poll to our address", laa, rld, slm)
        on(s, master(POLL), master(POLL))
        on(s, master(POLL), master(POLL))
    s.begin("Rule 3 needs a sound poll, code 15 and our address; not a status word")
    s.address(3)
    for word in (POLL, 14 * 4096 + 3, POLL + 4, POLL + 3):
        on(s, master(word), master(word))
    s.status(5)
    on(s, master(POLL + 3), master(POLL + 3))
    on(s, master(POLL + 3), master(POLL))
    on(s, master(POLL + 3, checks=[0]), master(POLL + 3))
    on(s, silence(), master(POLL + 3))


def rule_4(s):
    frame = master(1)
    observed = [silence(), noise(), master(1, sqe=True), master(1, violation=True), master(1, alo=True)]
    observed += [master(2), master(1, checks=[0]), slave()]
    for at, hearing in enumerate(observed):
        for laa in (True, False):
            prepare(s, "Rule 4: observed line with hearing %d" % at, laa, False, False)
            on(s, frame, hearing)
    for laa, rld, slm in each_state():
        prepare(s, "Rule 4: the observed line is silent", laa, rld, slm)
        on(s, silence(), silence())
        on(s, noise(), silence())
        on(s, slave(5), silence())
        prepare(s, "Rule 4 before rule 3: a status poll while the observed line is silent", laa, rld, slm)
        on(s, master(POLL), silence())
        on(s, master(POLL), noise())
        on(s, master(POLL), master(POLL))
    s.begin("Rule 4 with a slave frame that is judged, and with one that is not")
    on(s, master(1), master(1))
    on(s, slave(1), slave(1, violation=True))
    on(s, master(POLL), master(POLL))
    on(s, slave(1), slave(1))
    on(s, slave(1), slave(1, sqe=True))


def polled(s, reply, observed=None, laa=None, word=POLL):
    """A status poll that the trusted line hears, and the observed line too where nothing else is said. The word of its reply, None for
    silence, and LAA afterwards are the request's numbers; RLD is then clear."""
    on(s, master(word), observed or master(word))
    assert s.world.reply == (None if reply is None else ([reply], checks_of([reply]))), s.world.reply
    assert (s.world.controller.laa, s.world.controller.rld) == (laa, False)


def status_replies(s):
    s.begin("Status replies: 0000 on line A, then on line B")
    s.status(0)
    polled(s, 0x0080, laa=False)
    polled(s, 0x0000, laa=True)
    for word, reply in ((0xFFFF, 0xFFBF), (0xFF3F, 0xFFBF), (0x1234, 0x12B4)):
        s.begin("The host's word is %04X: the reply is %04X" % (word, reply))
        s.status(word)
        polled(s, reply, laa=False)
    s.begin("A status reply tells an RLD that rule 4 sets in the poll itself")
    s.status(0)
    polled(s, 0x00C0, silence(), laa=True)
    polled(s, 0x0080, laa=False)
    for observed in (noise(), master(POLL, sqe=True), master(POLL, violation=True)):
        polled(s, 0x0040, observed, laa=False)
    s.begin("With SLM rule 4 sets none")
    s.status(0)
    s.single(1)
    polled(s, 0x0080, silence(), laa=True)
    s.begin("A line timeout has switched and set RLD")
    s.status(0)
    s.quiet(2130)
    polled(s, 0x0040, laa=False)
    s.status(0xFFFF)
    polled(s, 0xFF3F, laa=True)
    s.begin("No status set: silence, and rule 3 acts all the same")
    polled(s, None, laa=False)
    assert s.world.controller.exchange == "waiting"
    polled(s, None, silence(), laa=False)
    s.begin("A status poll of another address")
    s.status(0)
    polled(s, None, laa=True, word=POLL + 1)
    for laa, rld in product((True, False), (False, True)):
        prepare(s, "A status reply", laa, rld, False)
        for word in (0, 0xFFFF):
            s.status(word)
            on(s, master(POLL), master(POLL))
    s.begin("Each bit but 7 and 6 is the host's")
    for bit in range(16):
        s.status(2**bit)
        s.event(master(POLL))
        assert s.world.reply[0][0] & 0xFF3F == 2**bit & 0xFF3F


def rule_5(s):
    for laa, rld, slm in each_state():
        prepare(s, "Rule 5: LS filed", laa, rld, slm)
        s.switch(1)
        s.state()
        s.quiet(0)
        s.state()
        s.event(silence())
        s.quiet(1)
        s.state()
        s.quiet(1)
        s.state()
        s.single(0)
        s.quiet(1)
        s.state()
        on(s, master(POLL), silence())
        s.quiet(1)
        s.state()
    s.begin("LS taken back by the host before a bit time passes")
    s.switch(1)
    s.switch(0)
    s.quiet(5)
    s.state()
    s.begin("LS filed while a reply timeout sets RLD in the same bit time: it waits")
    s.event(master(1))
    s.quiet(63)
    s.switch(1)
    s.quiet(1)
    s.state()
    s.event(master(POLL))
    s.quiet(1)
    s.state()
    s.begin("LS filed while a line timeout sets RLD in the same bit time: it waits")
    s.quiet(2129)
    s.switch(1)
    s.quiet(1)
    s.state()
    s.begin("LS acts once in a long quiet, before the line timeouts")
    s.switch(1)
    s.quiet(5000)
    s.state()


def run(s):
    rule_1(s)
    rule_2(s)
    rule_3(s)
    rule_4(s)
    status_replies(s)
    rule_5(s)
