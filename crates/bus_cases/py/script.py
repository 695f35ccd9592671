"""A script for the program, with what must be printed of it: each method writes a line of stdin, has the controller of world.py do
the same, and writes the lines of stdout that this gives."""
from controller import BUS_TIMEOUT, Controller, Group, Hearing
from world import STRIDE, World

# What the program takes the sum of an area with.
PRIME, FACTOR = 2147483647, 65599


def master(word, **marks):
    return Hearing("master", [word], **marks)


def slave(*words, **marks):
    return Hearing("slave", words, **marks)


def silence():
    return Hearing("silence")


def noise():
    return Hearing("noise")


def spaced(numbers):
    return "".join(" %d" % number for number in numbers)


def written(hearing):
    """A hearing as the script has it."""
    marks = "".join(" " + mark for mark in ("sqe", "violation", "alo") if getattr(hearing, mark))
    checks = " /" + spaced(hearing.checks) if hearing.checks else ""
    return hearing.kind + marks + spaced(hearing.words) + checks


def numbers_of(c):
    """The controller as `state` prints it. The time since the last sound master frame counts up to the bus timeout."""
    stage = ("idle", "waiting", "done").index(c.exchange)
    parts = [
        ("exchange", [stage, c.waiting if stage == 1 else 0]),
        ("times", [min(c.since, BUS_TIMEOUT), c.line_count, c.chosen, c.adopted]),
        ("lines", [int(mark) for mark in (c.laa, c.rld, c.ls, c.slm)]),
        ("counts", [c.fc, c.ec]),
        ("group", c.groups[0].numbers()),
        ("group", c.groups[1].numbers()),
        ("device", [c.address, int(c.status is not None), c.status or 0]),
        ("phase", [c.phase]),
    ]
    return "".join(" " + name + spaced(numbers) for name, numbers in parts)


def sum_of(area):
    """The areas of the program have a word more than document 01's."""
    total = 0
    for word in area + [0]:
        total = (total * FACTOR + word) % PRIME
    return total


class Script:
    def __init__(self):
        self.stdin, self.stdout = [], []

    def tell(self, line):
        self.stdin.append(line)

    def expect(self, line):
        self.stdout.append(line)

    def begin(self, title):
        self.tell("# " + title)
        self.expect("# " + title)
        self.tell("begin")
        self.world = World()
        self.heard = ("silence", "silence")
        self.marked = None

    def do(self, name, call, *arguments):
        """A call whose answer is printed after its name."""
        flat = [int(n) for part in arguments for n in (part if isinstance(part, (list, tuple)) else [part])]
        self.tell(name + spaced(flat))
        self.expect("%s %s" % (name, self.world.called(call, *arguments)))

    def open(self, address, port, code, sink=True, interrupt=0, limit=0):
        """A number that the line does not have is 0."""
        self.tell("open" + spaced([address, port, code, int(sink), interrupt] + [limit] * (limit != 0)))
        self.expect("open %d" % self.world.called(self.world.open, address, port, code, sink, interrupt, limit))

    def close(self, address):
        self.do("close", self.world.close, address)

    def write(self, address, *words):
        self.do("write", self.world.write, address, words)

    def ask(self, address):
        self.do("ask", self.world.ask, address)

    def fetch(self, address):
        self.tell("fetch %d" % address)
        self.expect("fetch" + (spaced(self.world.fetch(address)) or " none"))

    def read(self, address):
        self.ask(address)
        self.fetch(address)

    def lengths(self, *lengths):
        self.tell("lengths" + spaced(lengths))
        self.world.lengths = lengths

    def entry(self, address, value):
        self.tell("entry %d %d" % (address, value))
        self.world.index[address] = value

    def word(self, port, number, value):
        self.tell("word %d %d" % (STRIDE * port + number, value))
        self.world.store(port, number, value)

    def set_lines(self, a, b):
        texts = (written(a), written(b))
        if texts == self.heard:
            return
        if texts[0] == texts[1]:
            self.tell("both " + texts[0])
        else:
            for name, text, before in zip("ab", texts, self.heard):
                if text != before:
                    self.tell("%s %s" % (name, text))
        self.heard = texts

    def event(self, a, b=None, times=None):
        """What line A and line B hear; without b, both the same."""
        b = a if b is None else b
        self.set_lines(a, b)
        self.tell("hear" + ("" if times is None else " %d" % times))
        for _ in range(1, times or 1):
            self.world.hear(a, b)
        refusal = self.world.called(self.world.hear, a, b)
        words, checks = self.world.reply or ([], [])
        reply = spaced(words) + " /" + spaced(checks) if words else " none"
        self.expect("hear %d%s" % (refusal, reply))

    def exchange(self, word, *words):
        """A master frame, and the slave frame that answers it."""
        self.event(master(word))
        self.event(slave(*words))

    def quiet(self, bit_times):
        self.do("quiet", self.world.quiet, bit_times)

    def address(self, address):
        self.do("address", self.world.set_address, address)

    def reply_time(self, time):
        self.do("reply", self.world.set_reply_time, time)

    def status(self, word):
        self.tell("status %d" % word)
        self.world.controller.status = word

    def single(self, on):
        self.tell("single %d" % on)
        self.world.controller.slm = bool(on)

    def switch(self, on):
        self.tell("switch %d" % on)
        self.world.controller.ls = bool(on)

    def clear(self):
        self.tell("clear")
        self.world.controller.ec = 0

    def reset(self):
        """ "a fresh controller, no area touched" """
        self.tell("reset")
        self.world.controller = Controller()

    def group_read(self, name, call, group):
        self.tell("%s %d" % (name, group))
        self.expect("%s %d" % (name, call(self.world.controller.groups[group])))

    def group_write(self, name, call, group, *words):
        self.tell("%s %d%s" % (name, group, spaced(words)))
        call(self.world.controller.groups[group], *words)

    def read_status(self, group):
        self.group_read("readstatus", Group.read_status, group)

    def read_vector(self, group):
        self.group_read("readvector", Group.read_vector, group)

    def outgoing(self, group):
        self.group_read("outgoing", Group.outgoing, group)

    def write_status(self, group, word):
        self.group_write("writestatus", Group.write_status, group, word)

    def write_vector(self, group):
        self.group_write("writevector", Group.write_vector, group)

    def pending(self, group, word):
        self.group_write("pending", Group.write_pending, group, word)

    def mask(self, group, word):
        self.group_write("mask", Group.write_mask, group, word)

    def state(self):
        self.tell("state")
        self.expect("state" + numbers_of(self.world.controller))

    def port(self, address):
        self.tell("port %d" % address)
        port = self.world.index[address]
        self.expect("port" + spaced([port] + self.world.words(port)))

    def pages(self, address):
        self.tell("pages %d" % address)
        port = self.world.index[address]
        parts = [spaced(page[16 * port : 16 * port + 16]) for page in self.world.pages]
        self.expect("pages" + " /".join(parts))

    def areas(self):
        self.tell("areas")
        self.expect("areas" + spaced(sum_of(area) for area in [self.world.index, self.world.ports] + self.world.pages))

    def all(self):
        controller, *areas = self.world.held()
        return numbers_of(controller), areas

    def mark(self):
        self.tell("mark")
        self.marked = self.all()

    def same(self):
        self.tell("same")
        self.expect("same" if self.all() == self.marked else "changed")
