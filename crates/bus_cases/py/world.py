"""The controller with the four lent areas: the host's calls on ports, bus events and quiet time, from the documents as controller.py is."""
import copy

from controller import BTI, BUS_TIMEOUT, CRC, DMF, DSF, EMF, ESF, EVER, LINE_TIMEOUT, REPLY_TIMES, RTI, SFC, SINK, SIZES, SQE, SRC
from controller import ALO, BLOCKS, MILLISECOND, STATUS_BITS, STO, TERR, VP, ZERO_BITS, Controller, checks_of

AREA, RANGE, NOPORT, TAKEN, SIDE, DAMAGED = 1, 2, 3, 4, 5, 6
# "Port words grow from four to eight: word 4 is a limit in milliseconds (0: not supervised), word 5 the age, 6 and 7 zero."
STRIDE, LIMIT, AGE = 8, 4, 5
# "The area is 2048 words."
LENGTHS = (4096, 2048, 4096, 4096)


class Refused(Exception):
    """A refusal's number."""


class World:
    """The controller and the four areas. `lengths` are those that the calls find; the areas here keep their own."""

    def __init__(self):
        self.controller = Controller()
        self.index, self.ports, *self.pages = ([0] * length for length in LENGTHS)
        self.lengths = LENGTHS
        self.reply = None

    def called(self, call, *arguments):
        """The answer of a call: 0 or what it answers, or its refusal's number. "A refusal returns its number and no reply, and leaves
        controller and areas unchanged." """
        kept = self.held()
        self.reply = None
        try:
            return call(*arguments) or 0
        except Refused as refusal:
            self.controller, self.index, self.ports, self.pages = kept
            self.reply = None
            return refusal.args[0]

    def held(self):
        """A copy of the controller and the areas."""
        return copy.deepcopy(self.controller), self.index[:], self.ports[:], [page[:] for page in self.pages]

    # The memory lent to the calls.

    def place(self, port):
        return slice(STRIDE * port, STRIDE * port + STRIDE)

    def words(self, port):
        return self.ports[self.place(port)]

    def word(self, port, number):
        return self.ports[STRIDE * port + number]

    def store(self, port, number, value):
        self.ports[STRIDE * port + number] = value

    def demand(self, fact, number):
        if not fact:
            raise Refused(number)

    def areas_fit(self, lent=4):
        """The areas that a call is lent, from the index table on: "asking tests 1 only for its two areas" """
        self.demand(self.lengths[:lent] == LENGTHS[:lent], AREA)

    def well_formed(self, address, port):
        """ "Port words are well formed if word 0 has F-code at most 4 and the sought address, exactly one of SRC and SINK is set, the zero
        bits are zero, and word 2 is at most 7." "6 also covers words 6 and 7" """
        return self.word(port, 0) % 4096 == address and self.otherwise_well_formed(port)

    def otherwise_well_formed(self, port):
        """Well formed at any address."""
        master, flags, interrupt, _, _, _, sixth, seventh = self.words(port)
        one_side = bool(flags & SRC) != bool(flags & SINK)
        return master // 4096 <= 4 and one_side and not flags & ZERO_BITS and interrupt <= 7 and sixth == seventh == 0

    def port_at(self, address):
        """The port number of an address, 0 for none. Damage is refused."""
        port = self.index[address]
        self.demand(port <= 255, DAMAGED)
        self.demand(port == 0 or self.well_formed(address, port), DAMAGED)
        return port

    def port_for(self, word, side):
        """The port of a master word's address if it has this side and this very master word, otherwise 0. "they need an entry only for
        codes 0 to 4" """
        if word // 4096 > 4:
            return 0
        port = self.port_at(word % 4096)
        return port if port and self.word(port, 0) == word and self.word(port, 1) & side else 0

    def size_of(self, port):
        return SIZES[self.word(port, 0) // 4096]

    def valid_words(self, port):
        page = self.pages[self.word(port, 1) & VP]
        return page[16 * port : 16 * port + self.size_of(port)]

    def fill(self, port, words):
        """ "copy to the page that is not valid, turn VP, set EVER, clear the status bits, add one fill"; "a taken frame sets it to 0" """
        flags = (self.word(port, 1) ^ VP | EVER) & ~STATUS_BITS
        self.pages[flags & VP][16 * port : 16 * port + len(words)] = words
        self.store(port, 1, flags)
        self.store(port, 3, (self.word(port, 3) + 1) % 65536)
        self.store(port, AGE, 0)

    def mark(self, port, bits):
        """Exactly these of the status bits are set."""
        self.store(port, 1, self.word(port, 1) & ~STATUS_BITS | bits)

    # "Host calls on ports". "Order: 1, 2, 6 for the entry, 3 or 4, 6 for the port words (not on opening), 5, 2 for the size of a write."

    def open(self, address, port, code, sink, interrupt, limit):
        """ "Opening takes the limit [..], with age 0." """
        self.areas_fit()
        self.demand(address <= 4095 and 1 <= port <= 255 and code <= 4 and interrupt <= 7, RANGE)
        self.demand(self.index[address] <= 255, DAMAGED)
        self.demand(self.index[address] == 0 and self.word(port, 1) == 0, TAKEN)
        self.index[address] = port
        self.ports[self.place(port)] = [code * 4096 + address, SINK if sink else SRC, interrupt, 0, limit, 0, 0, 0]

    def reach(self, address, lent=4):
        self.areas_fit(lent)
        self.demand(address <= 4095, RANGE)
        port = self.index[address]
        self.demand(port <= 255, DAMAGED)
        self.demand(port != 0, NOPORT)
        self.demand(self.well_formed(address, port), DAMAGED)
        return port

    def close(self, address):
        """ "Close zeroes entry and port words; pages stay." """
        port = self.reach(address)
        self.index[address] = 0
        self.ports[self.place(port)] = [0] * STRIDE

    def write(self, address, words):
        port = self.reach(address)
        self.demand(self.word(port, 1) & SRC, SIDE)
        self.demand(len(words) == self.size_of(port), RANGE)
        self.fill(port, list(words))

    def ask(self, address):
        """ "Asking answers never, good, or held (filled, but STO or TERR set), or a refusal." "Read gains stale: filled, no fault, limit
        nonzero and age at or above it. Never and held come first." "from the index table and port words alone" """
        port = self.reach(address, lent=2)
        flags, limit, age = self.word(port, 1), self.word(port, LIMIT), self.word(port, AGE)
        if not flags & EVER:
            return "never"
        if flags & (STO | TERR):
            return "held"
        return "stale" if limit != 0 and age >= limit else "good"

    def fetch(self, address):
        """ "it is empty exactly when asking refuses or answers never"; "an empty part from fetching may now also mean a page of another
        length" """
        if self.lengths[2:] == LENGTHS[2:] and self.called(self.ask, address) in ("good", "held", "stale"):
            return self.valid_words(self.index[address])
        return []

    # The host's settings.

    def set_address(self, address):
        self.demand(address <= 4095, RANGE)
        self.controller.address = address

    def set_reply_time(self, time):
        self.demand(time in REPLY_TIMES, RANGE)
        self.controller.chosen = time

    # "What one bus event does".

    def hear(self, a, b):
        self.areas_fit()
        self.demand(a.in_range() and b.in_range(), RANGE)
        c = self.controller
        trusted, observed = (a, b) if c.laa else (b, a)
        rule_1_acted = polled = False
        if trusted.kind == "master" and not trusted.sound(1):
            rule_1_acted = self.unsound_master()
        elif trusted.kind == "master":
            polled = self.sound_master(trusted.words[0])
        elif trusted.kind == "slave" and c.exchange == "waiting":
            rule_1_acted = self.awaited_slave(trusted)
        elif trusted.kind == "slave":
            self.stray_slave()
        if not rule_1_acted:
            c.line_rule_4(trusted, observed)
        if polled:
            self.reply_status()
            c.line_rule_3()

    def unsound_master(self):
        """ "Unsound master: EMF; idle." """
        c = self.controller
        c.count(sound=False)
        c.raise_bit(EMF)
        c.exchange = "idle"
        return c.line_rule_1()

    def sound_master(self, word):
        """Answers whether this was a status poll to our address."""
        c = self.controller
        code, address = word // 4096, word % 4096
        source = self.port_for(word, SRC)
        polled = code == 15 and address == c.address
        c.count(sound=True)
        if c.exchange == "waiting" and c.waiting == word:
            c.raise_bit(DMF)
        c.since = c.line_count = 0
        c.adopted = c.chosen
        if code not in SIZES:
            c.exchange = "idle"
        elif source and self.word(source, 1) & EVER:
            self.answer(self.valid_words(source))
        else:
            c.exchange, c.waiting = "waiting", word
        return polled

    def reply_status(self):
        """ "Code 15 with our device address and a status word set by the host: reply it; done." "with the values before rule 3 acts" """
        if self.controller.status is not None:
            self.answer([self.controller.status_reply()])

    def answer(self, words):
        self.reply = (words, checks_of(words))
        self.controller.exchange = "done"

    def awaited_slave(self, frame):
        """Answers whether line rule 1 acted."""
        c = self.controller
        code = c.waiting // 4096
        sink = self.port_for(c.waiting, SINK)
        sound = frame.sound(SIZES[code])
        c.count(sound)
        c.exchange = "done"
        c.raise_bit(SFC)
        if sound:
            if sink:
                self.fill(sink, frame.words)
                if self.word(sink, 2):
                    c.raise_bit(2 ** (self.word(sink, 2) - 1))
            return False
        c.raise_bit(ESF)
        if sink:
            wrong = frame.wrong_blocks(SIZES[code])
            bits = TERR | (CRC if wrong else 0) | (SQE if frame.sqe else 0) | (ALO if frame.alo else 0)
            self.mark(sink, bits | sum(BLOCKS[k] for k in wrong))
        return c.line_rule_1(code)

    def stray_slave(self):
        """ "SFC; DSF too if done and less than the reply time has passed since the last sound master. Not judged." """
        c = self.controller
        c.raise_bit(SFC)
        if c.exchange == "done" and c.since < c.adopted:
            c.raise_bit(DSF)

    # "Quiet time".

    def quiet(self, bit_times):
        self.areas_fit()
        self.demand(bit_times <= 65535, RANGE)
        for _ in range(bit_times):
            self.bit_time()

    def bit_time(self):
        c = self.controller
        c.since += 1
        c.line_count += 1
        if c.exchange == "waiting" and c.since == c.adopted:
            sink = self.port_for(c.waiting, SINK)
            if sink:
                self.mark(sink, STO)
            c.raise_bit(RTI)
            c.exchange = "idle"
            c.line_rule_1(c.waiting // 4096)
        if c.since == BUS_TIMEOUT:
            c.raise_bit(BTI)
        if c.line_count == LINE_TIMEOUT:
            c.switch(sets_rld=True)
            c.line_count = 0
        c.line_rule_5()
        c.phase += 1
        if c.phase == MILLISECOND:
            c.phase = 0
            self.age_sinks()

    def age_sinks(self):
        """ "adds one to the age of each open sink, stopping at 65,535"; "Ageing goes by port words alone, at any address, and passes over
        those otherwise not well formed." """
        for port in range(1, 256):
            if self.word(port, 1) & SINK and self.otherwise_well_formed(port):
                self.store(port, AGE, min(self.word(port, AGE) + 1, 65535))
