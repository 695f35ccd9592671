"""A controller written from documents 01 and 02, sentence by sentence, and from nothing of the crates that it is held against.

The quotations are theirs. Bit times pass one by one, a refused call is undone whole, and nothing is made quick.
"""
import functools
import importlib.util
import os

# The check byte of a block is that of the crate `sequence_cases`, whose make.py divides bit by bit.
_FILE = os.path.join(os.path.dirname(os.path.abspath(__file__)), "..", "..", "sequence_cases", "make.py")
_SPEC = importlib.util.spec_from_file_location("sequence_cases", _FILE)
_VECTORS = importlib.util.module_from_spec(_SPEC)
_SPEC.loader.exec_module(_VECTORS)

# "bit 0 VP (valid page), 1 EVER, 2 SRC, 3 SINK, 4 STO, 5 TERR, 6 CRC, 7 SQE, 8 ALO; the others zero."
VP, EVER, SRC, SINK, STO, TERR, CRC, SQE, ALO = (2**bit for bit in range(9))
# "the four marks go to bits 9 to 12 of port word 1, lowest bit for the first block"
BLOCKS = [2**bit for bit in range(9, 13)]
# "They count as status bits everywhere"
STATUS_BITS = STO | TERR | CRC | SQE | ALO | sum(BLOCKS)
# "Refusals: 6 now tests bits 13 to 15 only."
ZERO_BITS = 2**13 | 2**14 | 2**15

# The places of LAA and RLD in a status reply, by 001, 2.9.14.2, and IEC 61375-3-1: bits 7 and 6.
LAA, RLD = 2**7, 2**6

# "Group 0 from bit 15: EMF ESF DMF DSF AMFX MFC SFC RTI BTI DTI7 .. DTI1."
EMF, ESF, DMF, DSF, AMFX, MFC, SFC, RTI, BTI = (2**bit for bit in range(15, 6, -1))
# "Group 1 from bit 15: TI2 XI3 XI2 XQE RQE XQ1C XQ0C RQC FEV, 6 to 3 unused and zero, TI1 XI1 XI0."
FEV = 2**7
USED = (0xFFFF, 0xFFFF - 2**6 - 2**5 - 2**4 - 2**3)

# "Slave sizes in words: F-codes 0 to 4: 1, 2, 4, 8, 16; 12: 16; 8, 9, 13, 14, 15: 1. Codes 5, 6, 7, 10, 11: no reply is expected."
SIZES = {0: 1, 1: 2, 2: 4, 3: 8, 4: 16, 12: 16, 8: 1, 9: 1, 13: 1, 14: 1, 15: 1}

REPLY_TIMES = (32, 64, 96, 128)
BUS_TIMEOUT = 1950
LINE_TIMEOUT = 2130
# "Every 1500 quiet bit times since reset adds one to the age of each open sink"
MILLISECOND = 1500


@functools.lru_cache(None)
def block_check(block):
    return _VECTORS.check(list(block))


def checks_of(words):
    """ "A check byte ends each four words; sizes 1 and 2 have one." """
    return [block_check(tuple(words[at : at + 4])) for at in range(0, len(words), 4)]


class Hearing:
    """ "An event gives a hearing for line A and one for line B: silence, noise, master frame or slave frame, with words, check bytes and
    three quality marks." """

    def __init__(self, kind, words=(), checks=None, sqe=False, violation=False, alo=False):
        self.kind = kind
        self.words = list(words)
        self.checks = checks_of(self.words) if checks is None else list(checks)
        self.sqe, self.violation, self.alo = sqe, violation, alo

    def in_range(self):
        return len(self.words) <= 16 and len(self.checks) <= 4

    def is_frame(self):
        return self.kind in ("master", "slave")

    def is_poor(self):
        """ "the observed line has silence, noise, SQE or a violation" """
        return not self.is_frame() or self.sqe or self.violation

    def counts_right(self, size):
        """ "the right size, the right number of check bytes" """
        return len(self.words) == size and len(self.checks) == (size + 3) // 4

    def wrong_blocks(self, size):
        """ "which of the up to four blocks are wrong", by their numbers from 0; "When counts are right [..]; otherwise they are zero." """
        if not self.counts_right(size):
            return []
        return [k for k, right in enumerate(checks_of(self.words)) if self.checks[k] != right]

    def sound(self, size):
        """ "A frame is sound with no quality mark, the right size, the right number of check bytes and each byte right" """
        marked = self.sqe or self.violation or self.alo
        return not marked and self.counts_right(size) and self.checks == checks_of(self.words)


class Group:
    """ "Each has its own pending, mask, status and frozen mark." "At reset all is zero and not frozen." """

    def __init__(self, used):
        self.used = used
        self.pending = self.mask = self.status = 0
        self.frozen = False

    def settle(self):
        """ "Not frozen: pending bits that the mask lets through join status, all pending is cleared. Frozen: they accumulate." """
        if not self.frozen:
            self.status |= self.pending & self.mask
            self.pending = 0

    def raise_bit(self, bit):
        self.pending |= bit
        self.settle()

    def read_status(self):
        self.frozen = True
        return self.status

    def read_vector(self):
        """ "Reading the vector gives 256 + bit number of the highest set status bit, clears that bit and freezes; with none set it gives 0
        and freezes." """
        self.frozen = True
        for bit in range(15, -1, -1):
            if self.status & 2**bit:
                self.status -= 2**bit
                return 256 + bit
        return 0

    def write_status(self, word):
        self.status &= word

    def write_vector(self):
        self.frozen = False
        self.settle()

    def write_pending(self, word):
        self.pending = word & self.used
        self.settle()

    def write_mask(self, word):
        self.mask = word & self.used
        self.settle()

    def outgoing(self):
        return self.status != 0 and not self.frozen

    def numbers(self):
        return [self.pending, self.mask, self.status, int(self.frozen)]


class Controller:
    """ "fresh, it is idle with all times and counts 0"; "LAA starts at 1, RLD, LS and SLM at 0"; "device address (first 0)"; reply times
    "initially 64". """

    def __init__(self):
        self.exchange, self.waiting = "idle", 0
        self.since = self.line_count = 0
        self.chosen = self.adopted = 64
        self.laa, self.rld, self.ls, self.slm = True, False, False, False
        self.fc = self.ec = 0
        self.groups = [Group(USED[0]), Group(USED[1])]
        self.address, self.status = 0, None
        self.phase = 0

    def raise_bit(self, bit):
        self.groups[0].raise_bit(bit)

    def count(self, sound):
        """ "FC counts judged frames modulo 65,536 and raises FEV on returning to 0; EC counts unsound ones, stops at 65,535" """
        self.fc = (self.fc + 1) % 65536
        if self.fc == 0:
            self.groups[1].raise_bit(FEV)
        if not sound:
            self.ec = min(self.ec + 1, 65535)

    def status_reply(self):
        """ "Put our own at the places IEC 61375-3-1 gives, over what the host wrote there" """
        word = self.status & ~(LAA | RLD)
        if self.laa:
            word |= LAA
        if self.rld:
            word |= RLD
        return word

    def switch(self, sets_rld):
        """ "Switching turns LAA. With SLM no rule switches or sets RLD." """
        if not self.slm:
            self.laa = not self.laa
            self.rld = self.rld or sets_rld

    def line_rule_1(self, code=None):
        """ "A judged unsound frame or a reply timeout, RLD clear, waiting code not 9, 13 or 14 (an unsound master always counts): switch,
        set RLD." No code is given for an unsound master. Answers whether the rule acted. """
        acts = not self.rld and not self.slm and code not in (9, 13, 14)
        if acts:
            self.switch(sets_rld=True)
        return acts

    def line_rule_3(self):
        """ "A sound status poll to our address: switch if RLD is clear; clear RLD." """
        if not self.rld:
            self.switch(sets_rld=False)
        self.rld = False

    def line_rule_4(self, trusted, observed):
        """ "the trusted line heard a frame, and the observed line has silence, noise, SQE or a violation: set RLD" """
        if trusted.is_frame() and observed.is_poor() and not self.slm:
            self.rld = True

    def line_rule_5(self):
        """ "LS filed by the host acts at the end of a quiet bit time with RLD and SLM clear, then clears." """
        if self.ls and not self.rld and not self.slm:
            self.switch(sets_rld=False)
            self.ls = False
