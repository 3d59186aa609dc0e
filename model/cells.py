"""The library of cells: pool, blocks, task records, the lines of figure 2.

Written from document 01 ("Shared cells for the milling unit's tasks"), change
requests 2, 5, 7, 10, 12 and 13 of document 02 and source document 003, figure
2, alone.
Their sentences are quoted in the comments where they decide something.
"""

from typing import NamedTuple

# "A value is a 32-bit unsigned number. 4,294,967,295 is reserved and written
# 'none'."
NONE = 4294967295

# "X is a task number, or 255 for no task."
NO_TASK = 255

# "A block is five neighbouring words of the lent pool: X, Y, C, V, D."
X, Y, C, V, D = range(5)
WORDS = 5

# "Tasks N: 1 to 32 ... Cells V: 1 to 16 ... Blocks B: at least V + 2 x N, at
# most 128."  "V + 2 x N - 1 blocks.  That number suffices from any fresh opening
# [..] Question 3 takes the new lower limit" (change request 10).
MOST_TASKS = 32
MOST_CELLS = 16
MOST_BLOCKS = 128


def least_blocks(n, v):
    return v + 2 * n - 1


# "The longest swap is 21 steps, and the fit question allows 20 so far" (change
# request 2); its hardware swaps, won and lost together, are at most 3, as before
# ("their sum is the old number", change request 5).
MOST_STEPS = 21
MOST_STEPS_SO_FAR = 20
MOST_HARD_SO_FAR = 3

# An add (change request 13): "r outside 1 to 8" is refused.  Each lost try is a
# read and a swap, at most "27 steps and 4 hardware swaps for each lost one, with 6
# and 1 more where a swap is under way": its read.
MOST_TRIES = 8
TRY_STEPS, TRY_HARD = 27, 4
READ_STEPS, READ_HARD = 6, 1

IDLE = 0  # the next line of a task without a call

# The kinds of call, as begun.  An add's reads and swaps have their own kind.
READ = "read"
SWAP = "swap"
ADD = "add"

# "It answers added, over [..] or spent" (change request 13).
ADDED, OVER, SPENT = "added", "over", "spent"

# "Steps are lines 10 to 12 (read), 15 to 24, 26, 27, 29 and 30 (swap), and 1
# to 3 of the deciding part. Lines 13, 25 and 28 run the deciding part."
# "Line 29 becomes the figure's lines 4 to 8" (change request 2), so those five
# are a swap's and 29 is a line of none.
READ_LINES = frozenset((10, 11, 12))
FILL_LINES = frozenset((4, 5, 6, 7, 8))
SWAP_LINES = frozenset((*FILL_LINES, *range(15, 25), 26, 27, 30))
DECIDING_LINES = frozenset((1, 2, 3))
READ_WANTS = frozenset((13,))
SWAP_WANTS = frozenset((25, 28))

# "A taken block counts as used from line 4" (change request 2): whoever has
# done it has one of these lines next.
TAKEN_LINES = frozenset((5, 6, 7, 8, 30))

# What each line does to memory.  Line 4 "takes the block and sets X", so it is
# one of the "five stores more".
LOAD_LINES = frozenset((1, 3, 10, 11, 12, 15, 17, 19, 20, 21, 24))
STORE_LINES = frozenset((4, 5, 6, 7, 8, 16, 18, 22, 23, 26, 27))
HARD_LINES = frozenset((2, 30))


class Refused(NamedTuple):
    """"A refusal returns the number alone."""

    number: int


class Finished(NamedTuple):
    """What the step that ends a call hands back."""

    kind: str
    cell: int
    answer: object  # a value for a read, a bool for a swap, an add's word
    steps: int
    won: int
    lost: int

    @property
    def hard(self):
        """"their sum is the old number" (change request 5)."""
        return self.won + self.lost


class Record:
    """A task's record.

    "The record also holds cell, kind, both swap values, the held block, the
    block being installed, the value loaded, and steps and hardware swaps so
    far."  The next line is there too, and in the deciding part the line that
    wanted it.  Since change request 5 the hardware swaps are kept as won and
    lost.

    In an add these are of its read or swap under way; the others are the add's
    (change request 13): d, r, the swaps lost so far, and what it did before that
    read or swap.  Without an add r is 0.
    """

    __slots__ = ("line", "wanted_by", "kind", "cell", "expected", "new",
                 "held", "installing", "loaded", "steps", "won", "lost",
                 "amount", "tries", "swaps_lost", "steps_before",
                 "won_before", "lost_before")

    def __init__(self):
        self.clear()

    def clear(self):
        """"A finished call leaves it idle, its other fields 0", and so does a
        drop (change request 12)."""
        self.clear_call()
        self.clear_add()

    def clear_call(self):
        self.line = IDLE
        self.wanted_by = 0
        self.kind = 0
        self.cell = 0
        self.expected = 0
        self.new = 0
        self.held = 0
        self.installing = 0
        self.loaded = 0
        self.steps = 0
        self.won = 0
        self.lost = 0

    def clear_add(self):
        self.amount = 0
        self.tries = 0
        self.swaps_lost = 0
        self.steps_before = 0
        self.won_before = 0
        self.lost_before = 0

    def words(self):
        return tuple(getattr(self, name) for name in self.__slots__)

    @property
    def busy(self):
        return self.line != IDLE

    @property
    def adds(self):
        """Whether the read or swap under way is an add's."""
        return self.tries != 0

    @property
    def hard(self):
        """Hardware swaps so far, won and lost together."""
        return self.won + self.lost

    @property
    def runs_read_lines(self):
        """"a swap whose two values are equal becomes a read"."""
        return self.kind == READ or self.expected == self.new

    @property
    def holds_a_block(self):
        """"held by a busy task that has done its first load": the first load
        is line 10 or line 15."""
        return self.busy and self.line not in (10, 15)

    @property
    def has_taken_a_block(self):
        """"taken by a task whose next line is 30"; since change request 2
        the taking is line 4, so the next line is 5 to 8 or 30."""
        return self.line in TAKEN_LINES

    def blocks(self):
        """The blocks that the task uses: "once for each task holding it, once
        for each task that has taken it" (change request 7)."""
        if self.holds_a_block:
            yield self.held
        if self.has_taken_a_block:
            yield self.installing


class Cells:
    """N tasks, V cells and B blocks in a lent pool, as one opening left them."""

    def __init__(self, n, v, b, pool, values, ask_fit=True):
        """An opening whose questions were all answered yes; see open_cells."""
        self.n = n
        self.v = v
        self.b = b
        self.pool = pool
        self.ask_fit = ask_fit
        # "Opening gives cell k block k, with X 255, Y 0, C 0, D none and V
        # its starting value; the other blocks' words are set to 0."
        for word in range(WORDS * b):
            pool[word] = 0
        self.current = list(range(v))
        for block, value in enumerate(values):
            at = WORDS * block
            pool[at + X] = NO_TASK
            pool[at + V] = value
            pool[at + D] = NONE
        # "at opening the last taken is block V - 1."
        self.last_taken = v - 1
        # "It leaves every task's record idle, its other fields 0."
        self.tasks = [Record() for _ in range(n)]
        # "The state now stores, for each block, how many times it is used"
        # (change request 7); so far by the cells alone.
        self.counts = [1] * v + [0] * (MOST_BLOCKS - v)

    # The read or swap that the last step ended, an add's or not, or None; no part
    # of what the step hands back.
    ended = None

    @classmethod
    def found(cls, n, v, b, pool, current, last_taken, tasks):
        """Any state with any pool, as it was found: nothing is asked and
        nothing set, but the counts are true until they are edited.  "every
        entry takes any numbers and any state" (demand 1), and question 6 is
        asked before anything else."""
        state = cls.__new__(cls)
        state.n = n
        state.v = v
        state.b = b
        state.pool = pool
        state.ask_fit = True
        state.current = current
        state.last_taken = last_taken
        state.tasks = tasks
        state.counts = state.fresh_counts()
        return state

    # ----------------------------------------------------------- the pool

    def fresh_counts(self):
        """"a fresh reading of the table": how many times each block is used,
        "once for each cell whose current block it is, once for each task
        holding it, once for each task that has taken it" (change request 7).
        Of the 128 a state has room for, those below B are asked."""
        counts = [0] * MOST_BLOCKS
        for block in self.current:
            count(counts, block, 1)
        for record in self.tasks:
            for block in record.blocks():
                count(counts, block, 1)
        return counts

    def is_used(self, block):
        """"A block is used while it is current, or held by a busy task that
        has done its first load, or taken by a task whose next line is 30";
        "A taken block counts as used from line 4" (change request 2).  "taking
        a block reads only the counts" (change request 7)."""
        return self.counts[block] != 0

    def has_unused_block(self):
        return not all(map(self.is_used, range(self.b)))

    def take_unused_block(self):
        """"The unused block taken is the first met going upward from the
        block after the last one taken, going round after B - 1."  Question 20
        was asked: there is one."""
        for onward in range(1, self.b + 1):
            block = (self.last_taken + onward) % self.b
            if not self.is_used(block):
                self.last_taken = block
                return block
        raise AssertionError("every block is used")

    # ------------------------------------------- questions 6 to 11, and 20

    def is_fit(self):
        """Question 6; a session cannot break it."""
        if open_refusal(self.n, self.v, self.b, self.pool, None):
            return False
        # "every cell's block and the last taken are below B"
        if len(self.current) != self.v or len(self.tasks) != self.n:
            return False
        if any(block >= self.b for block in self.current):
            return False
        if self.last_taken >= self.b:
            return False
        # "each record is idle or busy"
        if not all(self.is_record_fit(record) for record in self.tasks):
            return False
        if not all(map(self.is_add_fit, self.tasks)):
            return False
        # "A state whose counts differ from a fresh reading of the table is not
        # fit" (change request 7); a block is one below B.
        return self.counts[:self.b] == self.fresh_counts()[:self.b]

    def is_record_fit(self, record):
        if not record.busy:
            return True
        if record.kind not in (READ, SWAP) or record.cell >= self.v:
            return False
        # "a next line its kind has (10 to 12 and the deciding for 13 in a
        # read or a swap of equal values, the others in a swap of unequal
        # ones; in the deciding part, also the line that wanted it)"
        if record.runs_read_lines:
            lines, wants = READ_LINES, READ_WANTS
        else:
            lines, wants = SWAP_LINES, SWAP_WANTS
        if record.line in DECIDING_LINES:
            if record.wanted_by not in wants:
                return False
        elif record.line not in lines:
            return False
        # "each block it holds or has taken below B"
        if record.holds_a_block and record.held >= self.b:
            return False
        if record.has_taken_a_block and record.installing >= self.b:
            return False
        # "no value equal to none in a swap"
        if record.kind == SWAP and NONE in (record.expected, record.new):
            return False
        # "at most 16 steps and 3 hardware swaps so far", and "the fit
        # question allows 20 so far" (change request 2); won and lost "their
        # sum is the old number" (change request 5)
        return (record.steps <= MOST_STEPS_SO_FAR
                and record.won + record.lost <= MOST_HARD_SO_FAR)

    def is_add_fit(self, record):
        """"The fit limits hold for its read or swap under way; its r is 1 to 8,
        with fewer than r swaps lost, and what it did before that read or swap is
        at most 27 steps and 4 hardware swaps for each lost one, with 6 and 1 more
        where a swap is under way" (change request 13).  Of an idle record nothing
        is asked."""
        if not (record.busy and record.adds):
            return True
        if record.tries > MOST_TRIES or record.swaps_lost >= record.tries:
            return False
        steps = TRY_STEPS * record.swaps_lost
        hard = TRY_HARD * record.swaps_lost
        if record.kind == SWAP:
            steps += READ_STEPS
            hard += READ_HARD
        return (record.steps_before <= steps
                and record.won_before + record.lost_before <= hard)

    def refusal(self, task=None, cell=None, begin=False, swap=None,
                tries=None, step=False, drop=False):
        """The number of the first question answered no, or 0.  The questions
        follow in the paper's order, "as far as the entry names them"."""
        if self.ask_fit and not self.is_fit():
            return 6
        if task is not None and not task < self.n:
            return 7
        if cell is not None and not cell < self.v:
            return 8
        if begin and self.tasks[task].busy:
            return 9
        if swap is not None and NONE in swap:
            return 10
        # "Refused: 23, r outside 1 to 8, asked after 9; d may be any number"
        # (change request 13)
        if tries is not None and not 1 <= tries <= MOST_TRIES:
            return 23
        # "A drop asks 6, 7 and 11" (change request 12)
        if (step or drop) and not self.tasks[task].busy:
            return 11
        # "Refused: 20, line 4 finds every block used, asked after 11" (change
        # request 10)
        if (step and self.tasks[task].line == 4
                and not self.has_unused_block()):
            return 20
        return 0

    # ------------------------------------------------------- the entries

    def begin_read(self, task, cell):
        number = self.refusal(task=task, cell=cell, begin=True)
        if number:
            return Refused(number)
        self.tasks[task].clear_add()
        self.begin(task, READ, cell, 0, 0)
        return None

    def begin_swap(self, task, cell, expected, new):
        number = self.refusal(task=task, cell=cell, begin=True,
                              swap=(expected, new))
        if number:
            return Refused(number)
        self.tasks[task].clear_add()
        self.begin(task, SWAP, cell, expected, new)
        return None

    def begin_add(self, task, cell, amount, tries):
        """"an operation that reads a cell, then swaps it to the value plus d, and
        tries again after a lost swap, up to r tries" (change request 13); its
        first read "begins with the add"."""
        number = self.refusal(task=task, cell=cell, begin=True, tries=tries)
        if number:
            return Refused(number)
        record = self.tasks[task]
        record.clear_add()
        record.amount = amount
        record.tries = tries
        self.begin(task, READ, cell, 0, 0)
        return None

    def begin(self, task, kind, cell, expected, new):
        record = self.tasks[task]
        record.kind = kind
        record.cell = cell
        record.expected = expected
        record.new = new
        # "Line 14 is done by the begin: a swap whose two values are equal
        # becomes a read".
        record.line = 10 if record.runs_read_lines else 15

    def step(self, task):
        """"One step is one line of figure 2."  Hands back Refused, Finished,
        or None while the call goes on."""
        number = self.refusal(task=task, step=True)
        if number:
            return Refused(number)
        record = self.tasks[task]
        cell = record.cell
        before = [self.current[cell], *record.blocks()]
        record.steps += 1
        answer = self.do_line(task, record)
        finished = None
        self.ended = None
        if answer is not None:
            # "A call returns with its last step."
            self.ended = Finished(record.kind, record.cell, answer,
                                  record.steps, record.won, record.lost)
            finished = self.end_of_call(task, record, self.ended)
        # "Every entry keeps these counts true, a finishing step included"
        # (change request 7); a begin uses no block.
        after = [self.current[cell], *record.blocks()]
        self.move_counts(before, after)
        return finished

    def end_of_call(self, task, record, ended):
        """What the step hands back that ended this read or swap: of an add it is
        the add's end or None, where the add goes on."""
        if not record.adds:
            record.clear()
            return ended
        record.clear_call()
        record.steps_before += ended.steps
        record.won_before += ended.won
        record.lost_before += ended.lost
        answer = self.go_on(task, record, ended)
        if answer is None:
            return None
        finished = Finished(ADD, ended.cell, answer, record.steps_before,
                            record.won_before, record.lost_before)
        record.clear()
        return finished

    def go_on(self, task, record, ended):
        """The add's answer; or None, and its next read or swap "begins with [..]
        the step that ended the one before it" (change request 13)."""
        if ended.kind == READ:
            total = ended.answer + record.amount
            # "over (the sum would be 4,294,967,295 or more)"
            if total >= NONE:
                return OVER
            self.begin(task, SWAP, ended.cell, ended.answer, total)
            return None
        if ended.answer:
            return ADDED
        record.swaps_lost += 1
        # "spent, the last only after r swaps answered no"
        if record.swaps_lost == record.tries:
            return SPENT
        self.begin(task, READ, ended.cell, 0, 0)
        return None

    def drop(self, task):
        """"the call is withdrawn, its blocks are released and the record is
        idle, its other fields 0" (change request 12).  The pool is left as it
        is: "A dropped winner leaves Y true"."""
        number = self.refusal(task=task, drop=True)
        if number:
            return Refused(number)
        record = self.tasks[task]
        before = list(record.blocks())
        record.clear()
        self.move_counts(before, ())
        return None

    def act(self, word, *numbers):
        """The entry that an action's word names, asked these numbers."""
        entry = {"read": self.begin_read, "swap": self.begin_swap,
                 "add": self.begin_add, "step": self.step,
                 "drop": self.drop}[word]
        return entry(*numbers)

    def move_counts(self, before, after):
        """The blocks that an action's cell and record named before it and name
        after it."""
        for block in before:
            count(self.counts, block, -1)
        for block in after:
            count(self.counts, block, 1)

    def look(self, cell):
        """"Look answers what a read would return if it ran now and nothing
        else moved: V while C is false; otherwise D, or V where D is none."""
        number = self.refusal(cell=cell)
        if number:
            return Refused(number)
        at = WORDS * self.current[cell]
        if self.pool[at + C] == 0:
            return self.pool[at + V]
        if self.pool[at + D] == NONE:
            return self.pool[at + V]
        return self.pool[at + D]

    # -------------------------------------------------- lines of figure 2

    def do_line(self, task, record):
        """Does the record's next line and leaves the line after it there.

        Hands back the call's answer with its last line, else None.  "Other
        tests belong to the load before them."
        """
        pool = self.pool
        at = WORDS * record.held
        nb = WORDS * record.installing
        line = record.line

        # decide(b); "three steps (load V, hardware swap of D from none to the
        # loaded value, load D)", the last with the test of the line that
        # wanted it.
        if line == 1:
            record.loaded = pool[at + V]
            record.line = 2
        elif line == 2:
            # "whether its own hardware swap found D none, which is won"
            # (change request 5)
            won = pool[at + D] == NONE
            self.count_attempt(record, won)
            if won:
                pool[at + D] = record.loaded
            record.line = 3
        elif line == 3:
            return self.test_decision(record, pool[at + D])

        # WFRead
        elif line == 10:
            record.held = self.current[record.cell]
            record.line = 11
        elif line == 11:
            record.loaded = pool[at + V]
            record.line = 12
        elif line == 12:
            if pool[at + C] == 0:
                return self.end_of_read(record, record.loaded)
            self.want_decision(record, 13)

        # WFCAS
        elif line == 15:
            record.held = self.current[record.cell]
            record.line = 16
        elif line == 16:
            pool[at + X] = task
            record.line = 17
        elif line == 17:
            record.line = 27 if pool[at + Y] != 0 else 18
        elif line == 18:
            pool[at + Y] = 1
            record.line = 19
        elif line == 19:
            record.line = 27 if pool[at + X] != task else 20
        elif line == 20:
            record.loaded = pool[at + V]
            record.line = 21
        elif line == 21:
            if pool[at + C] != 0:
                self.want_decision(record, 28)
            elif record.loaded != record.expected:
                # "line 22 is a step only when its values differ, and
                # otherwise 23 follows 21."
                record.line = 22
            else:
                record.line = 23
        elif line == 22:
            pool[at + Y] = 0
            return False
        elif line == 23:
            pool[at + V] = record.new
            record.line = 24
        elif line == 24:
            if pool[at + C] != 0:
                self.want_decision(record, 25)
            else:
                record.line = 26
        elif line == 26:
            pool[at + Y] = 0
            return True
        elif line == 27:
            pool[at + C] = 1
            self.want_decision(record, 28)

        # get_new_block(nv), line 29's call: "line 4 takes the block and sets
        # X, then one step each for Y, C, D and V" (change request 2), each to
        # what document 01 fills it with: "X 255, Y 0, C 0, D none, V the new
        # value".
        elif line == 4:
            block = self.take_unused_block()
            record.installing = block
            pool[WORDS * block + X] = NO_TASK
            record.line = 5
        elif line == 5:
            pool[nb + Y] = 0
            record.line = 6
        elif line == 6:
            pool[nb + C] = 0
            record.line = 7
        elif line == 7:
            pool[nb + D] = NONE
            record.line = 8
        elif line == 8:
            pool[nb + V] = record.new
            record.line = 30

        elif line == 30:
            # "and line 30 whether it found the held block current" (change
            # request 5)
            won = self.current[record.cell] == record.held
            self.count_attempt(record, won)
            if won:
                self.current[record.cell] = record.installing
            return won
        else:
            raise AssertionError("no such line: %d" % line)
        return None

    def count_attempt(self, record, won):
        """"A hardware swap counts when attempted, successful or not."  "Each
        attempt is either won or lost by the memory before it" (change request
        5)."""
        if won:
            record.won += 1
        else:
            record.lost += 1

    def want_decision(self, record, line):
        record.line = 1
        record.wanted_by = line

    def test_decision(self, record, decided):
        """Lines 13, 25 and 28 "test its result with the last" of the three
        deciding steps."""
        wanted_by = record.wanted_by
        record.wanted_by = 0
        if wanted_by == 13:
            return self.end_of_read(record, decided)
        if wanted_by == 25:
            if decided == record.new:
                return True
            self.want_decision(record, 28)
            return None
        if decided != record.expected:
            return False
        record.line = 4
        return None

    def end_of_read(self, record, value):
        """"becomes a read, and answers yes if the value read is the expected
        one."""
        if record.kind == SWAP:
            return value == record.expected
        return value


def count(counts, block, by):
    """Counts a block that is one of the 128."""
    if block < MOST_BLOCKS:
        counts[block] += by


def open_refusal(n, v, b, pool, values):
    """Questions 1 to 5: the first one answered no, or 0.  With values None
    the questions about starting values are left out (question 6 asks only
    about "N, V, B and the pool length")."""
    if not 1 <= n <= MOST_TASKS:
        return 1
    if not 1 <= v <= MOST_CELLS:
        return 2
    if not least_blocks(n, v) <= b <= MOST_BLOCKS or len(pool) != WORDS * b:
        return 3
    if values is None:
        return 0
    if len(values) != v:
        return 4
    if NONE in values:
        return 5
    return 0


def open_cells(n, v, b, pool, values, ask_fit=True):
    """The opening: Refused, or the cells."""
    number = open_refusal(n, v, b, pool, values)
    if number:
        return Refused(number)
    return Cells(n, v, b, pool, values, ask_fit)


# ------------------------------------------------------------------- paths

# "Steps / loads / stores / hardware swaps of each complete path".  "Paths that
# end at 30 ... take four steps more and count five stores more" (change request
# 2); steps and hardware swaps then no longer name a row, as 15 and 2 are two.
PATHS = {
    "read_active": (3, 3, 0, 0),
    "read_decided": (6, 5, 0, 1),
    "no_from_22": (8, 5, 3, 0),
    "yes_from_26": (10, 6, 4, 0),
    "yes_from_25": (12, 8, 3, 1),
    "no_from_28_by_17": (7, 4, 2, 1),
    "no_from_28_by_19": (9, 5, 3, 1),
    "no_from_28_by_21": (10, 7, 2, 1),
    "no_from_28_by_25": (15, 10, 3, 2),
    "end_at_30_by_17": (13, 4, 7, 2),
    "end_at_30_by_19": (15, 5, 8, 2),
    "end_at_30_by_21": (16, 7, 7, 2),
    "end_at_30_by_25": (21, 10, 8, 3),
}

# "'no from 28 by 25' is a path of the lines that no fresh opening reaches"
UNREACHED = "no_from_28_by_25"


def path_of(lines):
    """The table's path that a finished call's lines make.  Each entry is the
    pair (line, line that wanted the deciding part or 0)."""
    last = lines[-1]
    if lines[0][0] == 10:
        return "read_active" if last[0] == 12 else "read_decided"
    if last[0] == 22:
        return "no_from_22"
    if last[0] == 26:
        return "yes_from_26"
    if last == (3, 25):
        return "yes_from_25"
    if (3, 25) in lines:
        way = 25
    elif (27, 0) not in lines:
        way = 21
    elif (18, 0) in lines:
        way = 19
    else:
        way = 17
    return "%s_by_%d" % ("end_at_30" if last[0] == 30 else "no_from_28", way)


def parts_of(lines):
    """A call's lines by its reads and swaps, which begin with line 10 or 15: one,
    or those of an add."""
    parts = []
    for line in lines:
        if line[0] in (10, 15):
            parts.append([])
        parts[-1].append(line)
    return parts


def counts_of(lines):
    """Steps, loads, stores and hardware swaps of the lines done."""
    numbers = [line for line, _ in lines]
    return (len(numbers),
            sum(line in LOAD_LINES for line in numbers),
            sum(line in STORE_LINES for line in numbers),
            sum(line in HARD_LINES for line in numbers))
