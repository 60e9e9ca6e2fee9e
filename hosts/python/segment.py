"""The segment engine for Python programs, by ctypes and without dependencies.

The engine is two static archives, libhost.a and libhost_sheets.a; a shared object is made of them once (hosts/README.md):

    gcc -shared -o libsegment.so -Wl,--whole-archive libhost.a libhost_sheets.a

and found as SEGMENT_LIBRARY, or beside this file.

    import segment
    table = segment.Table(open("words.table", "rb").read())
    run = table.run()
    run.feed([0, 1])
    run.feed([0, 2])
    print(run.finish())
"""

import array
import collections
import ctypes
import enum
import json
import os
import threading

VERSION = "0.3.0"
REGISTERS = 4096
PLACES = 1024
PROGRAM = 16384
LINE = 64
CANDIDATES = 512
WINDOW = 64
MARK = -(2**63)
MOVES = 4_294_967_295
SHEET_STACK = 8 << 20
SHEET = 1 << 26


class Kind(enum.IntEnum):
    """What a refusal is about, one name for each number."""

    TABLE_TOO_LONG = 1
    FIELD_CUT_SHORT = 2
    TAG_OUT_OF_ORDER = 3
    OUTSIDE_LIMITS = 4
    UNKNOWN_NAME = 5
    WRONG_START = 6
    WRONG_SIDE = 7
    NOT_ONE_RULE = 8
    READS_TOO_FAR = 9
    WRONG_CONDITION = 10
    USELESS = 11
    LEFT_RECURSION = 12
    CLASH = 13
    NO_PRODUCTION = 14
    UNKNOWN_TOKEN = 20
    UNEXPECTED_TOKEN = 21
    CONDITION_FALSE = 22
    VALUE_OUTSIDE = 23
    SEGMENT_OVER = 24
    PROGRAM_SHORT = 30
    NEEDS_REGISTERS = 31
    NEEDS_PLACES = 32
    RUN_CLOSED = 33
    STACKS_UNFIT = 34
    TOO_MUCH = 35
    OUTPUT_SHORT = 36
    CANDIDATES_UNFIT = 37
    LISTS_UNEQUAL = 38
    SCRATCH_SHORT = 39
    RUN_WAITING = 40
    SHEET_SHORT = 41
    WINDOW_UNFIT = 42
    SHEET_WRONG = 43


REASONS = {
    Kind.TABLE_TOO_LONG: "the table is too long",
    Kind.FIELD_CUT_SHORT: "a field is cut short",
    Kind.TAG_OUT_OF_ORDER: "a tag is out of order, or the table is over too early",
    Kind.OUTSIDE_LIMITS: "a length, count or constant is outside its limits",
    Kind.UNKNOWN_NAME: "a symbol, attribute, occurrence, function or kind is unknown",
    Kind.WRONG_START: "the start symbol has inherited attributes or lacks the result attribute",
    Kind.WRONG_SIDE: "a rule sets an input, or something reads an output",
    Kind.NOT_ONE_RULE: "an output has a second rule, or none",
    Kind.READS_TOO_FAR: "a rule for an inherited attribute reads its own position or above",
    Kind.WRONG_CONDITION: "low is above high",
    Kind.USELESS: "a nonterminal is unreachable or derives no token string",
    Kind.LEFT_RECURSION: "a nonterminal can reach itself leftmost without reading",
    Kind.CLASH: "a production clashes with an earlier one",
    Kind.NO_PRODUCTION: "there is no such production",
    Kind.UNKNOWN_TOKEN: "the token is not below the number of terminals",
    Kind.UNEXPECTED_TOKEN: "the token is not the expected one, is in no alternative's set, or follows a start symbol already left",
    Kind.CONDITION_FALSE: "a condition is false, or no alternative has its entry conditions met",
    Kind.VALUE_OUTSIDE: "a value is outside -1,000,000,000,000 to 1,000,000,000,000",
    Kind.SEGMENT_OVER: "the segment is over where a token is expected or no alternative's set holds the end",
    Kind.PROGRAM_SHORT: "the program area is short",
    Kind.NEEDS_REGISTERS: "the run needs more registers than were lent; at most 4,096 count",
    Kind.NEEDS_PLACES: "the run needs more places than were lent; at most 1,024 count",
    Kind.RUN_CLOSED: "the run is closed",
    Kind.STACKS_UNFIT: "the stacks do not fit",
    Kind.TOO_MUCH: "a token after 65,535, or a move after 4,294,967,295 or after the budget",
    Kind.OUTPUT_SHORT: "the output buffer is too short",
    Kind.CANDIDATES_UNFIT: "there are more than 512 candidates, their lengths do not add up, or the list is too short",
    Kind.LISTS_UNEQUAL: "the lists of kinds and values are of unequal length",
    Kind.SCRATCH_SHORT: "the scratch is shorter than the part of the stacks that a run may use",
    Kind.RUN_WAITING: "the run waits for its inner run, or a third run would be opened",
    Kind.SHEET_SHORT: "the sheet buffer is too short",
    Kind.WINDOW_UNFIT: "the window's size, buffer or value does not fit",
    Kind.SHEET_WRONG: "the sheet does not describe the segment's tree",
}


class Refusal(Exception):
    """Why a call was turned back: a number, and what it comes with."""

    def __init__(self, number, count):
        self.number = number
        self.count = count
        super().__init__(self._words())

    @property
    def kind(self):
        """The number by its name; None for one that this version does not know."""
        return Kind(self.number) if self.number in REASONS else None

    @property
    def reason(self):
        """The reason in words."""
        return REASONS.get(self.number, "the number is not known to this version")

    @property
    def offset(self):
        """The byte offset of the field that a table is refused for."""
        return self.count if self.number <= 14 else None

    @property
    def tokens(self):
        """The tokens read. The refusals 30, 33, 34, 36 to 43 tell none."""
        return self.count if self.number > 14 and self.number not in (30, 33, 34, 36, 37, 38, 39, 40, 41, 42, 43) else None

    def _words(self):
        where = ""
        if self.offset is not None:
            where = f" at byte {self.offset}"
        elif self.tokens is not None:
            where = f" after {self.tokens} token{'' if self.tokens == 1 else 's'}"
        return f"refused {self.number}{where}: {self.reason}"


CLOSED, RUNNING, WAITING = 0, 1, 2
OUTER, INNER = 0, 1


class Record(ctypes.Structure):
    """The run record: status (CLOSED, RUNNING or WAITING), tokens, moves, both heights, kind (OUTER or INNER) and where an inner run
    begins."""

    _names = ("status", "tokens", "moves", "registers", "places", "kind", "register_base", "place_base")
    _fields_ = [(name, ctypes.c_uint64) for name in _names]


_library = None


def _call(name, *arguments):
    """Calls a function of the library, which is loaded with the first call."""
    global _library
    if _library is None:
        here = os.path.dirname(os.path.abspath(__file__))
        _library = ctypes.CDLL(os.environ.get("SEGMENT_LIBRARY", os.path.join(here, "libsegment.so")))
    function = getattr(_library, name)
    function.restype = None
    function(*arguments)


def _call_deep(name, *arguments):
    """The same on a thread with the stack that sheets need."""
    failures = []

    def work():
        try:
            _call(name, *arguments)
        except BaseException as failure:
            failures.append(failure)

    before = threading.stack_size(SHEET_STACK)
    try:
        thread = threading.Thread(target=work)
        thread.start()
    finally:
        threading.stack_size(before)
    thread.join()
    if failures:
        raise failures[0]


def _bytes(data):
    """A list of bytes as the library takes it: pointer and length."""
    data = bytes(data)
    return ctypes.c_char_p(data), ctypes.c_size_t(len(data))


def _values(data):
    """A list of values likewise; OverflowError for one that is outside 32 bits."""
    cells = array.array("i", data)
    return (ctypes.c_int32 * len(cells)).from_buffer(cells), ctypes.c_size_t(len(cells))


def check(table):
    """The verdict on a table: raises Refusal where it is refused (1 to 13)."""
    number, offset = ctypes.c_uint32(), ctypes.c_uint32()
    _call("segment_check", *_bytes(table), ctypes.byref(number), ctypes.byref(offset))
    if number.value:
        raise Refusal(number.value, offset.value)


def stretch(table, production):
    """A production's stretch of an accepted table."""
    start, length, number, offset = ctypes.c_size_t(), ctypes.c_size_t(), ctypes.c_uint32(), ctypes.c_uint32()
    out = [ctypes.byref(n) for n in (start, length, number, offset)]
    _call("segment_stretch", *_bytes(table), ctypes.c_size_t(production), *out)
    if number.value:
        raise Refusal(number.value, offset.value)
    return bytes(table)[start.value : start.value + length.value]


def listing(table):
    """What the listing program prints for a table."""
    program, size = (ctypes.c_uint32 * PROGRAM)(), 64 * LINE
    while True:
        out, length, over = (ctypes.c_uint8 * size)(), ctypes.c_size_t(), ctypes.c_uint32()
        _call("segment_list", *_bytes(table), program, ctypes.c_size_t(PROGRAM), out, ctypes.c_size_t(size),
              ctypes.byref(length), ctypes.byref(over))
        if over.value:
            return bytes(out[: length.value]).decode("ascii")
        size *= 2


def house_order(table):
    """An accepted table in house order: tables that differ only in the order of rules and conditions, or in conditions said twice, come
    out alike, and every segment keeps its value or refusal. Raises Refusal where the table is refused."""
    out, length = (ctypes.c_uint8 * len(table))(), ctypes.c_size_t()
    number, offset = ctypes.c_uint32(), ctypes.c_uint32()
    _call("segment_house", *_bytes(table), out, ctypes.c_size_t(len(table)), *map(ctypes.byref, (length, number, offset)))
    if number.value:
        raise Refusal(number.value, offset.value)
    return bytes(out[: length.value])


def sum_of(table):
    """The sum of a table, which `grammar header` writes beside a grammar's names (FNV-1a, 64 bits)."""
    total = 0xCBF29CE484222325
    for byte in table:
        total = ((total ^ byte) * 0x100000001B3) % 2**64
    return total


class Names:
    """A grammar's names and their numbers: what `grammar header --lang json` writes, read from a file or a text."""

    def __init__(self, text):
        data = json.loads(text)
        self.sum = int(data["table"]["sum"], 16)
        self.tokens = data["tokens"]
        self.parts = data["parts"]
        self._numbers = {name: number for number, name in enumerate(self.tokens)}

    def numbers(self, words):
        """The tokens' numbers; ValueError for a word that is no token."""
        try:
            return bytes(self._numbers[word] for word in words)
        except KeyError as error:
            raise ValueError(f"{error.args[0]!r} is not a token; the tokens: {' '.join(self.tokens)}") from None

    def lists(self, words):
        """Kinds and values of tokens written like `word=4`; 0 where none is written."""
        parts = [word.partition("=") for word in words]
        return self.numbers(name for name, _, _ in parts), [int(value or 0) for _, _, value in parts]


class Table:
    """A table that the engine accepts. With names it must be the table that the names belong to."""

    def __init__(self, data, names=None):
        self.bytes = bytes(data)
        check(self.bytes)
        if names is not None and names.sum != self.sum():
            raise ValueError(f"another table: its sum is {self.sum():016x}, not {names.sum:016x}")

    def __repr__(self):
        return f"Table({len(self.bytes)} bytes, sum {self.sum():016x})"

    def sum(self):
        """See sum_of."""
        return sum_of(self.bytes)

    def house_order(self):
        """The table in house order: see house_order."""
        return Table(house_order(self.bytes))

    def run(self, registers=REGISTERS, places=PLACES, budget=MOVES):
        """Opens a run."""
        return Run(self, registers, places, budget)

    def rank(self, candidates, values=None):
        """Ranks candidate segments: see rank."""
        return rank(self.bytes, candidates, values)

    def sheet(self, kinds, values=None):
        """The tree sheet of a segment: see sheet."""
        return sheet(self.bytes, kinds, values)

    def judge(self, sheet, kinds, values=None):
        """Judges a tree sheet of a segment: see judge."""
        return judge(self.bytes, sheet, kinds, values)


Preview = collections.namedtuple("Preview", "refusal tokens moves registers places is_open")
Preview.__doc__ = "What feeding a token would give: its Refusal or None, tokens, moves and heights then, and whether the run would go on."

Entry = collections.namedtuple("Entry", "number value refusal")
Entry.__doc__ = "A candidate in a ranking: its number, counted from 0, its value or None, and why it has none, a Kind, or None."

Ranking = collections.namedtuple("Ranking", "entries valued total")
Ranking.__doc__ = "Candidates in order, as entries; how many have a value, and the total of these values."


def rank(table, candidates, values=None):
    """Evaluates up to 512 candidate segments under a table and ranks them: those with a value first, the highest first and equal ones by
    number; then the refused ones by number. Values are a list for each candidate, as long as its tokens; without them each is 0."""
    kinds = [bytes(tokens) for tokens in candidates]
    values = [[0] * len(tokens) for tokens in kinds] if values is None else [list(v) for v in values]
    if [len(tokens) for tokens in kinds] != [len(v) for v in values]:
        raise Refusal(Kind.LISTS_UNEQUAL.value, 0)
    count = len(kinds)
    lengths, cells = (ctypes.c_uint32 * count)(*map(len, kinds)), (ctypes.c_int64 * (3 * count))()
    room = [(kind * n)() for kind, n in ((ctypes.c_int64, REGISTERS), (ctypes.c_uint32, PLACES), (ctypes.c_uint32, PROGRAM))]
    memory = [part for cells_of in (*room, cells) for part in (cells_of, ctypes.c_size_t(len(cells_of)))]
    valued, total, entries = ctypes.c_size_t(), ctypes.c_int64(), ctypes.c_size_t()
    number, offset = ctypes.c_uint32(), ctypes.c_uint32()
    brought = *_bytes(b"".join(kinds)), *_values([v for of in values for v in of]), lengths, ctypes.c_size_t(count)
    _call("segment_rank", *_bytes(table), *memory, *brought, *map(ctypes.byref, (valued, total, entries, number, offset)))
    if number.value:
        raise Refusal(number.value, offset.value)
    listed = [cells[3 * i : 3 * i + 3] for i in range(entries.value)]
    return Ranking([Entry(n, None if k else v, Kind(k) if k else None) for n, v, k in listed], valued.value, total.value)


Sheet = collections.namedtuple("Sheet", "bytes value moves")
Sheet.__doc__ = "A segment's tree as bytes, its value, and the moves that a run makes."


def sheet(table, kinds, values=None, registers=REGISTERS, places=PLACES):
    """The tree sheet of a segment: a record for each node, in the order of entering. Value and refusals are those of a run on so many
    registers and places. Without values each is 0. A sheet longer than SHEET is refused with 41."""
    kinds = bytes(kinds)
    values = [0] * len(kinds) if values is None else list(values)
    room = (ctypes.c_size_t(registers), ctypes.c_size_t(places))
    size = 128 * (len(kinds) + 8)
    while True:
        buffer = (ctypes.c_uint8 * size)()
        number, value, count, length = ctypes.c_uint32(), ctypes.c_int64(), ctypes.c_uint64(), ctypes.c_uint64()
        out = map(ctypes.byref, (number, value, count, length))
        _call_deep("segment_sheet", *_bytes(table), *_bytes(kinds), *_values(values), *room, buffer, ctypes.c_size_t(size), *out)
        if number.value != Kind.SHEET_SHORT or size >= SHEET:
            break
        size = min(4 * size, SHEET)
    if number.value:
        raise Refusal(number.value, count.value)
    return Sheet(bytes(buffer[: length.value]), value.value, count.value)


def judge(table, sheet, kinds, values=None):
    """Judges a tree sheet that another tool has made of a segment, any bytes: the segment's value where the sheet describes its tree.
    Without values each is 0."""
    kinds = bytes(kinds)
    values = [0] * len(kinds) if values is None else list(values)
    number, value, offset = ctypes.c_uint32(), ctypes.c_int64(), ctypes.c_uint32()
    out = map(ctypes.byref, (number, value, offset))
    _call_deep("segment_judge", *_bytes(table), *_bytes(kinds), *_values(values), *_bytes(sheet), *out)
    if number.value:
        raise Refusal(number.value, offset.value)
    return value.value


def _within(number, low, high):
    """The number, or the limit that it is past: what ctypes would cut is handed on as something that is refused too."""
    return max(low, min(number, high))


class Window:
    """A window over the values of the last finished segments, 1 to 64 of them: their total and the largest (docs/WINDOW.md).

    Before the first value the total is 0 and the largest None."""

    def __init__(self, size):
        self.size = size
        self._length = 5 + 2 * _within(size, 0, WINDOW)
        self._cells = (ctypes.c_int64 * self._length)()
        self._called("segment_window_open", ctypes.c_uint64(_within(size, 0, WINDOW + 1)))

    def bring(self, answer):
        """Brings what a segment came to, its value or the Refusal: only a value enters. Answers total and largest."""
        refused = isinstance(answer, Refusal)
        number, value, count = (answer.number, 0, answer.count) if refused else (0, _within(answer, -(2**63), 2**63 - 1), 0)
        return self._called("segment_window_value", ctypes.c_uint32(number), ctypes.c_int64(value), ctypes.c_uint64(count))

    @property
    def values(self):
        """The values, from the oldest."""
        held, end = self._cells[1], self._cells[2]
        return [self._cells[5 + (end - held + i) % self.size] for i in range(held)]

    @property
    def cells(self):
        """The cells, as docs/WINDOW.md states them."""
        return list(self._cells)

    def __repr__(self):
        return f"Window(size {self.size}, total {self.total}, largest {self.largest})"

    def _called(self, name, *brought):
        number, total, largest, has_largest = ctypes.c_uint32(), ctypes.c_int64(), ctypes.c_int64(), ctypes.c_uint32()
        out = map(ctypes.byref, (number, total, largest, has_largest))
        _call(name, *brought, self._cells, ctypes.c_size_t(self._length), *out)
        if number.value:
            raise Refusal(number.value, 0)
        self.total, self.largest = total.value, largest.value if has_largest.value else None
        return self.total, self.largest


class Run:
    """A run over one segment, and the memory that it needs. Each call judges the table anew: feed in large pieces."""

    def __init__(self, table, registers=REGISTERS, places=PLACES, budget=MOVES):
        self.table = table
        self._table = _bytes(table.bytes)
        self._spent = MOVES - max(0, min(budget, MOVES))
        lengths = (min(registers, REGISTERS), min(places, PLACES), PROGRAM)
        self._cells = [(kind * n)() for kind, n in zip((ctypes.c_int64, ctypes.c_uint32, ctypes.c_uint32), lengths)]
        self._memory = [part for cells, n in zip(self._cells, lengths) for part in (cells, ctypes.c_size_t(n))]
        self.record = Record()
        self.value = None
        self._scratch = None
        self.open()

    def with_budget(self, moves):
        """Gives each segment a budget of moves: the move after it is refused by 35. Opens the run anew."""
        self._spent = MOVES - max(0, min(moves, MOVES))
        self.open()
        return self

    def open(self):
        """Opens the run, for the first segment or another."""
        self.value = None
        self._called("segment_open")
        self.record.moves = self._spent

    def feed(self, tokens, values=None):
        """Feeds the next tokens, their kinds and values; without values each is 0. Answers the moves made since opening."""
        kinds = bytes(tokens)
        self._called("segment_feed", *_bytes(kinds), *_values([0] * len(kinds) if values is None else values))
        return self.moves

    def finish(self):
        """Ends the segment; answers its value, and closes the run."""
        value = ctypes.c_int64()
        self._called("segment_finish", value=value)
        self.value = value.value
        return self.value

    def evaluate(self, tokens, values=None):
        """Opens the run, feeds the whole segment and finishes it."""
        self.open()
        self.feed(tokens, values)
        return self.finish()

    def open_inner(self, table):
        """Opens an inner run, say for a footnote, under a table of its own and above what this run has in use. This run waits until the
        inner one ends; then it stands as before. The inner segment has a budget of as many moves as this one."""
        return InnerRun(self, table)

    def preview(self, kind, value=0):
        """What feeding this token would give, a Preview; the run stays as it is."""
        after, number, count = Record(), ctypes.c_uint32(), ctypes.c_uint64()
        token = ctypes.c_uint8(kind), ctypes.c_int32(value)
        _call("segment_preview", *self._tried(), *token, *map(ctypes.byref, (after, number, count)))
        refusal = Refusal(number.value, count.value) if number.value else None
        moves = max(0, after.moves - self._spent)
        return Preview(refusal, after.tokens, moves, after.registers, after.places, after.status != CLOSED)

    def may_follow(self, value=0):
        """The tokens that may come next, rising: those whose preview with this value is no refusal. Whether the segment may end here is
        not among them."""
        tokens, number, count = ctypes.c_uint64(), ctypes.c_uint32(), ctypes.c_uint64()
        _call("segment_may", *self._tried(), ctypes.c_int32(value), *map(ctypes.byref, (tokens, number, count)))
        if number.value:
            raise Refusal(number.value, count.value)
        return [kind for kind in range(64) if tokens.value >> kind & 1]

    def _tried(self):
        """What a preview is brought: the run as it stands, and scratch, which is made with the first."""
        if self._scratch is None:
            cells = [type(part)() for part in self._cells[:2]]
            self._scratch = [part for of in cells for part in (of, ctypes.c_size_t(len(of)))]
        return *self._table, ctypes.byref(self.record), *self._memory[:4], *self._scratch, *self._memory[4:]

    @property
    def moves(self):
        """The moves made since opening."""
        return max(0, self.record.moves - self._spent)

    @property
    def budget(self):
        """The moves that a segment may make."""
        return MOVES - self._spent

    @property
    def tokens(self):
        """The tokens read since opening."""
        return self.record.tokens

    @property
    def is_open(self):
        """Whether the run goes on: it is neither finished nor refused. It takes more tokens unless it waits."""
        return self.record.status != CLOSED

    @property
    def is_waiting(self):
        """Whether the run waits for its inner run: calls on it are then refused by 40."""
        return self.record.status == WAITING

    @property
    def registers(self):
        """The registers in use, from the bottom; None where one has no value yet."""
        used = self._cells[0][: self.record.registers]
        return [None if value == MARK else value for value in used]

    def register(self, number):
        """The register with this number: 1 is the top. None past the last, and where there is no value yet."""
        used = self.registers
        return used[-number] if 1 <= number <= len(used) else None

    @property
    def places(self):
        """The places in use, from the bottom."""
        return list(self._cells[1][: self.record.places])

    def __repr__(self):
        state = {CLOSED: "closed", WAITING: "waiting"}.get(self.record.status, "open")
        return f"Run({state}, {self.tokens} tokens, {self.moves} moves, {self.table!r})"

    def _called(self, name, *more, value=None):
        _run_call(name, (*self._table, ctypes.byref(self.record), *self._memory, *more), value)


class InnerRun:
    """A run inside another, over its memory. It ends by a finish, by a refusal that closes it, or by giving up; then its part of the
    memory is clear and the outer run goes on. As a context it is given up at the end of the block, unless it has ended:

        with run.open_inner(table) as note:
            note.feed([0, 0])
            print(note.finish())
    """

    def __init__(self, outer, table):
        self.outer = outer
        self.table = table
        self._table = _bytes(table.bytes)
        self._spent = outer._spent
        self.record = Record()
        self.value = None
        both = ctypes.byref(outer.record), ctypes.byref(self.record)
        _run_call("segment_inner_open", (*outer._table, *self._table, *both, *outer._memory))
        self.record.moves = self._spent

    def feed(self, tokens, values=None):
        """Feeds the next tokens, their kinds and values; without values each is 0. Answers the moves made since the inner opening."""
        kinds = bytes(tokens)
        self._called("segment_inner_feed", *_bytes(kinds), *_values([0] * len(kinds) if values is None else values))
        return self.moves

    def finish(self):
        """Ends the segment and the inner run; answers its value."""
        value = ctypes.c_int64()
        self._called("segment_inner_finish", value=value)
        self.value = value.value
        return self.value

    def give_up(self):
        """Ends the inner run as it stands; answers the moves it has made."""
        self._called("segment_inner_give_up")
        return self.moves

    @property
    def moves(self):
        """The moves made since the inner run was opened."""
        return max(0, self.record.moves - self._spent)

    @property
    def tokens(self):
        """The tokens read since the inner run was opened."""
        return self.record.tokens

    @property
    def is_open(self):
        """Whether the inner run has not ended."""
        return self.record.status != CLOSED

    @property
    def registers(self):
        """The inner run's registers in use, from the bottom; None where one has no value yet. None are in use after its end."""
        used = self._used(0, self.record.register_base, self.record.registers)
        return [None if value == MARK else value for value in used]

    @property
    def places(self):
        """The inner run's places in use, from the bottom."""
        return self._used(1, self.record.place_base, self.record.places)

    def __enter__(self):
        return self

    def __exit__(self, *raised):
        if self.is_open and self.outer.is_waiting:
            self.give_up()

    def __repr__(self):
        state = "open" if self.is_open else "closed"
        return f"InnerRun({state}, {self.tokens} tokens, {self.moves} moves, {self.table!r}, inside {self.outer!r})"

    def _used(self, stack, base, height):
        return list(self.outer._cells[stack][base : base + height]) if self.is_open else []

    def _called(self, name, *more, value=None):
        both = ctypes.byref(self.outer.record), ctypes.byref(self.record)
        _run_call(name, (*self._table, *both, *self.outer._memory, *more), value)


def _run_call(name, brought, value=None):
    """A call on a run, with what is brought and then the numbers that are handed out."""
    number, count = ctypes.c_uint32(), ctypes.c_uint64()
    out = [number, count] if value is None else [number, value, count]
    _call(name, *brought, *map(ctypes.byref, out))
    if number.value:
        raise Refusal(number.value, count.value)
