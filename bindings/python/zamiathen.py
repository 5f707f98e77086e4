"""Station sheets in Python: every call of include/zamiathen.h, through ctypes.

    import zamiathen
    sheet = zamiathen.Sheet.blank(3)
    book = zamiathen.Book.from_words("each(label:0, label:1)")
    edit = zamiathen.Edit.from_words("mark(label:0, node:2)")
    try:
        sheet = sheet.enter(book, edit)
    except zamiathen.Refused as refused:
        print(refused.text, refused.place, refused.witness)

Sheets, books, edits and stores are held as `bytes` and never change: a call that changes a sheet returns a new one, and
a call that is refused raises Refused. What a caller passes is copied, and no writable view of it is handed out. The
header lists the questions of each call, in the order in which it asks them.

The library is the file that the environment variable ZAMIATHEN_LIBRARY names, otherwise libzamiathen.so.6 next to this
module, otherwise that of the system. Calls may run in any number of threads. A call needs STACK_BYTES of stack below
Python's own frames, which a thread has unless `threading.stack_size` says otherwise.
"""
from __future__ import annotations

import ctypes
import enum
import operator
import os
from ctypes import POINTER, c_char, c_char_p, c_size_t, c_uint64
from typing import Any, NamedTuple, NoReturn, Optional, Sequence, Tuple, Type, TypeVar, Union

# The version of the header: the library must have this first number, and its second may be later.
VERSION_FIRST = 6
VERSION_SECOND = 2
VERSION = 1000 * VERSION_FIRST + VERSION_SECOND

SHEET_BYTES = 8704
STORE_BYTES = 61440
TEXT_BYTES = 4096
CARRIED_BYTES = 16384
LOG_BYTES = 4608
BOOK_WORDS_BYTES = 166653
EDIT_WORDS_BYTES = 217095
RULE_WORDS_BYTES = 662372
LINE_BYTES = 64
PAGE_BYTES = 3904
STACK_BYTES = 262144
THREAD_BYTES = 393216

MAX_NODES = 60
LABELS = 48
ARROWS = 16
MAX_RULES = 32
MAX_SMALL = 3
MAX_EDITS = 4
MAX_MOVES = 6


class Number(enum.IntEnum):
    """The answer numbers."""

    DONE = 0
    SHEET_LENGTH = 1
    SHEET_SUMS = 2
    SHEET_HEAD = 3
    SHEET_ZEROS = 4
    NODE_COUNT = 5
    OUT_OF_RANGE = 7
    BOOK_LENGTH = 11
    BOOK_ENDS = 12
    BOOK_CODE = 13
    BOOK_LEVEL = 14
    BOOK_NUMBER = 15
    BOOK_RULES = 16
    EDIT_LENGTH = 21
    EDIT_ENDS = 22
    EDIT_CODE = 23
    EDIT_LEVEL = 24
    EDIT_NUMBER = 25
    EDIT_MORE = 26
    CARRIED_LENGTH = 31
    CARRIED_LEVELS = 32
    ROOM = 33
    RULE_BROKEN = 41
    PAGE = 51
    LOG_SUMS = 52
    LOG_BLOCK = 53
    NODE_TAKEN = 54
    STORE = 55
    PLAN_NAME = 56
    PLAN_UNFILLED = 57
    NODES_TOTAL = 58
    STEP = 59
    SENT = 60
    SMALL_SHEETS = 61
    GAME_RANGE = 62
    NAMES = 63
    WORDS_END = 64
    WORDS_START = 65
    WORDS_MARK = 66
    WORDS_NUMBER = 67
    WORDS_LEVEL = 68
    WORDS_RULES = 69
    WORDS_LENGTH = 70


_TEXTS = {
    0: "Done.",
    1: "The sheet is not 8,704 bytes long.",
    2: "The check bytes of a block of the sheet are wrong.",
    3: "The head of a block of the sheet is wrong, or no node is in use.",
    4: "A byte or bit of the sheet that must be zero is not.",
    5: "A blank sheet has 1 to 60 nodes.",
    7: "The sheet has no label, arrow or node of this number.",
    11: "The book is too long.",
    12: "The book ends where a byte is wanted.",
    13: "A byte of the book is not a code of the sort wanted.",
    14: "The book is too deep.",
    15: "A label, arrow or node number or a count in the book is out of range.",
    16: "The book has more than 32 rules, or more follows the one rule wanted.",
    21: "The edit has more than 4,096 bytes.",
    22: "The edit ends where a byte is wanted.",
    23: "A byte of the edit is not a code of the sort wanted.",
    24: "The edit is too deep.",
    25: "A label, arrow or node number or a count in the edit is out of range.",
    26: "Bytes follow the end of the edit.",
    31: "The book, carried back, would have more than 16,384 bytes.",
    32: "The book, carried back, would have more than 255 levels.",
    33: "The scratch or output is too short.",
    41: "A rule is broken.",
    51: "The page is not one that such a sheet prints.",
    52: "The check bytes of a block of the log are wrong.",
    53: "A block of the log is wrong or cut short, or the log ends inside an edit.",
    54: "The node has a label or an arrow, or is the only one in use.",
    55: "The store, or a sheet kept in it, is not sound.",
    56: "A plan's name is a number from 1 to 7.",
    57: "Nothing is kept under this name.",
    58: "The two sheets have more than 60 nodes together.",
    59: "A step is cut, its law is unknown, or it does not fit.",
    60: "The text that the steps make is not the one sent.",
    61: "Small sheets have 1 to 3 nodes; book and edit may name only label 0 and arrow 0.",
    62: "The lists of edits, their lengths or the number of moves are out of range.",
    63: "The table of names is wrong here.",
    64: "The words end where more is wanted.",
    65: "This does not begin a rule, expression or step of the sort wanted here.",
    66: "Another mark, one of ( ) and the comma, is wanted here.",
    67: "This is not a name or count of the sort wanted here.",
    68: "The words are nested too deep here.",
    69: "The book has more than 32 rules.",
    70: "The words stand for more than 4,096 bytes.",
}


def text(number: int) -> str:
    """The sentence for an answer number."""
    return _TEXTS.get(number, "This version has no such number.")


class WitnessKind(enum.IntEnum):
    """What a witness says: the rule holds, a node or a pair breaks it, or it is broken and none is named."""

    HOLDS = 0
    NODE = 1
    PAIR = 2
    UNNAMED = 3


class Outcome(enum.IntEnum):
    """The outcome of a game."""

    CANNOT = 0
    EDIT = 1
    PASS = 2
    REFUSED = 3


class NodeSet(NamedTuple):
    """A set of nodes, bit i for node i, and a count: n in the answer of nodes(), otherwise the size of the set."""

    count: int
    bits: int

    @property
    def nodes(self) -> Tuple[int, ...]:
        """The nodes of the set, lowest first."""
        return _members(self.bits)


class Witness(NamedTuple):
    """Who breaks a rule, by kind: the lowest node and the bits of all such nodes, or the lowest pair."""

    kind: WitnessKind
    first: int
    second: int
    bits: int

    @property
    def nodes(self) -> Tuple[int, ...]:
        """All nodes that break the rule, if the kind is NODE."""
        return _members(self.bits)


class Counts(NamedTuple):
    """How many small sheets keep the book before and after the edit, only before, only after, and neither."""

    kept_kept: int
    kept_broken: int
    broken_kept: int
    broken_broken: int


class Played(NamedTuple):
    """Whether a win can be forced, and with which edit first (its place in the list, from 0; 0 if none is meant)."""

    outcome: Outcome
    edit: int


class Refused(Exception):
    """A call was refused: its number is not done, and nothing has changed.

    number and place are those of the answer, text is its sentence. After a 41 of enter, judge and returned, witness
    says who breaks the rule, or would break it after the edit. After a 41 of judge, start and length say where the rule
    stands in the book. After a refusal of play, edit says which edit is meant.
    """

    def __init__(self, number: int, place: int, witness: Optional[Witness] = None, *, start: int = 0, length: int = 0,
                 edit: int = 0) -> None:
        super().__init__(number, place, witness)
        self.number = number
        self.place = place
        self.text = text(number)
        self.witness = witness
        self.start = start
        self.length = length
        self.edit = edit

    def __str__(self) -> str:
        return f"{self.number:02} {self.place:05}: {self.text}"


def _members(bits: int) -> Tuple[int, ...]:
    return tuple(node for node in range(MAX_NODES) if bits >> node & 1)


# The structures and functions of the header: tests/bindings compares both with it.


class _Answer(ctypes.Structure):
    _fields_ = [("number", c_size_t), ("place", c_size_t)]


class _Bit(ctypes.Structure):
    _fields_ = [("number", c_size_t), ("place", c_size_t), ("bit", c_size_t)]


class _NodeSet(ctypes.Structure):
    _fields_ = [("number", c_size_t), ("place", c_size_t), ("count", c_size_t), ("set", c_uint64)]


class _Length(ctypes.Structure):
    _fields_ = [("number", c_size_t), ("place", c_size_t), ("length", c_size_t)]


class _Judged(ctypes.Structure):
    _fields_ = [("number", c_size_t), ("place", c_size_t), ("start", c_size_t), ("length", c_size_t)]


class _Witnessed(ctypes.Structure):
    _fields_ = [("number", c_size_t), ("place", c_size_t), ("kind", c_size_t), ("first", c_size_t),
                ("second", c_size_t), ("nodes", c_uint64)]


class _Counts(ctypes.Structure):
    _fields_ = [("number", c_size_t), ("place", c_size_t), ("kept_kept", c_size_t), ("kept_broken", c_size_t),
                ("broken_kept", c_size_t), ("broken_broken", c_size_t)]


class _Played(ctypes.Structure):
    _fields_ = [("number", c_size_t), ("place", c_size_t), ("outcome", c_size_t), ("edit", c_size_t)]


_STRUCTURES = {
    "zamiathen_answer": _Answer,
    "zamiathen_bit": _Bit,
    "zamiathen_node_set": _NodeSet,
    "zamiathen_length": _Length,
    "zamiathen_judged": _Judged,
    "zamiathen_witnessed": _Witnessed,
    "zamiathen_counts": _Counts,
    "zamiathen_played": _Played,
}

_READ = [c_char_p, c_size_t]  # bytes that are only read: they are passed as they are
_WRITE = [POINTER(c_char), c_size_t]  # a buffer of this module
_SIZES = [POINTER(c_size_t), c_size_t]
_NUMBER = [c_size_t]

_FUNCTIONS = {
    "zamiathen_version": (c_size_t, []),
    "zamiathen_blank": (_Answer, _WRITE + _NUMBER),
    "zamiathen_check": (_Answer, _READ),
    "zamiathen_convert_255": (_Answer, _WRITE),
    "zamiathen_convert_257": (_Answer, _WRITE),
    "zamiathen_join_sheets": (_Answer, _WRITE + _READ),
    "zamiathen_label_bit": (_Bit, _READ + _NUMBER + _NUMBER),
    "zamiathen_arrow_bit": (_Bit, _READ + _NUMBER + _NUMBER + _NUMBER),
    "zamiathen_nodes": (_NodeSet, _READ),
    "zamiathen_label_set": (_NodeSet, _READ + _NUMBER),
    "zamiathen_row_set": (_NodeSet, _READ + _NUMBER + _NUMBER),
    "zamiathen_print_arrow": (_Length, _READ + _NUMBER + _WRITE),
    "zamiathen_print_labels": (_Length, _READ + _WRITE),
    "zamiathen_type_page": (_Answer, _WRITE + _READ),
    "zamiathen_first_rule": (_Length, _READ),
    "zamiathen_rule_start": (c_size_t, _READ + _NUMBER + _NUMBER),
    "zamiathen_judge": (_Judged, _READ + _READ),
    "zamiathen_witness": (_Witnessed, _READ + _READ),
    "zamiathen_rewrite": (_Length, _READ + _WRITE),
    "zamiathen_check_steps": (_Answer, _READ + _READ + _READ),
    "zamiathen_join_edits": (_Length, _READ + _READ + _WRITE),
    "zamiathen_apply": (_Answer, _WRITE + _READ),
    "zamiathen_carry_back": (_Length, _READ + _READ + _WRITE),
    "zamiathen_enter": (_Answer, _WRITE + _READ + _READ + _WRITE),
    "zamiathen_log_edit": (_Length, _READ + _WRITE),
    "zamiathen_check_names": (_Answer, _READ),
    "zamiathen_book_to_words": (_Length, _READ + _READ + _WRITE),
    "zamiathen_edit_to_words": (_Length, _READ + _READ + _WRITE),
    "zamiathen_rule_to_words": (_Length, _READ + _READ + _WRITE),
    "zamiathen_book_from_words": (_Length, _READ + _READ + _WRITE),
    "zamiathen_edit_from_words": (_Length, _READ + _READ + _WRITE),
    "zamiathen_rule_in_words": (c_size_t, _READ + _READ + _NUMBER),
    "zamiathen_close": (_Answer, _WRITE + _READ + _NUMBER),
    "zamiathen_open": (_Answer, _WRITE + _READ + _NUMBER),
    "zamiathen_store_blank": (_Answer, _WRITE),
    "zamiathen_keep": (_Answer, _READ + _WRITE + _NUMBER),
    "zamiathen_return": (_Answer, _WRITE + _READ + _NUMBER + _READ),
    "zamiathen_drop": (_Answer, _WRITE + _NUMBER),
    "zamiathen_count": (_Counts, _NUMBER + _READ + _READ),
    "zamiathen_play": (_Played, _READ + _READ + _READ + _READ + _SIZES + _NUMBER + _NUMBER),
}


def _load() -> ctypes.CDLL:
    """The library. Its version is checked before any of its calls is looked up."""
    name = f"libzamiathen.so.{VERSION_FIRST}"
    beside = os.path.join(os.path.dirname(os.path.abspath(__file__)), name)
    path = os.environ.get("ZAMIATHEN_LIBRARY") or (beside if os.path.exists(beside) else name)
    try:
        library = ctypes.CDLL(path)
        library.zamiathen_version.restype = c_size_t
        found = library.zamiathen_version()
    except (OSError, AttributeError) as error:
        raise ImportError(f"{path} is not the library of zamiathen ({error}); "
                          "the environment variable ZAMIATHEN_LIBRARY may name it") from error
    if found // 1000 != VERSION_FIRST or found < VERSION:
        raise ImportError(f"{path} has version {found // 1000}.{found % 1000}, "
                          f"and this module is for {VERSION_FIRST}.{VERSION_SECOND}")
    for name, (result, arguments) in _FUNCTIONS.items():
        function = getattr(library, name)
        function.restype = result
        function.argtypes = arguments
    return library


_library = _load()

_Kind = TypeVar("_Kind", bound="_Held")


class _Held:
    """Bytes that never change."""

    __slots__ = ("_data",)
    _data: bytes

    def __init__(self, data: Bytes) -> None:
        object.__setattr__(self, "_data", _copied(data))

    def __setattr__(self, name: str, value: object) -> NoReturn:
        raise AttributeError(f"a {type(self).__name__} never changes")

    def __delattr__(self, name: str) -> NoReturn:
        raise AttributeError(f"a {type(self).__name__} never changes")

    def __reduce__(self) -> Tuple[Any, ...]:
        return type(self), (self._data,)

    def __bytes__(self) -> bytes:
        return self._data

    def __len__(self) -> int:
        return len(self._data)

    def __eq__(self, other: object) -> bool:
        if isinstance(other, _Held):
            return type(self) is type(other) and self._data == other._data
        return NotImplemented

    def __hash__(self) -> int:
        return hash((type(self).__name__, self._data))

    def __repr__(self) -> str:
        shown = self._data if len(self._data) <= 32 else self._data[:32]
        more = "" if shown is self._data else f" and {len(self._data) - 32} bytes more"
        return f"<{type(self).__name__} {shown.hex(' ')}{more}>"


Bytes = Union[_Held, bytes, bytearray, memoryview]
Words = Union[str, bytes]


def _copied(data: Bytes) -> bytes:
    """The bytes of what is passed. A whole number, which `bytes` would turn into zeros, is refused."""
    if type(data) is bytes:
        return data
    if isinstance(data, _Held):
        return data._data
    if isinstance(data, (bytes, bytearray, memoryview)):
        return bytes(memoryview(data))
    raise TypeError(f"bytes are wanted, not {type(data).__name__}")


def _encoded(words: Words) -> bytes:
    """Words as bytes. Names may hold bytes that are not UTF-8; they go through `str` and come back."""
    return words.encode("utf-8", "surrogateescape") if isinstance(words, str) else _copied(words)


def _decoded(words: bytes) -> str:
    return words.decode("utf-8", "surrogateescape")


def _room(length: int) -> ctypes.Array[c_char]:
    """A buffer of this module, of zeros."""
    return ctypes.create_string_buffer(length)


def _changed(data: Bytes) -> ctypes.Array[c_char]:
    """A buffer of this module with a copy of the bytes, for a call to change."""
    copied = _copied(data)
    return (c_char * len(copied)).from_buffer_copy(copied)


def _number(value: int) -> int:
    """A number that fits size_t: ctypes would take any other modulo 2 to the 64."""
    number = operator.index(value)
    if not 0 <= number <= c_size_t(-1).value:
        raise OverflowError(f"{number} is not from 0 to {c_size_t(-1).value}")
    return number


def _call(name: str, *values: Any) -> Any:
    """Calls a function of the header. Bytes, buffers and sizes are followed by their length."""
    lent: list[Any] = []
    for value in values:
        if hasattr(value, "__index__"):
            lent.append(_number(value))
        else:
            data = value if isinstance(value, ctypes.Array) else _copied(value)
            lent += [data, len(data)]
    return getattr(_library, name)(*lent)


def _asked(name: str, *values: Any) -> Any:
    """The answer of a call that is done; any other answer raises Refused."""
    answer = _call(name, *values)
    if answer.number != Number.DONE:
        raise Refused(answer.number, answer.place)
    return answer


def _written(name: str, room: int, *values: Any) -> bytes:
    """What a call writes at the start of its output, the last of its buffers."""
    output = _room(room)
    length = _asked(name, *values, output).length
    return output.raw[:length]


def version() -> int:
    """The version of the library, 1000 * first + second."""
    return _call("zamiathen_version")


class Edit(_Held):
    """An edit, in codes. It may hold any bytes: the calls check that they are an edit."""

    __slots__ = ()

    @classmethod
    def from_words(cls, words: Words, names: Words = "") -> Edit:
        """The edit that the words stand for. The place of a refusal counts UTF-8 bytes."""
        return cls(_written("zamiathen_edit_from_words", TEXT_BYTES, _encoded(names), _encoded(words)))

    def to_words(self, names: Words = "") -> str:
        """The edit in words."""
        return _decoded(_written("zamiathen_edit_to_words", EDIT_WORDS_BYTES, _encoded(names), self))

    def join(self, then: Bytes) -> Edit:
        """The edit that makes the steps of this one and then those of the other."""
        return Edit(_written("zamiathen_join_edits", TEXT_BYTES, self, then))

    def log(self) -> bytes:
        """The blocks of a log that hold the edit."""
        return _written("zamiathen_log_edit", LOG_BYTES, self)


class Book(_Held):
    """A book of rules, in codes, carried back or not. It may hold any bytes: the calls check that they are a book."""

    __slots__ = ()

    @classmethod
    def from_words(cls, words: Words, names: Words = "") -> Book:
        """The book that the words stand for. The place of a refusal counts UTF-8 bytes."""
        return cls(_written("zamiathen_book_from_words", TEXT_BYTES, _encoded(names), _encoded(words)))

    def to_words(self, names: Words = "") -> str:
        """The book in words."""
        return _decoded(_written("zamiathen_book_to_words", BOOK_WORDS_BYTES, _encoded(names), self))

    def carry_back(self, edit: Bytes) -> Book:
        """The book carried back: it holds on a sheet before the edit exactly when this book holds after it.

        It may be too long or too deep for judge.
        """
        return Book(_written("zamiathen_carry_back", CARRIED_BYTES, self, edit))

    def rewrite(self) -> Book:
        """The book, which may have any counts, as one whose counts are in range."""
        return Book(_written("zamiathen_rewrite", TEXT_BYTES, self))

    def rule_start(self, rule: int, n: int = MAX_NODES) -> int:
        """Where a rule, counted from 0, starts on a sheet of n nodes; the book's length if there is no such rule."""
        return _call("zamiathen_rule_start", self, n, rule)


class Sheet(_Held):
    """A station sheet. It may hold any bytes: each call checks that they are a sound sheet."""

    __slots__ = ()

    @classmethod
    def blank(cls, n: int) -> Sheet:
        """The sheet of n nodes, all in use, without labels and arrows."""
        sheet = _room(SHEET_BYTES)
        _asked("zamiathen_blank", sheet, n)
        return cls(sheet.raw)

    @classmethod
    def from_card_255(cls, card: Bytes) -> Sheet:
        """The sheet of a card that was written under version 1."""
        return cls(card)._after("zamiathen_convert_255")

    @classmethod
    def from_card_257(cls, card: Bytes) -> Sheet:
        """The sheet of a card that was written under version 2 or 3."""
        return cls(card)._after("zamiathen_convert_257")

    def _after(self, name: str, *values: Any) -> Sheet:
        """The sheet after a call that changes it."""
        sheet = _changed(self)
        _asked(name, sheet, *values)
        return Sheet(sheet.raw)

    def check(self) -> None:
        """Checks whether the sheet is sound."""
        _asked("zamiathen_check", self)

    def join(self, second: Bytes) -> Sheet:
        """Both sheets as one: the second's nodes follow this one's."""
        return self._after("zamiathen_join_sheets", second)

    def has_label(self, label: int, node: int) -> bool:
        """Does the node have the label?"""
        return bool(_asked("zamiathen_label_bit", self, label, node).bit)

    def has_arrow(self, arrow: int, start: int, end: int) -> bool:
        """Does an arrow of this kind go from one node to the other?"""
        return bool(_asked("zamiathen_arrow_bit", self, arrow, start, end).bit)

    def nodes(self) -> NodeSet:
        """The nodes in use, with n as the count."""
        answer = _asked("zamiathen_nodes", self)
        return NodeSet(answer.count, answer.set)

    def label_set(self, label: int) -> NodeSet:
        """The nodes that have the label."""
        answer = _asked("zamiathen_label_set", self, label)
        return NodeSet(answer.count, answer.set)

    def row_set(self, arrow: int, start: int) -> NodeSet:
        """The nodes to which arrows of this kind go from a node."""
        answer = _asked("zamiathen_row_set", self, arrow, start)
        return NodeSet(answer.count, answer.set)

    def print_arrow(self, arrow: int) -> bytes:
        """The page of an arrow kind."""
        return _written("zamiathen_print_arrow", PAGE_BYTES, self, arrow)

    def print_labels(self) -> bytes:
        """The label page."""
        return _written("zamiathen_print_labels", PAGE_BYTES, self)

    def type_page(self, page: Bytes) -> Sheet:
        """The sheet with the page in place of the block that the page's head names."""
        return self._after("zamiathen_type_page", page)

    def judge(self, book: Bytes) -> None:
        """Checks whether each rule of the book holds on the sheet."""
        judged = _call("zamiathen_judge", self, book)
        if judged.number != Number.DONE:
            witness = None
            if judged.number == Number.RULE_BROKEN:
                witness = self.witness(_copied(book)[judged.start:judged.start + judged.length])
            raise Refused(judged.number, judged.place, witness, start=judged.start, length=judged.length)

    def witness(self, rule: Bytes) -> Witness:
        """Who breaks the first rule of a text, carried back or not?"""
        answer = _asked("zamiathen_witness", self, rule)
        return Witness(WitnessKind(answer.kind), answer.first, answer.second, answer.nodes)

    def apply(self, edit: Bytes) -> Sheet:
        """The sheet after the edit, without a book."""
        return self._after("zamiathen_apply", edit)

    def enter(self, book: Bytes, edit: Bytes) -> Sheet:
        """The sheet after the edit, if each rule of the book holds on that sheet."""
        sheet, scratch = _changed(self), _room(CARRIED_BYTES)
        answer = _call("zamiathen_enter", sheet, book, edit, scratch)
        if answer.number != Number.DONE:
            broken = answer.number == Number.RULE_BROKEN
            raise Refused(answer.number, answer.place, self.witness(scratch.raw) if broken else None)
        return Sheet(sheet.raw)

    def close(self, book: Bytes, node: int) -> Sheet:
        """The sheet with the node closed, if each rule of the book holds on that sheet."""
        return self._after("zamiathen_close", book, node)

    def open(self, book: Bytes, node: int) -> Sheet:
        """The sheet with the node in use, if each rule of the book holds on that sheet."""
        return self._after("zamiathen_open", book, node)

    def play(self, book: Bytes, goal: Bytes, dispatcher: Sequence[Bytes], disruption: Sequence[Bytes],
             moves: int) -> Played:
        """Can the dispatcher force the goal against the disruption, and with which edit first?"""
        edits = [_copied(edit) for edit in [*dispatcher, *disruption]]
        lengths = (c_size_t * len(edits))(*map(len, edits))
        played = _call("zamiathen_play", self, book, goal, b"".join(edits), lengths, len(dispatcher), moves)
        if played.number != Number.DONE:
            raise Refused(played.number, played.place, edit=played.edit)
        return Played(Outcome(played.outcome), played.edit)


class Store(_Held):
    """A store: it keeps sheets under the names 1 to 7. It may hold any bytes: each call checks that they are one."""

    __slots__ = ()

    @classmethod
    def blank(cls) -> Store:
        """The store with no name filled."""
        store = _room(STORE_BYTES)
        _asked("zamiathen_store_blank", store)
        return cls(store.raw)

    def keep(self, sheet: Bytes, name: int) -> Store:
        """The store with the sheet under a name."""
        store = _changed(self)
        _asked("zamiathen_keep", sheet, store, name)
        return Store(store.raw)

    def returned(self, sheet: Bytes, name: int, book: Bytes) -> Sheet:
        """The sheet kept under a name, if each rule of the book holds on it. The sheet passed must be sound."""
        returned = _changed(sheet)
        answer = _call("zamiathen_return", returned, self, name, book)
        if answer.number != Number.DONE:
            broken = answer.number == Number.RULE_BROKEN
            raise Refused(answer.number, answer.place, self._witness(name, book) if broken else None)
        return Sheet(returned.raw)

    def _witness(self, name: int, book: Bytes) -> Witness:
        """Who breaks the book's first broken rule on the sheet kept under a name."""
        start = 512 + SHEET_BYTES * (name - 1)
        kept = Sheet(self._data[start:start + SHEET_BYTES])
        judged = _call("zamiathen_judge", kept, book)
        return kept.witness(_copied(book)[judged.start:judged.start + judged.length])

    def drop(self, name: int) -> Store:
        """The store without what is kept under the name."""
        store = _changed(self)
        _asked("zamiathen_drop", store, name)
        return Store(store.raw)


def first_rule(rules: Bytes) -> int:
    """The length of the first rule of a text."""
    return _asked("zamiathen_first_rule", rules).length


def check_steps(rule: Bytes, steps: Bytes, sent: Bytes) -> None:
    """Checks whether the steps, made on the carried rule, give the text sent."""
    _asked("zamiathen_check_steps", rule, steps, sent)


def check_names(names: Words) -> None:
    """Checks whether a text is a table of names."""
    _asked("zamiathen_check_names", _encoded(names))


def rule_to_words(rule: Bytes, names: Words = "") -> str:
    """The first rule of a text in words; it may be a carried rule."""
    return _decoded(_written("zamiathen_rule_to_words", RULE_WORDS_BYTES, _encoded(names), rule))


def rule_in_words(words: Words, rule: int, names: Words = "") -> int:
    """Where the first word of a rule stands in the words of a book, in bytes; their length if there is no such rule."""
    return _call("zamiathen_rule_in_words", _encoded(names), _encoded(words), rule)


def count(n: int, book: Bytes, edit: Bytes) -> Counts:
    """What an edit does to every sheet of n nodes, 1 to 3, that has no label except 0 and no arrow except 0."""
    answer = _asked("zamiathen_count", n, book, edit)
    return Counts(answer.kept_kept, answer.kept_broken, answer.broken_kept, answer.broken_broken)
