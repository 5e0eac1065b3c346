"""The calls of the laboratory's shared object, by ctypes. include/hn_lab.h says what each of them does."""
import ctypes
import functools
import struct
import threading
from typing import Any, Callable, Dict, NamedTuple, Optional, Tuple

from .errors import Problem

ADVICE = 'set HN_LAB to the path of libhn_lab_c.so.1, or to nothing to play by the programs'
VERSIONS = range(1_00_00, 2_00_00)                        # whose calls and structs are those below: two digits a part
NO_MEMORY, REFUSED, OVER = 1, 2, 3
TEXT = 'ascii'
ROOM = 1 << 16                                            # bytes that a text has at first
COPY = struct.Struct('@16s16sIIBB')                       # hn_mail_copy
STATE = struct.Struct('@QIIBBBB8s')                       # hn_state

_U8, _U32, _U64, _SIZE, _POINTER = ctypes.c_uint8, ctypes.c_uint32, ctypes.c_uint64, ctypes.c_size_t, ctypes.c_void_p
_BYTES = (_POINTER, _SIZE)              # bytes that are given, and their length
_WRITTEN = (_POINTER, _POINTER, _SIZE)  # how many there are, the room for them, and its length
# Of each call its result, and its parameters.
_CALLS: Dict[str, Tuple[Any, Tuple[Any, ...]]] = {
    'hn_lab_version': (_U32, ()),
    'hn_lab_new': (_U8, (_POINTER, _U8)),
    'hn_lab_free': (None, (_POINTER,)),
    'hn_lab_is_open': (ctypes.c_bool, (_POINTER,)),
    'hn_lab_line': (_U8, (_POINTER, *_BYTES, _POINTER)),
    'hn_lab_text': (_U8, (_POINTER, _SIZE, *_WRITTEN)),
    'hn_lab_script': (_U8, (_POINTER, *_WRITTEN)),
    'hn_lab_moment': (_U64, (_POINTER,)),
    'hn_lab_copies': (_U64, (_POINTER,)),
    'hn_lab_next': (_U64, (_POINTER,)),
    'hn_lab_copy': (_U8, (_POINTER, _U64, _POINTER, *_WRITTEN)),
    'hn_lab_state': (_U8, (_POINTER, *_BYTES, _POINTER)),
    'hn_lab_why': (_U8, (_POINTER, *_BYTES, *_WRITTEN)),
    'hn_lab_calm': (_U8, (_POINTER, *_BYTES, *_WRITTEN)),
    'hn_lab_table': (_U8, (_POINTER, *_BYTES, *_WRITTEN)),
    'hn_lab_log': (_U8, (_POINTER, *_WRITTEN)),
    'hn_decode': (_U8, (*_BYTES, *_WRITTEN)),
    'hn_watch': (_U8, (*_BYTES, *_WRITTEN)),
}


class Room:
    """Where a call writes bytes. It grows with what is written."""

    def __init__(self) -> None:
        self._count = _SIZE()
        self._at = ctypes.byref(self._count)
        self._grow(ROOM)

    def _grow(self, size: int) -> None:
        self._bytes, self._size = ctypes.create_string_buffer(size), size

    def read(self, call: Callable[..., int], *given: Any) -> Optional[bytes]:
        """The bytes that a call writes, or nothing if it is refused."""
        status = call(*given, self._at, self._bytes, self._size)
        while status == REFUSED and self._count.value > self._size:
            self._grow(self._count.value + self._count.value // 4)
            status = call(*given, self._at, self._bytes, self._size)
        if status == NO_MEMORY:
            raise MemoryError('the laboratory ran out of memory')
        return None if status else ctypes.string_at(self._bytes, self._count.value)

    def count(self, call: Callable[..., int], *given: Any) -> int:
        """How many bytes a call would write."""
        call(*given, self._at, self._bytes, 0)
        return self._count.value


class Library:
    """A shared object with the calls of the laboratory."""

    def __init__(self, path: str) -> None:
        self.path = path
        try:
            made = ctypes.CDLL(path)
        except OSError as error:
            raise Problem(f'there is no library {path} that can be loaded ({error}); {ADVICE}') from None
        for name, (result, parameters) in _CALLS.items():
            call = getattr(made, name, None)
            if call is None:
                raise Problem(f'{path} is no library of HNCP homes: it has no {name}; {ADVICE}')
            call.restype, call.argtypes = result, parameters
        self.calls: Any = made
        self.version: int = made.hn_lab_version()
        if self.version not in VERSIONS:
            raise Problem(f'{path} is of version {told_version(self.version)}, and not of version 1; {ADVICE}')
        self._rooms = threading.local()

    def room(self) -> Room:
        """The room of this thread."""
        if not hasattr(self._rooms, 'room'):
            self._rooms.room = Room()
        return self._rooms.room

    def decode(self, data: bytes) -> str:
        """What `hncp decode` writes of a datagram."""
        return (self.room().read(self.calls.hn_decode, data, len(data)) or b'').decode(TEXT)

    def watch(self, capture: bytes) -> str:
        """What `hncp watch` writes of a capture."""
        return (self.room().read(self.calls.hn_watch, capture, len(capture)) or b'').decode(TEXT)


class MailCopy(NamedTuple):
    """A copy of a datagram, by names and endpoints."""
    sender: str
    sender_endpoint: int
    receiver: str
    endpoint: int
    is_multicast: bool
    waits: bool
    data: bytes


class Lab:
    """A play of the library, to which lines are added. One thread uses it at a time."""

    def __init__(self, library: Library, version: int) -> None:
        self._handle = _POINTER()
        self._at = ctypes.byref(self._handle)
        self.library = library
        self._calls = library.calls
        status = self._calls.hn_lab_new(self._at, version)
        if status == NO_MEMORY:
            raise MemoryError('the laboratory ran out of memory')
        if status:
            raise ValueError(f'the language of homes has no version {version}')
        self._room = Room()
        self._code = _U8()
        self._code_at = ctypes.byref(self._code)
        self._copy = ctypes.create_string_buffer(COPY.size + 8)
        self._names: Dict[bytes, str] = {}
        self._line = self._calls.hn_lab_line
        self.moment = functools.partial(self._calls.hn_lab_moment, self._at)
        self.copies = functools.partial(self._calls.hn_lab_copies, self._at)
        self.next = functools.partial(self._calls.hn_lab_next, self._at)

    def __del__(self) -> None:
        if getattr(self, '_handle', None):
            self._calls.hn_lab_free(self._at)

    @property
    def code(self) -> int:
        """The code of the line that was refused last."""
        return self._code.value

    def line(self, text: bytes) -> int:
        """Plays a line: 0, REFUSED, or OVER if it was refused when a part had happened."""
        status: int = self._line(self._at, text, len(text), self._code_at)
        if status == NO_MEMORY or status == OVER and not self._code.value:
            raise MemoryError('the laboratory ran out of memory')
        return status

    def is_over(self) -> bool:
        """Whether no line is played any more."""
        return not self._calls.hn_lab_is_open(self._at)

    def size(self) -> int:
        """How many bytes the text has."""
        return self._room.count(self._calls.hn_lab_text, self._at, 0)

    def text(self, start: int = 0) -> str:
        """The text from a place on."""
        return (self._room.read(self._calls.hn_lab_text, self._at, start) or b'').decode(TEXT)

    def script(self) -> bytes:
        """The lines that were played."""
        return self._room.read(self._calls.hn_lab_script, self._at) or b''

    def copy(self, number: int) -> MailCopy:
        """The copy of a number, which has to be there."""
        data = self._room.read(self._calls.hn_lab_copy, self._at, number, self._copy)
        if data is None:
            raise IndexError(number)
        sender, receiver, sender_endpoint, endpoint, unicast, waiting = COPY.unpack_from(self._copy)
        return MailCopy(self._name(sender), sender_endpoint, self._name(receiver), endpoint, not unicast, bool(waiting), data)

    def _name(self, octets: bytes) -> str:
        if octets not in self._names:
            self._names[octets] = octets.rstrip(b'\0').decode(TEXT)
        return self._names[octets]

    def runs(self, name: str) -> Optional[bool]:
        """Whether the router of a name runs, or nothing if there is none."""
        data, room = name.encode(), ctypes.create_string_buffer(STATE.size + 8)
        status = self._calls.hn_lab_state(self._at, data, len(data), room)
        if status == NO_MEMORY:
            raise MemoryError('the laboratory ran out of memory')
        return None if status else bool(STATE.unpack_from(room)[3])

    def look(self, form: str, *names: str) -> Optional[str]:
        """What `hnlook` writes by a form, or nothing if there is no such router, or it is stopped."""
        call = getattr(self._calls, f'hn_lab_{form}')
        given = [part for name in names for part in (name.encode(), len(name.encode()))]
        text = self.library.room().read(call, self._at, *given)
        return None if text is None else text.decode(TEXT)


def told_version(number: int) -> str:
    """A version as the programs tell it."""
    return f'{number // 10000}.{number // 100 % 100}.{number % 100}'
