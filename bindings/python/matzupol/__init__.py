"""Protobuf reflection in process: schemas from sources or descriptor sets, and messages of a type that is named at run time.

    with matzupol.Schema() as schema:
        schema.add_sources({"a.proto": text})
        data = schema.encode("p.M", "foo: 150")
        schema.decode("p.M", data)

The shared object is the one beside this file, `libmatzupol.so`, or the one that the environment's MATZUPOL_LIBRARY names;
`tools/c_library` of the repository builds it. Calls keep the interpreter's lock, so that none overlap.
"""

import ctypes
import os
import pathlib

__all__ = [
    "Error", "LinkError", "NotUtf8Error", "OptionsError", "ParseError", "Schema", "TextError", "TooLongError", "UnknownTypeError", "WireError",
]


class Error(Exception):
    """Why a call was refused: its text, with `file`, `line` and `column` (both from 1) where they are known. Want of memory is a MemoryError."""

    def __init__(self, text, file=None, line=None, column=None):
        super().__init__(text)
        self.file, self.line, self.column = file, line, column


class NotUtf8Error(Error):
    """A name or a text is not UTF-8."""


class ParseError(Error):
    """A source is no protobuf file."""


class LinkError(Error):
    """The files do not fit together."""


class OptionsError(Error):
    """The options of the files do not suit their types."""


class WireError(Error):
    """The bytes are no message of the type, or no descriptor set."""


class TextError(Error):
    """The text is no message of the type."""


class UnknownTypeError(Error):
    """There is no message type of this name."""


class TooLongError(Error):
    """The bytes would be more than a length can say."""


# The codes of matzupol.h, as what they are raised as.
_CLOSED, _MEMORY = 1, 2
_ERRORS = {4: NotUtf8Error, 5: ParseError, 6: LinkError, 7: OptionsError, 8: WireError, 9: TextError, 10: UnknownTypeError, 11: TooLongError}


class _Slot(ctypes.Structure):
    _fields_ = [("at", ctypes.c_void_p), ("full", ctypes.c_bool)]


class _Place(ctypes.Structure):
    _fields_ = [("line", ctypes.c_size_t), ("column", ctypes.c_size_t)]


_TEXT = [ctypes.c_char_p, ctypes.c_size_t]
_CODE = ctypes.c_uint32
_CALLS = {
    "open": (_CODE, []), "close": (None, []), "source": (_CODE, _TEXT + _TEXT), "link": (_CODE, []), "forget": (_CODE, []),
    "add_set": (_CODE, _TEXT), "set": (_CODE, []), "encode": (_CODE, _TEXT + _TEXT), "decode": (_CODE, _TEXT + _TEXT),
    "recode": (_CODE, _TEXT + _TEXT), "answer_len": (ctypes.c_size_t, []), "answer": (_CODE, _TEXT), "file_len": (ctypes.c_size_t, []),
    "file": (_CODE, _TEXT), "place": (_CODE, [ctypes.POINTER(_Place)]),
}


def _library():
    path = os.environ.get("MATZUPOL_LIBRARY") or pathlib.Path(__file__).with_name("libmatzupol.so")
    library = ctypes.PyDLL(os.fspath(path))
    for name, (answer, words) in _CALLS.items():
        call = getattr(library, f"matzupol_unchecked_{name}")
        call.restype, call.argtypes = answer, [ctypes.POINTER(_Slot), *words]
    return library


_calls = _library()


def _bytes(text):
    # a number would make so many zero bytes of itself
    return text.encode() if isinstance(text, str) else bytes(memoryview(text))


def _lent(*texts):
    """Each text as its address and its length."""
    return [part for text in map(_bytes, texts) for part in (text, len(text))]


class Schema:
    """Protobuf files that fit together. A refused call leaves them as they were."""

    def __init__(self):
        self._slot = _Slot()
        self._settle(self._call("open"))

    def add_sources(self, sources):
        """Links sources, names of files to their texts, as one batch."""
        for name, text in dict(sources).items():
            code = self._call("source", *_lent(name, text))
            if code:
                self._call("forget")
                self._settle(code)
        self._settle(self._call("link"))

    def add_set(self, data):
        """Links the files of a descriptor set as one batch."""
        self._settle(self._call("add_set", *_lent(data)))

    def set(self):
        """The descriptor set of all files."""
        return self._answered(self._call("set"))

    def encode(self, type_name, text):
        """The wire bytes of the message of a type that a text spells."""
        return self._answered(self._call("encode", *_lent(type_name, text)))

    def decode(self, type_name, data):
        """The text of the message of a type that wire bytes spell."""
        return self._answered(self._call("decode", *_lent(type_name, data))).decode()

    def recode(self, type_name, data):
        """The one form of the message of a type that wire bytes spell."""
        return self._answered(self._call("recode", *_lent(type_name, data)))

    def close(self):
        """Ends the schema, whose memory is freed; every later call is a ValueError."""
        self._call("close")

    def __enter__(self):
        return self

    def __exit__(self, *_):
        self.close()

    def __del__(self):
        # nothing is left of this module where the interpreter ends
        if _calls is not None and hasattr(self, "_slot"):
            self.close()

    def _call(self, name, *words):
        return getattr(_calls, f"matzupol_unchecked_{name}")(self._slot, *words)

    def _text(self, name):
        size = self._call(f"{name}_len")
        room = ctypes.create_string_buffer(size + 1)
        self._call(name, room, size)
        return room.raw[:size]

    def _settle(self, code):
        if not code:
            return
        if code == _CLOSED:
            raise ValueError("the schema is closed")
        if code == _MEMORY:
            raise MemoryError
        place = _Place()
        self._call("place", place)
        file = self._text("file").decode() or None
        error = _ERRORS[code]
        raise error(self._text("answer").decode() or error.__doc__, file, place.line or None, place.column or None)

    def _answered(self, code):
        self._settle(code)
        return self._text("answer")
