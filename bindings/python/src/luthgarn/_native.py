"""The functions of luthgarn.h, by ctypes."""
import contextlib
import ctypes
import os
import threading
from pathlib import Path

DONE, MEMORY, LENGTH, FONT, TEXT, RUN, ROOM = range(7)
ALL = 0xFFFFFFFF
LONGEST_LANGUAGE = 64
VERSION = 0x000200


class Feature(ctypes.Structure):
    _fields_ = [(name, ctypes.c_uint32) for name in ("tag", "value", "start", "end")]


class Run(ctypes.Structure):
    _fields_ = [(name, ctypes.c_uint32)
                for name in ("before", "start", "end", "after", "direction", "script", "flags", "level")]
    _fields_ += [("language", ctypes.c_uint8 * LONGEST_LANGUAGE), ("glyphs", ctypes.c_size_t)]


class Glyph(ctypes.Structure):
    _fields_ = [(name, ctypes.c_uint32) for name in ("glyph", "cluster", "flags")]
    _fields_ += [(name, ctypes.c_int32) for name in ("x_advance", "y_advance", "x_offset", "y_offset")]


class Variation(ctypes.Structure):
    _fields_ = [("tag", ctypes.c_uint32), ("value", ctypes.c_float)]


class Outcome(ctypes.Structure):
    _fields_ = [("code", ctypes.c_uint32)] + [(name, ctypes.c_size_t) for name in ("runs", "glyphs", "needed")]


class Font(ctypes.Structure):
    _fields_ = [("kept", ctypes.c_void_p), ("is_open", ctypes.c_uint32)]


BYTES = [ctypes.c_char_p, ctypes.c_size_t]
KEPT = ctypes.POINTER(Font)
COORDINATES = ctypes.POINTER(ctypes.c_int32)
DECLARED = {
    "version": ([], ctypes.c_uint32),
    "units_per_em": (BYTES + [ctypes.c_uint32], ctypes.c_uint32),
    "parse_feature": (BYTES + [ctypes.POINTER(Feature)], ctypes.c_uint32),
    "parse_direction": (BYTES, ctypes.c_uint32),
    "parse_script": (BYTES, ctypes.c_uint32),
    "set_language": ([ctypes.POINTER(Run)] + BYTES, ctypes.c_uint32),
    "coordinates": (BYTES + [ctypes.c_uint32, ctypes.POINTER(Variation), ctypes.c_size_t, COORDINATES, ctypes.c_size_t,
                             ctypes.POINTER(ctypes.c_size_t)], ctypes.c_uint32),
    "font_new_at": (BYTES + [ctypes.c_uint32, COORDINATES, ctypes.c_size_t, KEPT], ctypes.c_uint32),
    "font_share": ([KEPT, KEPT], ctypes.c_uint32),
    "font_free": ([KEPT], None),
    "font_units_per_em": ([KEPT], ctypes.c_uint32),
    "font_glyph_name": ([KEPT, ctypes.c_uint32, ctypes.c_char_p, ctypes.c_size_t], ctypes.c_size_t),
    "shape_font": ([KEPT, ctypes.POINTER(Feature), ctypes.c_size_t] + BYTES
                   + [ctypes.POINTER(Run), ctypes.c_size_t, ctypes.POINTER(Glyph), ctypes.c_size_t], Outcome),
}


def places():
    """Where the library may be: what LUTHGARN_LIBRARY names, beside this file, in bindings/c."""
    here = Path(__file__).resolve().parent
    named = os.environ.get("LUTHGARN_LIBRARY")
    return [Path(named)] if named else [here / "libluthgarn.so", here.parents[2] / "c" / "libluthgarn.so"]


def load():
    """The library, with the types of its functions."""
    for path in places():
        if path.exists():
            library = ctypes.CDLL(str(path))
            for name, (arguments, result) in DECLARED.items():
                function = getattr(library, "luthgarn_" + name)
                function.argtypes, function.restype = arguments, result
            if library.luthgarn_version() != VERSION:
                raise ImportError(f"{path} is of another version")
            return library
    raise ImportError("no libluthgarn.so: make -C bindings/c builds it (looked for " + ", ".join(map(str, places())) + ")")


LIBRARY = load()


def coordinates_of(data, index, wishes):
    """The code of the call, the coordinates of a font where these wishes are met, and how many there are."""
    given = (Variation * max(1, len(wishes)))(*wishes)
    room, count = 64, ctypes.c_size_t()
    while True:
        there = (ctypes.c_int32 * room)()
        code = LIBRARY.luthgarn_coordinates(data, len(data), index, given, len(wishes), there, room, ctypes.byref(count))
        if code != ROOM:
            return code, (ctypes.c_int32 * max(1, count.value))(*there[:count.value]), count.value
        room = count.value


class Kept:
    """A font that the library keeps, opened once, for any number of threads.

    What the library keeps serves one thread at a time. So a thread takes one that is free, or has
    one made that shares what was opened, and gives it back. `code` says whether the font was opened.
    """

    def __init__(self, data, index, wishes):
        self.opened = Font()
        # (the library reads these for as long as a font is kept)
        self.data = data
        self.code, self.there, count = coordinates_of(data, index, wishes)
        if self.code == DONE:
            self.code = LIBRARY.luthgarn_font_new_at(data, len(data), index, self.there, count, ctypes.byref(self.opened))
        self.lock = threading.Lock()
        self.free = []
        self.made = []

    def take(self):
        """One that no other thread has."""
        try:
            return self.free.pop()
        except IndexError:
            made = Font()
        with self.lock:
            code = LIBRARY.luthgarn_font_share(ctypes.byref(self.opened), ctypes.byref(made))
            if code != DONE:
                raise MemoryError("no memory for a font")
            self.made.append(made)
        return made

    @contextlib.contextmanager
    def lent(self):
        """One for as long as it is used."""
        taken = self.take()
        try:
            yield ctypes.byref(taken)
        finally:
            self.free.append(taken)

    def close(self):
        """Frees all of them. None is used any more."""
        for font in [*self.made, self.opened]:
            LIBRARY.luthgarn_font_free(ctypes.byref(font))
