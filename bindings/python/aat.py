"""Apple Advanced Typography over the shared library libaat.

    import aat
    font = aat.Font("sample.ttf")
    for glyph in aat.shape(font, "fila", ["-liga"]):
        print(glyph.glyph_id, glyph.cluster, glyph.x_advance)

AAT_LIBRARY names the library, else the system's linker finds it. Clusters are bytes of the text in UTF-8."""
import ctypes
import os
from ctypes import POINTER, Structure, byref, c_bool, c_int32, c_size_t, c_uint8, c_uint32, c_void_p

MAY_BREAK_BEFORE, IGNORABLE, MARK = 1, 2, 4
DIRECTIONS = {None: 0, "ltr": 4, "rtl": 5, "ttb": 6, "btt": 7}

library = ctypes.CDLL(os.environ.get("AAT_LIBRARY", "libaat.so.1"))


class Handle(Structure):
    _fields_ = [("pointer", c_void_p), ("is_full", c_bool)]


class Options(Structure):
    _fields_ = [(name, c_uint32) for name in ("direction", "script", "point_size", "cluster_level")]


class Feature(Structure):
    _fields_ = [(name, c_uint32) for name in ("tag", "value", "start", "end")]


class Glyph(Structure):
    """A glyph that is drawn, in units of the font."""

    _fields_ = [("glyph_id", c_uint32), ("cluster", c_uint32)] + [
        (name, c_int32) for name in ("x_advance", "y_advance", "x_offset", "y_offset")
    ] + [("flags", c_uint32)]

    @property
    def may_break_before(self):
        return bool(self.flags & MAY_BREAK_BEFORE)


library.aat_font_read.argtypes = [POINTER(Handle), POINTER(c_uint8), c_size_t, c_uint32]
library.aat_font_units_per_em.argtypes = library.aat_font_free.argtypes = [POINTER(Handle)]
library.aat_status_text.argtypes = [c_uint32, POINTER(c_uint8), c_size_t]
library.aat_status_text.restype = c_size_t
library.aat_feature_from_string.argtypes = [POINTER(c_uint8), c_size_t, POINTER(Feature)]
library.aat_shape_utf8.argtypes = [
    POINTER(Handle), POINTER(Options), POINTER(Feature), c_size_t, POINTER(c_uint8), c_size_t, POINTER(Glyph), c_size_t,
    POINTER(c_size_t),
]


class Error(Exception):
    """A call was refused: its number and what it says."""


def check(status):
    if status:
        room = (c_uint8 * 80)()
        length = library.aat_status_text(status, room, 80)
        raise Error(status, bytes(room[:length]).decode())


def bytes_of(data):
    """An array of bytes, of one place at least, so that its pointer is not null."""
    return (c_uint8 * max(len(data), 1)).from_buffer_copy(data or b"\0")


class Font:
    """The font at an index of a file."""

    def __init__(self, path, index=0):
        with open(path, "rb") as file:
            data = file.read()
        self.bytes, self.handle = bytes_of(data), Handle()
        check(library.aat_font_read(byref(self.handle), self.bytes, len(data), index))

    def __del__(self):
        library.aat_font_free(byref(self.handle))

    @property
    def units_per_em(self):
        return library.aat_font_units_per_em(byref(self.handle))


def feature(text):
    """The feature of a text as `smcp`, `-liga` or `aalt[3:5]=2`."""
    data, found = text.encode(), Feature()
    check(library.aat_feature_from_string(bytes_of(data), len(data), byref(found)))
    return found


def shape(font, text, features=(), direction=None, script=None, point_size=0):
    """The glyphs of a text in drawing order. `script` is a tag of ISO 15924, `point_size` counts points."""
    data = text.encode()
    tag = int.from_bytes(script.encode(), "big") if script else 0
    options = Options(DIRECTIONS[direction], tag, round(point_size * 65536), 0)
    told = (Feature * max(len(features), 1))(*map(feature, features))
    room, count = len(data) + 8, c_size_t()
    while True:
        out = (Glyph * room)()
        check(library.aat_shape_utf8(byref(font.handle), byref(options), told, len(features), bytes_of(data), len(data),
                                     out, room, byref(count)))
        if count.value <= room:
            return out[:count.value]
        room = count.value
