"""Text shaping by a shaper that is proved: texts to positioned glyphs, as HarfBuzz does it.

    import luthgarn

    font = luthgarn.Font.open("DejaVuSans.ttf")
    for glyph in luthgarn.shape(font, "Čau", features={"kern": False}):
        print(glyph.name, glyph.cluster, glyph.x_advance)

A font and a text may hold anything: a hostile font changes which glyphs come out, or is refused. Advances and offsets
count in units of the font, `Font.units_per_em` to the em square.

What uharfbuzz calls Face, Font, Buffer, shape, glyph_infos and glyph_positions has these names here.
"""
import ctypes
import enum
import weakref
from collections.abc import Sequence
from dataclasses import dataclass, field
from typing import Iterable, Iterator, List, Mapping, NamedTuple, Optional, Tuple, Union, overload

from luthgarn import _native

__all__ = [
    "BadFeature", "BadFont", "BadText", "Buffer", "ClusterLevel", "Face", "Flags", "Font", "Glyph", "GlyphInfo",
    "GlyphPosition", "Glyphs", "OutOfMemory", "ShapingError", "TooLong", "UnknownName", "shape", "shape_all",
]

# a feature's value, or values for spans of clusters, as in uharfbuzz
Value = Union[int, bool, Iterable[Tuple[int, int, Union[int, bool]]]]
Features = Union[Mapping[str, Value], Iterable[str], None]
# values of axes by their tags
Variations = Optional[Mapping[str, float]]


class ShapingError(Exception):
    """What the library refuses. `line` is the number of the text that was refused, from 0, where there are several."""

    def __init__(self, said: str, line: Optional[int] = None) -> None:
        super().__init__(said if line is None else f"text {line}: {said}")
        self.line = line


class OutOfMemory(ShapingError, MemoryError):
    """An allocation failed."""


class TooLong(ShapingError, OverflowError):
    """A list of glyphs would have passed the limit: 64 glyphs a character, or 16,384."""


class BadFont(ShapingError, ValueError):
    """The bytes have no font with this number."""


class BadText(ShapingError, ValueError):
    """The text isn't Unicode: it has a surrogate by itself."""


class BadFeature(ShapingError, ValueError):
    """A text that is no feature, as `kern=0`, `-liga` or `aalt[3:5]=2` are."""


class UnknownName(ShapingError, ValueError):
    """No direction or script has this name, or a tag of an axis hasn't four letters."""


REFUSED = {
    _native.MEMORY: (OutOfMemory, "no memory"),
    _native.LENGTH: (TooLong, "too many glyphs"),
    _native.FONT: (BadFont, "no such font"),
    _native.TEXT: (BadText, "not Unicode"),
    _native.RUN: (UnknownName, "no such run"),
}


class Flags(enum.IntFlag):
    """What may be done at the start of a glyph's cluster."""

    UNSAFE_TO_BREAK = 1
    UNSAFE_TO_CONCAT = 2
    SAFE_TO_INSERT_TATWEEL = 4


class ClusterLevel(enum.IntEnum):
    """How far clusters are merged, by HarfBuzz's numbers."""

    MONOTONE_GRAPHEMES = 0
    MONOTONE_CHARACTERS = 1
    CHARACTERS = 2


class Glyph(NamedTuple):
    """A glyph with its place. `cluster` is the index of its first character in the text."""

    glyph: int
    cluster: int
    flags: Flags
    x_advance: int
    y_advance: int
    x_offset: int
    y_offset: int
    name: str = ""

    @property
    def codepoint(self) -> int:
        """The glyph's number, by the name that HarfBuzz has for it."""
        return self.glyph

    @property
    def position(self) -> Tuple[int, int, int, int]:
        """Offsets and advances, in uharfbuzz's order."""
        return self.x_offset, self.y_offset, self.x_advance, self.y_advance


class GlyphInfo(NamedTuple):
    """A glyph's number, its cluster and its flags, by uharfbuzz's names."""

    codepoint: int
    cluster: int
    flags: Flags


class GlyphPosition(NamedTuple):
    """A glyph's place, by uharfbuzz's names."""

    x_offset: int
    y_offset: int
    x_advance: int
    y_advance: int

    @property
    def position(self) -> Tuple[int, int, int, int]:
        """Offsets and advances."""
        return tuple(self)


class Glyphs(Sequence):
    """The glyphs of a text, from left to right or from top to bottom."""

    def __init__(self, found: List[Glyph]) -> None:
        self._found = found

    @overload
    def __getitem__(self, index: int) -> Glyph: ...

    @overload
    def __getitem__(self, index: slice) -> "Glyphs": ...

    def __getitem__(self, index):
        return Glyphs(self._found[index]) if isinstance(index, slice) else self._found[index]

    def __len__(self) -> int:
        return len(self._found)

    def __iter__(self) -> Iterator[Glyph]:
        return iter(self._found)

    def __eq__(self, other: object) -> bool:
        return isinstance(other, Glyphs) and self._found == other._found

    def __repr__(self) -> str:
        return f"Glyphs({self._found!r})"

    def __str__(self) -> str:
        """The glyphs as `hb-shape --no-glyph-names` writes them."""
        return "[" + "|".join(map(written, self._found)) + "]"

    def arrays(self):
        """numpy arrays of 32 bits by name: glyph, cluster, flags, x_advance, y_advance, x_offset, y_offset."""
        import numpy
        kinds = [numpy.uint32] * 3 + [numpy.int32] * 4
        return {name: numpy.fromiter((glyph[i] for glyph in self._found), kind, len(self))
                for i, (name, kind) in enumerate(zip(Glyph._fields, kinds))}


def written(glyph: Glyph) -> str:
    """A glyph as `hb-shape` writes it, by its number."""
    offset = f"@{glyph.x_offset},{glyph.y_offset}" if glyph.x_offset or glyph.y_offset else ""
    advance = f"+{glyph.x_advance}" + (f",{glyph.y_advance}" if glyph.y_advance else "")
    return f"{glyph.glyph}={glyph.cluster}{offset}{advance}"


class Face:
    """The bytes of a font file, and the number of a font in them."""

    def __init__(self, data: bytes, index: int = 0) -> None:
        self.data, self.index = bytes(data), index
        if not 0 <= index <= _native.ALL or not self.upem:
            raise BadFont("no such font")

    @property
    def upem(self) -> int:
        """How many units the em square has."""
        return _native.LIBRARY.luthgarn_units_per_em(self.data, len(self.data), self.index)


def wishes_of(variations: Variations) -> List[_native.Variation]:
    """Values of axes as the library has them."""
    found = []
    for tag, value in (variations or {}).items():
        letters = tag.encode()
        if len(letters) != 4:
            raise UnknownName(f"a tag has four letters: {tag!r}")
        found.append(_native.Variation(int.from_bytes(letters, "big"), value))
    return found


class Font:
    """A font of a file, opened once: of a `Face`, or of bytes and the number of a font in them. A variable font is at the
    values of axes that `variations` has, as `{"wght": 700}`, and of the others at their defaults; other values are another font.

    Any number of threads may shape with it at the same time.
    """

    def __init__(self, data: Union[Face, bytes], index: int = 0, *, variations: Variations = None) -> None:
        self.face = data if isinstance(data, Face) else Face(data, index)
        self._kept = _native.Kept(self.face.data, self.face.index, wishes_of(variations))
        if self._kept.code != _native.DONE:
            kind, said = REFUSED[self._kept.code]
            raise kind(said)
        self._names = {}
        weakref.finalize(self, self._kept.close)

    @classmethod
    def open(cls, path, index: int = 0, *, variations: Variations = None) -> "Font":
        """The font of a file."""
        with open(path, "rb") as file:
            return cls(file.read(), index, variations=variations)

    @property
    def units_per_em(self) -> int:
        """How many units the em square has."""
        return self.face.upem

    def glyph_name(self, glyph: int) -> str:
        """The name of a glyph by the font, `gid` and its number if it has none."""
        name = self._names.get(glyph)
        if name is None:
            name = self._names[glyph] = self._read_name(glyph) or f"gid{glyph}"
        return name

    glyph_to_string = glyph_name

    def _read_name(self, glyph: int) -> str:
        room = ctypes.create_string_buffer(256)
        with self._kept.lent() as font:
            size = _native.LIBRARY.luthgarn_font_glyph_name(font, glyph, room, len(room))
        return room.raw[:size].decode(errors="replace") if size <= len(room) else ""

    def __repr__(self) -> str:
        return f"Font({len(self.face.data)} bytes, index={self.face.index})"


@dataclass
class Buffer:
    """A text with its settings, by the names of uharfbuzz. Once it is shaped it has the glyphs, too."""

    text: str = ""
    direction: str = ""
    script: str = ""
    language: str = ""
    cluster_level: ClusterLevel = ClusterLevel.MONOTONE_GRAPHEMES
    glyphs: Glyphs = field(default_factory=lambda: Glyphs([]), compare=False)

    @classmethod
    def create(cls) -> "Buffer":
        """An empty one."""
        return cls()

    def add_str(self, text: str) -> None:
        """Appends characters."""
        self.text += text

    def guess_segment_properties(self) -> None:
        """What isn't set is guessed by `shape` in any case."""

    def shape(self, font: Font, features: Features = None) -> Glyphs:
        """The glyphs of the text, which are kept."""
        self.glyphs = shape(font, self.text, features, direction=self.direction, script=self.script,
                            language=self.language, cluster_level=self.cluster_level)
        return self.glyphs

    @property
    def glyph_infos(self) -> List[GlyphInfo]:
        """The numbers, clusters and flags of the glyphs."""
        return [GlyphInfo(glyph.glyph, glyph.cluster, glyph.flags) for glyph in self.glyphs]

    @property
    def glyph_positions(self) -> List[GlyphPosition]:
        """The places of the glyphs."""
        return [GlyphPosition(*glyph.position) for glyph in self.glyphs]

    def __len__(self) -> int:
        return len(self.glyphs) or len(self.text)


def parsed(word: str) -> _native.Feature:
    """A feature by its text."""
    text, feature = word.encode(), _native.Feature()
    if _native.LIBRARY.luthgarn_parse_feature(text, len(text), ctypes.byref(feature)) != _native.DONE:
        raise BadFeature(f"no feature: {word!r}")
    return feature


def asked(features: Features) -> List[_native.Feature]:
    """The features that a caller names."""
    if features is None:
        return []
    if not isinstance(features, Mapping):
        return [parsed(word) for word in features]
    found = []
    for tag, value in features.items():
        spans = [(0, _native.ALL, value)] if isinstance(value, (int, bool)) else value
        for start, end, given in spans:
            feature = parsed(tag)
            feature.value, feature.start, feature.end = int(given), start, end
            found.append(feature)
    return found


def is_for_all(feature: _native.Feature) -> bool:
    """Whether a feature is for the whole text."""
    return feature.start == 0 and feature.end == _native.ALL


def in_bytes(features: List[_native.Feature], text: str) -> List[_native.Feature]:
    """Features for spans of characters as features for spans of bytes, which the library counts."""
    starts = [0]
    for c in text:
        starts.append(starts[-1] + len(c.encode()))

    def place(at: int) -> int:
        return at if at == _native.ALL else starts[min(at, len(text))]

    return [_native.Feature(it.tag, it.value, place(it.start), place(it.end)) for it in features]


def run_like(direction: str, script: str, language: str, cluster_level: int) -> _native.Run:
    """A run with settings by name. An empty name asks for a guess."""
    said, name = direction.encode(), script.encode()
    run = _native.Run(level=int(cluster_level))
    run.direction = _native.LIBRARY.luthgarn_parse_direction(said, len(said))
    if direction and direction.lower() not in ("l", "r", "t", "b", "ltr", "rtl", "ttb", "btt"):
        raise UnknownName(f"no direction: {direction!r}")
    run.script = _native.LIBRARY.luthgarn_parse_script(name, len(name))
    tag = language.encode()
    _native.LIBRARY.luthgarn_set_language(ctypes.byref(run), tag, len(tag))
    return run


def encoded(text: str, line: int) -> bytes:
    try:
        return text.encode()
    except UnicodeEncodeError as error:
        raise BadText(str(error), line) from None


def shape_all(font: Font, texts: Iterable[str], *, features: Features = None, direction: str = "", script: str = "",
              language: str = "", cluster_level: int = ClusterLevel.MONOTONE_GRAPHEMES) -> List[Glyphs]:
    """The glyphs of each text. Texts whose features are for no spans are shaped by one call of the library. The settings
    are those of `shape`."""
    texts = list(texts)
    lines = [encoded(text, number) for number, text in enumerate(texts)]
    wanted, like = asked(features), run_like(direction, script, language, cluster_level)
    if all(map(is_for_all, wanted)):
        return placed(font, texts, shaped(font, lines, wanted, like))
    # (a character has another place in the bytes of each text)
    lists = [shaped(font, [line], in_bytes(wanted, text), like)[0] for text, line in zip(texts, lines)]
    return placed(font, texts, lists)


def shape(font: Font, text: Union[str, Buffer], features: Features = None, *, direction: str = "", script: str = "",
          language: str = "", cluster_level: int = ClusterLevel.MONOTONE_GRAPHEMES) -> Glyphs:
    """The glyphs of a text; those of a `Buffer`, which has its own settings, it keeps, too.

    `features` are texts as `kern=0` and `aalt[3:5]=2`, or values by tag, as `{"kern": False, "aalt": [(3, 5, 2)]}`; spans
    count characters. `direction` (ltr, rtl, ttb, btt), `script` (ISO 15924) and `language` (BCP 47) are
    guessed if they are empty.
    """
    if isinstance(text, Buffer):
        return text.shape(font, features)
    return shape_all(font, [text], features=features, direction=direction, script=script, language=language,
                     cluster_level=cluster_level)[0]


def shaped(font: Font, lines: List[bytes], features: List[_native.Feature], like: _native.Run) -> List[list]:
    """The glyphs of lines, with clusters in bytes."""
    text, runs, start = b"".join(lines), (_native.Run * max(1, len(lines)))(), 0
    for run, line in zip(runs, lines):
        ctypes.pointer(run)[0] = like
        run.before = run.start = start
        start += len(line)
        run.end = run.after = start
    given = (_native.Feature * max(1, len(features)))(*features)
    room = len(text) + 64
    while True:
        glyphs = (_native.Glyph * room)()
        with font._kept.lent() as kept:
            outcome = _native.LIBRARY.luthgarn_shape_font(kept, given, len(features), text, len(text), runs, len(lines),
                                                          glyphs, room)
        if outcome.code != _native.ROOM:
            break
        room = 2 * room + outcome.needed
    if outcome.code != _native.DONE:
        kind, said = REFUSED[outcome.code]
        raise kind(said, outcome.runs if len(lines) > 1 else None)
    ends = [0] + [run.glyphs for run in runs[:len(lines)]]
    return [glyphs[a:b] for a, b in zip(ends, ends[1:])]


def placed(font: Font, texts: List[str], lists: List[list]) -> List[Glyphs]:
    """Glyphs whose clusters count characters of their texts."""
    found = []
    for text, glyphs in zip(texts, lists):
        number, at = {}, 0
        for index, c in enumerate(text):
            number[at] = index
            at += len(c.encode())
        found.append(Glyphs([Glyph(it.glyph, number[it.cluster], Flags(it.flags), it.x_advance, it.y_advance,
                                   it.x_offset, it.y_offset, font.glyph_name(it.glyph)) for it in glyphs]))
    return found
