"""Texts that ask for much work of the shapers that cut texts into syllables: long syllables, runs
of joiners, of halants and of vowels before the base, syllables without a base that each get a
dotted circle, and vowels that may not follow a letter.

Fonts have the characters of a text and the dotted circle, and no tables, so that the script's own
shaper serves them; some have a lookup that makes two glyphs of each vowel before the base, so that
not all of them go to the front.
"""
from checks.fonts import bytes_of, new_font

CIRCLE = 0x25CC
# a letter of a script, and signs: Javanese, Tibetan, Khmer, Myanmar, Sinhala, Tai Tham, Chakma
KA, HALANT, VOWEL_E, VOWEL_U, VOWEL_AA = "\ua98f", "\ua9c0", "\ua9ba", "\ua9b8", "\ua9b4"
SUBJOINED, MODIFIER_BEFORE = "\u0f90", "\u1c35"
KHMER_KA, COENG, KHMER_RO, KHMER_E = "\u1780", "\u17d2", "\u179a", "\u17c1"
MYANMAR_KA, VIRAMA, E, U, ANUSVARA = "\u1000", "\u1039", "\u1031", "\u102f", "\u1036"
NGA, ASAT, MYANMAR_SELECTOR = "\u1004", "\u103a", "\ufe00"
ZWJ, ZWNJ, REPHA, SEGMENT_BEGIN = "\u200d", "\u200c", "\U00011d46", "\U00013437"


def half(first, second):
    """A letter, and as many of one sign as of another one, each in a row."""
    return lambda n: KA + first * (n // 2) + second * (n // 2 - 1)


def led(letter, sign):
    """A letter and a row of signs."""
    return lambda n: letter + sign * (n - len(letter))


def row(piece):
    return lambda n: piece * (n // len(piece))


# the script of each and its text of so many characters
TEXTS = {
    "a row of letters and halants": ("java", row(KA + HALANT)),
    "a row of halants": ("java", row(HALANT)),
    "vowels before the base": ("java", led(KA, VOWEL_E)),
    "vowels before the base, past as many letters": ("java", half(SUBJOINED, VOWEL_E)),
    "vowels and modifiers before the base, past as many vowels": (
        "java", lambda n: KA + VOWEL_E * (n // 3) + VOWEL_U * (n // 3) + MODIFIER_BEFORE * (n // 3)),
    "a vowel before the base after each halant": ("java", row(KA + HALANT + KA + VOWEL_E)),
    "joiners after a letter": ("java", led(KA, ZWJ)),
    "joiners alone": ("java", row(ZWJ)),
    "non-joiners that no mark follows": ("java", led(KA, ZWNJ)),
    "vowels without a base, out of order": ("java", row(VOWEL_AA + VOWEL_U)),
    "signs for a repha, each without a base": ("gonm", row(REPHA)),
    "a repha past a row of letters": ("java", lambda n: REPHA + KA + SUBJOINED * (n - 2)),
    "segments that begin in vain": ("egyp", row(SEGMENT_BEGIN)),
    "vowels that may not follow a letter": ("sinh", row("\u0d85\u0dcf")),
    "Khmer: joiners after a letter": ("khmr", led(KHMER_KA, ZWJ)),
    "Khmer: a row of coengs": ("khmr", row(COENG)),
    "Khmer: a row of letters and coengs": ("khmr", row(KHMER_KA + COENG)),
    "Khmer: RO below a row of letters": ("khmr", row(COENG + KHMER_RO + KHMER_E)),
    "Khmer: ROs below a letter": ("khmr", lambda n: KHMER_KA + (COENG + KHMER_RO) * (n // 2)),
    "Khmer: signs after joiners": ("khmr", lambda n: KHMER_KA + (ZWJ + "\u17c6") * (n // 2)),
    "Myanmar: joiners after a letter": ("mymr", led(MYANMAR_KA, ZWJ)),
    "Myanmar: a row of letters and viramas": ("mymr", row(MYANMAR_KA + VIRAMA)),
    "Myanmar: vowels before the base and selectors": (
        "mymr", lambda n: MYANMAR_KA + (E + MYANMAR_SELECTOR) * (n // 2)),
    "Myanmar: anusvaras past as many vowels below": (
        "mymr", lambda n: MYANMAR_KA + U * (n // 2) + ANUSVARA * (n // 2)),
    "Myanmar: asats past a kinzi": (
        "mymr", lambda n: NGA + ASAT + VIRAMA + MYANMAR_KA + ASAT * (n - 4)),
    "Myanmar: tones without a base": ("mymr", row(ANUSVARA + U)),
    "two glyphs of each vowel before the base": ("java", led(KA, VOWEL_E)),
}
# a lookup that makes two glyphs of a vowel before the base
DOUBLED = """languagesystem DFLT dflt; languagesystem java dflt;
feature ccmp { sub uA9BA by uA9BA uA9BA; } ccmp;"""


def syllable_bomb(name, length):
    """The bytes of a font, a text, and the options of a run."""
    script, text = TEXTS[name]
    text = text(length)
    characters = {c: f"u{c:04X}" for c in {CIRCLE, *map(ord, text)}}
    advances = {glyph: 500 for glyph in [".notdef", *characters.values()]}
    features = DOUBLED if name.startswith("two glyphs") else ""
    font = new_font(characters, advances, features, glyph_names=bool(features))
    return bytes_of(font), text, ["--direction=ltr", "--script=" + script.capitalize()]
