"""Characters that random texts are drawn from."""
import unicodedata


def assigned(spans):
    """The characters of some spans, each from its first up to its end, that may stand in a text:
    none that is unassigned, a control character or a surrogate."""
    return [c for start, end in spans for c in range(start, end)
            if unicodedata.category(chr(c)) not in ("Cn", "Cc", "Cs")]


def is_mark(c):
    return unicodedata.category(chr(c))[0] == "M"
