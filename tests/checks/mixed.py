"""Real lines, and texts of words of several scripts that are drawn from them."""
from checks.programs import TESTS


def real_lines():
    """The lines of `lines/`, by script."""
    return [path.read_text(encoding="utf-8").splitlines()
            for path in sorted((TESTS / "lines").glob("*.txt"))]


def mixed_text(source, lines):
    """Words of real lines in two or three scripts, some in brackets or quotation marks."""
    words = []
    for script in source.sample(lines, source.randint(2, 3)):
        words += source.choice(script).split()[:source.randint(1, 6)]
    source.shuffle(words)
    first, last = source.choice([("(", ")"), ("[", "]"), ("«", "»"), ("“", "”"), ("‘", "’")])
    start = source.randrange(len(words))
    end = source.randrange(start, len(words))
    words[start] = first + words[start]
    words[end] += last
    return [ord(c) for c in " ".join(words)]
