"""Shapes each line of standard input, and writes the glyphs as `hb-shape --no-glyph-names` does:

    python3 -m luthgarn FONT [-f FEATURE].. [-v AXIS=VALUE].. [-d DIRECTION] [-s SCRIPT] [-l LANGUAGE] < TEXT
"""
import sys

from luthgarn import Font, shape_all

NAMES = {"-d": "direction", "-s": "script", "-l": "language"}


def main(words):
    how, variations = {"features": []}, {}
    for option, word in zip(words[1::2], words[2::2]):
        if option == "-f":
            how["features"].append(word)
        elif option == "-v":
            axis, _, value = word.partition("=")
            variations[axis] = float(value)
        else:
            how[NAMES[option]] = word
    lines = sys.stdin.buffer.read().decode().split("\n")
    font = Font.open(words[0], variations=variations)
    for glyphs in shape_all(font, lines[:-1] if lines[-1] == "" else lines, **how):
        print(glyphs)


if __name__ == "__main__":
    main(sys.argv[1:])
