#!/usr/bin/env -S python3 -B
"""Compares what `fontshape`, `shapeline` and `fill_paragraph` print with what other programs and
models print, and libraries with Unicode's test files (Debian's package `unicode-data`).

    tests/compare.py KIND [OPTION ..]
    tests/compare.py KIND --help

Status 0: no difference. 1: there are some, which are shown. 77: something is not installed.
"""
from checks import (
    apple, bidi, bitmaps, colors, cuts, hovering, items, line_breaks, normalising, normalization, options, outlines,
    paragraphs, random_fonts, scripts, sizes, suite, syllables, texts, traces, variations,
)
from checks.command import run_kind

KINDS = {
    "texts": texts,
    "scripts": scripts,
    "syllables": syllables,
    "paragraphs": paragraphs,
    "traces": traces,
    "hovering": hovering,
    "outlines": outlines,
    "variations": variations,
    "bitmaps": bitmaps,
    "colors": colors,
    "sizes": sizes,
    "apple": apple,
    "suite": suite,
    "options": options,
    "fonts": random_fonts,
    "cuts": cuts,
    "normalising": normalising,
    "normalization": normalization,
    "line-breaks": line_breaks,
    "bidi": bidi,
    "items": items,
}

if __name__ == "__main__":
    run_kind(__doc__, KINDS)
