#!/usr/bin/env python3
"""Draws the layers of crates: layers.py >layers.svg, from crates.txt.

A row has crates of one subject. Those of tests, and of lemmas and laws in no row, have boxes, and those of commands a
row, by what their names begin or end with. It is an error if another crate stands in no row, if one that is drawn is not in
crates.txt, if a crate stands on one of a row above its own, or if one that is no test stands on a crate of tests."""

import pathlib
import sys

ROWS = [
    ("the program, the library", "#e7edf6", ["miniboot", "mb_library"]),
    ("its table of commands", "#e7edf6", ["mb_top", "mb_top_laws"]),
    ("commands", "#e7edf6", ["mb_tools..", "mb_console"]),
    ("the device", "#e5f2e9", ["mb_device", "mb_device_orders", "mb_device_regions"]),
    ("its memory", "#e5f2e9", ["mb_boot", "mb_outbound", "mb_region", "mb_area", "mb_flash", "mb_slot"]),
    ("officers and verifiers", "#faf0e0", [
        "mb_generate", "mb_officer", "mb_migrate", "mb_fleet", "mb_verifier", "mb_image"]),
    ("rules", "#faf0e0", ["mb_orders", "mb_log", "mb_authority", "mb_policy", "mb_appvm", "mb_assembler"]),
    ("records and texts", "#f4f5f7", [
        "mb_cert", "mb_script", "mb_command", "mb_segments", "mb_layout_edits", "mb_layout"]),
    ("signatures", "#f4f5f7", ["mb_hss", "mb_signer", "mb_lms"]),
    ("fields and words", "#f4f5f7", ["mb_words", "mb_bytes"]),
    ("the world outside", "#f1e7f2", ["mb_files", "mb_host", "mb_board", "mb_ratchet"]),
    ("definitions", "#f1e7f2", ["mb_model_commands", "mb_model", "mb_format"]),
]
LEMMAS, TESTS, LAWS = "mb_model_", "mb_test_", "_histories"

LEFT, RIGHT, TOP, HEIGHT, GAP = 176, 806, 84, 34, 14
BOX, BOX_WIDTH = 830, 140
WIDTH = BOX + BOX_WIDTH + 20
BOTTOM = TOP + len(ROWS) * (HEIGHT + GAP)
INK = 'stroke="#4a5661"'


def crates_listed(path):
    rows = (line.split("#")[0].partition(":") for line in path.read_text().splitlines())
    return {name.split()[0]: others.split() for name, colon, others in rows if colon}


def beginning(start, listed):
    return [name for name in listed if name.startswith(start)]


def lemmas_and_laws(listed):
    in_rows = {name for _, _, names in ROWS for name in names}
    return [name for name in listed if (name.startswith(LEMMAS) or name.endswith(LAWS)) and name not in in_rows]


def rows_of(listed):
    """The rows, with the crates of this list in place of the beginnings of names."""
    for title, fill, names in ROWS:
        yield title, fill, [each for name in names
                            for each in (beginning(name[:-2], listed) if name.endswith("..") else [name])]


def faults_of(listed):
    """What is wrong with the rows, by the list of crates."""
    row_of = {name: at for at, (_, _, names) in enumerate(rows_of(listed)) for name in names}
    drawn = {*row_of, *lemmas_and_laws(listed), *beginning(TESTS, listed)}
    for name in sorted(drawn ^ set(listed)):
        yield f"{name} is {'drawn' if name in drawn else 'listed'}, and not {'listed' if name in drawn else 'drawn'}"
    for name, others in listed.items():
        for other in others:
            if row_of.get(other, len(ROWS)) < row_of.get(name, -1):
                yield f"{name} stands on {other}, of a row above"
            if other.startswith(TESTS) and not name.startswith(TESTS):
                yield f"{name} stands on {other}, a crate of tests"


def text(x, y, words, **attributes):
    shown = "".join(f' {name.replace("_", "-")}="{value}"' for name, value in attributes.items())
    return f'<text x="{x:g}" y="{y:g}"{shown}>{words}</text>'


def box(x, y, width, height, fill):
    return f'<rect x="{x:g}" y="{y:g}" width="{width:g}" height="{height:g}" rx="4" fill="{fill}" {INK}/>'


def row(at, title, fill, names):
    y = TOP + at * (HEIGHT + GAP)
    width = (RIGHT - LEFT - 8 * (len(names) - 1)) / len(names)
    yield text(20, y + 22, title, font_weight="bold", fill="#222")
    for number, name in enumerate(names):
        x = LEFT + number * (width + 8)
        yield box(x, y, width, HEIGHT, fill)
        size = {"font_size": 11 if width > 90 else 10} if 8 * len(name) > width else {}
        yield text(x + width / 2, y + 22, name, text_anchor="middle", **size)


def side(y, title, names, fill):
    yield box(BOX, y, BOX_WIDTH, 34 + 24 * len(names), fill)
    yield text(BOX + BOX_WIDTH / 2, y + 24, title, text_anchor="middle", font_weight="bold", fill="#222")
    for number, name in enumerate(names):
        yield text(BOX + BOX_WIDTH / 2, y + 50 + 24 * number, name, text_anchor="middle", font_size=11)


def figure(listed):
    height, rows = BOTTOM + 70, list(rows_of(listed))
    lemmas, tests = lemmas_and_laws(listed), beginning(TESTS, listed)
    yield (f'<svg xmlns="http://www.w3.org/2000/svg" viewBox="0 0 {WIDTH} {height}" width="{WIDTH}" height="{height}" '
           'role="img" aria-labelledby="t d" font-family="Helvetica, Arial, sans-serif" font-size="12">')
    yield '<title id="t">The layers of crates</title>'
    yield ('<desc id="d">' + "; ".join(f"{title}: {', '.join(names)}" for title, _, names in rows) +
           f"; lemmas and laws: {', '.join(lemmas)}; tests alone: {', '.join(tests)}.</desc>")
    yield f'<rect width="{WIDTH}" height="{height}" fill="#ffffff"/>'
    yield text(20, 30, f"The layers of {len(listed)} crates", font_size=15, font_weight="bold", fill="#222")
    yield text(20, 52, "A crate stands on crates of its own row and of the rows below it, and on crates of lemmas. "
               "Made of crates.txt by docs/figures/layers.py.", fill="#444")
    for at, (title, fill, names) in enumerate(rows):
        yield from row(at, title, fill, names)
    yield from side(TOP, "tests alone", tests, "#fafafa")
    yield from side(BOTTOM - GAP - 34 - 24 * len(lemmas), "lemmas and laws", lemmas, "#fafafa")
    yield text(20, BOTTOM + 16, "The headline is a clause of mb_top. To believe it one reads definitions, of mb_model "
               "and in part of other crates, and the traits Host and Board", fill="#222")
    yield text(20, BOTTOM + 36, "of the world outside. All code is proved against these. Crates of lemmas, laws and "
               "tests need not be read.", fill="#222")
    yield "</svg>"


def main():
    listed = crates_listed(pathlib.Path(__file__).resolve().parents[2] / "crates.txt")
    faults = list(faults_of(listed))
    if faults:
        sys.exit("\n".join(faults))
    print("\n".join(figure(listed)))


if __name__ == "__main__":
    main()
