#!/usr/bin/env python3
"""Draws the pictures of docs/METHOD.md: `python3 docs/pictures/draw.py` writes the SVG files beside itself.

The sizes of levels and the steps of the coincidence were counted by a second program of the same method. `examples/sizes FILE` shows the greatest
levels with the program itself.
"""

from math import log10
from pathlib import Path

HERE = Path(__file__).parent
DARK, MIDDLE, LIGHT = "#222", "#777", "#ddd"

# examples/a5-cosets.venum: for each level its size, and the number of its normal words.
A5_SIZES = [1, 3, 4, 5, 9, 11, 16, 22, 29, 40, 53, 68, 52, 66, 52, 65, 34, 40, 47, 20, 20, 20]
A5_NORMAL = [1, 2, 3, 5, 7, 10, 14, 19, 26, 35, 46, 36, 46, 38, 47, 28, 32, 37, 20, 20, 20, 20]

# examples/subsets-6-3.venum without the line `balance`, and as it stands: the sizes up to the closing level.
WHOLE = [1, 6, 7, 26, 102, 299, 699, 1285, 1193, 1178, 907, 1279, 215, 317, 407, 20]
HALVED = [1, 6, 7, 14, 22, 25, 28, 31, 28, 24, 25, 20, 20]

# examples/involutions.venum at level 6: words, rows before, what vanishes, forwards, rows after.
WORDS = ["e1", "e1*b", "e1*b*a", "e1*b*a*b", "e1*b*a*b*a", "e1*b*a*b*a*b", "e1*b*a*b*a*b*a", "e1*b*a*b*a*b*b"]
BEFORE = [(1, 2), (3, 1), (2, 4), (5, 3), (4, 6), (7, 8), None, None]
STEPS = [("b*b - 1 at v5", "v8 - v5"), ("(a*b)^3 - 1 at v1", "v6 - v1"), ("image of v6 at b", "v5 - v2"),
         ("image of v5 at a", "v4 - v3"), ("image of v6 at a", "v7 - v1")]
FORWARDS = {8: 5, 6: 1, 5: 2, 4: 3, 7: 1}
AFTER = [(1, 2), (3, 1), (2, 3)]


class Picture:
    def __init__(self, width, height, title):
        self.width, self.height = width, height
        self.parts = [f"<title>{title}</title>", f'<rect width="{width}" height="{height}" fill="white"/>']

    def text(self, x, y, text, anchor="start", size=13, fill=DARK, style=""):
        text = text.replace("&", "&amp;").replace("<", "&lt;")
        self.parts.append(f'<text x="{x:.1f}" y="{y:.1f}" font-size="{size}" text-anchor="{anchor}" fill="{fill}"{style}>{text}</text>')

    def mono(self, x, y, text, anchor="start", fill=DARK):
        self.text(x, y, text, anchor, 13, fill, ' font-family="DejaVu Sans Mono, monospace"')

    def line(self, x1, y1, x2, y2, stroke=DARK, width=1, dash=""):
        dash = f' stroke-dasharray="{dash}"' if dash else ""
        self.parts.append(f'<line x1="{x1:.1f}" y1="{y1:.1f}" x2="{x2:.1f}" y2="{y2:.1f}" stroke="{stroke}" stroke-width="{width}"{dash}/>')

    def box(self, x, y, width, height, fill, stroke=DARK):
        self.parts.append(f'<rect x="{x:.1f}" y="{y:.1f}" width="{width:.1f}" height="{height:.1f}" fill="{fill}" stroke="{stroke}"/>')

    def add(self, part):
        self.parts.append(part)

    def save(self, name):
        body = "\n".join(self.parts)
        (HERE / name).write_text(f'<svg xmlns="http://www.w3.org/2000/svg" width="{self.width}" height="{self.height}" '
                                 f'viewBox="0 0 {self.width} {self.height}" font-family="DejaVu Sans, Helvetica, sans-serif">\n{body}\n</svg>\n')


def draw_levels():
    picture = Picture(860, 380, "The levels of A5 on 20 cosets")
    left, bottom, step, scale = 60, 320, 35, 3.9
    for value in range(0, 71, 10):
        y = bottom - value * scale
        picture.line(left, y, left + step * len(A5_SIZES), y, LIGHT)
        picture.text(left - 8, y + 4, str(value), "end")
    for level, (size, normal) in enumerate(zip(A5_SIZES, A5_NORMAL)):
        x = left + step * level
        picture.box(x + 5, bottom - size * scale, 12, size * scale, "white")
        picture.box(x + 17, bottom - normal * scale, 12, normal * scale, MIDDLE)
        picture.text(x + 17, bottom + 18, str(level), "middle")
    picture.line(left, bottom, left + step * len(A5_SIZES), bottom)
    picture.text(left + step * len(A5_SIZES) / 2, bottom + 42, "level", "middle")
    picture.text(left - 8, 30, "words", "end")
    picture.box(left + 10, 42, 290, 52, "white", "white")
    picture.box(left + 20, 50, 12, 12, "white")
    picture.text(left + 40, 61, "when the level opens: its size")
    picture.box(left + 20, 74, 12, 12, MIDDLE)
    picture.text(left + 40, 85, "when it is finished: its normal words")
    x, y = left + step * 21 + 17, bottom - 20 * scale
    picture.line(x, y - 34, x, y - 8)
    picture.text(x + 12, y - 42, "it closes", "end")
    picture.save("levels.svg")


def draw_balance():
    picture = Picture(760, 400, "The sizes of levels with whole and with halved relations")
    left, bottom, step, decade = 70, 340, 42, 90

    def place(level, size):
        return left + step * level, bottom - decade * log10(size)

    for power in range(4):
        x, y = place(0, 10 ** power)
        picture.line(x, y, x + step * 15.4, y, LIGHT)
        picture.text(x - 12, y + 4, str(10 ** power), "end")
    for level in range(16):
        picture.text(left + step * level, bottom + 22, str(level), "middle")
    picture.text(left + step * 7.5, bottom + 46, "level", "middle")
    picture.text(left - 12, 22, "size", "end")
    for sizes, dash, fill in ((WHOLE, "", DARK), (HALVED, "5 4", "white")):
        points = [place(level, size) for level, size in enumerate(sizes)]
        for (x1, y1), (x2, y2) in zip(points, points[1:]):
            picture.line(x1, y1, x2, y2, DARK, 1.3, dash)
        for x, y in points:
            picture.add(f'<circle cx="{x:.1f}" cy="{y:.1f}" r="4" fill="{fill}" stroke="{DARK}"/>')
    x, y = place(7, 1285)
    picture.text(x, y - 14, "1285", "middle")
    picture.text(place(8.4, 1)[0], place(0, 2000)[1], "whole relations", "start")
    x, y = place(7, 31)
    picture.text(x, y - 14, "31", "middle")
    picture.text(x + 24, y + 62, "with the line balance", "start")
    picture.save("balance.svg")


def draw_coincidence():
    picture = Picture(1010, 315, "What a coincidence does to rows")
    top, height = 78, 28

    def table(x, heading, rows, marks):
        picture.text(x, 28, heading, "start", 14, DARK, ' font-weight="bold"')
        for column, name in enumerate(("a", "b")):
            picture.mono(x + 225 + 38 * column, top - 12, name, "middle")
        picture.line(x, top - 4, x + 285, top - 4)
        for place, word in enumerate(WORDS):
            y = top + height * place + 16
            fill = MIDDLE if place + 1 in marks else DARK
            picture.mono(x, y, f"v{place + 1}", fill=fill)
            picture.mono(x + 38, y, word, fill=fill)
            if place + 1 in marks:
                picture.line(x - 3, y - 5, x + 175, y - 5, DARK)
                picture.mono(x + 206, y, f"= v{marks[place + 1]}")
            elif place < len(rows) and rows[place]:
                for column, entry in enumerate(rows[place]):
                    picture.mono(x + 225 + 38 * column, y, f"v{entry}", "middle")
            else:
                for column in range(2):
                    picture.mono(x + 225 + 38 * column, y, "-", "middle", MIDDLE)

    table(20, "Level 6 opens: 8 words", BEFORE, {})
    x = 350
    picture.text(x, 28, "What vanishes, in this order", "start", 14, DARK, ' font-weight="bold"')
    picture.line(x, top - 4, x + 300, top - 4)
    picture.text(x, top - 12, "job")
    picture.text(x + 165, top - 12, "vector")
    picture.text(x + 245, top - 12, "deletes")
    for place, (job, vector) in enumerate(STEPS):
        y = top + height * place + 16
        picture.mono(x, y, job)
        picture.mono(x + 165, y, vector)
        picture.mono(x + 258, y, vector[:2])
    table(700, "It is finished: 3 words", AFTER, FORWARDS)
    picture.save("coincidence.svg")


if __name__ == "__main__":
    draw_levels()
    draw_balance()
    draw_coincidence()
