#!/usr/bin/env python3
"""Makes the pictures of docs/COURSE.md. Pixels, weights and numbers in them are what `vokhsaot` writes and prints; where a picture
explains how a number comes about, the explanation is worked out here and compared with the tool's number.

usage: make.py [FOLDER]   by default the folder of this script

Wants `vokhsaot` on PATH and nothing beside Python: letters and PNG are made here, so that every machine makes the same pixels.
"""

import fractions
import functools
import math
import pathlib
import struct
import subprocess
import sys
import zlib

HERE = pathlib.Path(__file__).resolve().parent
LARGEST_PIXEL = 65535

# A pixel of a canvas is a number in the palette: greys from black on, then the colours.
COLOURS = [(0xC0, 0x10, 0x20), (0x10, 0x50, 0xC0), (0x00, 0x80, 0x50)]
BLACK, WHITE = 0, 255 - len(COLOURS)
RED, BLUE, GREEN = range(WHITE + 1, 256)
DIM, PALE_CELL = 110, 235

LETTER_WIDTH, LETTER_HEIGHT, ABOVE_BASE = 5, 9, 7
# A letter is drawn twice as large as it is written down.
ADVANCE, CAPITAL, LINE, BETWEEN = 2 * (LETTER_WIDTH + 1), 2 * ABOVE_BASE, 22, 4
LEFT, MIDDLE, RIGHT = 0, 1, 2


# The tool

@functools.cache
def vokhsaot(*arguments, given=b""):
    return subprocess.run(["vokhsaot", *arguments], input=given, stdout=subprocess.PIPE, check=True).stdout


def pgm_of(picture):
    pixels = "\n".join(" ".join(map(str, row)) for row in picture)
    return f"P2 {len(picture[0])} {len(picture)} {LARGEST_PIXEL}\n{pixels}\n".encode()


def picture_of(pgm):
    """The rows of a 16-bit picture as the tool writes it."""
    kind, sides, _, pixels = pgm.split(b"\n", 3)
    width, height = map(int, sides.split())
    assert kind == b"P5" and len(pixels) == 2 * width * height
    values = struct.unpack(f">{width * height}H", pixels)
    return [list(values[first:first + width]) for first in range(0, len(values), width)]


def horizon(options):
    return picture_of(vokhsaot("horizon", *options.split(), "-"))


def smoothed(options, picture):
    return picture_of(vokhsaot("smooth", "--quiet", *options.split(), given=pgm_of(picture)))


def kernel_of(options):
    """The weights that the tool prints, in rows."""
    printed = vokhsaot("kernel", *options.split()).decode().splitlines()
    rows = [line.split()[-3:] for line in printed if line.startswith("  row y")]
    kernel = [[fractions.Fraction(weight) for weight in row] for row in rows]
    assert len(kernel) == 3 and sum(map(sum, kernel)) == 1
    return kernel


def differences_in_y(picture):
    """The greys that the tool makes of them, and the numbers."""
    greys = vokhsaot("difference", "--y", "-", "-", given=pgm_of(picture))
    numbers = vokhsaot("difference", "--y", "-", "/dev/null", "--numbers", "-", given=pgm_of(picture))
    return picture_of(greys), [list(map(int, line.split())) for line in numbers.decode().splitlines()]


def spot(width, height):
    """A single bright pixel in the middle of a dark picture."""
    return [[LARGEST_PIXEL * ((x, y) == (width // 2, height // 2)) for x in range(width)] for y in range(height)]


def around(picture, x, y):
    """The nine pixels that a step reads at a place, in rows: outside the picture the nearest one of it."""
    nearest = lambda place, count: min(max(place, 0), count - 1)
    return [[picture[nearest(y + dy, len(picture))][nearest(x + dx, len(picture[0]))] for dx in (-1, 0, 1)] for dy in (-1, 0, 1)]


def products_of(pixels, kernel):
    return [[pixel * weight for pixel, weight in zip(*rows)] for rows in zip(pixels, kernel)]


def nearest_whole(number):
    """Halves go up."""
    return (number + fractions.Fraction(1, 2)) // 1


def step_of(options, picture):
    """The tool's picture after one step; each pixel has to be what the pictures of the course explain."""
    after, kernel = smoothed(options, picture), kernel_of(options)
    for y, row in enumerate(after):
        for x, value in enumerate(row):
            explained = nearest_whole(sum(map(sum, products_of(around(picture, x, y), kernel))))
            assert value == explained, f"{options}: column {x}, row {y} is {value}, explained as {explained}"
    return after


# Drawing

def letters():
    """{character: its pixels} of letters.txt."""
    found = {}
    for block in (HERE / "letters.txt").read_text(encoding="utf-8").split("\n\n")[1:]:
        characters, *rows = block.strip().split("\n")
        assert len(rows) == LETTER_HEIGHT
        for place in range(0, len(characters), LETTER_WIDTH + 1):
            found[characters[place]] = doubled([[pixel == "#" for pixel in row[place:place + LETTER_WIDTH]] for row in rows])
    return found


def doubled(bitmap):
    """Twice as large, with slanted lines kept smooth: a quarter of a pixel is taken from the two pixels that it touches where these
    agree, and the two on the other side do not agree with them."""
    inked = lambda x, y: 0 <= y < len(bitmap) and 0 <= x < len(bitmap[0]) and bitmap[y][x]

    def quarter(x, y, dx, dy):
        beside, above = inked(x + dx, y), inked(x, y + dy)
        meet = beside == above and beside != inked(x - dx, y) and above != inked(x, y - dy)
        return beside if meet else inked(x, y)

    sides = lambda place: (place // 2, 2 * (place % 2) - 1)
    rows = [(sides(y), [sides(x) for x in range(2 * len(bitmap[0]))]) for y in range(2 * len(bitmap))]
    return [[quarter(x, y, dx, dy) for x, dx in row] for (y, dy), row in rows]


LETTERS = letters()


def grey_of(value, white):
    """The nearest grey of a value, on a scale from 0 to white."""
    return nearest_whole(fractions.Fraction(value, white) * WHITE)


class Canvas:
    def __init__(self, width, height):
        self.width, self.height = width, height
        self.rows = [bytearray([WHITE]) * width for _ in range(height)]

    def box(self, x, y, width, height, colour):
        assert 0 <= x and x + width <= self.width and 0 <= y and y + height <= self.height, "drawn outside the picture"
        for row in self.rows[y:y + height]:
            row[x:x + width] = bytes([colour]) * width

    def frame(self, x, y, width, height, colour=BLACK, thick=1):
        """Around a box, half of it inside."""
        x, y, width, height = x - thick // 2, y - thick // 2, width + thick, height + thick
        for top in (y, y + height - thick):
            self.box(x, top, width, thick, colour)
        for left in (x, x + width - thick):
            self.box(left, y, thick, height, colour)

    def line(self, start, end, colour=BLACK, thick=2):
        length = max(abs(end[0] - start[0]), abs(end[1] - start[1]), 1)
        at = lambda part, axis: start[axis] + ((end[axis] - start[axis]) * part * 2 + length) // (2 * length)
        for part in range(length + 1):
            self.box(at(part, 0) - thick // 2, at(part, 1) - thick // 2, thick, thick, colour)

    def arrow(self, start, end, colour=BLACK):
        """With a head of two short lines."""
        self.line(start, end, colour)
        length = max(abs(end[0] - start[0]), abs(end[1] - start[1]))
        back = [(start[axis] - end[axis]) * 10 // length for axis in (0, 1)]
        for side in (1, -1):
            self.line(end, (end[0] + back[0] - side * back[1] // 2, end[1] + back[1] + side * back[0] // 2), colour)

    def text(self, x, y, words, colour=BLACK, align=LEFT):
        """x is the words' left end, middle or right end, y the top of their capitals."""
        x -= align * (len(words) * ADVANCE - 2) // 2
        assert 0 <= x and x + len(words) * ADVANCE - 2 <= self.width and 0 <= y <= self.height - 2 * LETTER_HEIGHT, words
        for character in words:
            for row, inked in enumerate(LETTERS[character] if character != " " else []):
                for column, ink in enumerate(inked):
                    if ink:
                        self.rows[y + row][x + column] = colour
            x += ADVANCE

    def lines(self, x, y, words, colour=BLACK, align=LEFT):
        for number, line in enumerate(words):
            self.text(x, y + number * LINE, line, colour, align)

    def pixels(self, x, y, picture, size, white=LARGEST_PIXEL):
        """A picture with pixels as squares, on a scale from 0 to white."""
        for row, values in enumerate(picture):
            for column, value in enumerate(values):
                self.box(x + column * size, y + row * size, size, size, grey_of(value, white))
        self.frame(x, y, len(picture[0]) * size, len(picture) * size)

    def png(self):
        def chunk(kind, content):
            return struct.pack(">I", len(content)) + kind + content + struct.pack(">I", zlib.crc32(kind + content))

        greys = [(grey * 255 // WHITE,) * 3 for grey in range(WHITE + 1)]
        header = struct.pack(">IIBBBBB", self.width, self.height, 8, 3, 0, 0, 0)
        palette = bytes(part for colour in greys + COLOURS for part in colour)
        pixels = zlib.compress(b"".join(b"\0" + row for row in self.rows), 9)
        chunks = (b"IHDR", header), (b"PLTE", palette), (b"IDAT", pixels), (b"IEND", b"")
        return b"\x89PNG\r\n\x1a\n" + b"".join(chunk(kind, content) for kind, content in chunks)


# Parts of pictures

def cell(canvas, x, y, width, height, words, grey, colour=None):
    """A framed box with lines of words in its middle; a line "/" is the bar of a fraction, an empty one a gap."""
    canvas.box(x, y, width, height, grey)
    canvas.frame(x, y, width, height, DIM)
    if colour is None:
        colour = BLACK if grey > WHITE // 2 else WHITE
    heights = [{"/": 2, "": 1}.get(line, CAPITAL) for line in words]
    top = y + (height - sum(heights) - BETWEEN * (len(words) - 1)) // 2
    for number, (line, high) in enumerate(zip(words, heights)):
        if line == "/":
            length = ADVANCE * max(len(words[number - 1]), len(words[number + 1]))
            canvas.box(x + (width - length) // 2, top, length, high, colour)
        else:
            canvas.text(x + width // 2, top, line, colour, MIDDLE)
        top += high + BETWEEN


def grid(canvas, x, y, size, rows, width=None):
    """Rows of cells, each its words and its grey, and a colour for the words where it is named."""
    width = width or size
    for number, cells in enumerate(rows):
        for column, content in enumerate(cells):
            cell(canvas, x + column * width, y + number * size, width, size, *content)
    canvas.frame(x, y, len(rows[0]) * width, len(rows) * size, BLACK, 2)


def each(function, rows):
    return [[function(entry) for entry in row] for row in rows]


def plain(value):
    return [str(value)], WHITE


def kernel_cells(canvas, x, y, kernel, size, with_per_cent=False):
    """A kernel's weights, the heaviest the brightest, with the names of rows and columns."""
    heaviest = max(map(max, kernel))

    def content(weight):
        words = [str(weight.numerator), "/", str(weight.denominator)] if weight.denominator > 1 else [str(weight)]
        return words + (["", per_cent(weight)] if with_per_cent and weight else []), grey_of(weight, heaviest)

    grid(canvas, x, y, size, each(content, kernel))
    offset_names(canvas, x, y, size)


def per_cent(weight):
    tenths = nearest_whole(weight * 1000)
    return f"{tenths // 10}.{tenths % 10}%"


def offset_names(canvas, x, y, size):
    for number, name in enumerate(("x-1", "x", "x+1")):
        canvas.text(x + number * size + size // 2, y - 20, name, BLUE, MIDDLE)
    for number, names in enumerate((["y-1", "above"], ["y"], ["y+1", "below"])):
        canvas.lines(x - 8, y + number * size + (size - LINE * len(names)) // 2 + 4, names, BLUE, RIGHT)


def place_names(canvas, x, y, size, columns, rows):
    """Numbers of columns above a grid of cells and of rows on its left."""
    for number, column in enumerate(columns):
        canvas.text(x + number * size + size // 2, y - 20, str(column), BLUE, MIDDLE)
    for number, row in enumerate(rows):
        canvas.text(x - 8, y + number * size + (size - CAPITAL) // 2, str(row), BLUE, RIGHT)


def axes(canvas, x, y, sides, size, every):
    """x to the right above a picture and y downward on its left, with a number at the middle of every so many pixels."""
    width, height = sides
    canvas.arrow((x, y - 6), (x + width * size + 18, y - 6), BLUE)
    canvas.text(x + width * size + 24, y - 12, "x", BLUE)
    canvas.arrow((x - 6, y), (x - 6, y + height * size + 18), BLUE)
    canvas.text(x - 6, y + height * size + 24, "y", BLUE, MIDDLE)
    for column in range(0, width, every):
        canvas.box(x + column * size + size // 2 - 1, y - 11, 2, 10, BLUE)
        canvas.text(x + column * size + size // 2, y - 28, str(column), BLUE, MIDDLE)
    for row in range(0, height, every):
        canvas.box(x - 11, y + row * size + size // 2 - 1, 10, 2, BLUE)
        canvas.text(x - 14, y + row * size + size // 2 - CAPITAL // 2, str(row), BLUE, RIGHT)


def scale_across(canvas, x, y, width, white):
    """Greys from 0 to the brightest, with both numbers below."""
    for place in range(width):
        canvas.box(x + place, y, 1, 14, grey_of(place, width - 1))
    canvas.frame(x, y, width, 14)
    canvas.text(x, y + 20, "0")
    canvas.text(x + width, y + 20, f"{white} units", align=RIGHT)


def scale_down(canvas, x, y, height, named):
    """Greys as the tool makes them, brightest on top, from the largest to the least number named; each beside its grey. named has a
    number for each grey that is named."""
    greys = sorted(named)
    black, white = greys[0], greys[-1]
    for place in range(height):
        value = white - fractions.Fraction((white - black) * place, height - 1)
        canvas.box(x, y + place, 24, 1, grey_of(value, LARGEST_PIXEL))
    canvas.frame(x, y, 24, height)
    canvas.text(x, y - 32, "units")
    for grey in greys:
        place = y + (white - grey) * (height - 1) // (white - black)
        canvas.box(x + 24, place, 6, 2, BLACK)
        canvas.text(x + 36, place - CAPITAL // 2, str(named[grey]))


# Pictures

def axes_picture():
    """Which way x, y and degrees go, and what a neighbour is called."""
    canvas = Canvas(980, 424)
    places(canvas, 48, 96, 56)
    neighbours(canvas, 528, 96, 84)
    directions(canvas, 836, 96, 110)
    return canvas


def places(canvas, left, top, size):
    picture, (x, y) = horizon("--width 6 --height 4 --seed 8"), (4, 2)
    width = len(picture[0])
    canvas.lines(8, 8, ["Columns x and rows y, from 0;", "in each pixel its index"])
    content = lambda index: ([str(index)], grey_of(picture[index // width][index % width], LARGEST_PIXEL))
    indices = [range(first, first + width) for first in range(0, width * len(picture), width)]
    grid(canvas, left, top, size, each(content, indices))
    axes(canvas, left, top, (width, len(picture)), size, 1)
    canvas.frame(left + x * size, top + y * size, size, size, RED, 5)
    formula = f"index y*w + x = {y}*{width} + {x} = {y * width + x}"
    canvas.lines(8, top + 282, [f"column x = {x}, row y = {y}, width w = {width}:", formula], RED)


def neighbours(canvas, left, top, size):
    canvas.lines(left - 68, 8, ["A pixel's neighbours:", "offsets dx, dy"])
    signed = lambda number: f"{number:+d}" if number else "0"
    grid(canvas, left, top, size, [[plain(f"{signed(dx)}, {signed(dy)}") for dx in (-1, 0, 1)] for dy in (-1, 0, 1)])
    offset_names(canvas, left, top, size)
    canvas.frame(left + size, top + size, size, size, RED, 5)
    canvas.lines(left - 44, top + 282, ["weights are listed by row,", "y-1 first, then by column"])


def directions(canvas, left, top, length):
    canvas.lines(left - 6, 8, ["Degrees turn", "from x to y"])
    for degrees, colour, name in ((0, BLUE, "0: x"), (30, BLACK, "30"), (60, BLACK, "60"), (90, BLUE, "90: y")):
        turned = math.radians(degrees)
        end = (left + round(length * math.cos(turned)), top + round(length * math.sin(turned)))
        canvas.arrow((left, top), end, colour)
        canvas.text(end[0] - 12, end[1] + (10 if degrees else -26), name, colour)
    canvas.text(left - 6, top + length + 50, "clockwise")


def step_picture():
    """One pixel of one step, with the numbers of the course's horizon."""
    options, (x, y) = "--round 0.5 --steps 1", (30, 8)
    picture = horizon("--width 60 --height 16 --seed 8")
    pixels, kernel = around(picture, x, y), kernel_of(options)
    products = products_of(pixels, kernel)
    total = sum(map(sum, products))
    after = step_of(options, picture)[y][x]
    assert after - total == fractions.Fraction(1, 2), "no example of rounding a half"

    canvas = Canvas(1000, 398)
    top, size, wide = 84, 72, 120
    canvas.text(8, 8, f"One step at column {x}, row {y} of horizon.pgm: {options}")
    grid(canvas, 40, top, size, each(lambda pixel: ([str(pixel)], grey_of(pixel, LARGEST_PIXEL)), pixels))
    place_names(canvas, 40, top, size, range(x - 1, x + 2), range(y - 1, y + 2))
    canvas.frame(40 + size, top + size, size, size, RED, 5)
    canvas.text(277, top + 101, "×")
    kernel_cells(canvas, 372, top, kernel, size)
    canvas.text(604, top + 101, "=")
    grid(canvas, 632, top, size, each(lambda product: plain(decimal(product)), products), wide)
    for left, width, words in ((40, size, "nine pixels"), (372, size, "nine weights"), (632, wide, "nine products")):
        canvas.text(left + 3 * width // 2, top + 3 * size + 12, words, align=MIDDLE)
    canvas.text(992, 346, f"their sum: {decimal(total)}", align=RIGHT)
    canvas.text(992, 372, f"nearest whole number, halves up: {after}", RED, RIGHT)
    return canvas


def decimal(number):
    """A fraction with a finite decimal form, all its digits."""
    digits = next(count for count in range(20) if (number * 10 ** count).denominator == 1)
    return f"{float(number):.{digits}f}"


HORIZON = "--width 160 --height 100 --seed 8"
ALONG = "--oval 32,0.5,0 --steps 64"
SCALE = (0, 16384, 32768, 49152, LARGEST_PIXEL)


def horizon_runs():
    """A horizon before and after three runs: name, options, words about it, picture."""
    before = horizon(HORIZON)
    runs = [
        ("round", "--round 9 --steps 18", "the limb gets wide"),
        ("along", ALONG, "the limb stays sharp"),
        ("across", "--oval 32,0.5,90 --steps 64", "the limb is washed out"),
    ]
    return [("before", "", "noise and glints", before)] + [(*run, smoothed(run[1], before)) for run in runs]


def horizon_picture():
    canvas = Canvas(950, 690)
    for number, (name, options, words, picture) in enumerate(horizon_runs()):
        left, top = 56 + number % 2 * 408, 82 + number // 2 * 320
        view(canvas, left, top, [f"{name}: {words}", options], picture)
    scale_down(canvas, 830, 82, 520, {grey: grey for grey in SCALE})
    canvas.text(56, 666, f"before: horizon {HORIZON}", DIM)
    return canvas


def view(canvas, left, top, words, picture):
    """A picture of the horizon, twice as large."""
    canvas.text(left, top - 74, words[0])
    canvas.text(left, top - 52, words[1], DIM)
    canvas.pixels(left, top, picture, 2)
    axes(canvas, left, top, (len(picture[0]), len(picture)), 2, 50)


def profile_picture():
    """One column of the same four pictures: how wide the limb is, and that nothing leaves the range of the picture before."""
    column, rows = 100, range(40, 72)
    left, top = 60, 90
    across = lambda value: left + nearest_whole(fractions.Fraction(value * 640, LARGEST_PIXEL))
    down = lambda row: top + (row - rows[0]) * 12
    canvas = Canvas(990, 510)
    canvas.text(8, 8, f"Column {column} of the four pictures: units to the right, rows downward")
    profile_scales(canvas, left, top, across, down, rows)
    pictures = horizon_runs()
    least, largest = ends_of(pictures[0][-1])
    for number, ((name, options, _, picture), colour) in enumerate(zip(pictures, (BLACK, RED, BLUE, GREEN))):
        assert least <= ends_of(picture)[0] and ends_of(picture)[1] <= largest
        points = [(across(picture[row][column]), down(row)) for row in rows]
        for start, end in zip(points, points[1:]):
            canvas.line(start, end, colour, 3)
        height = top + 17 + number * 56
        canvas.line((730, height), (760, height), colour, 4)
        canvas.text(772, height - CAPITAL // 2, name, colour)
        canvas.text(772, height - CAPITAL // 2 + LINE, options.split(" --steps")[0], DIM)
    canvas.text(left, 484, f"every pixel of all four lies between {least} and {largest}, the ends of before")
    return canvas


def profile_scales(canvas, left, top, across, down, rows):
    canvas.frame(left, top, across(SCALE[-1]) - left, down(rows[-1]) - top, DIM)
    for value in SCALE:
        canvas.box(across(value), top - 6, 2, 6, BLUE)
        canvas.text(across(value), top - 26, str(value), BLUE, MIDDLE)
    for row in rows[::5]:
        canvas.box(left - 6, down(row), 6, 2, BLUE)
        canvas.text(left - 12, down(row) - 6, str(row), BLUE, RIGHT)
    canvas.text(across(SCALE[1]), down(rows[2]), "dark space")
    canvas.text(across(SCALE[1]), down(rows[-4]), "bright limb")


def ends_of(picture):
    return min(map(min, picture)), max(map(max, picture))


def difference_picture():
    """The difference in y of the horizon smoothed along the limb, with the tool's greys."""
    along = smoothed(ALONG, horizon(HORIZON))
    greys, numbers = differences_in_y(along)
    number_of = dict(zip(sum(greys, []), sum(numbers, [])))
    grey_of_zero = next(grey for grey, number in number_of.items() if number == 0)
    canvas = Canvas(950, 336)
    view(canvas, 56, 82, ["smoothed along the limb", ALONG], along)
    view(canvas, 464, 82, ["its difference in y", "difference --y"], greys)
    scale_down(canvas, 830, 82, 200, {grey: number_of[grey] for grey in (*ends_of(greys), grey_of_zero)})
    return canvas


def ovals_picture():
    """An oval upright, leaning, and leaning the wrong way: kernels, and a bright pixel after all steps."""
    # the tool has no wrong order of rows; the same oval at -60 degrees has the kernel with them exchanged
    ovals = [
        ("90", ["90 degrees:", "upright"], BLACK),
        ("60", ["60 degrees:", "leans down to the right"], BLACK),
        ("-60", ["60, rows exchanged:", "leans up, WRONG"], RED),
    ]
    options = "--oval 6.5,1.3,{} --steps 10"
    kernels = [kernel_of(options.format(degrees)) for degrees, _, _ in ovals]
    assert kernels[2] == kernels[1][::-1] != kernels[1]
    canvas = Canvas(1000, 744)
    canvas.text(8, 8, f"One step's weights: kernel {options.format('DEGREES')}", DIM)
    canvas.text(8, 396, f"A bright pixel after all steps: smooth {options.format('DEGREES')}", DIM)
    for number, ((degrees, words, colour), kernel) in enumerate(zip(ovals, kernels)):
        left = 76 + number * 330
        canvas.lines(left, 42, words, colour)
        kernel_cells(canvas, left, 120, kernel, 84, with_per_cent=True)
        spread(canvas, left, 462, smoothed(options.format(degrees), spot(21, 21)), 10, 5)
    return canvas


def spread(canvas, left, top, picture, size, every):
    """What a bright pixel became, with the brightest pixel white."""
    width, height = len(picture[0]), len(picture)
    _, brightest = ends_of(picture)
    canvas.pixels(left, top, picture, size, brightest)
    axes(canvas, left, top, (width, height), size, every)
    scale_across(canvas, left + 24, top + height * size + 28, width * size - 24, brightest)


def hollow_picture():
    """Two kernels of one covariance, and a bright pixel after four steps of each."""
    canvas = Canvas(970, 700)
    choices = (("smallest", "no weight at the centre"), ("binomial", "1 2 1 along both axes"))
    for number, (choice, words) in enumerate(choices):
        options = f"--round 2 --steps 4 --choice {choice}"
        left = 56 + number * 490
        canvas.lines(left - 48, 8, [options, words])
        kernel_cells(canvas, left + 90, 90, kernel_of(options), 72)
        canvas.text(left - 48, 330, "a bright pixel after 4 steps:", DIM)
        spread(canvas, left, 392, smoothed(options, spot(15, 9)), 26, 2)
    return canvas


def border_picture():
    """What is read outside a picture, and what never is."""
    options, picture = "--matrix 0,0,4096 --steps 1", [[10, 20, 30], [40, 50, 60]]
    after, kernel = step_of(options, picture), kernel_of(options)
    # the weights shown read nothing beside a picture nor at its corners: these are compared by a kernel without a 0
    step_of("--round 0.5 --steps 1", picture)
    canvas = Canvas(960, 510)
    size, top, (x, y) = 56, 96, (0, 1)
    canvas.lines(8, 8, [f"A picture of {len(picture[0])} × {len(picture)} pixels;", "paler, what is read around it"])
    read_around(canvas, 56, top, size, picture)
    canvas.frame(56 + x * size, top + y * size, 3 * size, 3 * size, RED, 5)
    canvas.lines(400, 8, ["weights of", options])
    kernel_cells(canvas, 466, top, kernel, size)
    canvas.text(766, 8, "after the step")
    grid(canvas, 766, top, size, each(plain, after))
    place_names(canvas, 766, top, size, range(len(picture[0])), range(len(picture)))
    canvas.frame(766 + x * size, top + y * size, size, size, RED, 5)
    terms = [f"{weight}*{pixel}" for pixel, weight in zip(sum(around(picture, x, y), []), sum(kernel, [])) if weight]
    canvas.lines(710, top + 140, [f"column {x}, row {y}:", f"{' + '.join(terms)} = {after[y][x]}"], RED)
    buffer_cells(canvas, 8, 412, size, picture)
    return canvas


def read_around(canvas, left, top, size, picture):
    """A picture, and paler one pixel more on each side."""
    columns, rows = range(-1, len(picture[0]) + 1), range(-1, len(picture) + 1)
    read = [[around(picture, x, y)[1][1] for x in columns] for y in rows]
    grid(canvas, left, top, size, each(lambda value: ([str(value)], PALE_CELL, DIM), read))
    grid(canvas, left + size, top + size, size, each(plain, picture))
    place_names(canvas, left, top, size, columns, rows)


def buffer_cells(canvas, left, top, size, picture):
    """The picture as it lies in its buffer, and crossed out what stands further on."""
    shown, width, values = 16, len(picture[0]), sum(picture, [])
    behind = left + len(values) * size
    canvas.text(left, top - 72, f"In its buffer: rows of w = {width}; only the first w × h = {len(values)} pixels are read")
    place_names(canvas, left, top, size, range(shown), [])
    grid(canvas, behind, top, size, [[([], PALE_CELL)] * (shown - len(values))])
    for x in range(behind, left + shown * size, size):
        canvas.line((x, top), (x + size, top + size), DIM, 1)
        canvas.line((x, top + size), (x + size, top), DIM, 1)
    canvas.text((behind + left + shown * size) // 2, top + size + 10, "left by earlier jobs: never read", align=MIDDLE)
    for row, pixels in enumerate(picture):
        grid(canvas, left + row * width * size, top, size, [[plain(pixel) for pixel in pixels]])
        canvas.text(left + (2 * row + 1) * width * size // 2, top + size + 10, f"row {row}", BLUE, MIDDLE)


PICTURES = {
    "axes": axes_picture, "step": step_picture, "horizon": horizon_picture, "profile": profile_picture,
    "difference": difference_picture, "ovals": ovals_picture, "border": border_picture, "hollow": hollow_picture,
}


def main(folder):
    for name, picture in PICTURES.items():
        (folder / f"{name}.png").write_bytes(picture().png())


if __name__ == "__main__":
    if len(sys.argv) > 2:
        sys.exit(__doc__)
    main(pathlib.Path(sys.argv[1]) if len(sys.argv) == 2 else HERE)
