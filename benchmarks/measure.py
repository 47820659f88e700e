"""Compares and times what benchmarks/run.sh has built: the folder with the shared libraries, and the bench program."""

import ctypes
import os
import platform
import random
import statistics
import subprocess
import sys
import time

import numpy

try:
    import cv2
except ImportError:
    cv2 = None

ROUNDS = 31
# Bytes that a job text may have.
LONGEST_TEXT = 16386
SHAPE = (9000, 2001, 7000)
# The choices as the exported calls number them: a caller who names none gets the first; the jobs whose ticks are measured name the second.
BINOMIAL, SMALLEST = 0, 1
CHOICES = {BINOMIAL: "no choice named", SMALLEST: "the choice \"smallest\""}
FORMS = [
    ("proved", "vector", "proved", "the proved run"),
    ("in place", "vector", "in_place", "the proved run within one picture"),
    ("indexed", "vector", "indexed", "C, five multiplications, by index, gcc -O3"),
    ("buffered", "vector", "buffered", "C, the same products, through line buffers, gcc -O3"),
    ("indexed, scalar", "scalar", "indexed", "the same by index, -fno-tree-vectorize"),
    ("plain", "vector", "plain", "plain C, nine multiplications and a division, gcc -O3"),
]
# Kernels of each kind: shape, steps, choice, and how many products a pixel needs.
KINDS = [
    ("all five weights", (9001, 2001, 7001), 4, BINOMIAL, 5),
    ("centre twice a side", (9000, 2001, 7000), 4, BINOMIAL, 4),
    ("one diagonal 0", (9000, 2001, 7000), 16, BINOMIAL, 4),
    ("the other diagonal 0", (9000, -2001, 7000), 16, SMALLEST, 4),
    ("centre 0", (9000, 500, 8000), 4, SMALLEST, 4),
    ("equal diagonals (xy 0)", (9001, 0, 7001), 4, BINOMIAL, 4),
    ("equal diagonals, centre twice a side", (9000, 0, 7000), 4, BINOMIAL, 3),
    ("equal diagonals, equal sides (Round)", (8191, 0, 8191), 4, BINOMIAL, 3),
    ("Round, centre twice a side", (8192, 0, 8192), 4, BINOMIAL, 2),
    ("both diagonals 0", (9000, 0, 7000), 16, BINOMIAL, 3),
    ("both diagonals 0, equal sides (Round)", (8192, 0, 8192), 16, BINOMIAL, 2),
]


def shape_argument(shape):
    return (ctypes.c_int32 * 3)(*shape)


def runner(folder, library, name):
    """A form of the run, as a call from Python; left(..) is the picture that holds its last step."""
    function = getattr(ctypes.CDLL(f"{folder}/{library}.so"), name)
    function.argtypes = [ctypes.c_uint32, ctypes.c_void_p] + [ctypes.c_uint32] * 3 + [ctypes.c_void_p] * 2 + [ctypes.c_size_t]

    def call(shape, steps, first, second, repeats=1, choice=BINOMIAL):
        height, width = first.shape
        pictures = (first.ctypes.data, second.ctypes.data)
        code = function(choice, shape_argument(shape), steps, width, height, *pictures, repeats)
        if code != 0:
            sys.exit(f"{name} was refused: {code}")

    call.left = lambda steps, first, second: second if steps % 2 and name != "in_place" else first
    return call


def definition(image, weights, total):
    """One step as docs/REFERENCE.md has it (R1), in exact integers: the nearest pixel outside, nearest unit, halves up."""
    padded = numpy.pad(image.astype(object), 1, mode="edge")
    h, w = image.shape
    summed = sum(weights[3 * j + i] * padded[j : j + h, i : i + w] for j in range(3) for i in range(3))
    return ((2 * summed + total) // (2 * total)).astype(numpy.uint16)


def weights_of(shape, steps, choice=BINOMIAL):
    """The formulas K3 to K7 of docs/REFERENCE.md with the f of a choice; none where there is no kernel."""
    xx, xy, yy = shape
    m = 4096 * steps
    f = max(abs(xy), xx + yy - m)
    if f > min(xx, yy):
        return None
    if choice == BINOMIAL:
        f = min(max(f, -((m - xx - yy - max(xx, yy)) // 2)), min(xx, yy))
    a, b, c, d = f + xy, f - xy, 2 * (xx - f), 2 * (yy - f)
    return [a, d, b, c, 4 * (m - xx - yy + f), c, b, d, a]


def products(weights):
    """How many products the proved step makes for a pixel: equal diagonals are added first, then equal sides too, and a centre of twice
    a side is added to it twice."""
    diagonal, down, across, along, centre = weights[:5]
    corners = [diagonal] if diagonal == across else [diagonal, across]
    sides = [down] if down == along and diagonal == across else [down, along]
    joined = (diagonal != 0 and across != 0) and centre in (2 * down, 2 * along)
    return sum(weight != 0 for weight in corners + sides + [centre]) - (1 if joined and centre != 0 else 0)


def compare(runs):
    """Every form gives the definition's image, for random shapes, sides and pixels and by both choices, and for kernels of each kind."""
    pixels = numpy.random.default_rng(1)
    for title, shape, steps, choice, count in KINDS:
        if products(weights_of(shape, steps, choice)) != count:
            sys.exit(f"{title} is said to need {count} products: {weights_of(shape, steps, choice)}")
        for height, width in ((1, 1), (7, 5), (33, 31), (40, 97)):
            compare_one(runs, shape, steps, pixels.integers(0, 65536, (height, width), dtype=numpy.uint16), choice)
    random.seed(1)
    tried = 0
    while tried < 200:
        steps = random.randint(1, 9)
        xx, yy = random.randint(0, 4096 * steps), random.randint(0, 4096 * steps)
        shape = (xx, random.randint(-min(xx, yy), min(xx, yy)), yy)
        if weights_of(shape, steps) is None:
            continue
        tried += 1
        height, width = random.randint(1, 12), random.randint(1, 40)
        image = pixels.integers(0, 65536, (height, width), dtype=numpy.uint16)
        for choice in CHOICES:
            compare_one(runs, shape, steps, image, choice)


def compare_one(runs, shape, steps, image, choice):
    """Every form gives the definition's image of one shape and image by one choice."""
    wanted = image
    for _ in range(steps):
        wanted = definition(wanted, weights_of(shape, steps, choice), 16384 * steps)
    for name, run in runs.items():
        first, second = image.copy(), numpy.zeros_like(image)
        run(shape, steps, first, second, choice=choice)
        if not numpy.array_equal(run.left(steps, first, second), wanted):
            height, width = image.shape
            sys.exit(f"{name} differs from the definition: {width} x {height}, {shape}, {steps} steps, {CHOICES[choice]}")


def filtered(shape, steps, first, second, repeats=1):
    """The same run by filter2D, in its 32-bit floats."""
    weights = weights_of(shape, steps)
    matrix = (numpy.array(weights, dtype=numpy.float64) / (16384 * steps)).reshape(3, 3).astype(numpy.float32)
    for _ in range(repeats):
        for j in range(steps):
            source, target = (second, first) if j % 2 else (first, second)
            cv2.filter2D(source, -1, matrix, dst=target, borderType=cv2.BORDER_REPLICATE)


def measure(calls):
    """CPU time of each call in turn, round after round, so that all meet the same state of the machine."""
    times = {name: [] for name in calls}
    for _ in range(ROUNDS):
        for name, call in calls.items():
            began = time.clock_gettime_ns(time.CLOCK_PROCESS_CPUTIME_ID)
            call()
            times[name].append(time.clock_gettime_ns(time.CLOCK_PROCESS_CPUTIME_ID) - began)
    return times


def row(title, nanoseconds, unit, ratio, note=""):
    print(f"| {title} | {nanoseconds:.3f} | {unit} | {ratio:.2f} | {note} |")


def ratio_to(times, name, base):
    return statistics.median(t / own for t, own in zip(times[name], times[base]))


def smoothing(runs, width, height, steps, repeats, beside=True):
    """Each form beside the proved run, which is the first, and with them what is no form; answers all ratios."""
    source = numpy.random.default_rng(2).integers(0, 65536, (height, width), dtype=numpy.uint16)
    other = numpy.zeros_like(source)
    calls = {name: (lambda run=run: run(SHAPE, steps, source, other, repeats)) for name, run in runs.items()}
    titles = {name: title for name, _, _, title in FORMS if name in runs}
    if beside:
        add_others(runs, calls, titles, steps, source, other, repeats)
    times = measure(calls)
    work = width * height * steps * repeats
    ratios = {name: ratio_to(times, name, "proved") for name in calls}
    for name, title in titles.items():
        row(f"{width} × {height}: {title}", statistics.median(times[name]) / work, "ns a pixel and step", ratios[name])
    return ratios


def add_others(runs, calls, titles, steps, source, other, repeats):
    """The proved run by the other choice, where its kernel is another one, and filter2D, to the forms that are measured."""
    if weights_of(SHAPE, steps, SMALLEST) != weights_of(SHAPE, steps):
        calls["smallest"] = lambda: runs["proved"](SHAPE, steps, source, other, repeats, SMALLEST)
        titles["smallest"] = f"the proved run, {CHOICES[SMALLEST]}"
    if cv2 is not None:
        calls["filter2D"] = lambda: filtered(SHAPE, steps, source, other, repeats)
        titles["filter2D"] = f"OpenCV {cv2.__version__} filter2D, replicated border"


def kind_calls(runs, width, height, repeats):
    """A call of each of the runs by each kind of kernel, all over the same pictures, and the pixels and steps that it makes."""
    source = numpy.random.default_rng(4).integers(0, 65536, (height, width), dtype=numpy.uint16)
    other = numpy.zeros_like(source)
    calls, work = {}, {}
    for title, shape, steps, choice, _ in KINDS:
        work[title] = width * height * steps * max(repeats // steps, 1)
        for name, run in runs.items():
            calls[name, title] = lambda run=run, shape=shape, steps=steps, choice=choice: run(
                shape, steps, source, other, max(repeats // steps, 1), choice)
    return calls, work


def kinds(runs, width, height, repeats):
    """Kernels of each kind beside the first, and beside another version of the library where there is one."""
    calls, work = kind_calls(runs, width, height, repeats)
    times = measure(calls)
    slowest = []
    for title, _, _, _, count in KINDS:
        note = f"{count} products"
        if "other" in runs:
            gain = ratio_to(times, ("other", title), ("proved", title))
            slowest.append(gain)
            note += f"; the other version takes {gain:.2f} times as long"
        first = KINDS[0][0]
        ratio = statistics.median(t / work[title] / (b / work[first]) for t, b in zip(times["proved", title], times["proved", first]))
        row(f"{width} × {height}: {title}", statistics.median(times["proved", title]) / work[title], "ns a pixel and step", ratio, note)
    return min(slowest, default=None)


def kinds_in_place(runs, width, height, repeats):
    """Kernels of each kind within one picture, each beside the same between two, which is measured in turn with it."""
    calls, work = kind_calls(runs, width, height, repeats)
    times = measure(calls)
    ratios = []
    for title, *_ in KINDS:
        ratios.append(ratio_to(times, ("in place", title), ("proved", title)))
        between = statistics.median(times["proved", title]) / work[title]
        note = f"{between:.3f} between two"
        if "other in place" in runs:
            gain = ratio_to(times, ("other in place", title), ("in place", title))
            note += f"; the other version takes {gain:.2f} times as long within one"
        row(f"{width} × {height}, within one picture (beside between two): {title}",
            statistics.median(times["in place", title]) / work[title], "ns a pixel and step", ratios[-1], note)
    return min(ratios), max(ratios)


def kernels(library):
    """Kernels alone, by each choice: all that differs between the two before the pixels."""
    library.kernels.argtypes = [ctypes.c_uint32, ctypes.c_void_p, ctypes.c_uint32, ctypes.c_size_t]
    repeats = 10000
    shape = shape_argument(SHAPE)
    times = measure({choice: (lambda choice=choice: library.kernels(choice, shape, 4, repeats)) for choice in CHOICES})
    for choice, title in CHOICES.items():
        row(f"a kernel, {title}", statistics.median(times[choice]) / repeats, "ns a kernel", ratio_to(times, choice, BINOMIAL))


def tick_time(library, jobs, image):
    """Nanoseconds a tick, of so many full-size jobs, with their submits outside."""
    library.fill.argtypes = [ctypes.c_uint32, ctypes.c_void_p] + [ctypes.c_uint32] * 3 + [ctypes.c_void_p]
    if library.fill(jobs, shape_argument(SHAPE), 64, 32, 32, image.ctypes.data) != 0:
        sys.exit("a submit was refused")
    began = time.clock_gettime_ns(time.CLOCK_PROCESS_CPUTIME_ID)
    count = library.ticks()
    spent = time.clock_gettime_ns(time.CLOCK_PROCESS_CPUTIME_ID) - began
    if count != 64 * jobs:
        sys.exit(f"{count} ticks of {jobs} jobs")
    return spent / count


def service(library, proved, older):
    """Ticks of full-size jobs beside the bare step, which is a step of a run of 64 by the jobs' choice, and beside those of another
    version of the library where there is one."""
    image = numpy.random.default_rng(3).integers(0, 65536, (32, 32), dtype=numpy.uint16)
    other = numpy.zeros_like(image)
    shares = {}
    for jobs in (1, 2, 4, 8):
        spent, bare, before = [], [], []
        for _ in range(ROUNDS):
            spent.append(tick_time(library, jobs, image))
            began = time.clock_gettime_ns(time.CLOCK_PROCESS_CPUTIME_ID)
            proved(SHAPE, 64, image, other, jobs, SMALLEST)
            bare.append((time.clock_gettime_ns(time.CLOCK_PROCESS_CPUTIME_ID) - began) / (64 * jobs))
            if older is not None:
                before.append(tick_time(older, jobs, image))
        ratio = statistics.median(t / b for t, b in zip(spent, bare))
        shares[jobs] = 1 - 1 / ratio
        per_second = 1e9 / statistics.median(spent)
        note = f"{per_second:.0f} ticks a second, own share {100 * shares[jobs]:.1f} %"
        if older is not None:
            note += f"; the other version takes {statistics.median(b / t for b, t in zip(before, spent)):.2f} times as long"
        row(f"tick of a 32 × 32 job, {jobs} held (beside its bare step)", statistics.median(spent), "ns a tick", ratio, note)
    return max(shares.values())


def growth(proved):
    """Times for a pixel and step as pictures and step counts grow, beside the first of each."""
    for title, cases in (
        ("growth with pixels", [(64, 64, 8, 64), (256, 256, 8, 4), (1024, 1024, 8, 1)]),
        ("growth with steps", [(256, 256, 4, 8), (256, 256, 16, 2), (256, 256, 64, 1)]),
    ):
        pictures = {case: [numpy.zeros(case[1::-1], dtype=numpy.uint16) for _ in range(2)] for case in cases}
        calls = {case: (lambda case=case: proved(SHAPE, case[2], *pictures[case], case[3])) for case in cases}
        times = measure(calls)
        for case in cases:
            width, height, steps, repeats = case
            work = [c[0] * c[1] * c[2] * c[3] for c in (case, cases[0])]
            ratio = statistics.median(t / work[0] / (b / work[1]) for t, b in zip(times[case], times[cases[0]]))
            row(f"{title}: {width} × {height}, {steps} steps", statistics.median(times[case]) / work[0], "ns a pixel and step", ratio)


def conversions(library, text, called):
    """The longest N text with s to J, and back; many calls at a time, since each is short."""
    calls = 50
    back, again = ctypes.create_string_buffer(len(text) - 2), ctypes.create_string_buffer(len(text))
    arguments = [ctypes.c_char_p, ctypes.c_size_t, ctypes.c_void_p, ctypes.c_size_t]
    ways = [(library.vokhsaot_convert_n_to_j, text, back), (library.vokhsaot_convert_j_to_n, None, again)]
    for number, (convert, given, out) in enumerate(ways):
        convert.argtypes = arguments
        given = given or back.raw
        if convert(given, len(given), out, len(out)) != 0:
            sys.exit("the longest text does not convert")
        times = measure({"way": lambda: [convert(given, len(given), out, len(out)) for _ in range(calls)]})
        took = statistics.median(times["way"]) / calls
        row(["the same with s, from N to J: the call", "and back from J to N"][number], took / 1e6, "ms", took / called)
    if again.raw != text:
        sys.exit("the longest text does not come back to the same bytes")


def texts(library, program):
    """The longest text, by a call and by the program, start-up included."""
    rows = ("\t".join(["7"] * 90) + "\n") * 90
    text = ("N\t2048\t0\t2048\t64\t90\t90\tb\n" + rows).encode()
    text = text.replace(b"7\t7", b"10\t7", LONGEST_TEXT - len(text))
    if len(text) != LONGEST_TEXT:
        sys.exit(f"the longest text has {len(text)} bytes")
    out = ctypes.create_string_buffer(49240)
    library.texts.argtypes = [ctypes.c_char_p, ctypes.c_size_t, ctypes.c_void_p, ctypes.c_size_t]
    times = measure({"text": lambda: library.texts(text, len(text), out, 1)})
    called = statistics.median(times["text"])
    walls = []
    for _ in range(ROUNDS):
        began = time.perf_counter_ns()
        answer = subprocess.run([program], input=text, capture_output=True, check=True).stdout
        walls.append(time.perf_counter_ns() - began)
    if not answer.startswith(b"K\t") or answer.count(b"\n") != 2 + 90:
        sys.exit(f"the longest text was refused: {answer[:9]}")
    if not out.raw.startswith(answer):
        sys.exit("the call and the program answer the longest text otherwise")
    row(f"text of {len(text)} bytes, 64 steps: the call", called / 1e6, "ms", 1)
    row("the same by the program, start-up included, wall clock", statistics.median(walls) / 1e6, "ms", statistics.median(walls) / called)
    conversions(library, text.replace(b"\tb\n", b"\ts\n", 1), called)
    return statistics.median(walls) / 1e6


def main():
    if cv2 is not None:
        cv2.setNumThreads(1)
    folder, program = sys.argv[1:]
    runs = {name: runner(folder, library, function) for name, library, function, _ in FORMS}
    library = ctypes.CDLL(f"{folder}/vector.so")
    versions = {"proved": runs["proved"]}
    in_place = {name: runs[name] for name in ("proved", "in place")}
    older = None
    if os.path.exists(f"{folder}/other.so"):
        versions["other"] = runner(folder, "other", "proved")
        older = ctypes.CDLL(f"{folder}/other.so")
        if hasattr(older, "in_place"):
            in_place["other in place"] = runner(folder, "other", "in_place")
    compare(runs | versions | in_place)
    print(f"One run on {platform.machine()}, one thread, CPU time, medians of {ROUNDS} rounds; every form in turn in each round,")
    print("so that buffers are warm, and none is cleared between. A ratio is to the first row of its group.\n")
    print("| what | time | unit | ratio | |\n|---|---|---|---|---|")
    large, small = smoothing(runs, 1024, 1024, 4, 1), smoothing(runs, 32, 32, 16, 32)
    smoothing(runs, 1000, 3, 16, 8)
    own = {name: run for name, run in in_place.items() if name in runs}
    smoothing(own, 33, 33, 16, 32, beside=False)
    smoothing(own, 100, 100, 16, 4, beside=False)
    slowest = [kinds(versions, 1024, 1024, 4), kinds(versions, 32, 32, 512)]
    within = [kinds_in_place(in_place, 1024, 1024, 4), kinds_in_place(in_place, 32, 32, 512)]
    kernels(library)
    share = service(library, runs["proved"], older)
    slow = texts(library, program)
    growth(runs["proved"])
    fastest = min(large["indexed"], large["buffered"])
    print(f"\nthe faster C at gcc -O3 takes {fastest:.2f} times as long as the proved step (wanted: at least 1)")
    if "filter2D" in large:
        print(f"filter2D takes {large['filter2D']:.2f} times as long as the proved step (wanted: at least 2.3)")
    if older is not None:
        print(f"no kernel takes the other version less than {slowest[0]:.2f} times as long at 1024 × 1024, and {slowest[1]:.2f} at 32 × 32")
    for sides, ratios, (least, most) in (("1024 × 1024", large, within[0]), ("32 × 32", small, within[1])):
        print(f"within one picture a run takes {ratios['in place']:.2f} times as long as between two at {sides}, ", end="")
        print(f"by kernels of each kind {least:.2f} to {most:.2f}")
    print(f"the service's own share of a tick is at most {100 * share:.1f} % (wanted: under 10)")
    print(f"a full-size text takes {slow:.1f} ms, start-up included (wanted: under 20)")


main()
