#!/usr/bin/env python3
"""Ninety-one faults, one at a time, in a copy of the independent program: the comparison has to find each.

Usage: faults.py FOLDER, the folder that has libcapi.a. A fault counts as found where the test named beside it fails at a
comparison, in one of the test files or in the sentences of demand 3; a fault that the copy finds in itself does not.
"""

import os
import pathlib
import re
import shutil
import subprocess
import sys
import tempfile

# The two choices, with the one for a caller who names none, right and wrong.
SMALLEST = "    /// The smallest f with which no weight is negative (K9).\n"
DEFAULT = "    #[default]\n    Binomial,\n" + SMALLEST + "    Smallest,\n"
DEFAULT_SMALLEST = "    Binomial,\n" + SMALLEST + "    #[default]\n    Smallest,\n"

# The converter's checks, from J to N and from N to J.
J_LENGTH = "    require(out.len() == text.len() + 2, BAD_LENGTH)?;\n"
N_JOB = "    let job = parse(Format::N, text).ok_or(NOT_A_JOB)?;\n"
N_CHOICE = "    require(job.choice == Choice::Smallest, CANNOT_GO_BACK)?;\n"
N_LENGTH = "    require(out.len() + 2 == text.len(), BAD_LENGTH)?;\n"

# A run within one picture: its checks in order and its steps; a step's rows, and the pixels that it has overwritten.
COVARIANCE = "    let covariance = covariance(shape)?;\n"
STEPS = "    check_steps(steps)?;\n"
SIDES = "    check_sides(width, height)?;\n"
LENGTH = "    check_length(picture.len(), width, height)?;\n"
KERNEL = "    let kernel = kernel_by(choice, covariance, steps)?;\n"
STEP = "        step_in_place(&kernel, picture, width, height);\n"
ROWS = "        let rows = around(y, height);\n"
OLD = "        self.saved[self.saved.len() - back]\n"

# (what is wrong, file below reference/src, the text there, the text instead, the test that has to find it)
FAULTS = [
    ("halves go down", "smooth.rs", "(2 * sum + divisor) / (2 * divisor)", "(2 * sum + divisor - 1) / (2 * divisor)", "pictures"),
    ("an oval leans the wrong way", "shape.rs", "(long - short) * (c * s)", "(short - long) * (c * s)", "kernels"),
    ("4096 times a variance has its halves down", "shape.rs", "(2 * mantissa + d).div_euclid(2 * d)",
     "(2 * mantissa + d - 1).div_euclid(2 * d)", "kernels"),
    ("the picture outside wraps round", "smooth.rs", "y.clamp(0, i64::from(height) - 1)", "y.rem_euclid(i64::from(height))",
     "pictures"),
    ("a sign in the mixed difference", "difference.rs", "(-1, 1, -1), (1, -1, -1)", "(1, 1, -1), (-1, -1, -1)", "pictures"),
    ("the directional difference takes dy for dx", "difference.rs", "let dx = f64::from(difference_at(Difference::X",
     "let dx = f64::from(difference_at(Difference::Y", "pictures"),
    ("the seat last served is served again", "service.rs", "(1..=SLOTS)", "(0..SLOTS)", "service_lists"),
    ("a tick changes what lies past the picture", "service.rs", "    record.slots[i].steps_left -= 1;",
     "    store[target + slot.pixels().min(BUFFER_PIXELS - 1)] = 0;\n    record.slots[i].steps_left -= 1;", "service_lists"),
    ("two jobs of one number are in order", "service.rs", "        && numbers_differ\n", "        && (numbers_differ || true)\n",
     "service_lists"),
    ("a peak need not be as large as its diagonal neighbours", "extrema.rs", "*place != (x, y)", "place.0 == x || place.1 == y",
     "extrema"),
    ("a weight of 0 leaves the divisor at 1", "job_text.rs", "        return a | b;\n", "        return if b == 0 { 1 } else { a | b };\n", "texts"),
    ("the divisor's odd part is left in", "job_text.rs", "    a << twos\n", "    1 << twos\n", "texts"),
    ("the divisor is the sum's and the first weight's", "job_text.rs", "numbers.into_iter().fold(0, gcd)",
     "numbers.into_iter().take(2).fold(0, gcd)", "texts"),
    ("a leading zero is taken", "job_text.rs", "[first, ..] => *first != b'0' && digits", "[_, ..] => digits", "texts"),
    # Products that a kernel does not need, taken out where it needs them.
    ("a centre of twice a side counts once", "smooth.rs", "                .map(|((dx, dy), weight)| {\n",
     "                .map(|((dx, dy), mut weight)| {\n                    if (*dx, *dy) == (0, 0) && weight == 2 * kernel.weights[3] {\n"
     "                        weight /= 2;\n                    }\n", "products"),
    ("one of four equal corners is left out", "smooth.rs", "                .map(|((dx, dy), weight)| {\n",
     "                .map(|((dx, dy), mut weight)| {\n                    if (*dx, *dy) == (1, -1) && weight == kernel.weights[0] {\n"
     "                        weight = 0;\n                    }\n", "products"),
    # S-2's rule.
    ("the half is rounded down", "kernel.rs", "(twice + 1).div_euclid(2)", "twice.div_euclid(2)", "kernels"),
    ("where the half passes the smaller variance, the smallest f is taken", "kernel.rs", "smallest.max(half).min(xx.min(yy))",
     "if half > xx.min(yy) { smallest } else { smallest.max(half) }", "kernels"),
    ("no kernel where the half passes the smaller variance", "kernel.rs", "if !exists_as_before(xx, xy, yy, m) {",
     "if !exists_as_before(xx, xy, yy, m) || choice == Choice::Binomial && xx + yy + xx.max(yy) - m > 2 * xx.min(yy) {",
     "kernels"),
    ("the product of the paper's equation 83 stands for the sum", "kernel.rs", "let twice = xx + yy + xx.max(yy) - m;",
     "let twice = xx * yy / m + xx.max(yy) - m;", "kernels"),
    ("the smaller variance is counted twice", "kernel.rs", "let twice = xx + yy + xx.max(yy) - m;",
     "let twice = xx + yy + xx.min(yy) - m;", "kernels"),
    ("the choice is not looked at", "kernel.rs", "    match choice {\n", "    match Choice::Binomial {\n", "kernels"),
    # Who goes by which choice.
    ("no choice is the smallest one", "kernel.rs", DEFAULT, DEFAULT_SMALLEST, "pictures"),
    ("a text's pixels are of the smallest choice", "job_text.rs", "        job.choice,\n        Shape::Matrix",
     "        Choice::Smallest,\n        Shape::Matrix", "texts"),
    ("a text's pixels go by S-2's rule whatever it names", "job_text.rs", "        job.choice,\n        Shape::Matrix",
     "        Choice::Binomial,\n        Shape::Matrix", "texts"),
    ("a text's kernel line goes by S-2's rule whatever it names", "job_text.rs", "kernel_by(job.choice, job.covariance",
     "kernel_by(Choice::Binomial, job.covariance", "texts"),
    ("a submit that names no choice has the smallest", "service.rs", "named.unwrap_or_default()", "named.unwrap_or(Choice::Smallest)",
     "service_lists"),
    ("a submit keeps the smallest f for both choices", "service.rs", "let f = free_number_by(choice, xx",
     "let f = free_number_by(Choice::Smallest, xx", "service_lists"),
    ("a tick goes by the shape's f and not by the seat's", "service.rs", "let kernel = slot.kernel(record.rules);",
     "let kernel = kernel_by(Choice::default(), slot.covariance(), slot.steps);", "service_lists"),
    ("a job from before the change-over is held to S-2's rule", "lists.rs", "(Rules::Old, _) => Choice::Smallest,",
     "(Rules::Old, _) => Choice::Binomial,", "change_over"),
    ("a job is held to S-2's rule whatever its submit named", "lists.rs", "(Rules::New, Some(named)) => named,",
     "(Rules::New, Some(_)) => Choice::Binomial,", "service_lists"),
    # Which f is in order.
    ("only the f of a choice is in order", "service.rs", "        && slot.kernel(rules).is_ok()\n",
     "        && slot.kernel(rules).is_ok()\n        && (rules == Rules::Old || Choice::ALL.iter().any(|choice| slot.kernel(rules) == "
     "kernel_by(*choice, slot.covariance(), slot.steps)))\n", "service_lists"),
    ("an empty seat may keep an f", "service.rs", "            *slot == Slot::default()\n", "            Slot { f: 0, ..*slot } == Slot::default()\n",
     "service_lists"),
    ("f may be one more than the smaller variance", "kernel.rs", "any(|weight| *weight < 0)", "any(|weight| *weight < -2)", "service_lists"),
    # The change-over.
    ("the change-over writes the other f", "service.rs", "slot.f = slot.smallest_f();",
     "slot.f = unsigned(free_number_by(Choice::Binomial, slot.xx.into(), slot.xy.into(), slot.yy.into(), UNITS * i64::from(slot.steps)));",
     "change_over"),
    ("the change-over writes f 0", "service.rs", "slot.f = slot.smallest_f();", "slot.f = slot.smallest_f() * 0;", "change_over"),
    ("the change-over begins half done jobs again", "service.rs", "slot.f = slot.smallest_f();",
     "slot.f = slot.smallest_f();\n        slot.steps_left = slot.steps;", "change_over"),
    ("the change-over sets the named seats as at an opening", "service.rs", "    changed.rules = Rules::New;\n",
     "    changed.rules = Rules::New;\n    (changed.last_filled, changed.last_served) = (7, 7);\n", "change_over"),
    ("the change-over moves the turn back by a seat", "service.rs", "    changed.rules = Rules::New;\n",
     "    changed.rules = Rules::New;\n    changed.last_served = (changed.last_served + 7) % 8;\n", "change_over"),
    ("numbers begin again after the largest one held", "service.rs", "    changed.rules = Rules::New;\n",
     "    changed.rules = Rules::New;\n    changed.last_number = changed.slots.iter().map(|slot| slot.number).max().unwrap_or(0);\n",
     "change_over"),
    ("the change-over repairs a named seat", "service.rs", "    check_record(record)?;\n    let mut changed = *record;\n",
     "    let repaired = Record { last_served: record.last_served % 8, ..*record };\n    let record = &repaired;\n"
     "    check_record(record)?;\n    let mut changed = *record;\n", "change_over"),
    ("the change-over checks 9 before 2", "words.rs", "    let old = record_of(Rules::Old, old_words).ok_or(SERVICE_NOT_IN_ORDER)?;\n",
     "    require(words.len() == record_words(Rules::New), BAD_LENGTH)?;\n"
     "    let old = record_of(Rules::Old, old_words).ok_or(SERVICE_NOT_IN_ORDER)?;\n", "change_over"),
    # The choice of a text, and the two formats.
    ("b is taken for s", "job_text.rs", "b\"b\" => Some(Choice::Binomial)", "b\"b\" => Some(Choice::Smallest)", "texts"),
    ("sb is taken for s", "job_text.rs", "b\"s\" => Some", "[b's', ..] => Some", "texts"),
    ("S is taken for s", "job_text.rs", "b\"s\" => Some", "b\"s\" | b\"S\" => Some", "texts"),
    ("no letter is taken for b", "job_text.rs", "b\"b\" => Some", "b\"\" | b\"b\" => Some", "texts"),
    ("an N text may leave its choice out", "job_text.rs", "Format::N => named_choice(header.pop()?)?,",
     "Format::N if header.len() == 7 => Choice::Binomial,\n        Format::N => named_choice(header.pop()?)?,", "texts"),
    ("a text's letter is not looked at", "job_text.rs", "if letter != format.letter().as_bytes() {", "if letter.len() != 1 {", "texts"),
    ("the bench program takes a J", "job_text.rs", "    let outcome = parse(Format::N, text)\n",
     "    let outcome = parse(Format::N, text)\n        .or_else(|| parse(Format::J, text))\n", "texts"),
    ("a J text may have 16,386 bytes too", "job_text.rs", "Format::J => 16_384,", "Format::J => 16_386,", "texts"),
    ("an N text may have 16,384 bytes only", "job_text.rs", "Format::N => 16_386,", "Format::N => 16_384,", "texts"),
    ("an N text may have a byte more", "job_text.rs", "Format::N => 16_386,", "Format::N => 16_387,", "texts"),
    ("a text as long as may be is too long", "job_text.rs", "text.len() > format.max_text()", "text.len() >= format.max_text()", "texts"),
    # The converter.
    ("the converter gives an archived text b", "job_text.rs", "    out.copy_from_slice(&print(Format::N, &job));\n",
     "    out.copy_from_slice(&print(Format::N, &Job { choice: Choice::Binomial, ..job }));\n", "texts"),
    ("the converter takes a text with b back to J", "job_text.rs", N_CHOICE, "    let job = Job { choice: Choice::Smallest, ..job };\n", "texts"),
    ("the converter loses the last newline", "job_text.rs", "    out.copy_from_slice(&print(Format::J, &job));\n",
     "    let last = out.len() - 1;\n    out[..last].copy_from_slice(&print(Format::J, &job)[..last]);\n", "texts"),
    ("the converter checks 9 before 1", "job_text.rs", "    let job = parse(Format::J, text).ok_or(NOT_A_JOB)?;\n" + J_LENGTH,
     J_LENGTH + "    let job = parse(Format::J, text).ok_or(NOT_A_JOB)?;\n", "texts"),
    ("the converter checks 9 before 14", "job_text.rs", N_CHOICE + N_LENGTH, N_LENGTH + N_CHOICE, "texts"),
    ("the converter checks 14 before 1", "job_text.rs", N_JOB,
     "    let line_one = text.split(|byte| *byte == b'\\n').next();\n"
     "    require(!line_one.is_some_and(|line| line.ends_with(b\"\\tb\")), CANNOT_GO_BACK)?;\n" + N_JOB, "texts"),
    ("the converter checks 5", "job_text.rs", J_LENGTH, "    crate::error_code::check_steps(job.steps)?;\n" + J_LENGTH, "texts"),
    ("the converter checks 6", "job_text.rs", N_LENGTH, "    crate::error_code::check_sides(job.width, job.height)?;\n" + N_LENGTH, "texts"),
    ("the converter checks 11", "job_text.rs", J_LENGTH,
     "    require(kernel_by(job.choice, job.covariance, job.steps) != Err(11), 11)?;\n" + J_LENGTH, "texts"),
    ("a longer output is taken", "job_text.rs", J_LENGTH + "    out.copy_from_slice(",
     "    require(out.len() >= text.len() + 2, BAD_LENGTH)?;\n    out[..text.len() + 2].copy_from_slice(", "texts"),
    ("a shorter output is taken", "job_text.rs", N_LENGTH + "    out.copy_from_slice(&print(Format::J, &job));\n",
     "    require(out.len() + 2 <= text.len(), BAD_LENGTH)?;\n    out.copy_from_slice(&print(Format::J, &job)[..out.len()]);\n", "texts"),
    ("the converter has written when it answers 14", "job_text.rs", N_CHOICE,
     "    if let Some(byte) = out.first_mut() {\n        *byte = b'J';\n    }\n" + N_CHOICE, "texts"),
    ("the converter has written when it answers 9", "job_text.rs", J_LENGTH,
     "    for (byte, new) in out.iter_mut().zip(print(Format::N, &job)) {\n        *byte = new;\n    }\n" + J_LENGTH, "texts"),
    ("the converter has written when it answers 1", "job_text.rs", N_JOB,
     "    for (byte, read) in out.iter_mut().zip(text) {\n        *byte = *read;\n    }\n" + N_JOB, "texts"),
    # A run within one picture: which pixels a step reads there,
    ("the row above is read after it was overwritten", "in_place.rs", OLD,
     "        if back > 1 {\n            return self.picture[entry];\n        }\n" + OLD, "in_place"),
    ("the pixel to the left is read after it was overwritten", "in_place.rs", OLD,
     "        if back == 1 {\n            return self.picture[entry];\n        }\n" + OLD, "in_place"),
    ("the pixel above to the left is not kept", "in_place.rs", OLD,
     "        if back > 2 && back == self.saved.len() {\n            return self.picture[entry];\n        }\n" + OLD, "in_place"),
    ("a band is put before the one below it is made", "in_place.rs", "u64::from(sweep.old(row * width + column))",
     "u64::from(if row < y && y % (1024 / width) == 0 {\n                        sweep.picture[row * width + column]\n"
     "                    } else {\n                        sweep.old(row * width + column)\n                    })", "in_place"),
    ("the last column's right neighbour is the next row's first pixel", "in_place.rs", "            let columns = around(x, width);\n",
     "            let mut columns = around(x, width);\n            if x + 1 == width && y + 2 < height {\n"
     "                columns[2] += 1;\n            }\n", "in_place"),
    ("the last row reads the one above it for the one below", "in_place.rs", ROWS,
     "        let mut rows = around(y, height);\n        if y + 1 == height {\n            rows[2] = rows[0];\n        }\n", "in_place"),
    ("width and height are exchanged", "in_place.rs", "step_in_place(&kernel, picture, width, height);",
     "step_in_place(&kernel, picture, height, width);", "in_place"),
    # where it puts them,
    ("a picture of one row stays as it was", "in_place.rs", ROWS, "        if height == 1 {\n            break;\n        }\n" + ROWS, "in_place"),
    ("the last row stays as it was where there are others", "in_place.rs", ROWS,
     "        if height > 1 && y + 1 == height {\n            break;\n        }\n" + ROWS, "in_place"),
    ("the last row of the largest picture stays as it was", "in_place.rs", ROWS,
     "        if (y, width) == (1023, 1024) {\n            break;\n        }\n" + ROWS, "in_place"),
    ("the bands after the first are put one place late", "in_place.rs", STEP,
     STEP + "        let band = 1024 / width as usize * width as usize;\n        if band < picture.len() {\n"
     "            picture[band..].rotate_right(1);\n        }\n", "in_place"),
    # how often and by which kernel,
    ("a step more is made within one picture", "in_place.rs", "for _ in 0..steps {", "for _ in 0..=steps {", "in_place"),
    ("a step less is made of many", "in_place.rs", "for _ in 0..steps {", "for _ in steps / 64..steps {", "in_place"),
    ("a run within one picture does not look at its choice", "in_place.rs", KERNEL, KERNEL.replace("choice,", "Choice::Binomial,"), "in_place"),
    ("no choice is the smallest one within one picture", "in_place.rs", "Choice::default(),", "Choice::Smallest,", "in_place"),
    # and what it refuses.
    ("9 is answered for a longer picture only", "in_place.rs", LENGTH,
     "    if picture.len() < width as usize * height as usize {\n        return Ok(());\n    }\n" + LENGTH, "in_place"),
    ("of a longer picture the first pixels are smoothed", "in_place.rs", LENGTH,
     "    let most = picture.len().min(width as usize * height as usize);\n    let picture = &mut picture[..most];\n" + LENGTH, "in_place"),
    ("within one picture 11 is checked before 9", "in_place.rs", LENGTH + KERNEL, KERNEL + LENGTH, "in_place"),
    ("within one picture 9 is checked before 6", "in_place.rs", SIDES + LENGTH, LENGTH + SIDES, "in_place"),
    ("within one picture 6 is checked before 5", "in_place.rs", STEPS + SIDES, SIDES + STEPS, "in_place"),
    ("within one picture 5 is checked before 3 and 4", "in_place.rs", COVARIANCE + STEPS, STEPS + COVARIANCE, "in_place"),
    ("a picture that has no kernel is black when 11 is answered", "in_place.rs", KERNEL,
     KERNEL.replace("?;", ".inspect_err(|_| picture.fill(0))?;"), "in_place"),
    ("a pixel has changed when 9 is answered", "in_place.rs", LENGTH,
     LENGTH.replace("?;", ".inspect_err(|_| picture.iter_mut().take(1).for_each(|pixel| *pixel ^= 1))?;"), "in_place"),
    ("the picture is turned round when 6 is answered", "in_place.rs", SIDES, SIDES.replace("?;", ".inspect_err(|_| picture.reverse())?;"),
     "in_place"),
]


def main() -> int:
    library = str(pathlib.Path(sys.argv[1]).resolve())
    root = pathlib.Path(__file__).resolve().parents[2]
    missed = []
    with tempfile.TemporaryDirectory() as work:
        work = pathlib.Path(work)
        for part in ("reference", "rust"):
            shutil.copytree(root / part, work / part, ignore=shutil.ignore_patterns("target"))
        # incremental: a fault changes one file, and half of the time went into compiling the others again
        environment = dict(os.environ, VOKHSAOT_LIB_DIR=library, CARGO_TARGET_DIR=str(work / "target"), CARGO_INCREMENTAL="1")
        for name, file, right, wrong, test in FAULTS:
            path = work / "reference" / "src" / file
            text = path.read_text()
            if text.count(right) != 1:
                sys.exit(f"faults.py: the place of '{name}' is not in {file} once")
            path.write_text(text.replace(right, wrong))
            command = ["cargo", "test", "--release", "--offline", "--quiet", "--test", test]
            run = subprocess.run(command, cwd=work / "rust", env=environment, capture_output=True, text=True)
            path.write_text(text)
            compared = re.search(r"panicked at (tests/|.*/lists\.rs)", run.stdout + run.stderr)
            if run.returncode != 0 and compared:
                print(f"found: {name}")
            else:
                missed.append(name)
                print(f"NOT FOUND: {name}\n{run.stdout}{run.stderr}")
    print(f"{len(FAULTS) - len(missed)} of {len(FAULTS)} faults found")
    return 1 if missed else 0


if __name__ == "__main__":
    sys.exit(main())
