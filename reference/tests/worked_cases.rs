//! The pictures worked through in docs/REFERENCE.md, cases a to k: a and e by
//! both choices, that of a caller who names none and the smallest; the others
//! are the same for both.

use reference::job_text::answer;
use reference::kernel::{free_number_by, kernel_by, Choice, Covariance, Kernel, UNITS};
use reference::natural::Natural;
use reference::shape::Shape;
use reference::smooth::{exact_run, run, run_by, shown};

fn weights(choice: Choice, [xx, xy, yy]: [i32; 3], steps: u32) -> Result<[u64; 9], u8> {
    kernel_by(choice, Covariance { xx, xy, yy }, steps).map(|Kernel { weights, sum }| {
        assert_eq!(sum, 16384 * u64::from(steps));
        assert_eq!(sum, weights.iter().sum::<u64>());
        weights
    })
}

fn smoothed(choice: Choice, shape: Shape, steps: u32, width: u32, pixels: &[u16]) -> Vec<u16> {
    let height = pixels.len() as u32 / width;
    let mut first = pixels.to_vec();
    let mut second = vec![9999; pixels.len()];
    run_by(choice, shape, steps, width, height, &mut first, &mut second).unwrap();
    shown(steps, &first, &second).to_vec()
}

/// Case a's picture.
const BRIGHT: [u16; 9] = [0, 0, 0, 0, 1600, 0, 0, 0, 0];
/// Its pixels after the step, by S-2's rule and by the smallest choice.
const FILLED: [u16; 9] = [100, 200, 100, 200, 400, 200, 100, 200, 100];
const HOLLOW: [u16; 9] = [0, 400, 0, 400, 0, 400, 0, 400, 0];

#[test]
fn a_listing() {
    let text = b"N\t2048\t0\t2048\t1\t3\t3\tb\n0\t0\t0\n0\t1600\t0\n0\t0\t0\n";
    let printed = "K\t16\t1\t2\t1\t2\t4\t2\t1\t2\t1\nP\t3\t3\n\
                   100\t200\t100\n200\t400\t200\n100\t200\t100\n";
    assert_eq!(answer(text), printed.as_bytes());
    let text = b"N\t2048\t0\t2048\t1\t3\t3\ts\n0\t0\t0\n0\t1600\t0\n0\t0\t0\n";
    let printed = "K\t4\t0\t1\t0\t1\t0\t1\t0\t1\t0\nP\t3\t3\n\
                   0\t400\t0\n400\t0\t400\n0\t400\t0\n";
    assert_eq!(answer(text), printed.as_bytes());
    // The listing's text from before S-4 is no job any more.
    let text = b"J\t2048\t0\t2048\t1\t3\t3\n0\t0\t0\n0\t1600\t0\n0\t0\t0\n";
    assert_eq!(answer(text), b"R\t1\n");
}

#[test]
fn a_by_both_choices() {
    let sixteenths = [1, 2, 1, 2, 4, 2, 1, 2, 1].map(|weight| 1024 * weight);
    let quarters = [0, 1, 0, 1, 0, 1, 0, 1, 0].map(|weight| 4096 * weight);
    for (choice, expected, pixels) in [
        (Choice::Binomial, sixteenths, FILLED),
        (Choice::Smallest, quarters, HOLLOW),
    ] {
        assert_eq!(weights(choice, [2048, 0, 2048], 1), Ok(expected));
        let shape = Shape::matrix(2048, 0, 2048);
        assert_eq!(smoothed(choice, shape, 1, 3, &BRIGHT), pixels);
    }
    let (mut first, mut second) = (BRIGHT, [0; 9]);
    run(Shape::Round(0.5), 1, 3, 3, &mut first, &mut second).unwrap();
    assert_eq!((first, second), (BRIGHT, FILLED), "no choice is named");
}

#[test]
fn e_by_both_choices() {
    // Corner, above, corner; beside, centre, beside; and as above.
    for (choice, expected) in [
        (
            Choice::Binomial,
            [2049, 4094, 2049, 4096, 8192, 4096, 2049, 4094, 2049],
        ),
        (Choice::Smallest, [1, 8190, 1, 8192, 0, 8192, 1, 8190, 1]),
    ] {
        assert_eq!(weights(choice, [4097, 0, 4096], 2), Ok(expected));
    }
}

/// Name, covariance, steps, and the weights or the refusal.
type Row = (&'static str, [i32; 3], u32, Result<[u64; 9], u8>);

#[test]
fn the_other_kernels_are_as_they_were() {
    let only_centre = [0, 0, 0, 0, 16384, 0, 0, 0, 0];
    let only_corners = [4096, 0, 4096, 0, 0, 0, 4096, 0, 4096];
    let leaning = [2000, 0, 0, 0, 12384, 0, 0, 0, 2000];
    let only_beside = [0, 0, 0, 524_288, 0, 524_288, 0, 0, 0];
    let table: [Row; 10] = [
        ("b", [0, 0, 0], 1, Ok(only_centre)),
        ("c", [4096, 0, 4096], 1, Ok(only_corners)),
        ("d", [4097, 0, 4096], 1, Err(11)),
        ("f", [1000, 1000, 1000], 1, Ok(leaning)),
        ("g", [1000, 1001, 1000], 1, Err(11)),
        ("h", [-1, 0, 0], 1, Err(11)),
        ("i", [262_144, 0, 0], 64, Ok(only_beside)),
        ("i", [262_144, 0, 0], 65, Err(5)),
        (
            "j",
            [4096, 0, 0],
            1,
            Ok(only_beside.map(|weight| weight / 64)),
        ),
        ("determinant", [100, 150, 400], 1, Err(11)),
    ];
    for (name, shape, steps, expected) in table {
        for choice in Choice::ALL {
            assert_eq!(weights(choice, shape, steps), expected, "case {name}");
        }
    }
}

/// Each case's f: shape and steps, S-2's and the smallest.
#[test]
fn free_numbers_of_the_cases() {
    for (name, [xx, xy, yy], steps, binomial, smallest) in [
        ("a", [2048, 0, 2048], 1, 1024, 0),
        ("b", [0, 0, 0], 1, 0, 0),
        ("c", [4096, 0, 4096], 1, 4096, 4096),
        ("e", [4097, 0, 4096], 2, 2049, 1),
        ("f", [1000, 1000, 1000], 1, 1000, 1000),
        ("i", [262_144, 0, 0], 64, 0, 0),
        ("j", [4096, 0, 0], 1, 0, 0),
        // Half of 2051, which is odd: neither a nor e tells up from down.
        ("rounded up", [2049, 0, 2049], 1, 1026, 2),
        // The half, 2048, passes the smaller variance.
        ("never more", [4096, 0, 1], 1, 1, 1),
        ("never more", [3000, 0, 100], 1, 100, 0),
    ] {
        let m = UNITS * steps;
        let found = Choice::ALL.map(|choice| free_number_by(choice, xx, xy, yy, m));
        assert_eq!(found, [binomial, smallest], "{name}: {xx} {xy} {yy}");
    }
}

#[test]
fn b_prints_the_centre_only() {
    for text in [
        b"N\t0\t0\t0\t1\t1\t1\ts\n65535\n",
        b"N\t0\t0\t0\t1\t1\t1\tb\n65535\n",
    ] {
        assert_eq!(
            answer(text),
            b"K\t1\t0\t0\t0\t0\t1\t0\t0\t0\t0\nP\t1\t1\n65535\n"
        );
    }
}

#[test]
fn j_halves_go_up() {
    let shape = Shape::matrix(4096, 0, 0);
    for choice in Choice::ALL {
        assert_eq!(smoothed(choice, shape, 1, 2, &[0, 1]), [1, 1]);
    }
}

#[test]
fn k_brightness_is_not_kept() {
    let shape = Shape::matrix(1000, 1000, 1000);
    for choice in Choice::ALL {
        assert_eq!(
            smoothed(choice, shape, 1, 2, &[16384, 0, 0, 0]),
            [14384, 2000, 2000, 2000]
        );
    }
}

#[test]
fn rounding_each_step_is_not_rounding_the_end() {
    let picture = [0, 0, 1, 0, 0];
    let covariance = Covariance {
        xx: 4096,
        xy: 0,
        yy: 0,
    };
    for choice in Choice::ALL {
        // Half of a unit goes up in each step.
        assert_eq!(
            smoothed(choice, Shape::Matrix(covariance), 2, 5, &picture),
            picture
        );
        // The exact run ends below one half everywhere: it would be rounded to 0.
        let kernel = kernel_by(choice, covariance, 2).unwrap();
        let one = Natural::power(kernel.sum, 2);
        for whole in exact_run(&kernel, &picture, 5, 1, 2) {
            assert!(whole.times(2) < one);
        }
    }
}
