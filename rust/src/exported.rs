//! The exported functions as C sees them. A lent slice is a pointer and a length. A choice is a number: 1 is the choice
//! "smallest", every other one the choice "binomial".

extern "C" {
    pub fn vokhsaot_opening(words: *mut u64, words_len: usize) -> u32;
    pub fn vokhsaot_submit_matrix_by(
        words: *mut u64,
        words_len: usize,
        store: *mut u16,
        store_len: usize,
        choice: u32,
        xx: i32,
        xy: i32,
        yy: i32,
        steps: u32,
        width: u32,
        height: u32,
        pixels: *const u16,
        pixels_len: usize,
        number: *mut u64,
    ) -> u32;
    pub fn vokhsaot_submit_round_by(
        words: *mut u64,
        words_len: usize,
        store: *mut u16,
        store_len: usize,
        choice: u32,
        variance: f64,
        steps: u32,
        width: u32,
        height: u32,
        pixels: *const u16,
        pixels_len: usize,
        number: *mut u64,
    ) -> u32;
    pub fn vokhsaot_submit_oval_by(
        words: *mut u64,
        words_len: usize,
        store: *mut u16,
        store_len: usize,
        choice: u32,
        long_variance: f64,
        short_variance: f64,
        cosine: f64,
        sine: f64,
        steps: u32,
        width: u32,
        height: u32,
        pixels: *const u16,
        pixels_len: usize,
        number: *mut u64,
    ) -> u32;
    pub fn vokhsaot_tick(
        words: *mut u64,
        words_len: usize,
        store: *mut u16,
        store_len: usize,
        number: *mut u64,
    ) -> u32;
    pub fn vokhsaot_collect(
        words: *mut u64,
        words_len: usize,
        store: *const u16,
        store_len: usize,
        job: u64,
        picture: *mut u16,
        picture_len: usize,
        number: *mut u64,
    ) -> u32;
    pub fn vokhsaot_withdraw(words: *mut u64, words_len: usize, job: u64, number: *mut u64) -> u32;
    pub fn vokhsaot_free_count(words: *const u64, words_len: usize, count: *mut u32) -> u32;
    pub fn vokhsaot_change_over(
        old_words: *const u64,
        old_words_len: usize,
        words: *mut u64,
        words_len: usize,
    ) -> u32;
    pub fn vokhsaot_covariance_round(variance: f64, entries: *mut i32, entries_len: usize) -> u32;
    pub fn vokhsaot_covariance_oval(
        long_variance: f64,
        short_variance: f64,
        cosine: f64,
        sine: f64,
        entries: *mut i32,
        entries_len: usize,
    ) -> u32;
    pub fn vokhsaot_kernel_matrix_by(
        choice: u32,
        xx: i32,
        xy: i32,
        yy: i32,
        steps: u32,
        weights: *mut u64,
        weights_len: usize,
    ) -> u32;
    pub fn vokhsaot_kernel_round_by(
        choice: u32,
        variance: f64,
        steps: u32,
        weights: *mut u64,
        weights_len: usize,
    ) -> u32;
    pub fn vokhsaot_kernel_oval_by(
        choice: u32,
        long_variance: f64,
        short_variance: f64,
        cosine: f64,
        sine: f64,
        steps: u32,
        weights: *mut u64,
        weights_len: usize,
    ) -> u32;
    pub fn vokhsaot_run_matrix_by(
        choice: u32,
        xx: i32,
        xy: i32,
        yy: i32,
        steps: u32,
        width: u32,
        height: u32,
        first: *mut u16,
        first_len: usize,
        second: *mut u16,
        second_len: usize,
    ) -> u32;
    pub fn vokhsaot_run_round_by(
        choice: u32,
        variance: f64,
        steps: u32,
        width: u32,
        height: u32,
        first: *mut u16,
        first_len: usize,
        second: *mut u16,
        second_len: usize,
    ) -> u32;
    pub fn vokhsaot_run_oval_by(
        choice: u32,
        long_variance: f64,
        short_variance: f64,
        cosine: f64,
        sine: f64,
        steps: u32,
        width: u32,
        height: u32,
        first: *mut u16,
        first_len: usize,
        second: *mut u16,
        second_len: usize,
    ) -> u32;
    pub fn vokhsaot_run_in_place_matrix_by(
        choice: u32,
        xx: i32,
        xy: i32,
        yy: i32,
        steps: u32,
        width: u32,
        height: u32,
        picture: *mut u16,
        picture_len: usize,
    ) -> u32;
    pub fn vokhsaot_run_in_place_round_by(
        choice: u32,
        variance: f64,
        steps: u32,
        width: u32,
        height: u32,
        picture: *mut u16,
        picture_len: usize,
    ) -> u32;
    pub fn vokhsaot_run_in_place_oval_by(
        choice: u32,
        long_variance: f64,
        short_variance: f64,
        cosine: f64,
        sine: f64,
        steps: u32,
        width: u32,
        height: u32,
        picture: *mut u16,
        picture_len: usize,
    ) -> u32;
    pub fn vokhsaot_shown(steps: u32, picture: *mut u32) -> u32;
    pub fn vokhsaot_first_x(
        pixels: *const u16,
        pixels_len: usize,
        width: u32,
        height: u32,
        result: *mut i32,
        result_len: usize,
    ) -> u32;
    pub fn vokhsaot_first_y(
        pixels: *const u16,
        pixels_len: usize,
        width: u32,
        height: u32,
        result: *mut i32,
        result_len: usize,
    ) -> u32;
    pub fn vokhsaot_second_x(
        pixels: *const u16,
        pixels_len: usize,
        width: u32,
        height: u32,
        result: *mut i32,
        result_len: usize,
    ) -> u32;
    pub fn vokhsaot_second_y(
        pixels: *const u16,
        pixels_len: usize,
        width: u32,
        height: u32,
        result: *mut i32,
        result_len: usize,
    ) -> u32;
    pub fn vokhsaot_mixed(
        pixels: *const u16,
        pixels_len: usize,
        width: u32,
        height: u32,
        result: *mut i32,
        result_len: usize,
    ) -> u32;
    pub fn vokhsaot_directional(
        cosine: f64,
        sine: f64,
        pixels: *const u16,
        pixels_len: usize,
        width: u32,
        height: u32,
        result: *mut f64,
        result_len: usize,
    ) -> u32;
    pub fn vokhsaot_pixel(
        pixels: *const u16,
        pixels_len: usize,
        width: u32,
        height: u32,
        column: i32,
        row: i32,
        pixel: *mut u16,
    ) -> u32;
    pub fn vokhsaot_answer_text(
        text: *const u8,
        text_len: usize,
        out: *mut u8,
        out_len: usize,
        length: *mut usize,
    ) -> u32;
    pub fn vokhsaot_convert_j_to_n(
        text: *const u8,
        text_len: usize,
        out: *mut u8,
        out_len: usize,
    ) -> u32;
    pub fn vokhsaot_convert_n_to_j(
        text: *const u8,
        text_len: usize,
        out: *mut u8,
        out_len: usize,
    ) -> u32;
}

#[cfg(test)]
mod tests {
    use super::*;

    /// Numbers of a choice: the two that are named, the next, and others up to the largest.
    const NUMBERS: [u32; 8] = [0, 1, 2, 7, 255, 256, 1 << 31, u32::MAX];

    /// One bright pixel, after a step of variances 1/2 by each choice.
    const BRIGHT: [u16; 9] = [0, 0, 0, 0, 1600, 0, 0, 0, 0];
    const FILLED: [u16; 9] = [100, 200, 100, 200, 400, 200, 100, 200, 100];
    const HOLLOW: [u16; 9] = [0, 400, 0, 400, 0, 400, 0, 400, 0];

    /// Of kernels that were written by the number of a choice: the weight in the centre.
    fn centres(choice: u32) -> [u64; 3] {
        let mut kernels = [[0; 10]; 3];
        let [matrix, round, oval] = kernels.each_mut().map(|numbers| numbers.as_mut_ptr());
        // SAFETY: each pointer stands with the length of its own array.
        let codes = unsafe {
            [
                vokhsaot_kernel_matrix_by(choice, 2048, 0, 2048, 1, matrix, 10),
                vokhsaot_kernel_round_by(choice, 0.5, 1, round, 10),
                vokhsaot_kernel_oval_by(choice, 0.5, 0.5, 1.0, 0.0, 1, oval, 10),
            ]
        };
        assert_eq!(codes, [0; 3]);
        assert_eq!(kernels.map(|numbers| numbers[0]), [16384; 3]);
        kernels.map(|numbers| numbers[5])
    }

    /// The second pictures of three runs by the number of a choice.
    fn pictures(choice: u32) -> [[u16; 9]; 3] {
        let mut firsts = [BRIGHT; 3];
        let mut seconds = [[0; 9]; 3];
        let [a, b, c] = firsts.each_mut().map(|pixels| pixels.as_mut_ptr());
        let [x, y, z] = seconds.each_mut().map(|pixels| pixels.as_mut_ptr());
        // SAFETY: each pointer stands with the length of its own array, and none of them overlap.
        let codes = unsafe {
            [
                vokhsaot_run_matrix_by(choice, 2048, 0, 2048, 1, 3, 3, a, 9, x, 9),
                vokhsaot_run_round_by(choice, 0.5, 1, 3, 3, b, 9, y, 9),
                vokhsaot_run_oval_by(choice, 0.5, 0.5, 1.0, 0.0, 1, 3, 3, c, 9, z, 9),
            ]
        };
        assert_eq!(codes, [0; 3]);
        assert_eq!(firsts, [BRIGHT; 3]);
        seconds
    }

    /// What three runs within one picture leave in it, by the number of a choice.
    fn pictures_in_place(choice: u32) -> [[u16; 9]; 3] {
        let mut pictures = [BRIGHT; 3];
        let [a, b, c] = pictures.each_mut().map(|pixels| pixels.as_mut_ptr());
        // SAFETY: each pointer stands with the length of its own array.
        let codes = unsafe {
            [
                vokhsaot_run_in_place_matrix_by(choice, 2048, 0, 2048, 1, 3, 3, a, 9),
                vokhsaot_run_in_place_round_by(choice, 0.5, 1, 3, 3, b, 9),
                vokhsaot_run_in_place_oval_by(choice, 0.5, 0.5, 1.0, 0.0, 1, 3, 3, c, 9),
            ]
        };
        assert_eq!(codes, [0; 3]);
        pictures
    }

    /// 1 is the choice "smallest"; no other number is, nor is any refused.
    #[test]
    fn numbers_of_a_choice() {
        for choice in NUMBERS {
            let (centre, picture) = match choice {
                1 => (0, HOLLOW),
                _ => (4096, FILLED),
            };
            assert_eq!(centres(choice), [centre; 3], "{choice}");
            assert_eq!(pictures(choice), [picture; 3], "{choice}");
            assert_eq!(pictures_in_place(choice), [picture; 3], "{choice}");
        }
    }

    /// Which picture is shown is 0 or 1 by the steps' parity; where the steps are refused, the number keeps its value.
    #[test]
    fn pictures_shown() {
        for steps in (0..=130).chain([255, 256, 1 << 31, u32::MAX]) {
            let mut picture = 7;
            // SAFETY: the pointer is of a number of its own.
            let code = unsafe { vokhsaot_shown(steps, &mut picture) };
            let expected = if (1..=64).contains(&steps) {
                (0, steps % 2)
            } else {
                (5, 7)
            };
            assert_eq!((code, picture), expected, "{steps}");
        }
    }

    /// A number that names no choice is refused for nothing else than the others are, and nothing is written.
    #[test]
    fn refusals_by_any_number() {
        for choice in NUMBERS {
            let mut numbers = [7; 10];
            let (mut first, mut second) = ([8; 4], [9; 4]);
            let (n, a, b) = (
                numbers.as_mut_ptr(),
                first.as_mut_ptr(),
                second.as_mut_ptr(),
            );
            // SAFETY: each pointer stands with the length of its own array or with a smaller one, and none of them overlap.
            let codes = unsafe {
                [
                    vokhsaot_kernel_round_by(choice, -1.0, 0, n, 9),
                    vokhsaot_kernel_oval_by(choice, 0.5, 0.5, 1.0, 1.0, 0, n, 9),
                    vokhsaot_kernel_matrix_by(choice, 0, 1, 0, 0, n, 9),
                    vokhsaot_kernel_matrix_by(choice, 0, 1, 0, 1, n, 9),
                    vokhsaot_kernel_matrix_by(choice, 0, 1, 0, 1, n, 10),
                    vokhsaot_run_round_by(choice, f64::NAN, 0, 0, 0, a, 3, b, 3),
                    vokhsaot_run_oval_by(choice, 0.5, 0.5, 0.0, 0.0, 0, 0, 0, a, 3, b, 3),
                    vokhsaot_run_matrix_by(choice, 0, 1, 0, 65, 0, 0, a, 3, b, 3),
                    vokhsaot_run_matrix_by(choice, 0, 1, 0, 64, 0, 2, a, 3, b, 3),
                    vokhsaot_run_matrix_by(choice, 0, 1, 0, 64, 2, 2, a, 4, b, 3),
                    vokhsaot_run_matrix_by(choice, 0, 1, 0, 64, 2, 2, a, 4, b, 4),
                    vokhsaot_run_in_place_round_by(choice, f64::NAN, 0, 0, 0, a, 3),
                    vokhsaot_run_in_place_oval_by(choice, 0.5, 0.5, 0.0, 0.0, 0, 0, 0, a, 3),
                    vokhsaot_run_in_place_matrix_by(choice, 0, 1, 0, 65, 0, 0, a, 3),
                    vokhsaot_run_in_place_matrix_by(choice, 0, 1, 0, 64, 0, 2, a, 3),
                    vokhsaot_run_in_place_matrix_by(choice, 0, 1, 0, 64, 2, 2, a, 3),
                    vokhsaot_run_in_place_matrix_by(choice, 0, 1, 0, 64, 2, 2, a, 4),
                ]
            };
            let expected = [
                3, 4, 5, 9, 11, // kernels
                3, 4, 5, 6, 9, 11, // runs between two pictures
                3, 4, 5, 6, 9, 11, // within one
            ];
            assert_eq!(codes, expected, "{choice}");
            assert_eq!((numbers, first, second), ([7; 10], [8; 4], [9; 4]));
        }
    }
}
