//! Writes texts for the bench program to read: `texts FOLDER SEED COUNT`. Each
//! is a file `NUMBER.text`: listed texts that are no N jobs and jobs that are
//! refused; the fullest text, and texts of every length around the longest;
//! then jobs, damaged jobs, jobs with a wrong choice and archived ones.

use reference::generate::{
    damaged_text, fullest_text, random_text, text_of_length, texts_that_are_no_jobs,
    without_choice, written, LARGE_SIDES, LONG, REFUSED_JOBS,
};
use reference::job_text::Format;
use reference::kernel::Choice;
use reference::random::Random;
use std::process::ExitCode;
use std::{env, fs, io};

/// Those that every seed has.
fn listed() -> Vec<Vec<u8>> {
    let mut list = texts_that_are_no_jobs(Format::N);
    for choice in Choice::ALL {
        for (text, _) in REFUSED_JOBS {
            list.push(written(Format::N, choice, text));
        }
        list.push(fullest_text(Format::N, choice));
        for (length, sides) in LONG.zip(LARGE_SIDES.into_iter().cycle()) {
            list.push(text_of_length(Format::N, choice, sides, length));
        }
    }
    list
}

fn generated(random: &mut Random) -> Vec<u8> {
    let job = random_text(random, Format::N);
    match random.below(8) {
        0..=3 => job,
        4 | 5 => damaged_text(random, &job),
        6 => without_choice(random, &job),
        _ => random_text(random, Format::J),
    }
}

fn texts(seed: u64, count: usize) -> impl Iterator<Item = Vec<u8>> {
    let mut random = Random::new(seed);
    let others = std::iter::repeat_with(move || generated(&mut random));
    listed().into_iter().chain(others).take(count)
}

fn write(arguments: &[String]) -> Result<(), String> {
    let [folder, seed, count] = arguments else {
        return Err("usage: texts FOLDER SEED COUNT".to_string());
    };
    let seed = seed.parse().map_err(|_| "SEED is a whole number")?;
    let count = count.parse().map_err(|_| "COUNT is a whole number")?;
    let write_all = || -> io::Result<()> {
        fs::create_dir_all(folder)?;
        for (number, text) in texts(seed, count).enumerate() {
            fs::write(format!("{folder}/{number:06}.text"), text)?;
        }
        Ok(())
    };
    write_all().map_err(|error| format!("{folder}: {error}"))
}

fn main() -> ExitCode {
    let arguments: Vec<String> = env::args().skip(1).collect();
    match write(&arguments) {
        Ok(()) => ExitCode::SUCCESS,
        Err(message) => {
            eprintln!("texts: {message}");
            ExitCode::FAILURE
        }
    }
}
