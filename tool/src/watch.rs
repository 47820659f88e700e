//! Sees to it that a call of the service under test ends. The library's calls take microseconds; where one does not come
//! back, nothing can be done but to say so and to end.

use crate::files;
use crate::rules::{Difference, Rule};
use std::sync::atomic::{AtomicU64, Ordering};
use std::sync::{Mutex, Once, PoisonError};
use std::thread;
use std::time::Duration;

/// How often it is looked whether the same call is still under way, and how often in a row it may be. Looks are counted and not
/// the time: a machine that stands still for a while makes no call late.
const INTERVAL: Duration = Duration::from_millis(250);
const MOST_LOOKS: u32 = 20;
const SECONDS: u128 = INTERVAL.as_millis() * MOST_LOOKS as u128 / 1000;

/// The call of the list that is under way, from 1.
static CALL: AtomicU64 = AtomicU64::new(0);
/// How often the library was called, and came back: odd while it is at work.
static TURNS: AtomicU64 = AtomicU64::new(0);

/// What else is to be done and said where a call does not end.
type LastWords = Box<dyn Fn() -> String + Send>;
static LAST_WORDS: Mutex<Option<LastWords>> = Mutex::new(None);

/// What is to be done, and said, where a call does not end.
pub fn at_hang(action: impl Fn() -> String + Send + 'static) {
    let mut words = LAST_WORDS.lock().unwrap_or_else(PoisonError::into_inner);
    *words = Some(Box::new(action));
}

/// From here on messages speak of this call.
pub fn number(call: u64) {
    CALL.store(call, Ordering::Relaxed);
}

/// A call under way; it ends with this, by a panic too.
struct UnderWay;

impl UnderWay {
    fn new() -> UnderWay {
        TURNS.fetch_add(1, Ordering::Relaxed);
        UnderWay
    }
}

impl Drop for UnderWay {
    fn drop(&mut self) {
        TURNS.fetch_add(1, Ordering::Relaxed);
    }
}

/// Calls the library under watch.
pub fn over<T>(call: impl FnOnce() -> T) -> T {
    static WATCHED: Once = Once::new();
    WATCHED.call_once(|| _ = thread::spawn(watch));
    let _under_way = UnderWay::new();
    call()
}

fn watch() {
    let (mut last, mut looks) = (0, 0);
    while looks < MOST_LOOKS {
        thread::sleep(INTERVAL);
        let turns = TURNS.load(Ordering::Relaxed);
        looks = if turns % 2 == 1 && turns == last {
            looks + 1
        } else {
            0
        };
        last = turns;
    }
    let call = CALL.load(Ordering::Relaxed);
    let detail = format!("it did not end within {SECONDS} seconds");
    let difference = Difference::new(Rule::Ends, detail);
    let words = LAST_WORDS.lock().unwrap_or_else(PoisonError::into_inner);
    let more = words.as_ref().map(|action| action()).unwrap_or_default();
    let verdict = format!("verdict: BAD, call {call} did not end");
    // That nobody reads it changes nothing.
    let _ = files::print(format!("call {call}: {difference}\n{more}{verdict}\n").as_bytes());
    std::process::exit(1);
}
