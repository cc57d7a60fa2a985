//! The player on both sides: the Rust's, and the Rattle's of crate `compare_player` from a static library, on lists of calls at
//! limits and on random ones, each extend with the Rust's own amount; and the Rattle's alone, of players that no list of calls
//! reaches (`fields`). Other amounts are in amounts.rs. Workouts with more than one played test step are the altered Rust's for FTP,
//! its events and readout (played.rs). Some lists have their targeted and unread milliseconds written down (limits.rs). Words: how
//! many calls at least, and the seed. Writes how many calls and words were compared, with which Rust, and what was met. Fails where a
//! word differs, where the unchanged Rust differs from the altered one in another word, where a kind of call, event, length, target,
//! a length or target without its reading, a refusal, a failed ramp, or an FTP compared with either Rust wasn't met, where the
//! milliseconds aren't those written down, and where such a player isn't refused or played as the documents have it.
mod fields;
mod ours;

use inputs::Random;
use inputs::calls::{Play, limit_plays, random_play};
use inputs::limits;
use ours::ours;
use played::{Call, EXTEND, Met, WORDS, answer};

/// Lists that differ are written out up to the call after which they do, so many of them.
const SHOWN: u64 = 3;

#[derive(Default)]
struct Tally {
    lists: u64,
    calls: u64,
    words: u64,
    different: u64,
}

fn compare(play: &Play, tally: &mut Tally, met: &mut Met) {
    let judged = answer(&play.file, &play.calls, met);
    let ours = ours(&play.file, &play.calls);
    tally.lists += 1;
    tally.calls += play.calls.len() as u64;
    tally.words += judged.len() as u64;
    if ours == judged {
        return;
    }
    tally.different += 1;
    if tally.different <= SHOWN {
        let at = (0..judged.len()).find(|&at| ours[at] != judged[at]).unwrap();
        let (block, place) = (at / WORDS, at % WORDS);
        println!("file {:?}\ncalls {:?}", play.file, play.calls[..block].iter().map(Call::words).collect::<Vec<_>>());
        println!("  after {block} calls, word {place}: Rust {}, Rattle {}", judged[at], ours[at]);
    }
}

/// Places of the words after a call.
const TARGETED: usize = 6;
const UNREAD: usize = 16;

/// How many lists have their milliseconds written down, and in how many those after the last call are others.
fn written_down() -> [usize; 2] {
    let lists = limits::unread();
    let other = lists.iter().filter(|(play, wanted)| {
        let words = ours(&play.file, &play.calls);
        let last = &words[WORDS * play.calls.len()..];
        let given = [TARGETED, UNREAD].map(|place| last[place]);
        if given != *wanted {
            let calls: Vec<_> = play.calls.iter().map(Call::words).collect();
            println!("file {:?}\ncalls {calls:?}\n  targeted and unread {given:?}, not {wanted:?}", play.file);
        }
        given != *wanted
    });
    [lists.len(), other.count()]
}

fn main() {
    let numbers: Vec<u64> = std::env::args().skip(1).map(|word| word.parse().expect("CALLS SEED")).collect();
    let [count, seed] = numbers[..] else { panic!("CALLS SEED") };
    let mut random = Random(seed);
    let (mut tally, mut met) = (Tally::default(), Met::default());
    for play in limit_plays() {
        compare(&play, &mut tally, &mut met);
    }
    while tally.calls < count {
        compare(&random_play(&mut random), &mut tally, &mut met);
    }
    println!(
        "player: {} lists, {} calls, {} words compared, {} lists different",
        tally.lists, tally.calls, tally.words, tally.different
    );
    println!("{}", met.judged());
    println!("calls (read, ride, add, skip, extend with 60 s and 500 m): {:?}", &met.calls[..EXTEND as usize]);
    println!("accepted, then refused by 1 to 20: {:?}", met.refused);
    println!("events (countdown, started, finished, FTP): {:?}", met.events);
    println!("updates with more than 16 events: {}", met.many_events);
    println!("parts by length (time, distance, open): {:?}", met.lengths);
    println!("parts by target (0 to 7): {:?}", met.targets);
    println!("parts without a reading by length: {:?}, by target: {:?}", met.unread_lengths, met.unread_targets);
    println!("failed ramps: {}, finished: {}", met.failed_ramps, met.finished);
    let missing = met.missing();
    if !missing.is_empty() {
        println!("not met: {missing:?}");
    }
    let [lists, other] = written_down();
    println!("lists with targeted and unread written down: {lists}, {other} with others");
    let tried = fields::try_fields(ours, count / 100, &mut random);
    println!(
        "players with fields set: {} stand and are played, {} refused 20, {} not as the documents have it",
        tried.played, tried.refused, tried.wrong
    );
    let fields_fail = tried.wrong > 0 || tried.played == 0 || tried.refused == 0;
    std::process::exit((tally.different > 0 || !missing.is_empty() || other > 0 || fields_fail).into());
}
