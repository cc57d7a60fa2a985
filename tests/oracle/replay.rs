//! Whole replays on both sides: the model over the Rust (replays.rs), and the Rattle's call `replay` of crate `console` from a
//! static library, on replays at limits and on random ones. Words: how many random ones with extends of kind 4 alone, which the
//! unchanged Rust has, and the seed; half as many besides mix kinds 4 and 5. Compares the refusal, its act and every byte lent,
//! with some bytes behind those. Writes how many were compared, with which Rust, and what was met. Fails where something differs,
//! where the unchanged Rust differs from the altered one in more than FTP, where a refusal, a kind, an FTP of either Rust or a record
//! with unread wasn't met, and where fewer than half are accepted.
use inputs::Random;
use replays::{Answer, Met, Replay, answer, limit_replays, mixed_replay, random_replay};

#[repr(C)]
struct Replayed {
    refusal: u32,
    act: u32,
}

#[link(name = "console", kind = "static")]
unsafe extern "C" {
    /// include/console.h has the same. A slice goes as its pointer and its length.
    safe fn replay(
        workout: *const u8,
        workout_len: usize,
        sheet: *const u8,
        sheet_len: usize,
        journal: u8,
        id: u32,
        start: u64,
        dated: u32,
        out: *mut u8,
        out_len: usize,
    ) -> Replayed;
}

/// So many bytes stand behind those lent, and stay.
const BEHIND: usize = 16;

/// Refusal, act, and the bytes lent with those behind them.
type Given = (u32, u32, Vec<u8>);

fn ours(input: &Replay, lent: &[u8]) -> Given {
    let mut out = lent.to_vec();
    let Replay { workout, sheet, journal, id, start, dated, room } = input;
    let given = replay(
        workout.as_ptr(),
        workout.len(),
        sheet.as_ptr(),
        sheet.len(),
        *journal,
        *id,
        *start,
        *dated,
        out.as_mut_ptr(),
        *room,
    );
    (given.refusal, given.act, out)
}

/// Refused, all bytes stay; accepted, those past the record.
fn judged(answer: &Answer, lent: &[u8]) -> Given {
    let mut out = lent.to_vec();
    if answer.refusal == 0 {
        out[..answer.record.len()].copy_from_slice(&answer.record);
    }
    (answer.refusal, answer.act, out)
}

/// Replays that differ are written out, so many of them.
const SHOWN: u64 = 3;

#[derive(Default)]
struct Tally {
    replays: u64,
    acts: u64,
    bytes: u64,
    different: u64,
}

fn compare(input: &Replay, random: &mut Random, tally: &mut Tally, met: &mut Met) {
    let lent: Vec<u8> = (0..input.room + BEHIND).map(|_| random.below(256) as u8).collect();
    let judged = judged(&answer(input, met), &lent);
    let ours = ours(input, &lent);
    tally.replays += 1;
    tally.acts += input.sheet.len() as u64 / 9;
    tally.bytes += lent.len() as u64;
    if ours == judged {
        return;
    }
    tally.different += 1;
    if tally.different <= SHOWN {
        println!("workout {:?}\nsheet {:?}", input.workout, input.sheet);
        println!("journal {}, id {}, start {}, dated {}", input.journal, input.id, input.start, input.dated);
        println!("lent {} bytes: {lent:?}\n  Rust   {judged:?}\n  Rattle {ours:?}", input.room);
    }
}

fn main() {
    let numbers: Vec<u64> = std::env::args().skip(1).map(|word| word.parse().expect("COUNT SEED")).collect();
    let [count, seed] = numbers[..] else { panic!("COUNT SEED") };
    let mut random = Random(seed);
    let (mut tally, mut met) = (Tally::default(), Met::default());
    let limits = limit_replays();
    let mixed = count / 2;
    limits.iter().for_each(|input| compare(input, &mut random, &mut tally, &mut met));
    let accepted = met.refused[0];
    for i in 0..count + mixed {
        let input = if i % 3 == 2 { mixed_replay(&mut random) } else { random_replay(&mut random) };
        compare(&input, &mut random, &mut tally, &mut met);
    }
    println!(
        "replays: {} at limits, {count} random, {mixed} that mix kinds 4 and 5, {} acts in their sheets, {} bytes lent, {} different",
        limits.len(),
        tally.acts,
        tally.bytes,
        tally.different
    );
    println!("accepted, then refused by 1 to 20: {:?}", met.refused);
    println!("{}", met.judged());
    println!("acts carried out (profile, read, ride, skip, kind 4, kind 5): {:?}", met.acts);
    println!("steps ended by riding (time, distance, open): {:?}", met.ended);
    println!("extends of kind 4 and of kind 5 (not extended, extended): {:?}", met.extended);
    println!(
        "accepted: finished (no, yes) {:?}, FTP (twenty, ramp) {:?}, dated (no, yes) {:?}, sheets of 1 and of 4,096 acts {:?}",
        met.finished, met.measured, met.dated, met.acts_limits
    );
    println!("records with unread above 0 (nothing targeted, targeted too): {:?}", met.unread);
    let missing = met.missing();
    if !missing.is_empty() {
        println!("not met: {missing:?}");
    }
    let few = 2 * (met.refused[0] - accepted) < count + mixed;
    if few {
        println!("fewer than half of the random ones are accepted");
    }
    std::process::exit((tally.different > 0 || !missing.is_empty() || few).into());
}
