//! Lists of calls whose rides are cut at random: the Rattle's player of crate `compare_cut`, from a static library, against
//! document 01's millisecond machine (machine.rs), call by call of the cut list for refusals, and after each call of the uncut
//! list for the record's fields and the started, finished and FTP events given so far; and the Rust's player on what isn't refused
//! of the cut list: the altered one in every list, the unchanged one too until an extend comes that it hasn't, without FTP and its
//! events where more than one test step is played. A third of the lists mix the extends: with 60 s and 500 m, plain, with any
//! amount; the others have the first alone. A sixth are rides to the end of short tests. Rides and skips are lent exactly the
//! places that question 14 wants then, one fewer in either array, more, 193, or none. Words: how many lists, and the seed. Fails on
//! a difference, and where a refusal, a kind of event, an extend of each kind accepted and refused by 15, a call with exact arrays,
//! before the finish and after it, a call after which something is unread, a cut ride that adds to that, an FTP in a list with at most
//! one played test step, or two different ones in one with more wasn't met. The layout of calls and words is in cut.rs.
mod cut;
mod machine;

use cut::{Beside, Call, EXACT, Lent, MOST, UNREAD, Words, check_word, feed, machine_words, ours, places_of, words_of};
use inputs::Random;
use machine::{Event, Machine};
use players::{Altered, Amount, LONG, Player, Unchanged, compared_for_ftp};
use vana::ride::{log::Sample, zones::TrainingProfile};
use vana::workout::codec;
use vana::workout::model::{Block, Intensity, Length, Step, Target, Test, Workout};

/// The kind of an FTP event.
const FTP: u32 = 3;
/// Places of words: the check word of the events, targeted, and FTP.
const CHECK: usize = 0;
const TARGETED: usize = 1;
const FTP_WORD: usize = 5;

/// The kinds of extends that are counted: with the Rust's own amount, plain, with another.
const EXTENDS: usize = 3;

impl Call {
    fn extends(&self) -> Option<usize> {
        match self {
            Call::Extend(amount) if *amount == LONG => Some(0),
            Call::ExtendDefault => Some(1),
            Call::Extend(_) => Some(2),
            _ => None,
        }
    }
}

/// The same without FTP and its events.
fn but_for_ftp(mut words: Words, events: &[Event]) -> Words {
    let others: Vec<Event> = events.iter().copied().filter(|&(kind, _)| kind != FTP).collect();
    words[CHECK] = check_word(&others);
    words[FTP_WORD] = 0;
    words
}

impl<P: Player> Beside<P> {
    fn words_but_for_ftp(&self) -> Words {
        but_for_ftp(self.words(), &self.events)
    }
}

fn ftps(events: &[Event]) -> Vec<u32> {
    events.iter().filter(|(kind, _)| *kind == FTP).map(|&(_, watts)| watts).collect()
}

fn step(random: &mut Random) -> Step {
    let intensity = if random.below(2) == 0 { Intensity::Test } else { Intensity::ALL[random.below(5) as usize] };
    let length = match random.below(6) {
        0 => Length::Open,
        1 => Length::Time([1, 2, 3, 60, 61, 120][random.below(6) as usize]),
        _ => Length::Time(1 + random.below(90) as u16),
    };
    let low = random.below(60);
    let target = match random.below(6) {
        0 => Target::Free,
        1 => Target::Ftp { low: 40 + low as u8, high: 101 + low as u8 },
        2 => Target::Watts { low: 60 + low as u16, high: 150 + low as u16 },
        3 => Target::HeartZone(1 + random.below(5) as u8),
        4 => Target::Lthr { low: 40 + low as u8, high: 101 + low as u8 },
        _ => Target::Cadence { low: 40 + low as u8, high: 101 + low as u8 },
    };
    Step::new(intensity, length, target)
}

fn workout(random: &mut Random) -> Workout {
    let count = 1 + random.below(6);
    let steps: Vec<Step> = (0..count).map(|_| step(random)).collect();
    let first = random.below(count);
    let block =
        Block { first: first as u8, len: (1 + random.below(count - first)) as u8, count: 1 + random.below(6) as u8 };
    let blocks = if random.below(2) == 0 { vec![block] } else { vec![] };
    let mut workout = Workout::new("CUT", &steps, &blocks, None);
    workout.test = [None, Some(Test::Twenty), Some(Test::Ramp)][random.below(3) as usize];
    assert!(workout.validate().is_ok());
    workout
}

/// Short tests, some with others between them.
fn tests(random: &mut Random) -> Workout {
    let steps: Vec<Step> = (0..1 + random.below(4))
        .map(|_| {
            let intensity = if random.below(4) == 0 { Intensity::Recovery } else { Intensity::Test };
            let secs =
                if random.below(2) == 0 { [59, 60, 61, 120][random.below(4) as usize] } else { 1 + random.below(130) };
            Step::new(intensity, Length::Time(secs as u16), Target::Free)
        })
        .collect();
    Workout::new("TESTS", &steps, &[], Some([Test::Twenty, Test::Ramp][random.below(2) as usize]))
}

/// Two ramp tests that a skip ends.
fn open_tests() -> Workout {
    let step = Step::new(Intensity::Test, Length::Open, Target::Free);
    Workout::new("OPEN TESTS", &[step, step], &[], Some(Test::Ramp))
}

/// Each reading absent once in so many.
fn sample(random: &mut Random, base: u32, absent: u32) -> Sample {
    let some = |random: &mut Random, value: u32| match random.below(9) {
        _ if random.below(absent) == 0 => None,
        0 => Some([0, 1, 65_530, 65_531, 65_535][random.below(5) as usize]),
        _ => Some(value as u16),
    };
    let (power, heart, cadence) = (base + random.below(60), 80 + random.below(110), 400 + random.below(800));
    Sample { power_watts: some(random, power), heart_bpm: some(random, heart), cadence_tenths: some(random, cadence) }
}

/// Numbers of one sum: some of them 0, and in no order.
fn parts(random: &mut Random, total: u64, count: usize) -> Vec<u64> {
    let mut cuts: Vec<u64> = (1..count)
        .map(|_| if random.below(4) == 0 { 0 } else { u64::from(random.below(1_000_001)) * total / 1_000_000 })
        .collect();
    cuts.sort_unstable();
    cuts.insert(0, 0);
    cuts.push(total);
    cuts.windows(2).map(|pair| pair[1] - pair[0]).collect()
}

fn lent(random: &mut Random) -> Lent {
    match random.below(36) {
        0 => Lent::Wanted([-1, 0]),
        1 => Lent::Wanted([0, -1]),
        2 => Lent::Wanted([-2, 7]),
        3 => Lent::Places([193, 0]),
        4 => Lent::Places([0, 0]),
        5 => Lent::Wanted([7, 0]),
        6..12 => MOST,
        _ => EXACT,
    }
}

/// Far rides come to question 13 soon.
fn ride(random: &mut Random, far: bool) -> Call {
    // hours are few: the machine goes through each of their milliseconds
    let ms = match random.below(2_000) {
        0 => u64::from(random.below(3)) * 50_000_000,
        1 => 86_400_000 + u64::from(random.below(3)),
        2 => 604_800_000,
        x if x < 1_000 => u64::from(random.below(3_000)),
        x if x < 1_800 => u64::from(random.below(90_000)),
        _ => u64::from(random.below(300_000)),
    };
    let mm = match random.below(12) {
        0 => 0,
        1 => 1_000_000_000,
        2 => 1_500_000_000,
        3 => 4_000_000_000,
        _ => ms * u64::from(random.below(12)),
    };
    let mm = mm.min(4_294_967_295);
    let count = 1 + random.below(5) as usize;
    let ways = if far { vec![900_000_000; count] } else { parts(random, mm, count) };
    let pieces = parts(random, ms, count).into_iter().zip(ways).collect();
    Call::Ride(pieces, lent(random))
}

/// Any amount: about question 15's limit, sums that wrap in 32 bits, small or any.
fn amount(random: &mut Random) -> Amount {
    const SECS: [u32; 13] =
        [0, 1, 30, 59, 60, 86_370, 86_399, 86_400, 86_401, 4_294_880_896, 4_294_967_235, 4_294_967_236, 4_294_967_295];
    let any = |random: &mut Random| random.below(65_536) << 16 | random.below(65_536);
    let secs = match random.below(8) {
        0..3 => SECS[random.below(13) as usize],
        3 => any(random),
        _ => random.below(200),
    };
    Amount { secs, metres: any(random) }
}

/// The Rust's own, or of any kind where they are mixed.
fn extend(random: &mut Random, mixed: bool) -> Call {
    if !mixed {
        return Call::Extend(LONG);
    }
    match random.below(3) {
        0 => Call::Extend(LONG),
        1 => Call::ExtendDefault,
        _ => Call::Extend(amount(random)),
    }
}

fn list(random: &mut Random, mixed: bool) -> Vec<Call> {
    let base = 20 + random.below(500);
    let (tame, far) = (random.below(3) == 0, random.below(6) == 0);
    // Some with loose straps, so that the average of three comes and goes too.
    let absent = if random.below(4) == 0 { 2 } else { 9 };
    (0..1 + random.below(14))
        .map(|_| match random.below(10) {
            0 => Call::Skip(if tame { EXACT } else { lent(random) }),
            1 => extend(random, mixed),
            2 if mixed => extend(random, mixed),
            2..5 => Call::Read(loop {
                let sample = sample(random, base, absent);
                if !tame || sample.cadence_tenths.is_none_or(|tenths| tenths <= 65_530) {
                    break sample;
                }
            }),
            _ => match ride(random, far) {
                Call::Ride(pieces, _) if tame => {
                    Call::Ride(pieces.into_iter().map(|(ms, mm)| (ms % 90_000, mm % 1_000_000)).collect(), EXACT)
                }
                ride => ride,
            },
        })
        .collect()
}

fn power(watts: u32) -> Call {
    Call::Read(Sample { power_watts: Some(watts as u16), ..Sample::default() })
}

/// In two open tests: 59 s and a rest of 500 ms, then 1 ms less than a minute. Neither gives an FTP.
fn rests() -> Vec<Call> {
    let ride = |cut: [u64; 2]| Call::Ride(cut.map(|ms| (ms, 0)).to_vec(), EXACT);
    vec![power(300), ride([59_000, 500]), Call::Skip(EXACT), power(200), ride([500, 59_499]), Call::Skip(EXACT)]
}

/// Rides that come to the end of tests, each under a reading of its own, and some skips.
fn measured(random: &mut Random) -> Vec<Call> {
    let turn = |random: &mut Random| {
        let read = power(60 + random.below(500));
        let ms = u64::from(if random.below(2) == 0 { 30_000 } else { random.below(130_000) });
        let count = 1 + random.below(5) as usize;
        let pieces = parts(random, ms, count).into_iter().map(|ms| (ms, 0)).collect();
        let skip = (random.below(8) == 0).then_some(Call::Skip(EXACT));
        [read, Call::Ride(pieces, EXACT)].into_iter().chain(skip).collect::<Vec<_>>()
    };
    (0..3 + random.below(8)).flat_map(|_| turn(random)).collect()
}

/// Touches up to question 15 and past it.
fn touches() -> Vec<Call> {
    vec![Call::Extend(LONG); 1_442]
}

/// Amounts up to question 15 and past it: 86,370 s, on which 60 are refused and the plain call's 30 aren't; then 0 s, and no more;
/// and sums that would wrap.
fn amounts() -> Vec<Call> {
    let by = |secs| Call::Extend(Amount { secs, metres: 1_000_001 });
    let wraps = [by(u32::MAX), by(4_294_880_896), by(4_294_880_897)];
    let to_the_limit = [by(86_370), Call::Extend(LONG), Call::ExtendDefault, by(0), by(1), Call::ExtendDefault];
    let at_once = [by(86_401), by(86_400), by(0), Call::ExtendDefault, Call::Extend(LONG)];
    let end = [Call::Ride(vec![(500, 0), (500, 0)], EXACT), Call::Skip(EXACT)];
    let calls = [&to_the_limit[..], &wraps, &end, &at_once, &wraps, &end, &[Call::ExtendDefault], &end].concat();
    vec![calls; 12].concat()
}

/// Any workout skipped to its end, and then days up to question 13 and past it.
fn days() -> Vec<Call> {
    let mut calls = vec![Call::Skip(EXACT); 36];
    calls.extend(vec![Call::Ride(vec![(43_200_000, 0), (43_200_000, 0)], MOST); 8]);
    calls
}

/// Rides and skips to the finish and past it with either array at question 14's limit, one below and one above, and empty.
fn arrays() -> Vec<Call> {
    let wanted = [[-1, 0], [0, -1], [1, 0], [0, 1], [0, 0]].map(Lent::Wanted);
    let lents = [Lent::Places([0, 0]), Lent::Places([193, 0]), Lent::Places([0, 193]), MOST].into_iter().chain(wanted);
    let calls =
        lents.flat_map(|lent| [Call::Ride(vec![(500, 0), (500, 0)], lent), Call::Skip(lent)]).collect::<Vec<_>>();
    vec![calls; 6].concat()
}

#[derive(Default)]
struct Tally {
    lists: u64,
    calls: u64,
    pieces: u64,
    unrefused: u64,
    /// Calls of the unchanged Rust's player compared with FTP, those compared without, and calls of the altered one.
    rust: [u64; 3],
    different: u64,
    /// Lists with at most one played test step, and with more; those of them with an FTP.
    test_steps: [u64; 2],
    measured: [u64; 2],
    /// Lists with more that gave two different FTPs, and those in which the unchanged Rust gives others.
    two_ftps: u64,
    pooled: u64,
    /// Extends of each kind, accepted and refused by 15.
    extends: [[u64; 2]; EXTENDS],
    /// Rides and skips lent exactly what is wanted: before the finish, and none after it.
    exact: [u64; 2],
    /// Calls after which something is unread: all of it, and targeted time beside it. Rides cut into two pieces or more that add to
    /// it.
    unread: [u64; 2],
    unread_cut: u64,
    refused: [u64; 21],
    events: [u64; 4],
}

/// What is wrong with a list, if anything is.
fn compare(workout: &Workout, profile: TrainingProfile, calls: &[Call], tally: &mut Tally) -> Option<String> {
    let file = codec::encode(workout);
    let for_ftp = compared_for_ftp(workout);
    let mut machine = Machine::new(workout, profile);
    let fresh = machine_words(&machine);
    let (mut cut, mut whole_words, mut fed) = (Vec::new(), Vec::new(), Vec::new());
    for call in calls {
        let places = places_of(call, &machine);
        if matches!(call, Call::Ride(..) | Call::Skip(_)) && places == [machine.places_wanted(); 2] {
            tally.exact[usize::from(machine.finished())] += 1;
        }
        cut.extend(words_of(call, places, &profile));
        whole_words.extend(words_of(&whole(call), places, &profile));
        let numbers = feed(&mut machine, call, places);
        let words = machine_words(&machine);
        fed.push((numbers, words, but_for_ftp(words, &machine.events)));
    }
    let answers = ours(&file, &cut);
    let (mut unchanged, mut altered) = (Beside::<Unchanged>::new(workout), Beside::<Altered>::new(workout));
    // No extend so far that the unchanged Rust hasn't.
    let mut own = true;
    let (mut at, mut refused, mut unread) = (0, false, 0);
    tally.lists += 1;
    tally.calls += calls.len() as u64;
    tally.test_steps[usize::from(!for_ftp)] += 1;
    if answers[0][0] != 0 || answers[0][1..] != fresh {
        return Some(format!("fresh: Rattle {:?}", answers[0]));
    }
    for (i, (call, (numbers, words, words_but_for_ftp))) in calls.iter().zip(fed).enumerate() {
        for &number in &numbers {
            at += 1;
            tally.pieces += 1;
            tally.refused[number as usize] += 1;
            refused |= number != 0;
            if answers[at][0] != number {
                return Some(format!("call {i}: refused {}, by the machine {number}", answers[at][0]));
            }
        }
        if answers[at][1..] != words {
            return Some(format!("call {i}: Rattle {:?}, machine {words:?}", &answers[at][1..]));
        }
        if words[UNREAD] > 0 {
            tally.unread[usize::from(words[TARGETED] > 0)] += 1;
        }
        let cut = matches!(call, Call::Ride(pieces, _) if pieces.iter().filter(|(ms, _)| *ms > 0).count() > 1);
        tally.unread_cut += u64::from(cut && words[UNREAD] > unread);
        unread = words[UNREAD];
        if let Some(kind) = call.extends() {
            own &= kind == 0;
            tally.extends[kind][usize::from(numbers[0] != 0)] += 1;
        }
        if own {
            unchanged.play(call, &numbers, &profile);
            tally.rust[usize::from(!for_ftp)] += 1;
            let (rust, wanted) =
                if for_ftp { (unchanged.words(), words) } else { (unchanged.words_but_for_ftp(), words_but_for_ftp) };
            if rust != wanted {
                return Some(format!("call {i}: Rust {rust:?}, machine {wanted:?}"));
            }
        }
        altered.play(call, &numbers, &profile);
        tally.rust[2] += 1;
        if altered.words() != words {
            return Some(format!("call {i}: altered Rust {:?}, machine {words:?}", altered.words()));
        }
    }
    for &(kind, _) in &machine.events {
        tally.events[kind as usize] += 1;
    }
    let given = ftps(&machine.events);
    tally.measured[usize::from(!for_ftp)] += u64::from(!given.is_empty());
    tally.two_ftps += u64::from(!for_ftp && given.iter().any(|watts| *watts != given[0]));
    tally.pooled += u64::from(own && given != ftps(&unchanged.events));
    let uncut: Vec<Call> = calls.iter().map(whole).collect();
    let fits = |call: &Call| !matches!(call, Call::Ride(pieces, _) if pieces[0].0 > u64::from(u32::MAX) || pieces[0].1 > u64::from(u32::MAX));
    if uncut.iter().all(fits) && ours(&file, &whole_words).iter().all(|words| words[0] == 0) {
        tally.unrefused += 1;
        if refused {
            return Some("nothing of the uncut list is refused, and something of the cut one".into());
        }
    }
    None
}

fn whole(call: &Call) -> Call {
    match call {
        Call::Ride(pieces, lent) => {
            let sum = pieces.iter().fold((0, 0), |(ms, mm), piece| (ms + piece.0, mm + piece.1));
            Call::Ride(vec![sum], *lent)
        }
        call => call.clone(),
    }
}

fn main() {
    let numbers: Vec<u64> = std::env::args().skip(1).map(|word| word.parse().expect("LISTS SEED")).collect();
    let [count, seed] = numbers[..] else { panic!("LISTS SEED") };
    let mut random = Random(seed);
    let mut tally = Tally::default();
    for i in 0..count {
        let short = i > 25 && i % 6 == 1;
        let workout = match i {
            25 => open_tests(),
            _ if short => tests(&mut random),
            _ => workout(&mut random),
        };
        let profile =
            TrainingProfile { ftp_watts: 50 + random.below(551) as u16, lthr_bpm: 1 + random.below(255) as u16 };
        let calls = match i {
            0..8 => touches(),
            8 => days(),
            9..17 => arrays(),
            17..25 => amounts(),
            25 => rests(),
            _ if short => measured(&mut random),
            _ => list(&mut random, i % 3 == 0),
        };
        if let Some(fault) = compare(&workout, profile, &calls, &mut tally) {
            tally.different += 1;
            if tally.different <= 3 {
                println!(
                    "{fault}\n  steps {:?}\n  test {:?}, profile {profile:?}\n  calls {calls:?}",
                    workout.steps(),
                    workout.test
                );
            }
        }
    }
    println!(
        "cutting: {} lists, {} calls, {} as cut; machine and Rattle, {} lists different; {} lists with nothing refused uncut",
        tally.lists, tally.calls, tally.pieces, tally.different, tally.unrefused
    );
    println!(
        "calls of the unchanged Rust's player too: {} compared with FTP, {} without; {} of the altered one, with FTP",
        tally.rust[0], tally.rust[1], tally.rust[2]
    );
    println!(
        "lists with at most one played test step, compared with the unchanged Rust for FTP too: {} ({} gave an FTP); with more: {} ({} gave one, {} two different ones, {} other ones than the unchanged Rust)",
        tally.test_steps[0], tally.measured[0], tally.test_steps[1], tally.measured[1], tally.two_ftps, tally.pooled
    );
    println!(
        "extends (with 60 s and 500 m, plain, with other amounts), accepted and refused by 15: {:?}",
        tally.extends
    );
    println!("rides and skips with exactly the places wanted, before the finish and after it: {:?}", tally.exact);
    println!(
        "calls with unread above 0 (nothing targeted, targeted too): {:?}; cut rides that add to it: {}",
        tally.unread, tally.unread_cut
    );
    println!("accepted, then refused by 1 to 20: {:?}", tally.refused);
    println!("events (countdown, started, finished, FTP): {:?}", tally.events);
    let missing = [0, 11, 12, 13, 14, 15].iter().any(|&i| tally.refused[i] == 0)
        || tally.events[1..].contains(&0)
        || tally.exact.contains(&0)
        || tally.unread.contains(&0)
        || tally.unread_cut == 0
        || tally.extends.as_flattened().contains(&0)
        || [tally.rust[0], tally.rust[1], tally.measured[0], tally.measured[1], tally.two_ftps].contains(&0);
    if missing {
        println!(
            "a refusal, a kind of event, an extend, a call with exact arrays or with unread, an FTP of one test step or two of more weren't met"
        );
    }
    std::process::exit((tally.different > 0 || missing).into());
}
