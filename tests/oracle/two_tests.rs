//! Document 02's request d, 'A test stands on its own step', by the Rattle's player of crate `compare_player` from a static library.
//! Cases by hand have what the request says of them written down: of each call the events, the summary's FTP and the test readout of
//! `now`; and of the whole list the FTPs that the unchanged Rust gives, whose sums run on. The altered Rust's words (played.rs) are
//! compared beside. Random lists, of workouts with two to six played test steps, have the altered Rust's words after each call.
//! Words: how many random lists, and the seed. Writes how many were compared and in how many the unchanged Rust gives other FTPs.
//! Fails on a difference, where the unchanged Rust gives none, and where either kind of test gave no second FTP.
mod ours;

use inputs::Random;
use ours::ours;
use played::{ADD, Call, EXTEND, Met, READ, RIDE, SKIP, WORDS, answer_by, check_word};
use players::{Altered, Amount, LONG, Unchanged, test_steps};
use vana::workout::codec;
use vana::workout::model::{Block, Intensity, Length, Step, Target, Test, Workout};
use vana::workout::player::Event::{self, Countdown, Finished, Ftp, Started};
use vana::workout::player::TestReadout::{self, Average, BestMinute};

/// Places of the words after a call: refusal, events, their check word, the summary's FTP, the test readout's two.
const NUMBER: usize = 0;
const EVENTS: usize = 1;
const CHECK: usize = 3;
const FTP: usize = 10;
const TEST: usize = 2 * 16 + 9;

const BASE: Call = Call { kind: READ, ftp: 250, lthr: 160, ms: 0, mm: 0, power: 0, heart: 0, cadence: 0 };
const PRESS: Call = Call { kind: SKIP, ..BASE };
const TOUCH: Call = BASE.extending(LONG);
const PLAIN: Call = Call { kind: EXTEND, ..BASE };

fn power(watts: u32) -> Call {
    Call { power: 1 + watts, ..BASE }
}

fn ride(ms: u32) -> Call {
    Call { kind: RIDE, ms, ..BASE }
}

fn time(intensity: Intensity, secs: u16) -> Step {
    Step::new(intensity, Length::Time(secs), Target::Free)
}

fn test(secs: u16) -> Step {
    time(Intensity::Test, secs)
}

/// Lists that differ are written out up to the call after which they do, so many of them.
const SHOWN: u64 = 3;

#[derive(Default)]
struct Tally {
    cases: u64,
    turns: u64,
    wrong: u64,
    lists: u64,
    calls: u64,
    different: u64,
    ftps: u64,
    /// Lists with a second FTP, of a `Twenty` and of a `Ramp`.
    second: [u64; 2],
    /// Lists that the unchanged Rust has all extends of, and those of them in which it gives other FTPs.
    played: u64,
    pooled: u64,
}

/// A call, and what is wanted after it: its events, the summary's FTP, the test readout.
type Turn<'a> = (Call, &'a [Event], Option<u16>, Option<TestReadout>);

fn holds(words: &[u32], (_, events, ftp, readout): &Turn) -> bool {
    let readout = match *readout {
        None => [0, 0],
        Some(Average(watts)) => [1, watts.into()],
        Some(BestMinute(watts)) => [2, watts.into()],
    };
    words[NUMBER] == 0
        && words[EVENTS] == events.len() as u32
        && words[CHECK] == check_word(events)
        && words[FTP] == ftp.map_or(0, |watts| 1 + u32::from(watts))
        && words[TEST..TEST + 2] == readout
}

impl Tally {
    /// Compares a list with the altered Rust. The FTPs of the unchanged one are given, if it has all extends of the list.
    fn compare(&mut self, workout: &Workout, calls: &[Call]) -> Option<Vec<u16>> {
        let file = codec::encode(workout);
        let judged = answer_by::<Altered>(workout, calls, &mut Met::default());
        let ours = ours(&file, calls);
        let ftps = judged.ftps();
        self.lists += 1;
        self.calls += calls.len() as u64;
        self.ftps += ftps.len() as u64;
        self.second[usize::from(workout.test == Some(Test::Ramp))] += u64::from(ftps.len() > 1);
        if ours != judged.words {
            self.different += 1;
            if self.different <= SHOWN {
                let at = (0..ours.len()).find(|&at| ours[at] != judged.words[at]).unwrap();
                let (block, place) = (at / WORDS, at % WORDS);
                let calls: Vec<_> = calls[..block].iter().map(Call::words).collect();
                println!("steps {:?}, test {:?}\ncalls {calls:?}", workout.steps(), workout.test);
                println!("  after {block} calls, word {place}: altered Rust {}, Rattle {}", judged.words[at], ours[at]);
            }
        }
        let unchanged = calls
            .iter()
            .all(Call::unchanged)
            .then(|| answer_by::<Unchanged>(workout, calls, &mut Met::default()).ftps());
        self.played += u64::from(unchanged.is_some());
        self.pooled += u64::from(unchanged.as_ref().is_some_and(|unchanged| *unchanged != ftps));
        unchanged
    }

    /// Holds each call of a list to what is wanted, and the list to the altered Rust. `unchanged` has the FTPs of the unchanged one.
    fn case(&mut self, what: &str, workout: &Workout, turns: &[Turn], unchanged: Option<&[u16]>) {
        let calls: Vec<Call> = turns.iter().map(|turn| turn.0).collect();
        let words = ours(&codec::encode(workout), &calls);
        self.cases += 1;
        for (i, turn) in turns.iter().enumerate() {
            let after = &words[WORDS * (i + 1)..];
            self.turns += 1;
            if !holds(after, turn) {
                self.wrong += 1;
                println!("{what}, call {i}: wanted {turn:?}");
                println!(
                    "  Rattle: refusal {}, {} events, FTP word {}, readout {:?}",
                    after[NUMBER],
                    after[EVENTS],
                    after[FTP],
                    &after[TEST..TEST + 2]
                );
            }
        }
        let given = self.compare(workout, &calls);
        if given.as_deref() != unchanged {
            self.wrong += 1;
            println!("{what}: wanted of the unchanged Rust {unchanged:?}, it gives {given:?}");
        }
    }
}

fn workout(test: Test, steps: &[Step], blocks: &[Block]) -> Workout {
    let workout = Workout::new("TWO TESTS", steps, blocks, Some(test));
    assert!(workout.validate().is_ok());
    workout
}

const COUNTED: &[Event] = &[Countdown(3), Countdown(2), Countdown(1)];
/// 20 minutes.
const WHOLE: u32 = 1_200_000;
const HALF: u32 = 600_000;

/// Two 20-minute tests: 95 % of 150 W is 143, of 250 W 238.
fn twenties(tally: &mut Tally) {
    let twenty = |steps: &[Step]| workout(Test::Twenty, steps, &[]);
    let first = [
        (power(150), &[][..], None, None),
        (ride(WHOLE), &[Ftp(143), Started(1)], Some(143), None),
        (power(250), &[], Some(143), None),
    ];
    let two = twenty(&[test(1_200), test(1_200)]);
    // Pooled, the second has the mean of both, 200 W.
    let second: [Turn; 2] =
        [(ride(1), &[], Some(143), Some(Average(250))), (ride(WHOLE - 1), &[Ftp(238), Finished], Some(238), None)];
    tally.case("two tests", &two, &[&first[..], &second].concat(), Some(&[143, 190]));
    // After the finish nothing changes any more.
    let after: [Turn; 4] = [
        (power(400), &[], Some(238), None),
        (ride(WHOLE), &[], Some(238), None),
        (PRESS, &[], Some(238), None),
        (TOUCH, &[], Some(238), None),
    ];
    tally.case("after the finish", &two, &[&first[..], &second, &after].concat(), Some(&[143, 190]));
    tally.case(
        "a recovery between them",
        &twenty(&[test(1_200), time(Intensity::Recovery, 300), test(1_200)]),
        &[
            (power(150), &[], None, None),
            (ride(WHOLE), &[Ftp(143), Started(1)], Some(143), None),
            (power(90), &[], Some(143), None),
            (ride(300_000), &[Started(2)], Some(143), None),
            (power(250), &[], Some(143), None),
            (ride(WHOLE), &[Ftp(238), Finished], Some(238), None),
        ],
        Some(&[143, 190]),
    );
    // 400 s at 100 W and 800 s at 200 W are 167 W, of which 95 % are 159; both tests together 208 W.
    tally.case(
        "cut at odd places",
        &two,
        &[
            (power(100), &[], None, None),
            (ride(1), &[], None, Some(Average(100))),
            (ride(333_333), &[], None, Some(Average(100))),
            (ride(66_666), &[], None, Some(Average(100))),
            (power(200), &[], None, Some(Average(100))),
            (ride(799_999), COUNTED, None, Some(Average(167))),
            (ride(1), &[Ftp(159), Started(1)], Some(159), None),
            (power(250), &[], Some(159), None),
            (ride(777_777), &[], Some(159), Some(Average(250))),
            (ride(422_223), &[Ftp(238), Finished], Some(238), None),
        ],
        Some(&[159, 198]),
    );
    tally.case(
        "one ride over both",
        &two,
        &[
            (power(150), &[], None, None),
            (ride(HALF), &[], None, Some(Average(150))),
            (power(250), &[], None, Some(Average(150))),
            (ride(HALF + WHOLE), &[Ftp(190), Started(1), Ftp(238), Finished], Some(238), None),
        ],
        Some(&[190, 214]),
    );
    tally.case(
        "the first skipped on its way",
        &two,
        &[
            (power(400), &[], None, None),
            (ride(HALF), &[], None, Some(Average(400))),
            (PRESS, &[Started(1)], None, None),
            (power(200), &[], None, None),
            (ride(WHOLE), &[Ftp(190), Finished], Some(190), None),
        ],
        Some(&[254]),
    );
    tally.case(
        "the first skipped at 0 ms",
        &two,
        &[
            (PRESS, &[Started(1)], None, None),
            (power(200), &[], None, None),
            (ride(WHOLE), &[Ftp(190), Finished], Some(190), None),
        ],
        Some(&[190]),
    );
    tally.case(
        "a warm-up skipped",
        &twenty(&[time(Intensity::Warmup, 300), test(1_200)]),
        &[
            (power(300), &[], None, None),
            (ride(100_000), &[], None, None),
            (PRESS, &[Started(1)], None, None),
            (power(200), &[], None, None),
            (ride(WHOLE), &[Ftp(190), Finished], Some(190), None),
        ],
        Some(&[190]),
    );
    // A test step by distance gives no FTP, and none of its watts to the next: those would make it 202 W.
    tally.case(
        "a distance step first",
        &twenty(&[Step::new(Intensity::Test, Length::Distance(100), Target::Free), test(1_200)]),
        &[
            (power(400), &[], None, None),
            (Call { mm: 100_000, ..ride(10_000) }, &[Started(1)], None, None),
            (power(200), &[], None, None),
            (ride(WHOLE), &[Ftp(190), Finished], Some(190), None),
        ],
        Some(&[192]),
    );
    let short: [Turn; 2] =
        [(ride(WHOLE - 1), COUNTED, Some(143), Some(Average(250))), (PRESS, &[Finished], Some(143), None)];
    tally.case("the second 1 ms short", &two, &[&first[..], &short].concat(), Some(&[143]));
    // Made longer, the second needs all of it.
    let touched: [Turn; 4] = [
        (TOUCH, &[], Some(143), None),
        (ride(WHOLE), &[], Some(143), Some(Average(250))),
        (ride(59_999), COUNTED, Some(143), Some(Average(250))),
        (ride(1), &[Ftp(238), Finished], Some(238), None),
    ];
    tally.case("the second extended by 60 s", &two, &[&first[..], &touched].concat(), Some(&[143, 191]));
    let plain: [Turn; 3] = [
        (PLAIN, &[], Some(143), None),
        (ride(WHOLE + 29_999), COUNTED, Some(143), Some(Average(250))),
        (ride(1), &[Ftp(238), Finished], Some(238), None),
    ];
    tally.case("the second extended by the default", &two, &[&first[..], &plain].concat(), None);
    tally.case(
        "three times a test and a recovery",
        &workout(Test::Twenty, &[test(1_200), time(Intensity::Recovery, 60)], &[Block { first: 0, len: 2, count: 3 }]),
        &[
            (power(150), &[], None, None),
            (ride(WHOLE), &[Ftp(143), Started(1)], Some(143), None),
            (power(90), &[], Some(143), None),
            (ride(60_000), &[Started(2)], Some(143), None),
            (power(250), &[], Some(143), None),
            (ride(WHOLE), &[Ftp(238), Started(3)], Some(238), None),
            (power(90), &[], Some(238), None),
            (ride(60_000), &[Started(4)], Some(238), None),
            (power(200), &[], Some(238), None),
            (ride(WHOLE), &[Ftp(190), Started(5)], Some(190), None),
            (ride(60_000), &[Finished], Some(190), None),
        ],
        Some(&[143, 190, 190]),
    );
}

/// Ramp tests: 75 % of 300 W is 225, of 200 W 150.
fn ramps(tally: &mut Tally) {
    let ramp = |steps: &[Step]| workout(Test::Ramp, steps, &[]);
    let open = Step::new(Intensity::Test, Length::Open, Target::Free);
    let minutes = ramp(&[test(60), test(60)]);
    let first = [(power(300), &[][..], None, None), (ride(60_000), &[Ftp(225), Started(1)], Some(225), None)];
    // The best minute of both stays the first's.
    let lower: [Turn; 3] = [
        (power(200), &[], Some(225), None),
        (ride(59_999), COUNTED, Some(225), None),
        (ride(1), &[Ftp(150), Finished], Some(150), None),
    ];
    tally.case("a lower minute", &minutes, &[&first[..], &lower].concat(), Some(&[225, 225]));
    tally.case(
        "a higher minute",
        &minutes,
        &[
            (power(200), &[], None, None),
            (ride(60_000), &[Ftp(150), Started(1)], Some(150), None),
            (power(300), &[], Some(150), None),
            (ride(60_000), &[Ftp(225), Finished], Some(225), None),
        ],
        Some(&[150, 225]),
    );
    // Of 59 s there is no minute, and the first's isn't given again.
    let short: [Turn; 2] = [(power(200), &[], Some(225), None), (ride(59_000), &[Finished], Some(225), None)];
    tally.case("59 s", &ramp(&[test(60), test(59)]), &[&first[..], &short].concat(), Some(&[225, 225]));
    let skipped: [Turn; 2] = [(ride(10_000), &[Started(2)], Some(225), None), (PRESS, &[Finished], Some(225), None)];
    tally.case(
        "a step of work between, and the second skipped at once",
        &ramp(&[test(60), time(Intensity::Work, 10), open]),
        &[&first[..], &skipped].concat(),
        Some(&[225, 225]),
    );
    // 59 s and a rest of 500 ms: the second's first minute is its own.
    tally.case(
        "after 59.5 s",
        &ramp(&[open, open]),
        &[
            (power(300), &[], None, None),
            (ride(59_500), &[], None, None),
            (PRESS, &[Started(1)], None, None),
            (power(200), &[], None, None),
            (ride(59_999), &[], None, None),
            (ride(1), &[], None, Some(BestMinute(200))),
            (PRESS, &[Ftp(150), Finished], Some(150), None),
        ],
        Some(&[224]),
    );
    // A minute and a rest of 999 ms.
    tally.case(
        "after 60.999 s",
        &ramp(&[open, open]),
        &[
            (power(300), &[], None, None),
            (ride(60_999), &[], None, Some(BestMinute(300))),
            (PRESS, &[Ftp(225), Started(1)], Some(225), None),
            (power(200), &[], Some(225), None),
            (ride(59_999), &[], Some(225), None),
            (ride(1), &[], Some(225), Some(BestMinute(200))),
            (PRESS, &[Ftp(150), Finished], Some(150), None),
        ],
        Some(&[225, 225]),
    );
    // Half a minute of each would be 300 W.
    tally.case(
        "half a minute first",
        &ramp(&[test(30), test(60)]),
        &[
            (power(400), &[], None, None),
            (ride(30_000), &[Started(1)], None, None),
            (power(200), &[], None, None),
            (ride(30_000), &[], None, None),
            (ride(30_000), &[Ftp(150), Finished], Some(150), None),
        ],
        Some(&[225]),
    );
    tally.case(
        "three times a minute and a recovery",
        &workout(Test::Ramp, &[test(60), time(Intensity::Recovery, 10)], &[Block { first: 0, len: 2, count: 3 }]),
        &[
            (power(240), &[], None, None),
            (ride(60_000), &[Ftp(180), Started(1)], Some(180), None),
            (ride(10_000), &[Started(2)], Some(180), None),
            (power(300), &[], Some(180), None),
            (ride(60_000), &[Ftp(225), Started(3)], Some(225), None),
            (ride(10_000), &[Started(4)], Some(225), None),
            (power(160), &[], Some(225), None),
            (ride(60_000), &[Ftp(120), Started(5)], Some(120), None),
            (ride(10_000), &[Finished], Some(120), None),
        ],
        Some(&[180, 225, 225]),
    );
}

/// The time under a ramp runs on over a step's start, as in the Rust: 10 s of it end an open step after its first stage.
fn low_times(tally: &mut Tally) {
    let climb = |intensity, every| Step::new(intensity, Length::Open, Target::Ramp { start: 200, step: 20, every });
    let into_work = workout(Test::Ramp, &[climb(Intensity::Test, 60), climb(Intensity::Work, 2)], &[]);
    let into_test = workout(Test::Ramp, &[climb(Intensity::Test, 60), climb(Intensity::Test, 1)], &[]);
    tally.case(
        "under the ramp, then a ramp that is no test",
        &into_work,
        &[
            (power(1), &[], None, None),
            (ride(10_000), &[], None, None),
            (PRESS, &[Started(1)], None, None),
            (ride(1_999), &[], None, None),
            (ride(1), &[Finished], None, None),
        ],
        Some(&[]),
    );
    tally.case(
        "the same with 1 ms less",
        &into_work,
        &[
            (power(1), &[], None, None),
            (ride(9_999), &[], None, None),
            (PRESS, &[Started(1)], None, None),
            (ride(2_000), &[], None, None),
            (ride(HALF), &[], None, None),
            (PRESS, &[Finished], None, None),
        ],
        Some(&[]),
    );
    tally.case(
        "under the ramp in two tests",
        &into_test,
        &[
            (power(1), &[], None, None),
            (ride(6_000), &[], None, None),
            (PRESS, &[Started(1)], None, None),
            (ride(3_999), &[], None, None),
            (ride(1), &[Finished], None, None),
        ],
        Some(&[]),
    );
}

fn one_of<T: Copy>(random: &mut Random, values: &[T]) -> T {
    values[random.below(values.len() as u32) as usize]
}

/// Two of three are tests.
fn random_step(random: &mut Random) -> Step {
    let is_test = random.below(3) > 0;
    let intensity = if is_test { Intensity::Test } else { Intensity::ALL[random.below(4) as usize] };
    let climb = Target::Ramp { start: 50 + random.below(300) as u16, step: 20, every: 1 + random.below(40) as u16 };
    match random.below(10) {
        0 => Step::new(intensity, Length::Open, climb),
        1 => Step::new(intensity, Length::Open, Target::Free),
        2 => Step::new(intensity, Length::Distance(100 + random.below(200)), Target::Free),
        3..5 if is_test => test(one_of(random, &[1, 59, 60, 61, 119, 120])),
        _ => time(intensity, 1 + random.below(if is_test { 130 } else { 40 }) as u16),
    }
}

/// A workout with two to six played test steps.
fn random_workout(random: &mut Random) -> Workout {
    loop {
        let count = 1 + random.below(7);
        let steps: Vec<Step> = (0..count).map(|_| random_step(random)).collect();
        let first = random.below(count);
        let len = 1 + random.below(count - first);
        let block = Block { first: first as u8, len: len as u8, count: 1 + random.below(4) as u8 };
        let blocks = if random.below(2) == 0 { vec![block] } else { vec![] };
        let workout = workout(one_of(random, &[Test::Twenty, Test::Ramp]), &steps, &blocks);
        if (2..=6).contains(&test_steps(&workout)) {
            return workout;
        }
    }
}

/// A third of the lists have any extends.
fn random_calls(random: &mut Random) -> Vec<Call> {
    let pace = one_of(random, &[3_000, 30_000, 70_000]);
    let any_extend = random.below(3) == 0;
    let call = |random: &mut Random| {
        let watts = if random.below(12) == 0 { 0 } else { 1 + 30 + random.below(600) };
        let ms = match random.below(6) {
            0 => one_of(random, &[0, 1, 500, 999, 1_000, 59_999, 60_000, 61_000]),
            _ => 1 + random.below(pace),
        };
        let mm = if random.below(3) == 0 { 0 } else { ms * random.below(9) };
        match random.below(24) {
            0..2 => PRESS,
            2 if !any_extend => TOUCH,
            2 => one_of(random, &[TOUCH, PLAIN, BASE.extending(Amount { secs: 1, metres: 1 })]),
            3..10 => Call { power: watts, ..BASE },
            10..13 => Call { kind: ADD, power: watts, ms, mm, ..BASE },
            _ => Call { mm, ..ride(ms) },
        }
    };
    (0..8 + random.below(40)).map(|_| call(random)).collect()
}

fn main() {
    let numbers: Vec<u64> = std::env::args().skip(1).map(|word| word.parse().expect("LISTS SEED")).collect();
    let [count, seed] = numbers[..] else { panic!("LISTS SEED") };
    let mut random = Random(seed);
    let mut tally = Tally::default();
    twenties(&mut tally);
    ramps(&mut tally);
    low_times(&mut tally);
    for _ in 0..count {
        let workout = random_workout(&mut random);
        tally.compare(&workout, &random_calls(&mut random));
    }
    println!(
        "two_tests: {} cases by hand, {} calls, {} not as the request has them",
        tally.cases, tally.turns, tally.wrong
    );
    println!(
        "{} lists with the altered Rust, {} calls, {} FTPs given, {} lists different",
        tally.lists, tally.calls, tally.ftps, tally.different
    );
    println!("lists with a second FTP (twenty, ramp): {:?}", tally.second);
    println!("lists that the unchanged Rust can play: {}, with other FTPs: {}", tally.played, tally.pooled);
    let missing = tally.second.contains(&0) || tally.pooled == 0;
    if missing {
        println!("a second FTP of a kind of test, or another one by the unchanged Rust, wasn't met");
    }
    std::process::exit((tally.different > 0 || tally.wrong > 0 || missing).into());
}
