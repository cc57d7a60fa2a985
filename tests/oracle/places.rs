//! Document 02's request c, 'Smaller event arrays': the Rattle's player of crate `compare_places`, from a static library, with
//! arrays of exactly the places that question 14 wants against the same calls with 193 places, and those against the Rust's
//! player (played.rs), words and events. How many places are wanted is worked out here from the request's sentence: "twice the
//! unended steps plus one", "none when done". Of each update both arrays keep what stood in them past its events, and with a
//! place fewer in either it is refused 14, unless by a question asked before. Some lists have plain extends, which are the altered
//! Rust's, as FTPs are where more than one test step is played (played.rs). Words: how many updates of the lists without plain
//! extends with arrays of exactly that length, at least, and the seed. Fails on a difference, and where a kind of update, a
//! refusal, an update after the finish, one that fills its arrays, one of 193 events, one in a list with a plain extend or an FTP
//! compared with either Rust wasn't met.
use inputs::Random;
use inputs::calls::{Play, limit_plays, random_play};
use played::{ADD, Call, EXTEND, EXTEND_WITH, Met, READ, RIDE, SKIP, WORDS, answer, bytes_of};
use players::LONG;
use std::ops::Range;
use vana::workout::codec;
use vana::workout::model::{Block, Intensity, Length, Step, Target, Test, Workout};

#[link(name = "compare_places", kind = "static")]
unsafe extern "C" {
    /// The refusal of `event_places` before call `count` of the list, the places that it told, and the words of played.rs after the
    /// call, the check word always that of no events and no step ever extended. The call's events stand in the arrays lent. Each
    /// call before it has arrays of its own, of 193 places, or of as many as are told where `exact` isn't 0. A slice goes as its
    /// pointer and its length.
    safe fn compare_places(
        file: *const u8,
        file_length: usize,
        calls: *const u8,
        calls_length: usize,
        count: u32,
        exact: u32,
        kinds: *mut u8,
        kinds_length: usize,
        values: *mut u16,
        values_length: usize,
        answer: *mut u32,
        places: usize,
    );
}

const TOLD: usize = 2;
/// Places of the words after a call.
const NUMBER: usize = 0;
const EVENTS: usize = 1;
const PARTS: usize = 2;
const CHECK: usize = 3;
const EXTENDED: usize = 4;
/// Unread stands behind the others.
const SUMMARY: Range<usize> = 5..17;
const STEPS_DONE: usize = 11;
const FINISHED: usize = 14;

/// The check word of no events.
const NO_EVENTS: u32 = 7;
/// What question 14 wanted before the request.
const MOST: usize = 193;
/// Places past those lent, of each array, stay too.
const ROOM: usize = MOST + 7;
const STAYS: u32 = 0xC3C3_C3C3;
/// Lists are played afresh for each of their calls.
const CALLS: usize = 20;

/// What stands in the arrays before a call, no event's kind.
fn kind_before(place: usize) -> u8 {
    0x80 | (place % 0x80) as u8
}

fn value_before(place: usize) -> u16 {
    0x5A5A ^ place as u16
}

struct Outcome {
    told: [u32; TOLD],
    words: [u32; WORDS],
    kinds: [u8; ROOM],
    values: [u16; ROOM],
}

impl Outcome {
    fn number(&self) -> u32 {
        self.words[NUMBER]
    }

    fn events(&self) -> usize {
        self.words[EVENTS] as usize
    }

    fn check_word(&self) -> u32 {
        let events = self.kinds.iter().zip(&self.values).take(self.events());
        events.fold(NO_EVENTS, |check, (&kind, &value)| {
            ((u64::from(check) * 31 + u64::from(kind) * 65_536 + u64::from(value) + 1) % 1_000_000_007) as u32
        })
    }

    fn stays_from(&self, place: usize) -> bool {
        (place..ROOM).all(|at| self.kinds[at] == kind_before(at) && self.values[at] == value_before(at))
    }

    /// Of the two words that aren't given here, one is worked out of the arrays and one left.
    fn is_the_rusts(&self, rust: &[u32]) -> bool {
        let mut words = self.words;
        words[CHECK] = self.check_word();
        words[EXTENDED] = rust[EXTENDED];
        words == rust
    }
}

/// Call `count` of a list, lent so many places of kinds and of values.
fn ours(file: &[u8], list: &[u8], count: usize, exact: bool, lent: [usize; 2]) -> Outcome {
    let mut kinds: [u8; ROOM] = std::array::from_fn(kind_before);
    let mut values: [u16; ROOM] = std::array::from_fn(value_before);
    let mut answer = [STAYS; TOLD + WORDS + 1];
    assert!(lent.iter().all(|&places| places <= ROOM));
    compare_places(
        file.as_ptr(),
        file.len(),
        list.as_ptr(),
        list.len(),
        count as u32,
        exact.into(),
        kinds.as_mut_ptr(),
        lent[0],
        values.as_mut_ptr(),
        lent[1],
        answer.as_mut_ptr(),
        answer.len(),
    );
    assert_eq!(answer[TOLD + WORDS], STAYS);
    let (told, words) = answer[..TOLD + WORDS].split_at(TOLD);
    Outcome { told: told.try_into().unwrap(), words: words.try_into().unwrap(), kinds, values }
}

#[derive(Default)]
struct Tally {
    lists: u64,
    calls: u64,
    exact: u64,
    /// Those of them that are the altered Rust's.
    altered: u64,
    /// Rides, adds, skips.
    kinds: [u64; 3],
    fewer: u64,
    finished: u64,
    finished_accepted: u64,
    different: u64,
    refused: [u64; 21],
    refused_fewer: [u64; 21],
    most: usize,
    full: u64,
}

/// An update of a list, the 193 places' outcome and the summary before it.
struct Update<'a> {
    file: &'a [u8],
    list: &'a [u8],
    at: usize,
    whole: &'a Outcome,
    before: &'a [u32],
}

impl Update<'_> {
    /// The refusal's number and the places, by the request, of a workout that plays so many steps; none where there is no player.
    fn wanted(&self, steps: Option<u32>) -> [u32; TOLD] {
        let word = |place: usize| self.before[place - SUMMARY.start];
        match steps {
            None => [20, 0],
            Some(_) if word(FINISHED) == 1 => [0, 0],
            Some(steps) => [0, 2 * (steps - word(STEPS_DONE)) + 1],
        }
    }

    fn exact(&self, wanted: [u32; TOLD], tally: &mut Tally) -> Option<String> {
        let whole = self.whole;
        let places = wanted[1] as usize;
        let exact = ours(self.file, self.list, self.at, true, [places; 2]);
        let events = whole.events();
        tally.exact += 1;
        tally.refused[whole.number() as usize] += 1;
        tally.most = tally.most.max(events);
        tally.full += u64::from(events > 0 && events == places);
        if whole.told != wanted || exact.told != wanted {
            return Some(format!("told {:?} and {:?}, wanted {wanted:?}", whole.told, exact.told));
        }
        if events > places {
            return Some(format!("{events} events, wanted {places} places"));
        }
        if exact.words != whole.words {
            return Some(format!("with 193 places {:?}, with {places} {:?}", whole.words, exact.words));
        }
        if exact.kinds[..events] != whole.kinds[..events] || exact.values[..events] != whole.values[..events] {
            return Some(format!("other events with {places} places"));
        }
        let stays = exact.stays_from(events) && whole.stays_from(events);
        (!stays).then(|| "a place past the events is altered".into())
    }

    /// A place fewer than wanted in either array.
    fn fewer(&self, places: usize, tally: &mut Tally) -> Option<String> {
        let number = if self.whole.number() == 0 { 14 } else { self.whole.number() };
        [[places - 1, places], [places, places - 1]].into_iter().enumerate().find_map(|(i, lent)| {
            let fewer = ours(self.file, self.list, self.at, (self.at + i) % 2 == 0, lent);
            tally.fewer += 1;
            tally.refused_fewer[fewer.number() as usize] += 1;
            let right = fewer.told == self.whole.told
                && fewer.number() == number
                && [EVENTS, PARTS].iter().all(|&word| fewer.words[word] == 0)
                && fewer.words[SUMMARY] == *self.before
                && fewer.stays_from(0);
            (!right).then(|| format!("lent {lent:?}, refused {} for {number}: {:?}", fewer.number(), fewer.words))
        })
    }
}

fn is_update(call: &Call) -> bool {
    [RIDE, ADD, SKIP].contains(&call.kind)
}

/// What is wrong with a list, if anything is.
fn compare(play: &Play, tally: &mut Tally, met: &mut Met) -> Option<String> {
    let steps = codec::decode(&play.file).ok().map(|workout| workout.played().count() as u32);
    let list = bytes_of(&play.calls);
    let rust = answer(&play.file, &play.calls, met);
    let mut rust = rust.chunks(WORDS);
    let mut before: Vec<u32> = rust.next().unwrap()[SUMMARY].to_vec();
    let altered = play.calls.iter().any(|call| call.kind == EXTEND);
    tally.lists += 1;
    for ((at, call), rust) in play.calls.iter().enumerate().zip(rust) {
        tally.calls += 1;
        let next_updates = play.calls.get(at + 1).is_some_and(is_update);
        if !is_update(call) && !next_updates {
            continue;
        }
        let whole = ours(&play.file, &list, at, false, [MOST; 2]);
        if !whole.is_the_rusts(rust) {
            return Some(format!("call {at}: Rust {rust:?}, Rattle {:?}", whole.words));
        }
        if is_update(call) {
            let update = Update { file: &play.file, list: &list, at, whole: &whole, before: &before };
            let wanted = update.wanted(steps);
            tally.kinds[call.kind as usize - 1] += 1;
            tally.altered += u64::from(altered);
            tally.finished += u64::from(wanted == [0, 0]);
            tally.finished_accepted += u64::from(wanted == [0, 0] && whole.number() == 0);
            let mut fault = update.exact(wanted, tally);
            if wanted[1] > 0 {
                fault = fault.or_else(|| update.fewer(wanted[1] as usize, tally));
            }
            if let Some(fault) = fault {
                return Some(format!("call {at}: {fault}"));
            }
        }
        before = whole.words[SUMMARY].to_vec();
    }
    None
}

const BASE: Call =
    Call { kind: READ, ftp: 250, lthr: 160, ms: 0, mm: 0, power: 1 + 300, heart: 1 + 140, cadence: 1 + 900 };
const PRESS: Call = Call { kind: SKIP, ..BASE };

fn ride(ms: u32) -> Call {
    Call { kind: RIDE, ms, ..BASE }
}

fn add(ms: u32) -> Call {
    Call { kind: ADD, ms, ..BASE }
}

fn step(intensity: Intensity, length: Length) -> Step {
    Step::new(intensity, length, Target::Free)
}

fn file(steps: &[Step], runs: u8, test: Option<Test>) -> Vec<u8> {
    let blocks = [Block { first: 0, len: steps.len() as u8, count: runs }];
    let mut workout = Workout::new("PLACES", steps, if runs > 1 { &blocks } else { &[] }, None);
    workout.test = test;
    assert!(workout.validate().is_ok());
    codec::encode(&workout).to_vec()
}

/// A short workout, and calls that mostly go to its finish and past it.
fn ending(random: &mut Random) -> Play {
    let steps: Vec<Step> = (0..1 + random.below(4))
        .map(|_| {
            let intensity = [Intensity::Test, Intensity::Work][random.below(2) as usize];
            let length = match random.below(8) {
                0 => Length::Open,
                1 => Length::Distance(100 + random.below(100)),
                2 => Length::Time(60 + random.below(2) as u16),
                _ => Length::Time(1 + random.below(20) as u16),
            };
            step(intensity, length)
        })
        .collect();
    let test = [None, Some(Test::Twenty), Some(Test::Ramp)][random.below(3) as usize];
    let pace = [3_000, 15_000, 70_000][random.below(3) as usize];
    let extend = if random.below(8) == 0 { EXTEND } else { EXTEND_WITH };
    let calls = (0..4 + random.below(CALLS as u32 - 3))
        .map(|_| {
            let kind = [SKIP, SKIP, RIDE, RIDE, RIDE, RIDE, ADD, ADD, ADD, READ, extend][random.below(11) as usize];
            let ms = match random.below(40) {
                0 => 86_400_000,
                1 => 0,
                2 => 86_400_001,
                _ => 1 + random.below(pace),
            };
            let ftp = if random.below(60) == 0 { 601 } else { BASE.ftp };
            let cadence = if random.below(60) == 0 { 1 + 65_531 } else { BASE.cadence };
            let call =
                Call { kind, ms, mm: random.below(4) * (ms / 1_000), ftp, cadence, power: random.below(400), ..BASE };
            if kind == EXTEND_WITH { call.extending(LONG) } else { call }
        })
        .collect();
    Play { file: file(&steps, 1 + random.below(3) as u8, test), calls }
}

/// The first calls of a list.
fn cut(play: Play) -> Play {
    Play { file: play.file, calls: play.calls.into_iter().take(CALLS).collect() }
}

/// The last call of a list by hand: what it is lent, the refusal's number, and its events.
struct Case<'a> {
    file: &'a [u8],
    calls: Vec<Call>,
    lent: [usize; 2],
    number: u32,
    events: &'a [(u8, u16)],
}

impl Case<'_> {
    fn holds(&self) -> bool {
        let list = bytes_of(&self.calls);
        [false, true].into_iter().all(|exact| {
            let outcome = ours(self.file, &list, self.calls.len() - 1, exact, self.lent);
            let given: Vec<(u8, u16)> =
                (0..outcome.events()).map(|at| (outcome.kinds[at], outcome.values[at])).collect();
            outcome.number() == self.number && given == self.events && outcome.stays_from(self.events.len())
        })
    }
}

/// How many cases by hand there are, and how many of them aren't as the request has them.
fn by_hand() -> (usize, usize) {
    let plain = step(Intensity::Work, Length::Time(10));
    let one = file(&[plain], 1, None);
    let two = file(&[plain], 2, None);
    let many = file(&[plain], 96, None);
    let ramp = file(&[step(Intensity::Test, Length::Open)], 1, Some(Test::Ramp));
    let mut cases = Vec::new();
    let mut case = |file, calls: &[Call], lent, number, events| {
        cases.push(Case { file, calls: calls.to_vec(), lent, number, events });
    };
    // The only unended step: three places, though its skip gives one event, or two with an FTP.
    const FINISH: &[(u8, u16)] = &[(2, 0)];
    for lent in [[2, 2], [2, 3], [3, 2], [2, 193], [193, 2]] {
        case(&one, &[PRESS], lent, 14, &[]);
        case(&ramp, &[add(60_000), PRESS], lent, 14, &[]);
    }
    case(&one, &[PRESS], [3, 3], 0, FINISH);
    case(&one, &[PRESS], [4, 200], 0, FINISH);
    case(&ramp, &[add(60_000), PRESS], [3, 3], 0, &[(3, 225), (2, 0)]);
    // All three are filled by a countdown.
    case(&one, &[ride(9_500)], [3, 3], 0, &[(0, 3), (0, 2), (0, 1)]);
    case(&one, &[ride(9_500)], [3, 2], 14, &[]);
    case(&one, &[add(9_500)], [2, 3], 14, &[]);
    // Two unended steps, then one.
    case(&two, &[PRESS], [4, 5], 14, &[]);
    case(&two, &[PRESS], [5, 5], 0, &[(1, 1)]);
    case(&two, &[PRESS, PRESS], [3, 2], 14, &[]);
    case(&two, &[PRESS, PRESS], [3, 3], 0, FINISH);
    // 96 of them want what every player did.
    case(&many, &[PRESS], [192, 193], 14, &[]);
    case(&many, &[PRESS], [193, 192], 14, &[]);
    case(&many, &[PRESS], [193, 193], 0, &[(1, 1)]);
    // Empty arrays before the finish and after it.
    for last in [PRESS, ride(1_000), add(1_000), ride(0)] {
        for lent in [[0, 0], [0, 193], [193, 0]] {
            case(&one, &[last], lent, 14, &[]);
            case(&one, &[PRESS, last], lent, 0, &[]);
        }
    }
    // Questions asked before 14.
    let (no_profile, no_cadence) = (Call { ftp: 601, ..add(1) }, Call { cadence: 1 + 65_531, ..add(1) });
    case(&one, &[no_profile], [0, 0], 10, &[]);
    case(&one, &[no_cadence], [0, 0], 11, &[]);
    case(&one, &[ride(86_400_001)], [0, 0], 12, &[]);
    case(&[], &[PRESS], [0, 0], 20, &[]);
    let open = file(&[step(Intensity::Work, Length::Open)], 1, None);
    case(&open, &[ride(86_400_000); 8], [0, 0], 13, &[]);
    case(&open, &[ride(86_400_000); 7], [0, 0], 14, &[]);
    (cases.len(), cases.iter().filter(|case| !case.holds()).count())
}

fn main() {
    let numbers: Vec<u64> = std::env::args().skip(1).map(|word| word.parse().expect("CALLS SEED")).collect();
    let [count, seed] = numbers[..] else { panic!("CALLS SEED") };
    let mut random = Random(seed);
    let (mut tally, mut met) = (Tally::default(), Met::default());
    let mut limits = limit_plays().into_iter();
    loop {
        let play = match limits.next() {
            Some(play) => play,
            None if tally.exact - tally.altered >= count => break,
            None if random.below(2) == 0 => cut(random_play(&mut random)),
            None => ending(&mut random),
        };
        if let Some(fault) = compare(&play, &mut tally, &mut met) {
            tally.different += 1;
            if tally.different <= 3 {
                let calls: Vec<_> = play.calls.iter().map(Call::words).collect();
                println!("{fault}\n  file {:?}\n  calls {calls:?}", play.file);
            }
        }
    }
    let (cases, wrong) = by_hand();
    println!(
        "places: {} lists, {} calls, {} updates with arrays of exactly the places wanted, {} with a place fewer; {} lists different",
        tally.lists, tally.calls, tally.exact, tally.fewer, tally.different
    );
    println!("{}", met.judged());
    println!("updates (ride, add, skip): {:?}, {} of them in lists with a plain extend", tally.kinds, tally.altered);
    println!("updates after the finish, with empty arrays: {}, accepted {}", tally.finished, tally.finished_accepted);
    println!("accepted, then refused by 1 to 20: {:?}", tally.refused);
    println!("the same with a place fewer: {:?}", tally.refused_fewer);
    println!("events (countdown, started, finished, FTP): {:?}", met.events);
    println!("most events of an update: {}, updates with as many events as places: {}", tally.most, tally.full);
    println!("by hand: {cases} calls, {wrong} not as the request has them");
    let asked = [0, 10, 11, 12, 13, 20].iter().any(|&i| tally.refused[i] == 0) || tally.refused_fewer[14] == 0;
    let reached = [tally.finished_accepted, tally.full, tally.altered, met.ftps_by[0], met.ftps_by[1], met.pooled];
    let missing = asked || reached.contains(&0) || tally.kinds.contains(&0) || tally.most < MOST;
    if missing {
        println!(
            "a kind of update, a refusal, an FTP, an update after the finish, with a plain extend, of 193 events or that fills its arrays wasn't met"
        );
    }
    std::process::exit((tally.different > 0 || wrong > 0 || missing).into());
}
