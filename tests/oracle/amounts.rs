//! Document 02's request i, 'Shorter extension by default': extends with any amount, and the plain one, by the Rattle's player of crate
//! `compare_player` from a static library. Cases by hand have what the request and question 15 say of them, and the altered Rust's
//! words (played.rs) beside; random lists of calls have the altered Rust's words after each call. Words: how many random lists, and
//! the seed. Writes how many were compared, and the extends by kind of step and outcome. Fails on a difference, and where an
//! outcome wasn't met.
mod ours;

use inputs::Random;
use inputs::calls::{Play, random_play};
use ours::ours;
use played::{Call, EXTEND, EXTEND_WITH, Met, READ, RIDE, SET, SKIP, WORDS, answer};
use players::Amount;
use vana::workout::codec;
use vana::workout::model::{Intensity, Length, Step, Target, Workout};

/// Places of the words after a call: refusal, `extended`, finished, `until_end`, and what is left (0 seconds, 1 metres, 2 open) with
/// its number.
const NUMBER: usize = 0;
const EXTENDED: usize = 4;
const FINISHED: usize = 14;
const UNTIL_END: usize = 16 + 7;
const LEFT: usize = 2 * 16 + 6;

/// What `until_end` is asked of after each call but a ride: the most of question 12.
const DAY_MS: u32 = 86_400_000;
const WAY_MM: u32 = 1_000_000_000;
const BASE: Call =
    Call { kind: READ, ftp: 250, lthr: 160, ms: DAY_MS, mm: WAY_MM, power: 1 + 200, heart: 1 + 140, cadence: 1 + 900 };
const PRESS: Call = Call { kind: SKIP, ..BASE };
/// The words that are an amount elsewhere say nothing here.
const PLAIN: Call = Call { kind: EXTEND, power: 7, heart: 7, ..BASE };

fn by(secs: u32, metres: u32) -> Call {
    BASE.extending(Amount { secs, metres })
}

/// Lists that differ are written out up to the call after which they do, so many of them.
const SHOWN: u64 = 3;

#[derive(Default)]
struct Tally {
    lists: u64,
    calls: u64,
    different: u64,
    cases: u64,
    wrong: u64,
    met: Met,
    /// By the step (timed, distance, open, finished), the call (with an amount, plain) and what came of it (extended, not
    /// extended, refused by 15).
    extends: [[[u64; 3]; 2]; 4],
}

impl Tally {
    /// An extend, by the words before and after it.
    fn count(&mut self, call: &Call, before: &[u32], after: &[u32]) {
        let step = if before[FINISHED] == 1 { 3 } else { before[LEFT] as usize };
        let outcome = match (after[NUMBER], after[EXTENDED]) {
            (0, 1) => 0,
            (0, _) => 1,
            (15, _) => 2,
            _ => return,
        };
        self.extends[step][usize::from(call.kind == EXTEND)][outcome] += 1;
    }

    /// Timed and distance steps are extended or refused by 15; open and finished ones are neither.
    fn missing(&self) -> bool {
        let none = |steps: &[[[u64; 3]; 2]], outcome: usize| steps.as_flattened().iter().any(|met| met[outcome] == 0);
        none(&self.extends[..2], 0) || none(&self.extends[..2], 2) || none(&self.extends[2..], 1)
    }

    /// Compares a list with the altered Rust, or with the unchanged one where all its extends are that one's (played.rs).
    fn compare(&mut self, play: &Play) {
        let judged = answer(&play.file, &play.calls, &mut self.met);
        let ours = ours(&play.file, &play.calls);
        self.lists += 1;
        self.calls += play.calls.len() as u64;
        for (i, call) in play.calls.iter().enumerate().filter(|(_, call)| [EXTEND_WITH, EXTEND].contains(&call.kind)) {
            self.count(call, &judged[WORDS * i..], &judged[WORDS * (i + 1)..]);
        }
        if ours == judged {
            return;
        }
        self.different += 1;
        if self.different <= SHOWN {
            let at = (0..judged.len()).find(|&at| ours[at] != judged[at]).unwrap();
            let (block, place) = (at / WORDS, at % WORDS);
            let calls: Vec<_> = play.calls[..block].iter().map(Call::words).collect();
            println!("file {:?}\ncalls {calls:?}", play.file);
            println!("  after {block} calls, word {place}: altered Rust {}, Rattle {}", judged[at], ours[at]);
        }
    }

    /// Holds the last call of a list to what is wanted of it, and the list, where the Rust has all of it, to the altered Rust.
    fn case(&mut self, file: &[u8], calls: &[Call], wanted: Wanted) {
        let words = ours(file, calls);
        let last = &words[WORDS * calls.len()..];
        self.cases += 1;
        if !wanted.holds(last) {
            self.wrong += 1;
            let calls: Vec<_> = calls.iter().map(Call::words).collect();
            println!("calls {calls:?}: wanted {wanted:?}, Rattle {:?}, left {:?}", &last[..5], &last[LEFT..LEFT + 2]);
        }
        if calls.iter().all(|call| call.kind != SET) {
            self.compare(&Play { file: file.to_vec(), calls: calls.to_vec() });
        }
    }
}

/// What is left of a step: seconds, metres, or an open step that has run 0 s.
#[derive(Clone, Copy, Debug)]
enum Left {
    Secs(u32),
    Metres(u32),
    Open,
}

/// The refusal's number, whether the step is extended, and what is left of it, none where nothing is told.
#[derive(Debug)]
struct Wanted {
    number: u32,
    extended: bool,
    left: Option<Left>,
    finished: bool,
}

impl Wanted {
    fn holds(&self, words: &[u32]) -> bool {
        let told = [words[NUMBER], words[EXTENDED]] == [self.number, self.extended.into()];
        let Some(left) = self.left else { return told };
        let left_words = match left {
            Left::Secs(secs) => [0, secs],
            Left::Metres(metres) => [1, metres],
            Left::Open => [2, 0],
        };
        told && words[LEFT..LEFT + 2] == left_words && words[UNTIL_END..UNTIL_END + 2] == self.until_end(left)
    }

    /// A step holds a day and 1,000 km, or what is left of it, with the share of the other: of time up, of way down.
    fn until_end(&self, left: Left) -> [u32; 2] {
        let (day, way) = (u64::from(DAY_MS), u64::from(WAY_MM));
        let [ms, mm] = match left {
            Left::Secs(secs) if !self.finished && u64::from(secs) * 1_000 < day => {
                let ms = u64::from(secs) * 1_000;
                [ms, way * ms / day]
            }
            Left::Metres(metres) if !self.finished && u64::from(metres) * 1_000 < way => {
                let mm = u64::from(metres) * 1_000;
                [(day * mm).div_ceil(way), mm]
            }
            _ => [day, way],
        };
        [ms as u32, mm as u32]
    }
}

fn file(length: Length) -> Vec<u8> {
    let step = Step::new(Intensity::Work, length, Target::Free);
    codec::encode(&Workout::new("AMOUNTS", &[step], &[], None)).to_vec()
}

/// In a step of 10 s: what one call gave it before, the seconds of the call, the refusal's number, the seconds left after it.
const TIMED: [[u32; 4]; 20] = [
    [0, 0, 0, 10],
    [0, 1, 0, 11],
    [0, 60, 0, 70],
    [0, 86_399, 0, 86_409],
    [0, 86_400, 0, 86_410],
    [0, 86_401, 15, 10],
    [0, 4_294_967_286, 15, 10],
    [0, 4_294_967_295, 15, 10],
    [1, 86_399, 0, 86_410],
    [1, 86_400, 15, 11],
    [1, 4_294_967_295, 15, 11],
    [86_370, 30, 0, 86_410],
    [86_370, 31, 15, 86_380],
    [86_370, 60, 15, 86_380],
    [86_400, 0, 0, 86_410],
    [86_400, 1, 15, 86_410],
    [86_400, 86_400, 15, 86_410],
    [86_400, 86_401, 15, 86_410],
    [86_400, 4_294_880_896, 15, 86_410],
    [86_400, 4_294_967_295, 15, 86_410],
];

/// In a step of 100 m: the same in metres.
const DISTANCE: [[u32; 4]; 20] = [
    [0, 0, 0, 100],
    [0, 1, 0, 101],
    [0, 500, 0, 600],
    [0, 999_999, 0, 1_000_099],
    [0, 1_000_000, 0, 1_000_100],
    [0, 1_000_001, 15, 100],
    [0, 4_294_967_196, 15, 100],
    [0, 4_294_967_295, 15, 100],
    [1, 999_999, 0, 1_000_100],
    [1, 1_000_000, 15, 101],
    [1, 4_294_967_295, 15, 101],
    [999_750, 250, 0, 1_000_100],
    [999_750, 251, 15, 999_850],
    [999_750, 500, 15, 999_850],
    [1_000_000, 0, 0, 1_000_100],
    [1_000_000, 1, 15, 1_000_100],
    [1_000_000, 1_000_000, 15, 1_000_100],
    [1_000_000, 1_000_001, 15, 1_000_100],
    [1_000_000, 4_293_967_296, 15, 1_000_100],
    [1_000_000, 4_294_967_295, 15, 1_000_100],
];

/// The plain call: what was given before, the refusal's number, and what is left.
const PLAIN_TIMED: [[u32; 3]; 5] =
    [[0, 0, 40], [60, 0, 100], [86_370, 0, 86_410], [86_371, 15, 86_381], [86_400, 15, 86_410]];
const PLAIN_DISTANCE: [[u32; 3]; 5] =
    [[0, 0, 350], [500, 0, 850], [999_750, 0, 1_000_100], [999_751, 15, 999_851], [1_000_000, 15, 1_000_100]];

/// Of the other unit, and of both where neither counts.
const SECS: [u32; 5] = [0, 1, 86_400, 86_401, 4_294_967_295];
const METRES: [u32; 5] = [0, 1, 1_000_000, 1_000_001, 4_294_967_295];

/// One call that gave the step so much before, or none.
fn given(amount: u32, call: Call) -> Vec<Call> {
    if amount == 0 { vec![] } else { vec![call] }
}

fn by_hand(tally: &mut Tally) {
    let (timed, distance) = (file(Length::Time(10)), file(Length::Distance(100)));
    let open = file(Length::Open);
    let judged = |number: u32, left: Left| Wanted { number, extended: number == 0, left: Some(left), finished: false };

    // A step of 10 s, whatever the metres, and one of 100 m, whatever the seconds.
    for [before, secs, number, left] in TIMED {
        for metres in METRES {
            let calls = [given(before, by(before, metres)), vec![by(secs, metres)]].concat();
            tally.case(&timed, &calls, judged(number, Left::Secs(left)));
        }
    }
    for [before, metres, number, left] in DISTANCE {
        for secs in SECS {
            let calls = [given(before, by(secs, before)), vec![by(secs, metres)]].concat();
            tally.case(&distance, &calls, judged(number, Left::Metres(left)));
        }
    }
    for [before, number, left] in PLAIN_TIMED {
        let calls = [given(before, by(before, 0)), vec![PLAIN]].concat();
        tally.case(&timed, &calls, judged(number, Left::Secs(left)));
    }
    for [before, number, left] in PLAIN_DISTANCE {
        let calls = [given(before, by(0, before)), vec![PLAIN]].concat();
        tally.case(&distance, &calls, judged(number, Left::Metres(left)));
    }

    // Open or finished: `false`, no refusal. Finished, the step is shown afresh, and the whole of an update is past its end.
    let amounts = || SECS.iter().flat_map(|&secs| METRES.map(|metres| by(secs, metres)));
    for call in amounts().chain([PLAIN]) {
        let nothing = |left, finished| Wanted { number: 0, extended: false, left: Some(left), finished };
        tally.case(&open, &[call], nothing(Left::Open, false));
        tally.case(&open, &[by(86_400, 1_000_000), call], nothing(Left::Open, false));
        tally.case(&open, &[PRESS, call], nothing(Left::Open, true));
        tally.case(&timed, &[PRESS, call], nothing(Left::Secs(10), true));
        tally.case(&timed, &[by(86_400, 0), PRESS, call], nothing(Left::Secs(10), true));
        tally.case(&distance, &[PRESS, call], nothing(Left::Metres(100), true));
        tally.case(&distance, &[by(0, 1_000_000), PRESS, call], nothing(Left::Metres(100), true));
        // 20 comes before 15: no player, and a player with more extra than a call can give it.
        let fallen = || Wanted { number: 20, extended: false, left: None, finished: false };
        let set = |field, value| Call { kind: SET, ms: field, mm: value, power: 0, ..BASE };
        tally.case(&[], &[call], fallen());
        tally.case(&timed, &[set(EXTRA_S, 86_401), call], fallen());
        tally.case(&distance, &[set(EXTRA_M, 1_000_001), call], fallen());
    }

    // The limit in one step isn't that of the next.
    let step = Step::new(Intensity::Work, Length::Time(10), Target::Free);
    let two = codec::encode(&Workout::new("TWO", &[step, step], &[], None)).to_vec();
    tally.case(&two, &[by(86_400, 0), PRESS, by(86_400, 0)], judged(0, Left::Secs(86_410)));
    tally.case(&two, &[by(86_400, 0), PRESS, by(86_401, 0)], judged(15, Left::Secs(10)));
    tally.case(&two, &[by(86_400, 0), PRESS, PLAIN], judged(0, Left::Secs(40)));
}

/// Fields of our player, by their numbers in `compare_fields`.
const EXTRA_S: u32 = 18;
const EXTRA_M: u32 = 19;

fn any(random: &mut Random) -> u32 {
    random.below(65_536) << 16 | random.below(65_536)
}

/// Small, about the limit, about what is left of it after the Rust's own amount or the plain one, past it, or any.
fn number(random: &mut Random, limit: u32, own: u32, plain: u32) -> u32 {
    let about = [0, plain, own, limit - own, limit - plain, limit, 0_u32.wrapping_sub(limit)];
    match random.below(8) {
        0..3 => about[random.below(about.len() as u32) as usize].wrapping_add(random.below(3)).wrapping_sub(1),
        3 => any(random),
        4 => random.below(limit),
        _ => random.below(4 * own),
    }
}

fn call(random: &mut Random, pace: u32) -> Call {
    match random.below(16) {
        0..2 => PRESS,
        2..5 => Call { power: random.below(400), ..BASE },
        5..7 => Call { power: any(random), heart: any(random), ..PLAIN },
        7..10 => by(number(random, 86_400, 60, 30), number(random, 1_000_000, 500, 250)),
        _ => {
            let ms = if random.below(8) == 0 { DAY_MS - random.below(3) } else { 1 + random.below(pace) };
            let mm = match random.below(4) {
                0 => 0,
                1 => WAY_MM - random.below(3),
                _ => ms / 1_000 * random.below(12_000),
            };
            Call { kind: RIDE, ms, mm: mm.min(WAY_MM), ..BASE }
        }
    }
}

fn random_list(random: &mut Random) -> Play {
    let file = random_play(random).file;
    let pace = [3_000, 40_000, 300_000][random.below(3) as usize];
    let calls = (0..4 + random.below(21)).map(|_| call(random, pace)).collect();
    Play { file, calls }
}

fn main() {
    let numbers: Vec<u64> = std::env::args().skip(1).map(|word| word.parse().expect("LISTS SEED")).collect();
    let [count, seed] = numbers[..] else { panic!("LISTS SEED") };
    let mut random = Random(seed);
    let mut tally = Tally::default();
    by_hand(&mut tally);
    for _ in 0..count {
        tally.compare(&random_list(&mut random));
    }
    println!("amounts: {} cases by hand, {} not as the request has them", tally.cases, tally.wrong);
    println!(
        "{} lists with the Rust, {} calls, {} words compared, {} lists different",
        tally.lists,
        tally.calls,
        WORDS as u64 * (tally.lists + tally.calls),
        tally.different
    );
    println!("{}", tally.met.judged());
    for (step, extends) in ["timed", "distance", "open", "finished"].iter().zip(tally.extends) {
        println!(
            "{step}: extends with an amount (extended, not, refused by 15) {:?}, plain {:?}",
            extends[0], extends[1]
        );
    }
    let missing = tally.missing();
    if missing {
        println!("an outcome of an extend wasn't met");
    }
    std::process::exit((tally.different > 0 || tally.wrong > 0 || missing).into());
}
