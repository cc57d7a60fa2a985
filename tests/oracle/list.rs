//! Writes the fixed lists that crate `vectors` plays, `answers`, `players` and `replays`, to the folder given (tests/c/list.c plays
//! `replays` too): each limit of each question, then random inputs of a fixed seed, with the Rust's answers. `list different FOLDER`
//! says instead of how many entries in FOLDER's lists the answer isn't the Rust's of this build, and fails where there is one. An
//! entry is the question, the number of the input's bytes, the input, the number of the answer's words, and the words; the numbers and the
//! words are 4 bytes each, little-endian. Two questions come after those of questions.rs.
//!
//! On the player: the input is the number of a workout file's bytes, the file, and a list of calls, the answer `played::WORDS`
//! words on the fresh player and after each call, by the Rust that played.rs judges the list by.
//!
//! On a whole replay: the input is seven words (the number of the workout's bytes, journal, id, the start's lower and upper half,
//! dated, how many bytes are lent), the workout, and the sheet to the end. The answer is the refusal's number, its act, and the
//! `OUTPUT` bytes, four to a word, that hold the output: they are all `FILL` before, and the first of them are lent. The answers are
//! those of the model in replays.rs: by the unchanged Rust where the sheet has no kind 5 and the workout at most one played test step,
//! else by the altered one, and the record's bytes by the model of records.rs.
use inputs::calls::{Play, limit_plays, random_play};
use inputs::{Random, limit_inputs, random_input};
use played::{Call, Met};
use questions::{FILE, FILL, NAMES, answer, bytes_of};
use replays::{Replay, limit_replays, mixed_replay, random_replay};
use std::path::{Path, PathBuf};

const SEED: u64 = 20;
const FILES: [&str; 3] = ["answers", "players", "replays"];
/// Random inputs of each question.
const COUNT: usize = 120;
/// The question on the player, how many random lists, and how many calls of each list.
const PLAYER: usize = NAMES.len();
const LISTS: usize = 56;
const CALLS: usize = 11;
/// The question on a whole replay, and the bytes that hold its output.
const REPLAY: usize = PLAYER + 1;
const OUTPUT: usize = 80;
/// A list has fewer bytes.
const ROOM: usize = 524_288;
/// How many replays; the most bytes of workout and sheet together, but for those at limits whose sheet has a length of `LONG` (1,442,
/// 1,443, 2,002 and 4,096 acts); and the most bytes of all.
const REPLAYS: usize = 860;
const SHORT: usize = 420;
const LONG: [usize; 4] = [2 + 9 * 1_442, 2 + 9 * 1_443, 2 + 9 * 2_002, 2 + 9 * 4_096];
const REPLAYS_BYTES: usize = 400_000;

fn entry(list: &mut Vec<u8>, question: usize, input: &[u8], answer: &[u32]) {
    list.extend(bytes_of(&[question as u32, input.len() as u32]));
    list.extend(input);
    list.extend(bytes_of(&[answer.len() as u32]));
    list.extend(bytes_of(answer));
}

/// Lists of calls.
fn players() -> Vec<u8> {
    let mut random = Random(SEED);
    let (mut list, mut met) = (Vec::new(), Met::default());
    let (mut lists, mut answers) = (0, 0);
    let plays = limit_plays().into_iter().chain((0..LISTS).map(|_| random_play(&mut random)));
    for Play { file, mut calls } in plays {
        calls.truncate(CALLS);
        let judged = played::answer(&file, &calls, &mut met);
        let input = [bytes_of(&[file.len() as u32]), file, played::bytes_of(&calls)].concat();
        entry(&mut list, PLAYER, &input, &judged);
        lists += 1;
        answers += calls.len();
    }
    println!("player: {lists} lists, {answers} answers after a call, {} bytes", list.len());
    assert!(list.len() < ROOM, "crate `vectors` has room for so many bytes of a list");
    println!("events {:?}, lengths {:?}, targets {:?}", met.events, met.lengths, met.targets);
    println!("failed ramps {}, refused {:?}", met.failed_ramps, met.refused);
    println!("{}", met.judged());
    println!("without a reading: lengths {:?}, targets {:?}", met.unread_lengths, met.unread_targets);
    let unread = [&met.unread_lengths[..], &met.unread_targets[1..]].concat();
    let kinds = [&met.events[..], &met.lengths, &met.targets, &[met.failed_ramps], &unread].concat();
    assert!(answers >= 1_000 && !kinds.contains(&0), "every kind is to be in the list");
    list
}

/// The answer on a whole replay.
fn replay_words(replay: &Replay, met: &mut replays::Met) -> Vec<u32> {
    let answer = replays::answer(replay, met);
    let mut output = [FILL; OUTPUT];
    if answer.refusal == 0 {
        output[..answer.record.len()].copy_from_slice(&answer.record);
    }
    let words = output.chunks_exact(4).map(|word| u32::from_le_bytes(word.try_into().unwrap()));
    [answer.refusal, answer.act].into_iter().chain(words).collect()
}

fn replay_entry(list: &mut Vec<u8>, replay: &Replay, met: &mut replays::Met) {
    let Replay { workout, sheet, journal, id, start, dated, room } = replay;
    assert!(*room <= OUTPUT);
    let halves = [*start as u32, (start >> 32) as u32];
    let head = [workout.len() as u32, (*journal).into(), *id, halves[0], halves[1], *dated, *room as u32];
    let input = [&bytes_of(&head)[..], workout, sheet].concat();
    entry(list, REPLAY, &input, &replay_words(replay, met));
}

/// Whole replays: the short ones at limits, a few long ones, then short random ones, each third with kinds 4 and 5.
fn replays() -> Vec<u8> {
    let mut random = Random(SEED);
    let (mut list, mut met, mut entries) = (Vec::new(), replays::Met::default(), 0);
    let limits = limit_replays();
    let short = |replay: &Replay| replay.workout.len() + replay.sheet.len() <= SHORT;
    let long = limits.iter().filter(|replay| LONG.contains(&replay.sheet.len()));
    let random = (0..).map(|i| if i % 3 == 2 { mixed_replay(&mut random) } else { random_replay(&mut random) });
    for replay in
        limits.iter().filter(|replay| short(replay)).chain(long).cloned().chain(random.filter(short)).take(REPLAYS)
    {
        replay_entry(&mut list, &replay, &mut met);
        entries += 1;
    }
    println!("replays: {entries}, {} bytes; accepted, then refused by 1 to 20: {:?}", list.len(), met.refused);
    println!("{}", met.judged());
    assert!(met.missing().is_empty(), "not in the list of replays: {:?}", met.missing());
    assert!(list.len() < REPLAYS_BYTES, "the list of replays is to stay short");
    list
}

fn words_in(bytes: &[u8]) -> Vec<u32> {
    bytes.chunks_exact(4).map(|word| u32::from_le_bytes(word.try_into().unwrap())).collect()
}

/// The Rust's answer on the input of an entry.
fn judged(question: usize, input: &[u8]) -> Vec<u32> {
    match question {
        PLAYER => {
            let (file, calls) = input[4..].split_at(words_in(&input[..4])[0] as usize);
            let call = |w: &[u32]| {
                let [kind, ftp, lthr, ms, mm, power, heart, cadence] = *w.as_array().unwrap();
                Call { kind, ftp, lthr, ms, mm, power, heart, cadence }
            };
            let calls: Vec<Call> = words_in(calls).chunks_exact(8).map(call).collect();
            played::answer(file, &calls, &mut Met::default())
        }
        REPLAY => {
            let (head, bytes) = input.split_at(28);
            let [size, journal, id, low, high, dated, room] = *words_in(head).as_array().unwrap();
            let (workout, sheet) = bytes.split_at(size as usize);
            let (start, room) = (u64::from(high) << 32 | u64::from(low), room as usize);
            let (workout, sheet) = (workout.to_vec(), sheet.to_vec());
            let replay = Replay { workout, sheet, journal: journal as u8, id, start, dated, room };
            replay_words(&replay, &mut replays::Met::default())
        }
        _ => answer(question, input),
    }
}

/// How many entries of a list there are, and of how many the answer isn't the Rust's; one on which the Rust fails is such.
fn different(list: &[u8]) -> [usize; 2] {
    let (mut at, mut entries, mut different) = (0, 0, 0);
    let mut next = |n: usize| {
        at += n;
        (&list[at - n..at], at < list.len())
    };
    loop {
        let head = words_in(next(8).0);
        let input = next(head[1] as usize).0;
        let size = words_in(next(4).0)[0];
        let (words, more) = next(4 * size as usize);
        let judged = std::panic::catch_unwind(|| judged(head[0] as usize, input));
        entries += 1;
        different += usize::from(judged.ok() != Some(words_in(words)));
        if !more {
            return [different, entries];
        }
    }
}

fn all_different(folder: &Path) -> ! {
    std::panic::set_hook(Box::new(|_| {}));
    let found = FILES.map(|name| different(&std::fs::read(folder.join(name)).unwrap()));
    let said: Vec<String> =
        FILES.iter().zip(found).map(|(name, [different, of])| format!("{name} {different} of {of}")).collect();
    println!("{}", said.join(", "));
    std::process::exit(found.iter().any(|[different, _]| *different > 0).into());
}

fn main() {
    let words: Vec<String> = std::env::args().skip(1).collect();
    let folder = match &words[..] {
        [folder] => PathBuf::from(folder),
        [word, folder] if word == "different" => all_different(Path::new(folder)),
        _ => panic!("list FOLDER, or list different FOLDER"),
    };
    let mut list = Vec::new();
    let mut met = [0; 10];
    for question in 0..NAMES.len() {
        let mut random = Random(SEED);
        let mut inputs = limit_inputs(question);
        inputs.extend((0..COUNT).map(|_| random_input(&mut random, question)));
        let (mut entries, mut words, before) = (0, 0, list.len());
        for input in inputs {
            let judged = answer(question, &input);
            if judged.is_empty() {
                continue;
            }
            entry(&mut list, question, &input, &judged);
            if question == FILE {
                met[judged[0] as usize] += 1;
            }
            entries += 1;
            words += judged.len();
        }
        println!("{}: {entries} inputs, {words} words, {} bytes", NAMES[question], list.len() - before);
    }
    println!("files accepted, then refused by 1 to 9: {met:?}");
    assert!(!met.contains(&0), "every refusal is to be in the list");
    println!("{} bytes", list.len());
    std::fs::write(folder.join("answers"), list).unwrap();
    std::fs::write(folder.join("players"), players()).unwrap();
    std::fs::write(folder.join("replays"), replays()).unwrap();
}
