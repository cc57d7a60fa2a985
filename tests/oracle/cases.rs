//! Cases for the program that plays workout.bin and ride.bin of a folder, with the line that it is to print by the model of
//! replays.rs. `cases write FOLDER` writes folders 001, 002 and on into FOLDER, each with its two files and the line as `stdout`: a file
//! is now and then missing, or a folder, which can't be read; each limit of the questions; files far longer than any that is
//! accepted; and random ones of a fixed seed. `cases line FOLDER` prints the line for the two files of FOLDER.
use inputs::Random;
use inputs::files::longest;
use replays::{Answer, MAX_ACTS, Met, answer, first_file, limit_replays, mixed_replay, random_replay, replay_of};
use std::collections::BTreeSet;
use std::path::Path;

const SEED: u64 = 7;
const FILES: [&str; 2] = ["workout.bin", "ride.bin"];
/// At least so many cases, so many of them random, and so many random with kinds 4 and 5.
const LEAST: usize = 220;
const RANDOM: usize = 120;
const MIXED: usize = 60;
const FAR: usize = 200_000;

/// What stands under a file's name.
#[derive(Clone, PartialEq, Eq, PartialOrd, Ord)]
enum File {
    Bytes(Vec<u8>),
    Missing,
    Folder,
}

impl File {
    /// What can't be read counts as empty.
    fn bytes(&self) -> Vec<u8> {
        match self {
            File::Bytes(bytes) => bytes.clone(),
            File::Missing | File::Folder => Vec::new(),
        }
    }
}

fn judged(files: &[File; 2], met: &mut Met) -> Answer {
    let [workout, sheet] = files.each_ref().map(File::bytes);
    answer(&replay_of(workout, sheet), met)
}

fn cases() -> Vec<[File; 2]> {
    let mut random = Random(SEED);
    let whole = limit_replays().swap_remove(0);
    let [workout, sheet] = [File::Bytes(whole.workout), File::Bytes(whole.sheet.clone())];
    let empty = File::Bytes(Vec::new());
    let mut cases = Vec::new();
    for none in [File::Missing, File::Folder, empty] {
        cases.push([none.clone(), none.clone()]);
        cases.push([none.clone(), sheet.clone()]);
        cases.push([workout.clone(), none]);
    }
    let far = |bytes: &[u8]| File::Bytes(bytes.iter().copied().chain(std::iter::repeat(0)).take(FAR).collect());
    cases.push([far(&longest()), sheet.clone()]);
    cases.push([far(&first_file()), far(&whole.sheet)]);
    cases.push([workout.clone(), far(&whole.sheet)]);
    // A count of 65,535 acts, all of them there.
    cases.push([workout, File::Bytes([vec![255; 2], vec![3; 65_535], vec![0; 8 * 65_535]].concat())]);
    let random =
        (0..RANDOM + MIXED).map(|i| if i < RANDOM { random_replay(&mut random) } else { mixed_replay(&mut random) });
    let played = limit_replays().into_iter().chain(random);
    cases.extend(played.map(|replay| [File::Bytes(replay.workout), File::Bytes(replay.sheet)]));
    // Those that differ in nothing but the bytes lent are one case here.
    let mut seen = BTreeSet::new();
    cases.retain(|case| seen.insert(case.clone()));
    cases
}

fn write(folder: &Path) -> std::io::Result<()> {
    let mut met = Met::default();
    let cases = cases();
    for (i, case) in cases.iter().enumerate() {
        let folder = folder.join(format!("{:03}", i + 1));
        std::fs::create_dir_all(&folder)?;
        for (name, file) in FILES.iter().zip(case) {
            match file {
                File::Bytes(bytes) => std::fs::write(folder.join(name), bytes)?,
                File::Missing => {}
                File::Folder => std::fs::create_dir(folder.join(name))?,
            }
        }
        std::fs::write(folder.join("stdout"), judged(case, &mut met).line())?;
    }
    println!("cases: {}; accepted, then refused by 1 to 20: {:?}", cases.len(), met.refused);
    let reached = (0..=17).filter(|&number| number != 14);
    let missing: Vec<usize> = reached.filter(|&number| met.refused[number] == 0).collect();
    let longest = [2 + 9 * MAX_ACTS, 3 + 9 * MAX_ACTS];
    let of = |len: usize| cases.iter().any(|case| case[1].bytes().len() == len);
    assert!(missing.is_empty() && cases.len() >= LEAST, "{} cases, not met {missing:?}", cases.len());
    assert!(longest.into_iter().all(of), "a sheet of 4,096 acts, and one byte more");
    Ok(())
}

fn main() {
    let words: Vec<String> = std::env::args().skip(1).collect();
    match words.iter().map(String::as_str).collect::<Vec<_>>()[..] {
        ["write", folder] => write(Path::new(folder)).unwrap(),
        ["line", folder] => {
            let read = |name: &str| std::fs::read(Path::new(folder).join(name)).map_or(File::Missing, File::Bytes);
            print!("{}", judged(&FILES.map(read), &mut Met::default()).line());
        }
        _ => panic!("cases write FOLDER, or cases line FOLDER"),
    }
}
