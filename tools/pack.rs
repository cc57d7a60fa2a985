//! pack FOLDER..: makes workout.bin and ride.bin in each FOLDER from its texts workout.txt and ride.txt.
//!
//! A text has one thing a line. Empty lines and lines that begin with `#` are passed over. Numbers are decimal. What fits its
//! bytes is written as it stands, right or wrong: the program that plays the files is there to judge it.
//!
//! workout.txt, the workout file:
//!
//!     name RAMP TEST                                    once or never; no small letters, at most 20
//!     test twenty                                       twenty, ramp or none; once or never
//!     step work time 600 watts 100 200 note STEADY      a step: what for, length, target, and a note if there is one
//!     repeat 0 2 3                                      from step 0 (the first) two steps, three times
//!     check 00000000                                    another check word than the right one, in hexadecimal
//!
//! A step is for `warmup`, `work`, `recovery`, `cooldown` or `test`. Its length is `time SECONDS`, `distance METRES` or
//! `open`. Its target is `free`, `ftp LOW HIGH` (percent), `watts LOW HIGH`, `zone ZONE` (heart), `lthr LOW HIGH` (percent),
//! `cadence LOW HIGH`, `ramp WATTS RISE SECONDS` or `ftpramp PERCENT RISE SECONDS`.
//!
//! ride.txt, the ride sheet:
//!
//!     profile 200 160                                   FTP in watts, LTHR in beats a minute; the first act
//!     read power 150 heart 120 cadence 905              watts, beats a minute, tenths of turns a minute; any of them or none
//!     ride 250 ms 2000 mm                               milliseconds and millimetres; without the latter 0
//!     skip                                              ends the step
//!     extend-60s-500m                                   60 s or 500 m more of the step (kind 4)
//!     extend-default                                    as much more as the handlebar button gives, 30 s or 250 m (kind 5)
//!     raw 06 0000000000000000                           any act: its kind and its eight bytes, in hexadecimal
//!     times 4 ride 250 ms 2000 mm                       the act so many times
//!     times 60                                          all acts up to the line `end` so many times; such
//!     end                                               loops may stand inside each other
use std::path::Path;
use std::process::ExitCode;

/// What is wrong with a line, or with a whole text.
type Fault = String;

/// One line of a text, read word by word.
struct Line<'a> {
    rest: &'a str,
}

impl<'a> Line<'a> {
    fn new(text: &'a str) -> Self {
        Self { rest: text.trim() }
    }

    fn word(&mut self) -> Option<&'a str> {
        let (word, rest) = self.rest.split_once(char::is_whitespace).unwrap_or((self.rest, ""));
        self.rest = rest.trim_start();
        (!word.is_empty()).then_some(word)
    }

    fn wanted(&mut self, what: &str) -> Result<&'a str, Fault> {
        self.word().ok_or_else(|| format!("{what} is missing"))
    }

    fn number(&mut self, what: &str, most: u32) -> Result<u32, Fault> {
        let word = self.wanted(what)?;
        let digits = word.bytes().all(|byte| byte.is_ascii_digit());
        let number = word.parse().ok().filter(|number| digits && *number <= most);
        number.ok_or_else(|| format!("{what} is a number from 0 to {most}, not `{word}`"))
    }

    fn half(&mut self, what: &str) -> Result<u16, Fault> {
        self.number(what, 65_535).map(|number| number as u16)
    }

    fn byte(&mut self, what: &str) -> Result<u8, Fault> {
        self.number(what, 255).map(|number| number as u8)
    }

    /// A number and its unit.
    fn amount(&mut self, unit: &str) -> Result<u32, Fault> {
        let number = self.number(unit, u32::MAX)?;
        match self.word() {
            Some(word) if word == unit => Ok(number),
            _ => Err(format!("{number} wants its unit, {unit}")),
        }
    }

    fn hexadecimal<const N: usize>(&mut self, what: &str) -> Result<[u8; N], Fault> {
        let word = self.wanted(what)?;
        let wrong = || format!("{what} is {} hexadecimal digits, not `{word}`", 2 * N);
        if word.len() != 2 * N || !word.bytes().all(|byte| byte.is_ascii_hexdigit()) {
            return Err(wrong());
        }
        let number = u128::from_str_radix(word, 16).map_err(|_| wrong())?;
        let mut bytes = [0; N];
        bytes.copy_from_slice(&number.to_be_bytes()[16 - N..]);
        Ok(bytes)
    }

    /// All that is left of the line, as a length byte and text.
    fn text(&mut self, what: &str) -> Result<Vec<u8>, Fault> {
        let text = std::mem::take(&mut self.rest).as_bytes();
        let length = u8::try_from(text.len()).map_err(|_| format!("{what} is longer than 255 bytes"))?;
        Ok([&[length], text].concat())
    }

    fn end(self) -> Result<(), Fault> {
        if self.rest.is_empty() { Ok(()) } else { Err(format!("`{}` is more than this line takes", self.rest)) }
    }
}

/// Reads a text line by line; a fault is told with its line.
fn each_line(text: &str, mut read: impl FnMut(&str, Line, usize) -> Result<(), Fault>) -> Result<(), Fault> {
    for (i, line) in text.lines().enumerate() {
        let mut line = Line::new(line);
        if line.rest.starts_with('#') {
            continue;
        }
        if let Some(word) = line.word() {
            read(word, line, i + 1).map_err(|fault| format!("line {}: {fault}", i + 1))?;
        }
    }
    Ok(())
}

/// The 32-bit check of ITU-T V.42, bit by bit.
fn crc32(bytes: &[u8]) -> u32 {
    !bytes.iter().fold(u32::MAX, |register, &byte| {
        (0..8).fold(register ^ u32::from(byte), |register, _| {
            if register & 1 == 1 { register >> 1 ^ 0xEDB8_8320 } else { register >> 1 }
        })
    })
}

fn one_of(words: &[&str], line: &mut Line, what: &str) -> Result<u8, Fault> {
    let word = line.wanted(what)?;
    let place = words.iter().position(|other| *other == word);
    place.map(|place| place as u8).ok_or_else(|| format!("{what} is one of {}, not `{word}`", words.join(", ")))
}

/// Names of targets, by number, each with the names of its values.
const TARGETS: [(&str, &[&str]); 8] = [
    ("free", &[]),
    ("ftp", &["low", "high"]),
    ("watts", &["low", "high"]),
    ("zone", &["zone"]),
    ("lthr", &["low", "high"]),
    ("cadence", &["low", "high"]),
    ("ramp", &["start", "rise", "seconds"]),
    ("ftpramp", &["start", "rise", "seconds"]),
];

fn step(line: &mut Line) -> Result<Vec<u8>, Fault> {
    let intensity = one_of(&["warmup", "work", "recovery", "cooldown", "test"], line, "what the step is for")?;
    let kind = one_of(&["time", "distance", "open"], line, "the length")?;
    let length = match kind {
        0 => line.number("seconds", u32::MAX)?,
        1 => line.number("metres", u32::MAX)?,
        _ => 0,
    };
    let mut step = vec![intensity, kind];
    step.extend(length.to_le_bytes());
    let target = one_of(&TARGETS.map(|(name, _)| name), line, "the target")?;
    step.push(target);
    let mut values = [0; 3];
    for (value, what) in values.iter_mut().zip(TARGETS[usize::from(target)].1) {
        *value = line.half(what)?;
    }
    step.extend(values.into_iter().flat_map(u16::to_le_bytes));
    step.push(0);
    match line.word() {
        None => step.push(0),
        Some("note") => step.extend(line.text("the note")?),
        Some(word) => return Err(format!("after the target stands `note` or nothing, not `{word}`")),
    }
    Ok(step)
}

fn workout(text: &str) -> Result<Vec<u8>, Fault> {
    let (mut name, mut test, mut check) = (None, None, None);
    let (mut steps, mut blocks) = (Vec::new(), Vec::new());
    each_line(text, |word, mut line, _| {
        let twice = match word {
            "name" => name.replace(line.text("the name")?).is_some(),
            "test" => test.replace(one_of(&["none", "twenty", "ramp"], &mut line, "the test")?).is_some(),
            "check" => check.replace(line.hexadecimal::<4>("the check word")?).is_some(),
            "step" => {
                steps.push(step(&mut line)?);
                false
            }
            "repeat" => {
                blocks.push([line.byte("the first step")?, line.byte("steps")?, line.byte("times")?]);
                false
            }
            _ => return Err(format!("a line begins with name, test, step, repeat or check, not `{word}`")),
        };
        if twice {
            return Err(format!("{word} stands here a second time"));
        }
        line.end()
    })?;
    let count = |what: &str, count: usize| u8::try_from(count).map_err(|_| format!("more than 255 {what}"));
    let mut file = vec![b'V', b'W', 1, test.unwrap_or(0)];
    file.extend(name.unwrap_or(vec![0]));
    file.extend([count("steps", steps.len())?, count("repeats", blocks.len())?]);
    file.extend(steps.concat());
    file.extend(blocks.concat());
    let right = crc32(&file).to_be_bytes();
    file.extend(check.unwrap_or(right).iter().rev());
    Ok(file)
}

/// The kind and the value of an entry of the sheet.
type Act = (u8, [u8; 8]);

/// The sheet's count has two bytes.
const MOST_ACTS: usize = 65_535;

fn halves(halves: [u16; 4]) -> [u8; 8] {
    let mut value = [0; 8];
    for (bytes, half) in value.chunks_exact_mut(2).zip(halves) {
        bytes.copy_from_slice(&half.to_le_bytes());
    }
    value
}

fn reading(line: &mut Line) -> Result<Act, Fault> {
    const NAMES: [&str; 3] = ["power", "heart", "cadence"];
    let mut values = [0; 4];
    while !line.rest.is_empty() {
        let place = usize::from(one_of(&NAMES, line, "a reading")?);
        if values[3] & 1 << place != 0 {
            return Err(format!("{} stands twice", NAMES[place]));
        }
        values[3] |= 1 << place;
        values[place] = line.half(NAMES[place])?;
    }
    Ok((1, halves(values)))
}

fn ride(line: &mut Line) -> Result<Act, Fault> {
    let ms = line.amount("ms")?;
    let mm = if line.rest.is_empty() { 0 } else { line.amount("mm")? };
    Ok((2, (u64::from(mm) << 32 | u64::from(ms)).to_le_bytes()))
}

fn act(word: &str, line: &mut Line) -> Result<Act, Fault> {
    match word {
        "profile" => Ok((0, halves([line.half("FTP")?, line.half("LTHR")?, 0, 0]))),
        "read" => reading(line),
        "ride" => ride(line),
        "skip" => Ok((3, [0; 8])),
        "extend-60s-500m" => Ok((4, [0; 8])),
        "extend-default" => Ok((5, [0; 8])),
        // It was kind 4 before there were two, and nobody is to take one for the other.
        "extend" => Err("`extend` is either extend-60s-500m, as it was, or extend-default (30 s or 250 m)".to_string()),
        "raw" => {
            let [kind] = line.hexadecimal("the kind")?;
            Ok((kind, line.hexadecimal("the value")?))
        }
        _ => Err(format!("an act is profile, read, ride, skip, extend-60s-500m, extend-default or raw, not `{word}`")),
    }
}

fn add(acts: &mut Vec<Act>, more: &[Act], times: usize) -> Result<(), Fault> {
    if more.len().saturating_mul(times) > MOST_ACTS - acts.len() {
        return Err(format!("more than {MOST_ACTS} acts"));
    }
    if !more.is_empty() {
        (0..times).for_each(|_| acts.extend(more));
    }
    Ok(())
}

fn sheet(text: &str) -> Result<Vec<u8>, Fault> {
    // The acts so far, and those of each loop that is open, with its line and its number.
    let mut acts = Vec::new();
    let mut loops: Vec<(usize, usize, Vec<Act>)> = Vec::new();
    each_line(text, |word, mut line, at| {
        let (more, times) = match word {
            "end" => {
                let (_, times, inner) = loops.pop().ok_or("an end without its times")?;
                (inner, times)
            }
            "times" => {
                let times = line.number("times", u32::MAX)? as usize;
                let Some(word) = line.word() else {
                    loops.push((at, times, Vec::new()));
                    return Ok(());
                };
                (vec![act(word, &mut line)?], times)
            }
            _ => (vec![act(word, &mut line)?], 1),
        };
        line.end()?;
        add(loops.last_mut().map_or(&mut acts, |(_, _, acts)| acts), &more, times)
    })?;
    if let Some((at, _, _)) = loops.last() {
        return Err(format!("line {at}: times without its end"));
    }
    let mut sheet = (acts.len() as u16).to_le_bytes().to_vec();
    sheet.extend(acts.iter().map(|(kind, _)| kind));
    sheet.extend(acts.iter().flat_map(|(_, value)| value));
    Ok(sheet)
}

/// The bytes that a text of the folder makes.
fn made(folder: &Path, name: &str, make: fn(&str) -> Result<Vec<u8>, Fault>) -> Result<Vec<u8>, Fault> {
    let path = folder.join(name);
    let told = |fault: &dyn std::fmt::Display| format!("{}: {fault}", path.display());
    let bytes = std::fs::read(&path).map_err(|fault| told(&fault))?;
    let text = std::str::from_utf8(&bytes).map_err(|fault| {
        let lines = bytes[..fault.valid_up_to()].iter().filter(|&&byte| byte == b'\n').count();
        told(&format_args!("line {}: this isn't text (UTF-8)", lines + 1))
    })?;
    make(text).map_err(|fault| told(&fault))
}

/// Nothing is written unless both texts are right.
fn pack(folder: &Path) -> Result<(), Fault> {
    let files =
        [("workout.bin", made(folder, "workout.txt", workout)?), ("ride.bin", made(folder, "ride.txt", sheet)?)];
    for (name, bytes) in files {
        let path = folder.join(name);
        std::fs::write(&path, &bytes).map_err(|fault| format!("{}: {fault}", path.display()))?;
        println!("{}: {} bytes", path.display(), bytes.len());
    }
    Ok(())
}

fn main() -> ExitCode {
    let folders: Vec<std::ffi::OsString> = std::env::args_os().skip(1).collect();
    if folders.is_empty() {
        eprintln!(
            "usage: tools/pack FOLDER..: makes workout.bin and ride.bin from workout.txt and ride.txt (see tools/pack.rs)"
        );
        return ExitCode::from(2);
    }
    for folder in &folders {
        if let Err(fault) = pack(Path::new(folder)) {
            eprintln!("{fault}");
            return ExitCode::FAILURE;
        }
    }
    ExitCode::SUCCESS
}
