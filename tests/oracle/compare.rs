//! Both sides at once: the Rust, and the Rattle of crates `compare` and `compare_files` from a static library, on every limit,
//! on random inputs and on workout files, whole, damaged and random. Words: how many random inputs and as many random files
//! (0: the limits alone, no damaged files either), and the seed. Writes a line for each question, and how many files each
//! question of document 01 refused. Fails where an answer differs, and where one of the refusals 1 to 9 wasn't met.
use inputs::{Random, files, limit_inputs, random_input};
use questions::{FILE, FILL, LENT, NAMES, WRITTEN, answer, written_answer};

#[link(name = "compare_files", kind = "static")]
unsafe extern "C" {
    /// Word `place` of the answer. A slice goes as its pointer and its length.
    safe fn question_word(question: u32, input: *const u8, length: usize, place: u32) -> u32;
    /// As many words of the answer on a file as there are places for.
    safe fn compare_file(file: *const u8, length: usize, answer: *mut u32, places: usize);
    /// What is read of a file, written again: how many bytes, or the number of the question that refuses, at most 20.
    safe fn compare_written(file: *const u8, length: usize, out: *mut u8, room: usize) -> u32;
}

fn written(file: &[u8], out: &mut [u8]) -> u32 {
    compare_written(file.as_ptr(), file.len(), out.as_mut_ptr(), out.len())
}

/// So many words of our answer.
fn ours(question: usize, input: &[u8], words: usize) -> Vec<u32> {
    match question {
        FILE => {
            let mut answer = vec![0; words];
            compare_file(input.as_ptr(), input.len(), answer.as_mut_ptr(), words);
            answer
        }
        WRITTEN => {
            let mut out = [FILL; LENT];
            let size = written(input, &mut out);
            written_answer(size, &out)
        }
        _ => {
            (0..words as u32).map(|place| question_word(question as u32, input.as_ptr(), input.len(), place)).collect()
        }
    }
}

#[derive(Clone, Copy, Default)]
struct Tally {
    inputs: u64,
    words: u64,
    different: u64,
}

/// Differences are written out as the oracle's lines, so many of each question.
const SHOWN: u64 = 5;

/// Gives the Rust's answer.
fn compare(question: usize, input: &[u8], tally: &mut Tally) -> Vec<u32> {
    let judged = answer(question, input);
    if judged.is_empty() {
        return judged;
    }
    let ours = ours(question, input, judged.len());
    tally.inputs += 1;
    tally.words += judged.len() as u64;
    if ours != judged {
        tally.different += 1;
        if tally.different <= SHOWN {
            println!("{} {:?}\n  Rust   {judged:?}\n  Rattle {ours:?}", NAMES[question], shown(question, input));
        }
    }
    judged
}

/// What was found of files: how many of them each question refused (0: accepted), and what was seen of the writer beside the
/// comparison, since the Rust's refuses nothing and is lent nothing: the number of a refusal, and that later bytes stay.
#[derive(Default)]
struct Files {
    met: [u64; 10],
    writers: Tally,
}

impl Files {
    fn compare(&mut self, file: &[u8], tallies: &mut [Tally; NAMES.len()]) {
        let refusal = compare(FILE, file, &mut tallies[FILE])[0];
        self.met[refusal as usize] += 1;
        if refusal == 0 {
            let size = compare(WRITTEN, file, &mut tallies[WRITTEN])[0];
            self.writer(file, LENT, size, size as usize);
            self.writer(file, size as usize - 1, 19, 0);
        } else {
            // The empty workout has no steps.
            self.writer(file, LENT, 6, 0);
        }
    }

    /// Lent so much room, the writer gives the number, and the bytes from a place on stay.
    fn writer(&mut self, file: &[u8], room: usize, number: u32, from: usize) {
        let mut out = [FILL; LENT];
        let answer = written(file, &mut out[..room]);
        self.writers.inputs += 1;
        self.writers.different += u64::from(answer != number || out[from..].iter().any(|&byte| byte != FILL));
    }
}

fn shown(question: usize, input: &[u8]) -> Vec<u32> {
    if questions::takes_bytes(question) {
        input.iter().map(|&byte| byte.into()).collect()
    } else {
        input.chunks_exact(4).map(|bytes| u32::from_le_bytes(bytes.try_into().unwrap())).collect()
    }
}

fn main() {
    let numbers: Vec<u64> = std::env::args().skip(1).map(|word| word.parse().expect("COUNT SEED")).collect();
    let [count, seed] = numbers[..] else { panic!("COUNT SEED") };
    let mut random = Random(seed);
    let mut tallies = [Tally::default(); NAMES.len()];
    for question in 0..FILE {
        for input in limit_inputs(question) {
            compare(question, &input, &mut tallies[question]);
        }
    }
    for _ in 0..count {
        let question = random.below(FILE as u32) as usize;
        let input = random_input(&mut random, question);
        compare(question, &input, &mut tallies[question]);
    }
    let mut found = Files::default();
    for file in limit_inputs(FILE) {
        found.compare(&file, &mut tallies);
    }
    for whole in files::whole_files().iter().filter(|_| count > 0) {
        for file in files::damaged(whole) {
            found.compare(&file, &mut tallies);
        }
    }
    for _ in 0..count {
        found.compare(&random_input(&mut random, FILE), &mut tallies);
    }
    let mut total = Tally::default();
    for (name, tally) in NAMES.iter().zip(tallies) {
        println!("{name}: {} inputs, {} words compared, {} different", tally.inputs, tally.words, tally.different);
        total.inputs += tally.inputs;
        total.words += tally.words;
        total.different += tally.different;
    }
    println!("all: {} inputs, {} words compared, {} different", total.inputs, total.words, total.different);
    println!("files accepted, then refused by 1 to 9: {:?}", found.met);
    println!("writers: {} calls, {} not as document 01 has it", found.writers.inputs, found.writers.different);
    let whole = !found.met.contains(&0);
    if !whole {
        println!("a refusal wasn't met");
    }
    std::process::exit((total.different > 0 || found.writers.different > 0 || !whole).into());
}
