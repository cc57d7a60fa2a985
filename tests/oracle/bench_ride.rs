//! Writes crates/bench_ride/specs/BenchRide.antt: the files of two examples, and what the model of replays.rs, over the Rust's
//! player, gives for them: the record, byte for byte by the model of records.rs, and the program's line. `bench_ride EXAMPLES`, the
//! folder of the examples.
use replays::{Answer, Met, Replay, answer, replay_of};
use std::path::Path;

const HEAD: &str = "\
-- Document 01, 'Bench sheet': \"A step of 10 s at 100 to 200 W, profile 200 and 160, read 150 W, ride 10,000\" from files to record and
-- line, and a ride that is refused. Written by tests/oracle/bench_ride.rs from examples/first and examples/refused: how the
-- Rust's player rides, and the record's bytes by document 02's g. Compared by tests/oracle/run. The definitions are held against these,
-- since the Rust is outside the proof.
use Rattle.std.specs.Prelude.{◌≡◌, List, [], ◌∷◌, ◌++◌, ℕ, replicate}
use Rattle.replay.specs.Replay.{ridden_of, replay_answer, replay_output}
use Rattle.console.specs.declared.Replayed.{Replayed}
use Rattle.console.specs.Console.{replayed_of, is_yes}
use Rattle.line.specs.Line.{line_of}
";

const CALLED: &str = "\
-- The C call, lent the 74 bytes of a record, all of them 0: its answer, and the bytes after it. Journal `i`, id 7, a start, dated.
abbrev pub answered : List ℕ → List ℕ → Replayed
answered file sheet = replayed_of (replay_answer file sheet 74)

abbrev pub left : List ℕ → List ℕ → List ℕ
left file sheet = replay_output file sheet 105 7 1700000000000 (is_yes 1) (replicate 74 0)

-- The program's line.
abbrev pub printed : List ℕ → List ℕ → List ℕ
printed file sheet = line_of (ridden_of file sheet 74)
";

/// The bytes in rows of ten.
fn rows(bytes: &[u8]) -> String {
    let row = |row: &[u8]| row.iter().map(|byte| format!("{byte} ∷ ")).collect::<String>() + "[]";
    let rows: Vec<String> = bytes.chunks(10).map(|bytes| format!("({})", row(bytes))).collect();
    rows.join("\n    ++ (") + &")".repeat(rows.len() - 1)
}

fn define(name: &str, says: &str, bytes: &[u8]) {
    println!("-- {says}\nabbrev pub {name} : List ℕ\n{name} =\n    {}\n", rows(bytes));
}

/// An example's files, and what a replay of them gives.
fn example(folder: &Path) -> (Replay, Answer) {
    let read = |name: &str| std::fs::read(folder.join(name)).unwrap();
    let replay = replay_of(read("workout.bin"), read("ride.bin"));
    let answer = answer(&replay, &mut Met::default());
    (replay, answer)
}

fn main() {
    let examples = std::env::args().nth(1).expect("bench_ride EXAMPLES");
    let (first, given) = example(&Path::new(&examples).join("first"));
    let (refused, why) = example(&Path::new(&examples).join("refused"));
    println!("{HEAD}");
    define("file", "examples/first/workout.bin", &first.workout);
    define("sheet", "examples/first/ride.bin", &first.sheet);
    define("stored", "the record, of which the Rust reads every field that it knows", &given.record);
    define("line", &format!("`{}`", given.line().trim_end()), given.line().as_bytes());
    define("refused_file", "examples/refused/workout.bin", &refused.workout);
    define("refused_sheet", "examples/refused/ride.bin", &refused.sheet);
    define("refused_line", &format!("`{}`", why.line().trim_end()), why.line().as_bytes());
    println!("{CALLED}");
    println!("pub record BenchRide : Type 0 where");
    for (what, definition) in [
        ("accepted", format!("answered file sheet ≡ record {{ refusal = {}; act = {} }}", given.refusal, given.act)),
        ("record_is", "left file sheet ≡ stored".to_string()),
        ("line_is", "printed file sheet ≡ line".to_string()),
        (
            "refused",
            format!("answered refused_file refused_sheet ≡ record {{ refusal = {}; act = {} }}", why.refusal, why.act),
        ),
        ("stays", "left refused_file refused_sheet ≡ replicate 74 0".to_string()),
        ("refused_line_is", "printed refused_file refused_sheet ≡ refused_line".to_string()),
    ] {
        println!("  pub {what} : {definition}");
    }
}
