//! Writes crates/history/specs/Samples.antt: some rides (`inputs::records::samples`) with the bytes of each by the model there, and
//! some bytes with what the Rust reads of them and what the model reads as unread. The Rust writes version 1, so of the model's
//! bytes it is asked that the Rust's `decode` shows every field that it knows at the right value.
extern crate vana;

use inputs::records::{read_samples, samples, shown, unread_in};
use vana::workout::history::decode;
use vana::workout::model::Test;
use vana::workout::player::Summary;

const HEAD: &str = "\
-- Some rides with their bytes by document 02's g, of which the Rust's `decode` shows every field that it knows at the right value; and
-- some bytes with what its `decode` reads of them and what g reads as unread. `read_9` is what the Rust's `encode` wrote itself, version 1.
-- Written by tests/oracle/record_samples.rs, compared by tests/oracle/run. The definitions are held against these, since the Rust is
-- outside the proof.
use Rattle.std.specs.Prelude.{◌≡◌, Bool, true, false, [], ◌∷◌, ◌++◌, ℕ, None, Option, Some}
use Rattle.cursor.specs.Names.{name_of}
use Rattle.model.specs.declared.Test.TheVariants as tests
use Rattle.state.specs.declared.Summary.{Summary}
use Rattle.history.specs.Record.{record_of, record_bytes}
use Rattle.history.specs.Decode.{no_record, read_as, decode_of}

-- steps done, steps, skipped; targeted, in, under, over, unread; finished; FTP
abbrev pub summary_of : ℕ → ℕ → ℕ → ℕ → ℕ → ℕ → ℕ → ℕ → Bool → Option ℕ → Summary
summary_of done steps skipped targeted inside under over unread finished measured =
    record {
      targeted_ms = targeted;
      in_ms = inside;
      under_ms = under;
      over_ms = over;
      unread_ms = unread;
      ftp = measured;
      steps_done = done;
      steps = steps;
      skipped = skipped;
      finished = finished;
    }

-- a record is made of name, test, summary, journal, id, start, dated
pub record Samples : Type 0 where";

fn list(bytes: &[u8]) -> String {
    bytes.iter().map(|byte| format!("{byte} ∷ ")).collect::<String>() + "[]"
}

/// The bytes in rows of ten.
fn rows(bytes: &[u8]) -> String {
    let rows: Vec<String> = bytes.chunks(10).map(|row| format!("({})", list(row))).collect();
    rows.join("\n      ++ (") + &")".repeat(rows.len() - 1)
}

/// A record as `record_of` makes it.
fn made(name: &[u8], test: Option<Test>, s: &Summary, unread: u64, ride: (u8, u32, u64, bool)) -> String {
    let test = match test {
        None => "tests.None",
        Some(Test::Twenty) => "tests.Twenty",
        Some(Test::Ramp) => "tests.Ramp",
    };
    let ftp = s.ftp.map_or("None".to_string(), |watts| format!("(Some {watts})"));
    let (journal, id, start, dated) = ride;
    format!(
        "(record_of (name_of ({})) {test}\n      (summary_of {} {} {} {} {} {} {} {unread} {} {ftp}) {journal} {id} {start} {dated})",
        list(name),
        s.steps_done,
        s.steps,
        s.skipped,
        s.targeted_ms,
        s.in_ms,
        s.under_ms,
        s.over_ms,
        s.finished
    )
}

fn read(bytes: &[u8]) -> String {
    decode(bytes).map_or("no_record".to_string(), |record| {
        let start = record.started_utc_ms;
        let ride = (record.journal, record.ride_id, start.unwrap_or(0), start.is_some());
        format!("read_as\n      {}", made(record.name.as_bytes(), record.test, &record.summary, unread_in(bytes), ride))
    })
}

fn main() {
    println!("{HEAD}");
    for (i, sample) in samples().iter().enumerate() {
        let ride = (sample.journal, sample.id, sample.start, sample.dated);
        let record = made(sample.name.as_bytes(), sample.test, &sample.summary, sample.unread, ride);
        let bytes = sample.bytes();
        assert_eq!(decode(&bytes), Some(shown(&sample.record())), "the Rust shows another value of sample {i}");
        println!("  pub written_{i} : record_bytes\n      {record}\n      ≡ {}", rows(&bytes));
    }
    for (i, bytes) in read_samples().iter().enumerate() {
        println!("  pub read_{i} : decode_of\n      ({})\n      ≡ {}", rows(bytes), read(bytes));
    }
}
