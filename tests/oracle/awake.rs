//! What tests/oracle/awake runs; the words are the Rust's folder and the list of changes. In the list a change is a line
//! `change: WHAT`, then for each text that is changed `file:`, `old:` and `new:` lines; a file stands below the Rust's src/, in
//! tests/oracle/ or, with its folder, in tools/, and the old text stands once in it. A line `lists: no` says that the fixed lists
//! can't hold it. Lines with # and empty ones are passed over.
use std::cell::Cell;
use std::fs;
use std::path::{Path, PathBuf};
use std::process::Command;

#[derive(Default)]
struct Change {
    what: String,
    in_lists: bool,
    /// File, old text, new text.
    texts: Vec<[String; 3]>,
}

fn changes(list: &str) -> Vec<Change> {
    let mut changes: Vec<Change> = Vec::new();
    let (mut file, mut old) = (String::new(), String::new());
    for line in list.lines().filter(|line| !line.is_empty() && !line.starts_with('#')) {
        let (key, value) = line.split_once(": ").unwrap_or_else(|| panic!("not a line of changes: {line}"));
        match key {
            "change" => changes.push(Change { what: value.to_string(), in_lists: true, texts: Vec::new() }),
            "lists" => changes.last_mut().unwrap().in_lists = value != "no",
            "file" => file = value.to_string(),
            "old" => old = value.to_string(),
            "new" => changes.last_mut().unwrap().texts.push([file.clone(), old.clone(), value.to_string()]),
            _ => panic!("not a line of changes: {line}"),
        }
    }
    changes
}

/// The copy: the Rust's folder as `src`, the programs as `tests/oracle`, those of `tools`, what is built in `target/oracle`.
struct Copy {
    root: PathBuf,
    folder: PathBuf,
    /// The libraries are those of the files as they stand.
    built: Cell<bool>,
}

const RUST: &str = "apps/vana/src";
const TOOLS: &str = "tools";
const RUST_FILES: [&str; 5] =
    ["ride/zones.rs", "workout/model.rs", "workout/codec.rs", "workout/player.rs", "workout/history.rs"];

impl Copy {
    fn new(folder: &Path) -> Self {
        let root = PathBuf::from("target/oracle/awake");
        let _ = fs::remove_dir_all(&root);
        fs::create_dir_all(root.join("target/oracle")).unwrap();
        let libraries = fs::canonicalize("target/staticlib").expect("tests/oracle/run comes first");
        std::os::unix::fs::symlink(libraries, root.join("target/staticlib")).unwrap();
        Copy { root: fs::canonicalize(root).unwrap(), folder: folder.to_path_buf(), built: Cell::new(false) }
    }

    fn place(&self, file: &str) -> PathBuf {
        if RUST_FILES.contains(&file) {
            self.root.join("src").join(RUST).join(file)
        } else if file.starts_with(TOOLS) {
            self.root.join(file)
        } else {
            self.root.join("tests/oracle").join(file)
        }
    }

    /// The files as they are, and then the change.
    fn make(&self, change: &Change) {
        self.built.set(false);
        let copy = |from: &Path, to: &Path| {
            fs::create_dir_all(to.parent().unwrap()).unwrap();
            // Read and written, so that the copy of a file that can't be written can be.
            fs::write(to, fs::read(from).unwrap()).unwrap();
        };
        for file in RUST_FILES {
            copy(&self.folder.join(RUST).join(file), &self.place(file));
        }
        for folder in ["tests/oracle", "tests/oracle/stand_ins", TOOLS] {
            for entry in fs::read_dir(folder).unwrap().map(|entry| entry.unwrap().path()) {
                if entry.is_file() {
                    copy(&entry, &self.root.join(&entry));
                }
            }
        }
        for [file, old, new] in &change.texts {
            let place = self.place(file);
            let text = fs::read_to_string(&place).unwrap();
            assert_eq!(text.matches(old.as_str()).count(), 1, "{}: how often '{old}' stands in {file}", change.what);
            fs::write(place, text.replace(old.as_str(), new)).unwrap();
        }
    }

    /// A program; the libraries below it are built once for a change.
    fn build(&self, program: &str) {
        let script = self.root.join("tests/oracle/build");
        let folder = self.root.join("src");
        // By `sh`: the script's copy isn't one that can be executed.
        let mut command = Command::new("sh");
        command.arg(script).arg(folder).arg(program).env("OPT", "0").env_remove("KEPT");
        if self.built.replace(true) {
            command.env("KEPT", "1");
        }
        let built = command.output().unwrap();
        assert!(built.status.success(), "{program}: {}", String::from_utf8_lossy(&built.stderr));
    }

    /// What a program prints, and whether it fails.
    fn run(&self, program: &str, words: &str) -> (String, bool) {
        let mut command = Command::new(self.root.join("target/oracle").join(program));
        let done = command.args(words.split(' ')).output().unwrap();
        (String::from_utf8_lossy(&done.stdout).trim().to_string(), !done.status.success())
    }

    /// Of how many answers of each fixed list the Rust's answer is another.
    fn different(&self) -> (String, bool) {
        self.run("list", "different crates/vectors/data")
    }
}

type Comparison = (&'static str, &'static str);

/// Programs of tests/oracle/run with their words: the limits, with no random inputs, or few.
const PLAYER: Comparison = ("player", "0 1");
const REPLAY: Comparison = ("replay", "0 1");
const AMOUNTS: Comparison = ("amounts", "0 1");
const TWO_TESTS: Comparison = ("two_tests", "0 1");
const COMPARE: Comparison = ("compare", "0 1");
const CUTTING: Comparison = ("cutting", "300 1");
const ONE_READING: Comparison = ("one_reading", "300 1");
const RECORDS: Comparison = ("compare_records", "0 1");

/// Those that a change of a file is looked for by, one after the other until it is found.
fn comparisons(file: &str) -> &'static [Comparison] {
    match file {
        "workout/player.rs" => &[PLAYER, REPLAY],
        "played.rs" | "players.rs" => &[PLAYER, REPLAY, AMOUNTS],
        "replays.rs" => &[REPLAY],
        "records.rs" | "compare_records.rs" | "workout/history.rs" | "tools/record.rs" => &[RECORDS],
        "fields.rs" => &[PLAYER],
        "machine.rs" | "cut.rs" | "cutting.rs" => &[CUTTING],
        "one_reading.rs" => &[ONE_READING],
        "build" | "two_tests.rs" => &[TWO_TESTS],
        _ => &[COMPARE, PLAYER],
    }
}

fn main() {
    let words: Vec<String> = std::env::args().skip(1).collect();
    let [folder, list] = &words[..] else { panic!("FOLDER LIST") };
    let copy = Copy::new(Path::new(folder));
    let changes = changes(&fs::read_to_string(list).unwrap());
    let (mut missed, mut sums) = (0, [0; 2]);

    // Without a change nothing may be found.
    copy.make(&Change::default());
    copy.build("list");
    let (said, found) = copy.different();
    println!("no change | {said}");
    missed += usize::from(found);
    for (program, words) in [PLAYER, REPLAY, AMOUNTS, TWO_TESTS, COMPARE, CUTTING, ONE_READING, RECORDS] {
        copy.build(program);
        let (said, found) = copy.run(program, words);
        println!("no change | {program} {words}: {}", if found { &said } else { "nothing" });
        missed += usize::from(found);
    }

    for change in &changes {
        copy.make(change);
        let (lists, in_lists) = if change.in_lists {
            copy.build("list");
            copy.different()
        } else {
            ("the lists can't hold it".to_string(), true)
        };
        let by = comparisons(&change.texts[0][0]).iter().find(|(program, words)| {
            copy.build(program);
            copy.run(program, words).1
        });
        sums[0] += usize::from(change.in_lists && in_lists);
        sums[1] += usize::from(by.is_some());
        let said = by.map_or("nothing".to_string(), |(program, words)| format!("{program} {words}"));
        println!("{} | {lists} | {said}{}", change.what, if in_lists && by.is_some() { "" } else { " | NOT FOUND" });
        missed += usize::from(!in_lists || by.is_none());
    }
    let held = changes.iter().filter(|change| change.in_lists).count();
    println!(
        "awake: {} changes, {} of {held} found by the fixed lists, {} by the comparison, {missed} amiss",
        changes.len(),
        sums[0],
        sums[1]
    );
    std::process::exit((missed > 0).into());
}
