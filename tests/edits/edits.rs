// Every must-fail edit is refused for its own fact, by what the prover says of it.
//
// A file crates/CRATE/must-fail/NAME.edit has one edit or more. Each begins with a line
//     edit: LABEL in FUNCTION
// and has its pairs of old and new text below it. FUNCTION, Type/method of a method, is the one whose proof must fail on it; there may
// be several. A definition that only crates above use has the file of its law there, as Laws.antt.
// `rt ci` tries all edits of a file in one check of the crate, and tells the first error that isn't one of names. Where RT_CI_LOG names
// what it said, that is taken for a file with one edit of one function, if the error is one of that function's proof or of a law. In all
// other files, and in all of them without that log, the functions named are checked here with the edits made, in a copy of the crates, as
// many side by side as there are processors, and what the prover says is left as target/must-fail/CRATE/NAME/.log. It is asked of each edit:
//   - Its function is refused for an error of its own proof, or, where the file has no other edit, of a law that the proof rests on.
//   - No error is one of names or syntax: a right program of another form would be refused for that too. A goal has its name from the
//     code, so where an edit changes that text an answer may miss its goal; then another of the function must be refused for a fact.
//   - No other edit of the file bears on its function (`bears_on`), so that it is refused for its own text.
//   - Each public function has two edits or more.
use std::collections::{BTreeMap, BTreeSet};
use std::fs;
use std::path::{Path, PathBuf};
use std::process::{Command, Stdio};
use std::sync::Mutex;

type Names = BTreeSet<String>;

struct Function {
    name: String, // as its folder below proofs/: NAME or Type/NAME
    public: bool,
    lines: (usize, usize),
    head: (usize, usize), // up to its body, contract included
    body: (usize, usize),
    in_head: Names,
    in_body: Names,
    in_proof: Names,
    calls: Names,
}

// A definition of specs/, a law of proofs/, or a constant or type of src/.
struct Definition {
    names: Names, // its own, and those of its fields and constructors
    span: (usize, usize),
    words: Names,
}

struct Source {
    text: String,
    functions: Vec<Function>,
    definitions: Vec<Definition>,
}

struct Edit {
    label: String,
    functions: Vec<String>,
    changes: Vec<(String, String)>, // file, old text
}

fn is_word(c: char) -> bool {
    c.is_alphanumeric() || "_'-₀₁₂".contains(c)
}

fn words(text: &str) -> Names {
    text.split(|c| !is_word(c)).filter(|w| !w.is_empty()).map(str::to_string).collect()
}

// The names that an opening parenthesis follows.
fn called(text: &str) -> Names {
    text.match_indices('(')
        .filter_map(|(at, _)| text[..at].rsplit(|c| !is_word(c)).next())
        .map(str::to_string)
        .collect()
}

fn meet(a: &Names, b: &Names) -> bool {
    a.iter().any(|w| b.contains(w))
}

// The text with comments blanked, so that places stay.
fn uncommented(text: &str, mark: &str) -> String {
    let blank = |line: &str| match line.find(mark) {
        Some(at) => line[..at].to_string() + &" ".repeat(line.len() - at),
        None => line.to_string(),
    };
    text.split('\n').map(blank).collect::<Vec<_>>().join("\n")
}

// The text of a proof without paths such as c.in-Some.is, whose words are the prover's own.
fn without_paths(text: &str) -> String {
    let mut pieces = text.split("c.");
    let mut rest = pieces.next().unwrap_or("").to_string();
    for piece in pieces {
        let whole = rest.chars().last().is_none_or(|c| !is_word(c) && c != '.');
        rest += if whole { piece.trim_start_matches(|c| is_word(c) || c == '.') } else { piece };
        rest.push(' ');
    }
    rest
}

fn closing(text: &[u8], open: usize) -> usize {
    let mut depth = 0;
    for (i, &byte) in text.iter().enumerate().skip(open) {
        match byte {
            b'{' => depth += 1,
            b'}' => depth -= 1,
            _ => {}
        }
        if depth == 0 {
            return i + 1;
        }
    }
    text.len()
}

// Where a function's body opens: the first brace outside parentheses that opens no clause of its contract.
fn body_of(text: &str, from: usize) -> usize {
    let bytes = text.as_bytes();
    let (mut at, mut depth) = (from, 0);
    while at < bytes.len() {
        match bytes[at] {
            b'(' | b'[' => depth += 1,
            b')' | b']' => depth -= 1,
            b'{' if depth == 0 => {
                let line = text[from..at].rsplit('\n').next().unwrap().trim_start();
                if !line.starts_with("requires") && !line.starts_with("ensures") {
                    return at;
                }
                at = closing(bytes, at);
                continue;
            }
            _ => {}
        }
        at += 1;
    }
    at
}

fn read_source(path: &Path) -> Source {
    let text = fs::read_to_string(path).unwrap_or_default();
    let plain = uncommented(&text, "//");
    let (mut functions, mut definitions, mut at, mut owner) = (Vec::new(), Vec::new(), 0, String::new());
    for (number, line) in plain.split('\n').enumerate() {
        let rest = line.trim_start().trim_start_matches("pub ").trim_start_matches("extern \"C\" ");
        let name = |after: &str| after.chars().take_while(|&c| is_word(c)).collect::<String>();
        if let Some(after) = line.strip_prefix("impl") {
            let after = after.trim_start_matches("<'a>").trim_start();
            owner = name(after) + "/";
        } else if line.starts_with('}') {
            owner.clear();
        } else if let Some(after) = rest.strip_prefix("fn ") {
            let own = if line.starts_with(' ') { owner.as_str() } else { "" };
            let open = body_of(&plain, at);
            let end = closing(plain.as_bytes(), open);
            functions.push(Function {
                name: own.to_string() + &name(after),
                public: line.trim_start().starts_with("pub "),
                lines: (number + 1, number + 1 + plain[at..end].matches('\n').count()),
                head: (at, open),
                body: (open, end),
                in_head: words(&plain[at..open]),
                in_body: words(&plain[open..end]),
                in_proof: Names::new(),
                calls: called(&plain[open..end]),
            });
        } else {
            for (kind, close) in [("const ", ";\n"), ("type ", ";\n"), ("struct ", "\n}"), ("enum ", "\n}")] {
                if let Some(after) = rest.strip_prefix(kind).filter(|_| !line.starts_with(' ')) {
                    let end = at + plain[at..].find(close).unwrap_or(plain.len() - at);
                    definitions.push(Definition {
                        names: [name(after)].into(),
                        span: (at, end),
                        words: words(&plain[at..end]),
                    });
                }
            }
        }
        at += line.len() + 1;
    }
    Source { text, functions, definitions }
}

// Definitions or laws. Each goes from the line with its type to the next one's.
fn read_antt(path: &Path) -> Source {
    let text = fs::read_to_string(path).unwrap_or_default();
    let plain = uncommented(&text, "--");
    let (mut definitions, mut at): (Vec<Definition>, usize) = (Vec::new(), 0);
    for line in plain.split('\n') {
        let declared = line.split_once(" :").or(line.split_once(" where")).map_or("", |(before, _)| before);
        let rest = ["abbrev ", "unfoldable ", "pub ", "record ", "data "]
            .iter()
            .fold(declared.trim_start(), |rest, word| rest.trim_start_matches(word));
        let name: String = rest.chars().take_while(|&c| is_word(c)).collect();
        let starts = !name.is_empty()
            && !declared.contains('=')
            && ![" ", "use ", "module "].iter().any(|word| line.starts_with(word));
        if starts {
            definitions.push(Definition { names: Names::new(), span: (at, at), words: Names::new() });
        }
        if let Some(last) = definitions.last_mut() {
            if !name.is_empty() && (starts || line.trim_start().starts_with("pub ")) {
                last.names.insert(name);
            }
            last.span.1 = at + line.len() + 1;
            last.words.extend(words(line));
        }
        at += line.len() + 1;
    }
    Source { text, functions: Vec::new(), definitions }
}

fn files_below(folder: &Path, ending: &str) -> Vec<PathBuf> {
    let mut found: Vec<PathBuf> =
        fs::read_dir(folder).map(|all| all.flatten().map(|entry| entry.path()).collect()).unwrap_or_default();
    found.retain(|path| path.to_string_lossy().ends_with(ending));
    found.sort();
    found
}

struct Crate {
    name: String,
    sources: BTreeMap<String, Source>, // by their path in the crate
}

impl Crate {
    fn read(folder: &Path) -> Crate {
        let mut sources = BTreeMap::new();
        for (part, ending) in [("src", ".rt"), ("specs", ".antt"), ("proofs", ".antt")] {
            for path in files_below(&folder.join(part), ending) {
                let name = format!("{part}/{}", path.file_name().unwrap().to_string_lossy());
                sources.insert(name, if part == "src" { read_source(&path) } else { read_antt(&path) });
            }
        }
        for function in sources.values_mut().flat_map(|source| &mut source.functions) {
            for file in ["Invariants.antt", "Answers.antt"] {
                let proof = fs::read_to_string(folder.join("proofs").join(&function.name).join(file)).unwrap_or_default();
                function.in_proof.extend(words(&without_paths(&uncommented(&proof, "--"))));
            }
        }
        Crate { name: folder.file_name().unwrap().to_string_lossy().to_string(), sources }
    }

    fn functions(&self) -> impl Iterator<Item = &Function> {
        self.sources.values().flat_map(|source| &source.functions)
    }

    // The names of what is made of these, in one step or several.
    fn users(&self, mut names: Names) -> Names {
        loop {
            let before = names.len();
            for definition in self.sources.values().flat_map(|source| &source.definitions) {
                if meet(&definition.words, &names) {
                    names.extend(definition.names.iter().cloned());
                }
            }
            if names.len() == before {
                return names;
            }
        }
    }

    // Whether an edit may change what is to be proved of a function, or what its proof rests on: its body, its contract, that of a
    // function it calls, or a definition or law that one of these or the proof is made of. Names are compared as words, so it says yes
    // too often, and never too seldom.
    fn bears_on(&self, edit: &Edit, function: &Function) -> bool {
        edit.changes.iter().any(|(file, old)| {
            let Some(source) = self.sources.get(file) else { return true };
            let Some(at) = source.text.find(old.as_str()) else { return true };
            let within = |span: (usize, usize)| span.0 <= at && at < span.1;
            let calls = |other: &Function| function.calls.contains(other.name.rsplit('/').next().unwrap());
            for other in &source.functions {
                if within(other.body) {
                    return other.name == function.name;
                }
                if within(other.head) {
                    return other.name == function.name || calls(other);
                }
            }
            let Some(changed) = source.definitions.iter().find(|definition| within(definition.span)) else {
                return true;
            };
            let names = self.users(changed.names.clone());
            let called = self.functions().any(|other| calls(other) && meet(&other.in_head, &names));
            // code names what stands in src/ alone
            let in_src = |name: &&String| {
                let sources = self.sources.iter().filter(|(file, _)| file.starts_with("src/"));
                sources.flat_map(|(_, source)| &source.definitions).any(|definition| definition.names.contains(*name))
            };
            let of_src: Names = names.iter().filter(in_src).cloned().collect();
            called || meet(&function.in_body, &of_src) || meet(&function.in_head, &names) || meet(&function.in_proof, &names)
        })
    }
}

fn read_edits(path: &Path) -> Vec<Edit> {
    let (mut edits, mut file, mut old): (Vec<Edit>, String, String) = (Vec::new(), String::new(), String::new());
    for line in fs::read_to_string(path).unwrap_or_default().lines() {
        if let Some((label, functions)) = line.strip_prefix("edit: ").and_then(|rest| rest.split_once(" in ")) {
            edits.push(Edit {
                label: label.to_string(),
                functions: functions.split(' ').map(str::to_string).collect(),
                changes: Vec::new(),
            });
        } else if let Some(name) = line.strip_prefix("file: ") {
            file = name.to_string();
        } else if let Some(text) = line.strip_prefix("old: ") {
            old = text.to_string();
        } else if line.starts_with("new:") {
            match edits.last_mut() {
                Some(edit) => edit.changes.push((file.clone(), old.clone())),
                None => edits.push(Edit {
                    label: String::new(),
                    functions: Vec::new(),
                    changes: vec![(file.clone(), old.clone())],
                }),
            }
        }
    }
    edits
}

// What the prover says of a name or a form that it doesn't know, and not of a fact.
const OF_SHAPE: [&str; 6] =
    ["not in scope", "can be named from here", "has no field", "cannot be unfolded", "syntax error", "expected a "];

// The errors of a log that follow from no other: place and message.
fn errors(log: &str) -> Vec<(&str, &str)> {
    log.lines()
        .filter_map(|line| line.split_once(": error: "))
        .filter(|(_, message)| !message.contains("was not checked"))
        .collect()
}

// Whether the log says of a goal in the function's code that it isn't proved.
fn fact_of(log: &str, function: &Function) -> bool {
    log.lines().any(|line| {
        let Some((_, after)) = line.strip_prefix("note: ").unwrap_or(line).split_once(".rt:") else {
            return false;
        };
        let number: usize = after.split(':').next().unwrap().parse().unwrap_or(0);
        let told = after.contains("it is not proved") || after.contains(": error: ");
        told && function.lines.0 <= number && number <= function.lines.1
    })
}

// Whether the log refuses the function by an error of its own.
fn refused(log: &str, krate: &Crate, function: &Function, alone: bool) -> bool {
    let said = format!("fn {}::{}: ", krate.name, function.name.replace('/', "::"));
    let Some(verdict) = log.lines().find_map(|line| line.strip_prefix(said.as_str())) else { return false };
    if verdict.starts_with("no proof") {
        return true;
    }
    if !verdict.starts_with("not proved") {
        return false;
    }
    let own = format!("/proofs/{}/", function.name);
    let found = errors(log);
    found.iter().any(|(place, _)| place.contains(&own))
        || fact_of(log, function)
        || (alone && !verdict.contains("it calls") && !found.is_empty())
}

// A copy of what is checked, by links, with the libraries that the checkout has: a check replaces such a file and changes none.
fn copy_crates(tree: &Path) {
    let script = r#"mkdir -p "$0/crates" && cp crates.txt "$0" && for crate in crates/*/; do
        mkdir -p "$0/$crate/out" || exit 1
        for part in src specs proofs; do [ ! -d $crate$part ] || cp -al $crate$part "$0/$crate" || exit 1; done
        [ ! -d ${crate}out/rlib ] || cp -al ${crate}out/rlib "$0/${crate}out" || exit 1
    done"#;
    let copied = Command::new("sh").arg("-c").arg(script).arg(tree).status();
    assert!(copied.is_ok_and(|status| status.success()), "the crates can't be copied");
}

// Checks the functions that a file of edits names, with its edits made in the crate of a tree, and leaves the log.
fn try_file(tree: &Path, krate: &str, path: &Path) {
    let folder = tree.join("crates").join(krate);
    let edits = read_edits(path);
    let (mut texts, mut old, mut file): (BTreeMap<String, (String, String)>, String, String) = Default::default();
    for line in fs::read_to_string(path).unwrap_or_default().lines() {
        if let Some(name) = line.strip_prefix("file: ") {
            file = name.to_string();
        } else if let Some(text) = line.strip_prefix("old: ") {
            old = text.to_string();
        } else if let Some(new) = line.strip_prefix("new:") {
            let text = fs::read_to_string(folder.join(&file)).unwrap_or_default();
            let (_, changed) = texts.entry(file.clone()).or_insert((text.clone(), text));
            *changed = changed.replacen(&old, new.strip_prefix(' ').unwrap_or(new), 1);
        }
    }
    let write = |file: &str, text: &str| {
        let _ = fs::remove_file(folder.join(file));
        fs::write(folder.join(file), text).unwrap();
    };
    texts.iter().for_each(|(file, (_, changed))| write(file, changed));
    let mut check = Command::new("rt");
    check.arg("check").current_dir(&folder).stdin(Stdio::null());
    let functions = edits.iter().flat_map(|edit| &edit.functions);
    if functions.clone().all(|name| !name.ends_with(".antt")) {
        for name in functions.collect::<BTreeSet<_>>() {
            check.arg("--only").arg(format!("{krate}::{}", name.replace('/', "::")));
        }
    }
    let said = check.output().expect("rt can't be run");
    texts.iter().for_each(|(file, (text, _))| write(file, text));
    let log = PathBuf::from("target/must-fail").join(krate).join(path.file_stem().unwrap());
    fs::create_dir_all(&log).unwrap();
    fs::write(log.join(".log"), [said.stdout, said.stderr].concat()).unwrap();
}

// Whether what `rt ci` said of a file refuses its one edit for a fact of the function that it names, or for a law.
fn told(said: &str, krate: &Crate, path: &Path) -> bool {
    let edits = read_edits(path);
    let [edit] = edits.as_slice() else { return false };
    let [wanted] = edit.functions.as_slice() else { return false };
    let head = format!("rt: must-fail {}/{}: refused, as it must be: ", krate.name, path.file_name().unwrap().to_string_lossy());
    let Some(first) = said.lines().find_map(|line| line.strip_prefix(head.as_str())) else { return false };
    let first = first.trim_start_matches("note: ").trim_start_matches("so far: note: ").trim_start_matches("./");
    let mut place = first.split(':');
    let (file, line) = (place.next().unwrap_or(""), place.next().unwrap_or("").parse().unwrap_or(0));
    match file.strip_prefix("proofs/") {
        Some(law) if !law.contains('/') => true,
        Some(own) => own.starts_with(&format!("{wanted}/")),
        None => krate.functions().any(|function| {
            file.starts_with("src/") && function.name == *wanted && function.lines.0 <= line && line <= function.lines.1
        }),
    }
}

// Tries the files of edits of these crates, but for those that `rt ci` told enough of.
fn try_all(folders: &[PathBuf], said: &str) {
    let mut left: Vec<(String, PathBuf)> = Vec::new();
    for folder in folders {
        let krate = folder.file_name().unwrap().to_string_lossy().to_string();
        let read = Crate::read(folder);
        let files = files_below(&folder.join("must-fail"), ".edit").into_iter().filter(|path| !told(said, &read, path));
        left.extend(files.map(|path| (krate.clone(), path)));
    }
    let left = Mutex::new(left);
    let workers = std::thread::available_parallelism().map_or(2, |n| n.get());
    std::thread::scope(|scope| {
        for worker in 0..workers {
            let left = &left;
            scope.spawn(move || {
                let tree = PathBuf::from(format!("target/edits/{}-{worker}", std::process::id()));
                copy_crates(&tree);
                loop {
                    let next = left.lock().unwrap().pop();
                    let Some((krate, path)) = next else { break };
                    try_file(&tree, &krate, &path);
                }
                let _ = fs::remove_dir_all(&tree);
            });
        }
    });
}

fn main() {
    let named: Vec<String> = std::env::args().skip(1).collect();
    let (mut faults, mut tried, mut files) = (0, 0, 0);
    let mut fault = |text: String| {
        println!("{text}");
        faults += 1;
    };
    let mut folders: Vec<PathBuf> = fs::read_dir("crates")
        .expect("run it at the top of the repository")
        .flatten()
        .map(|entry| entry.path())
        .collect();
    folders.sort();
    folders.retain(|folder| named.is_empty() || named.iter().any(|name| folder.ends_with(name)));
    let said = std::env::var("RT_CI_LOG").ok().and_then(|log| fs::read_to_string(log).ok()).unwrap_or_default();
    try_all(&folders, &said);
    let mut by_log = 0;
    for folder in folders {
        let krate = Crate::read(&folder);
        let (mut labels, mut counts): (Names, BTreeMap<String, usize>) = (Names::new(), BTreeMap::new());
        for path in files_below(&folder.join("must-fail"), ".edit") {
            let file = path.file_stem().unwrap().to_string_lossy().to_string();
            files += 1;
            let edits = read_edits(&path);
            let known = told(&said, &krate, &path);
            by_log += known as usize;
            let log = match fs::read_to_string(format!("target/must-fail/{}/{file}/.log", krate.name)) {
                Ok(log) if !known => log,
                _ if known => String::new(),
                _ => {
                    fault(format!("{}/{file} wasn't tried", krate.name));
                    continue;
                }
            };
            for (place, message) in errors(&log) {
                let owner = krate.functions().find(|function| place.contains(&format!("/proofs/{}/", function.name)));
                let of_shape = |message: &str| OF_SHAPE.iter().any(|phrase| message.contains(phrase));
                let also = owner.is_some_and(|function| {
                    let own = format!("/proofs/{}/", function.name);
                    fact_of(&log, function) || errors(&log).iter().any(|(at, said)| at.contains(&own) && !of_shape(said))
                });
                if of_shape(message) && !also {
                    fault(format!("{}/{file}: refused for its shape: {place}: {message}", krate.name));
                }
            }
            for edit in &edits {
                let name = format!("{}/{}", krate.name, edit.label);
                tried += 1;
                if edit.label.is_empty() || !labels.insert(edit.label.clone()) {
                    fault(format!("{name}: in {file}.edit it has no label of its own"));
                }
                for wanted in &edit.functions {
                    if wanted.ends_with(".antt") {
                        let place = format!("/proofs/{wanted}:");
                        if !known && (edits.len() > 1 || !errors(&log).iter().any(|(at, _)| at.contains(&place))) {
                            fault(format!("{name}: nothing in {wanted} is refused for it alone"));
                        }
                        continue;
                    }
                    let Some(function) = krate.functions().find(|function| function.name == *wanted) else {
                        fault(format!("{name}: there is no function {wanted}"));
                        continue;
                    };
                    *counts.entry(wanted.clone()).or_default() += 1;
                    if !krate.bears_on(edit, function) {
                        fault(format!("{name}: it changes nothing of {wanted}"));
                    }
                    for other in
                        edits.iter().filter(|other| other.label != edit.label && krate.bears_on(other, function))
                    {
                        fault(format!("{name}: {} of the same file bears on {wanted} too", other.label));
                    }
                    if !known && !refused(&log, &krate, function, edits.len() == 1) {
                        fault(format!(
                            "{name}: {wanted} isn't refused for a fact of its own (target/must-fail/{}/{file}/.log)",
                            krate.name
                        ));
                    }
                }
            }
        }
        for function in krate.functions().filter(|function| function.public) {
            let count = counts.get(&function.name).copied().unwrap_or(0);
            if count < 2 {
                fault(format!("{}: {} has {count} edits", krate.name, function.name));
            }
        }
    }
    println!("edits: {tried} in {files} files, {by_log} of these by what rt ci said, {faults} faults");
    std::process::exit(if faults == 0 && (tried > 300 || !named.is_empty()) { 0 } else { 1 });
}
