//! record FILE: prints every field of a ride record, a line each: its name, a space and its value. The names are those of history.rs;
//! version and body, the length byte, come before them.
//!
//!     version 2
//!     body 70
//!     journal i                     a printable character that is no digit, else the byte as a number
//!     ride_id 7
//!     started_utc_ms 1700000000000  or none
//!     name OVER UNDERS 12 X 475     as it is read: small letters as capitals, bytes that can't be drawn as spaces
//!     test twenty                   none, twenty or ramp
//!     steps_done 12
//!     steps 12
//!     skipped 1
//!     targeted_ms 3600000
//!     in_ms 3000000
//!     under_ms 400000
//!     over_ms 200000
//!     unread_ms 1234567             0 in version 1, and in a body shorter than 70 bytes
//!     finished yes                  yes or no
//!     ftp 250                       watts, or none
//!
//! A record that can't be read is one line on standard error, `FILE: refused 18: ` and why, and status 1. The first reason counts, in the
//! order in which the reader asks. A file that can't be opened is its error and status 2.
use std::process::ExitCode;

/// Why a record isn't read.
type Fault = String;

/// What is read of a record.
#[derive(Clone, Debug, PartialEq, Eq)]
pub struct Fields {
    pub version: u8,
    pub body: u8,
    pub journal: u8,
    pub ride_id: u32,
    pub started_utc_ms: Option<u64>,
    pub name: String,
    /// 0 none, 1 twenty, 2 ramp.
    pub test: u8,
    pub steps_done: u16,
    pub steps: u16,
    pub skipped: u16,
    pub targeted_ms: u32,
    pub in_ms: u32,
    pub under_ms: u32,
    pub over_ms: u32,
    pub unread_ms: u32,
    pub finished: bool,
    pub ftp: Option<u16>,
}

/// Places in a record.
const VERSION: usize = 4;
const BODY: usize = 5;
const JOURNAL: usize = 6;
const FLAGS: usize = 7;
const RIDE_ID: usize = 8;
const STARTED: usize = 12;
const NAME: usize = 20;
const TEST: usize = 41;
const COUNTS: usize = 42;
const TALLIES: usize = 48;
const FTP: usize = 64;
const UNREAD: usize = 66;

/// Flags.
const FINISHED: u8 = 1;
const DATED: u8 = 2;
const MEASURED: u8 = 4;

const MOST_NAME: usize = 20;
const TESTS: [&str; 3] = ["none", "twenty", "ramp"];

/// The least body, that of version 1, and the least with unread, that of version 2.
const BODY_1: usize = 66;
const BODY_2: usize = 70;
const CHECK_BYTES: usize = 4;

/// The 32-bit check of ITU-T V.42, bit by bit.
fn crc32(bytes: &[u8]) -> u32 {
    !bytes.iter().fold(u32::MAX, |register, &byte| {
        (0..8).fold(register ^ u32::from(byte), |register, _| {
            if register & 1 == 1 { register >> 1 ^ 0xEDB8_8320 } else { register >> 1 }
        })
    })
}

/// So many bytes as one number, the least first.
fn number(bytes: &[u8], at: usize, count: usize) -> u64 {
    bytes[at..at + count].iter().rev().fold(0, |number, &byte| number << 8 | u64::from(byte))
}

fn half(bytes: &[u8], at: usize) -> u16 {
    number(bytes, at, 2) as u16
}

fn word(bytes: &[u8], at: usize) -> u32 {
    number(bytes, at, 4) as u32
}

/// A name's byte as it is read.
fn mended(byte: u8) -> char {
    let byte = byte.to_ascii_uppercase();
    if (b' '..=b'~').contains(&byte) { byte.into() } else { ' ' }
}

/// What stands in a record, or the first reason why it can't be read.
pub fn fields(bytes: &[u8]) -> Result<Fields, Fault> {
    let len = bytes.len();
    if len <= BODY {
        return Err("fewer than 6 bytes".to_string());
    }
    let body = usize::from(bytes[BODY]);
    if !bytes.starts_with(b"VWKO") {
        return Err("doesn't begin with VWKO".to_string());
    }
    if bytes[VERSION] == 0 {
        return Err("version 0".to_string());
    }
    if body < BODY_1 {
        return Err(format!("a body of {body} bytes, fewer than {BODY_1}"));
    }
    if len < body + CHECK_BYTES {
        return Err(format!("{len} bytes, the record says {}", body + CHECK_BYTES));
    }
    if crc32(&bytes[..body]) != word(bytes, body) {
        return Err("the check word is wrong".to_string());
    }
    let name = usize::from(bytes[NAME]);
    if name > MOST_NAME {
        return Err(format!("a name of {name} bytes, more than {MOST_NAME}"));
    }
    let test = bytes[TEST];
    if usize::from(test) >= TESTS.len() {
        return Err(format!("test {test}, more than 2"));
    }
    let says = |flag: u8| bytes[FLAGS] & flag != 0;
    let has_unread = bytes[VERSION] >= 2 && body >= BODY_2;
    Ok(Fields {
        version: bytes[VERSION],
        body: bytes[BODY],
        journal: bytes[JOURNAL],
        ride_id: word(bytes, RIDE_ID),
        started_utc_ms: says(DATED).then(|| number(bytes, STARTED, 8)),
        name: bytes[NAME + 1..NAME + 1 + name].iter().map(|&byte| mended(byte)).collect(),
        test,
        steps_done: half(bytes, COUNTS),
        steps: half(bytes, COUNTS + 2),
        skipped: half(bytes, COUNTS + 4),
        targeted_ms: word(bytes, TALLIES),
        in_ms: word(bytes, TALLIES + 4),
        under_ms: word(bytes, TALLIES + 8),
        over_ms: word(bytes, TALLIES + 12),
        unread_ms: if has_unread { word(bytes, UNREAD) } else { 0 },
        finished: says(FINISHED),
        ftp: says(MEASURED).then(|| half(bytes, FTP)),
    })
}

fn or_none(number: Option<impl ToString>) -> String {
    number.map_or("none".to_string(), |number| number.to_string())
}

impl Fields {
    /// A digit would look like the number of another journal.
    fn journal(&self) -> String {
        let byte = self.journal;
        if byte.is_ascii_graphic() && !byte.is_ascii_digit() { char::from(byte).to_string() } else { byte.to_string() }
    }

    fn print(&self) {
        println!("version {}\nbody {}\njournal {}", self.version, self.body, self.journal());
        println!("ride_id {}\nstarted_utc_ms {}", self.ride_id, or_none(self.started_utc_ms));
        println!("name {}\ntest {}", self.name, TESTS[usize::from(self.test)]);
        println!("steps_done {}\nsteps {}\nskipped {}", self.steps_done, self.steps, self.skipped);
        println!("targeted_ms {}\nin_ms {}", self.targeted_ms, self.in_ms);
        println!("under_ms {}\nover_ms {}\nunread_ms {}", self.under_ms, self.over_ms, self.unread_ms);
        println!("finished {}\nftp {}", if self.finished { "yes" } else { "no" }, or_none(self.ftp));
    }
}

fn main() -> ExitCode {
    let files: Vec<std::ffi::OsString> = std::env::args_os().skip(1).collect();
    let [file] = &files[..] else {
        eprintln!("usage: tools/record FILE: prints every field of a ride record (see tools/record.rs)");
        return ExitCode::from(2);
    };
    let path = std::path::Path::new(file).display();
    let bytes = match std::fs::read(file) {
        Ok(bytes) => bytes,
        Err(fault) => {
            eprintln!("{path}: {fault}");
            return ExitCode::from(2);
        }
    };
    match fields(&bytes) {
        Ok(fields) => {
            fields.print();
            ExitCode::SUCCESS
        }
        Err(fault) => {
            eprintln!("{path}: refused 18: {fault}");
            ExitCode::FAILURE
        }
    }
}
