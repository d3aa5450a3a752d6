//! What both Rust peers need: days, queries, the order of candidates, stations, files and rows.

use std::cmp::Ordering;
use std::collections::HashMap;
use std::hash::{BuildHasherDefault, Hasher};
use std::io::Read;

pub type Id = [u8; 11];

unsafe extern "C" {
    fn memchr(text: *const u8, byte: i32, len: usize) -> *const u8;
}

/// The place of a line feed in a text, by the C library.
#[inline(always)]
pub fn line_feed(text: &[u8]) -> Option<usize> {
    let found = unsafe { memchr(text.as_ptr(), b'\n' as i32, text.len()) };
    if found.is_null() {
        return None;
    }
    Some(found as usize - text.as_ptr() as usize)
}

pub fn refuse(why: &str) -> ! {
    eprintln!("refused {why}");
    std::process::exit(1)
}

// ---- days, by the number of days since 1970-01-01 ----

pub fn day_number(year: i32, month: i32, day: i32) -> i32 {
    let year = if month <= 2 { year - 1 } else { year };
    let era = year.div_euclid(400);
    let year_of_era = year - era * 400;
    let day_of_year = (153 * ((month + 9) % 12) + 2) / 5 + day - 1;
    era * 146097 + year_of_era * 365 + year_of_era / 4 - year_of_era / 100 + day_of_year - 719468
}

pub fn date(number: i32) -> (i32, i32, i32) {
    let number = number + 719468;
    let era = number.div_euclid(146097);
    let day_of_era = number - era * 146097;
    let year = (day_of_era - day_of_era / 1460 + day_of_era / 36524 - day_of_era / 146096) / 365;
    let day_of_year = day_of_era - (365 * year + year / 4 - year / 100);
    let shifted = (5 * day_of_year + 2) / 153;
    let day = day_of_year - (153 * shifted + 2) / 5 + 1;
    let month = if shifted < 10 { shifted + 3 } else { shifted - 9 };
    (year + era * 400 + (month <= 2) as i32, month, day)
}

pub fn days_in_month(year: i32, month: i32) -> usize {
    match month {
        2 if (year % 4 == 0 && year % 100 != 0) || year % 400 == 0 => 29,
        2 => 28,
        4 | 6 | 9 | 11 => 30,
        _ => 31,
    }
}

// ---- queries ----

/// The places of the elements are those of these codes.
pub const ELEMENTS: [&[u8; 4]; 5] = [b"PRCP", b"SNOW", b"SNWD", b"TMAX", b"TMIN"];

#[derive(Clone, Copy, PartialEq)]
pub enum Score {
    Highest,
    Lowest,
    Sum(usize),
    Dry,
    Wet,
}

#[derive(Clone, Copy)]
pub struct Query {
    pub k: usize,
    pub score: Score,
    pub element: usize,
}

impl Query {
    pub fn parse(text: &str) -> Query {
        let words: Vec<&str> = text.split(' ').collect();
        let element = |code: &str| {
            ELEMENTS.iter().position(|it| it[..] == *code.as_bytes()).expect("element")
        };
        let (score, element) = match words[2..] {
            ["highest", code] => (Score::Highest, element(code)),
            ["lowest", code] => (Score::Lowest, element(code)),
            ["sum", days, code] => (Score::Sum(days.parse().expect("days")), element(code)),
            ["dry"] => (Score::Dry, 0),
            ["wet"] => (Score::Wet, 0),
            _ => refuse("query"),
        };
        Query { k: words[1].parse().expect("k"), score, element }
    }

    fn has_tenths(&self) -> bool {
        match self.score {
            Score::Highest | Score::Lowest | Score::Sum(_) => self.element == 0 || self.element >= 3,
            Score::Dry | Score::Wet => false,
        }
    }
}

// ---- candidates ----

#[derive(Clone, Copy, PartialEq, Eq)]
pub struct Candidate {
    pub id: Id,
    pub first: i32,
    pub last: i32,
    pub score: i64,
}

impl Ord for Candidate {
    fn cmp(&self, other: &Candidate) -> Ordering {
        if self.score != other.score {
            return other.score.cmp(&self.score);
        }
        self.id.cmp(&other.id).then(self.first.cmp(&other.first)).then(self.last.cmp(&other.last))
    }
}

impl PartialOrd for Candidate {
    fn partial_cmp(&self, other: &Candidate) -> Option<Ordering> {
        Some(self.cmp(other))
    }
}

/// The rows of a report: rank, station, first day, last day and value.
pub fn print_rows(query: &Query, best: &[Candidate]) {
    let mut rows = String::new();
    for (place, it) in best.iter().enumerate() {
        let value = if let Score::Lowest = query.score { -it.score } else { it.score };
        let text = if query.has_tenths() {
            let sign = if value < 0 { "-" } else { "" };
            format!("{sign}{}.{}", value.abs() / 10, value.abs() % 10)
        } else {
            value.to_string()
        };
        let id = String::from_utf8_lossy(&it.id);
        let [first, last] = [it.first, it.last].map(|day| {
            let (year, month, day) = date(day);
            format!("{year:04}-{month:02}-{day:02}")
        });
        rows += &format!("{} {id} {first} {last} {text}\n", place + 1);
    }
    print!("{rows}");
}

// ---- stations ----

/// A hasher that multiplies eight bytes at a time.
#[derive(Default, Clone, Copy)]
pub struct Multiplier(u64);

impl Hasher for Multiplier {
    fn finish(&self) -> u64 {
        self.0 ^ (self.0 >> 29)
    }

    fn write(&mut self, bytes: &[u8]) {
        for part in bytes.chunks(8) {
            let mut word = [0; 8];
            word[..part.len()].copy_from_slice(part);
            self.0 = (self.0.rotate_left(5) ^ u64::from_le_bytes(word)).wrapping_mul(0x517cc1b727220a95);
        }
    }
}

pub type ById<V> = HashMap<Id, V, BuildHasherDefault<Multiplier>>;

/// The listed stations, by ID and in the order of the list.
#[derive(Default)]
pub struct Stations {
    pub places: ById<usize>,
    pub ids: Vec<Id>,
}

impl Stations {
    pub fn read(text: &[u8]) -> Stations {
        let mut stations = Stations::default();
        for line in text.split(|byte| *byte == b'\n').filter(|line| !line.is_empty()) {
            let id: Id = line[..11].try_into().unwrap();
            if stations.places.insert(id, stations.ids.len()).is_some() {
                refuse("station line twice");
            }
            stations.ids.push(id);
        }
        stations
    }
}

// ---- the command line and its files ----

/// `--stations FILE --query QUERY FILE..`, and any further options, which begin with `--`.
pub struct Command {
    pub stations: Vec<u8>,
    pub query: Query,
    pub options: Vec<String>,
    pub files: Vec<String>,
}

impl Command {
    pub fn read() -> Command {
        let (mut stations, mut query) = (String::new(), String::new());
        let (mut options, mut files) = (Vec::new(), Vec::new());
        let mut words = std::env::args().skip(1);
        while let Some(word) = words.next() {
            match word.as_str() {
                "--stations" => stations = words.next().unwrap(),
                "--query" => query = words.next().unwrap(),
                option if option.starts_with("--") => options.push(word),
                _ => files.push(word),
            }
        }
        let mut text = Vec::new();
        read_file(&stations, &mut text);
        Command { stations: text, query: Query::parse(&query), options, files }
    }

    pub fn has(&self, option: &str) -> bool {
        self.options.iter().any(|it| it == option)
    }
}

/// Puts the whole of a file in the place of what a buffer held.
pub fn read_file(path: &str, buffer: &mut Vec<u8>) {
    buffer.clear();
    let read = std::fs::File::open(path).and_then(|mut file| {
        buffer.reserve(file.metadata()?.len() as usize + 1);
        file.read_to_end(buffer)
    });
    if read.is_err() {
        eprintln!("file not read {path}");
        std::process::exit(3);
    }
}

// ---- the ID, year and month of a line ----

pub enum Field {
    Blank,
    Number(i32),
    Bad,
}

/// Blanks, an optional minus, then digits up to the last column.
#[inline(always)]
pub fn int_field(field: &[u8]) -> Field {
    let mut rest = field;
    while let [b' ', more @ ..] = rest {
        rest = more;
    }
    let (negative, digits) = match rest {
        [] => return Field::Blank,
        [b'-', digits @ ..] => (true, digits),
        digits => (false, digits),
    };
    if digits.is_empty() {
        return Field::Bad;
    }
    let mut value = 0u64;
    for digit in digits {
        if !digit.is_ascii_digit() {
            return Field::Bad;
        }
        value = value * 10 + (digit - b'0') as u64;
        if value >= 1 << 31 {
            return Field::Bad;
        }
    }
    Field::Number(if negative { -(value as i32) } else { value as i32 })
}

/// The whole number of a field, if it has one from 1 to a limit.
pub fn number_up_to(limit: i32, field: &[u8]) -> Option<i32> {
    match int_field(field) {
        Field::Number(number) if 1 <= number && number <= limit => Some(number),
        _ => None,
    }
}

pub fn is_visible(id: &[u8]) -> bool {
    id.iter().all(|byte| (33..=126).contains(byte))
}
