//! The job as a good programmer writes it by hand for speed, in Rust with its library alone: each
//! group of a line is read as one word, a series is a plain array of days, and the best are kept in
//! a short list. It makes the tests of a line that the program makes.
//!
//!   rustc --edition 2024 -C opt-level=3 -C panic=abort -C target-cpu=native -o native native.rs
//!   native --stations FILE --query QUERY [--hold] [--threads=N] FILE..
//!
//! With --hold all files are read before the first line is, as the program's library asks for. With --threads=N as many
//! threads read and scan shares of the files, and the best of all shares are put together.

mod shared;

use shared::*;

/// What stands for a day without a usable value.
const NONE: i32 = i32::MIN;

// ---- lines ----

/// The place of a line's end: the form's own place is looked at first.
#[inline(always)]
fn line_end(text: &[u8]) -> usize {
    match text.get(..270) {
        Some(record) if line_feed(record) == Some(269) => 269,
        _ => line_feed(text).unwrap_or(text.len()),
    }
}

/// Reads 31 groups of five columns and three flags without a branch for each: one word holds a group.
/// False if a value isn't a number.
#[inline(always)]
fn read_groups(groups: &[u8; 248], no_negative: bool, days: &mut [i32; 31]) -> bool {
    let mut malformed = 0;
    let least = if no_negative { 0 } else { -9998 };
    for (group, day) in groups.as_chunks::<8>().0.iter().zip(days) {
        let word = u64::from_le_bytes(*group);
        let columns = (word ^ 0x30_3030_3030) & 0xFF_FFFF_FFFF;
        // 0xFF in each of the five bytes that isn't a digit.
        let above_nine = (((columns & 0x7F_7F7F_7F7F) + 0x76_7676_7676) | columns) & 0x80_8080_8080;
        let other = (above_nine >> 7) * 0xFF;
        let digits = columns & !other;
        let not_blank = (columns ^ 0x10_1010_1010) & other;
        let negative = not_blank != 0;
        // Bytes that aren't digits come first, not in all columns, and are blank but for a minus in the last of them.
        let minus = 0x0D_0D0D_0D0D & other & !(other >> 8);
        let sign_form = (not_blank ^ minus) & (negative as u64).wrapping_neg();
        let form = (other & (other + 1)) | (other >> 32) | sign_form;
        let pairs = digits * 10 + (digits >> 8);
        let magnitude = ((pairs & 0xFF) * 1000 + ((pairs >> 16) & 0xFF) * 10 + (digits >> 32)) as i32;
        let value = if negative { -magnitude } else { magnitude };
        let blank = word & 0xFF_FFFF_FFFF == 0x20_2020_2020;
        let unflagged = (word >> 48) & 0xFF == b' ' as u64;
        malformed |= if blank { 0 } else { form };
        *day = if unflagged & !blank & (value >= least) { value } else { NONE };
    }
    malformed == 0
}

struct Month<'a> {
    line: &'a [u8],
    element: usize,
    year: i32,
    month: i32,
}

/// The month of a line, whose days are written to `days`; nothing for a line of another element.
#[inline(always)]
fn read_month<'a>(
    line: &'a [u8],
    padded: &'a mut [u8; 269],
    days: &mut [i32; 31],
) -> Result<Option<Month<'a>>, &'static str> {
    if line.len() < 21 {
        return if line.iter().all(|byte| *byte == b' ') { Ok(None) } else { Err("Short") };
    }
    let code = u32::from_le_bytes(line[17..21].try_into().unwrap());
    let Some(element) = ELEMENTS.iter().position(|it| u32::from_le_bytes(**it) == code) else {
        return Ok(None);
    };
    let line = if line.len() >= 269 {
        if line[269..].iter().any(|byte| *byte != b' ') {
            return Err("TooLong");
        }
        line
    } else {
        if line.len() < 266 {
            return Err("Short");
        }
        padded.fill(b' ');
        padded[..line.len()].copy_from_slice(line);
        &padded[..]
    };
    if !is_visible(&line[..11]) {
        return Err("BadId");
    }
    let year = number_up_to(9999, &line[11..15]).ok_or("BadYear")?;
    let month = number_up_to(12, &line[15..17]).ok_or("BadMonth")?;
    if !read_groups(line[21..269].try_into().unwrap(), element < 3, days) {
        return Err("BadValue");
    }
    Ok(Some(Month { line, element, year, month }))
}

// ---- series ----

/// The days of the months from a first one on, without gaps.
#[derive(Default)]
struct Series {
    first_month: i32,
    first_day: i32,
    months: Vec<bool>,
    days: Vec<i32>,
}

impl Series {
    /// Adds a month, or returns false if it has that month.
    fn add(&mut self, year: i32, month: i32, values: &[i32; 31]) -> bool {
        let number = year * 12 + month - 1;
        let length = days_in_month(year, month);
        if self.months.is_empty() {
            self.first_month = number;
            self.first_day = day_number(year, month, 1);
        }
        let end = self.first_month + self.months.len() as i32;
        if number == end {
            self.days.extend_from_slice(&values[..length]);
            self.months.push(true);
            return true;
        }
        let day = day_number(year, month, 1);
        if number > end {
            self.days.resize((day - self.first_day) as usize, NONE);
            self.months.resize((number - self.first_month) as usize, false);
            self.days.extend_from_slice(&values[..length]);
            self.months.push(true);
            return true;
        }
        if number < self.first_month {
            self.begin_earlier(number, day);
        }
        let place = (number - self.first_month) as usize;
        let start = (day - self.first_day) as usize;
        self.days[start..start + length].copy_from_slice(&values[..length]);
        !std::mem::replace(&mut self.months[place], true)
    }

    fn begin_earlier(&mut self, month: i32, day: i32) {
        let days = std::iter::repeat_n(NONE, (self.first_day - day) as usize);
        self.days.splice(..0, days);
        let months = std::iter::repeat_n(false, (self.first_month - month) as usize);
        self.months.splice(..0, months);
        self.first_month = month;
        self.first_day = day;
    }
}

/// The series of the stations that have a line, with the places of these stations in the list.
#[derive(Default)]
struct Data {
    opened: Vec<(usize, [Series; 5])>,
    by_place: std::collections::HashMap<usize, usize>,
    last: Option<(Id, Option<usize>)>,
    unlisted: u64,
}

impl Data {
    fn add_file(&mut self, text: &[u8], stations: &Stations) -> Result<(), (usize, &'static str)> {
        let mut rest = text;
        let mut number = 0;
        let mut padded = [0; 269];
        let mut days = [0; 31];
        while !rest.is_empty() {
            let end = line_end(rest);
            let mut line = &rest[..end];
            rest = &rest[(end + 1).min(rest.len())..];
            number += 1;
            if let [front @ .., b'\r'] = line {
                line = front;
            }
            let Some(found) = read_month(line, &mut padded, &mut days).map_err(|why| (number, why))? else {
                continue;
            };
            match self.place(found.line[..11].try_into().unwrap(), stations) {
                None => self.unlisted += 1,
                Some(place) => {
                    if !self.opened[place].1[found.element].add(found.year, found.month, &days) {
                        return Err((number, "DuplicateMonth"));
                    }
                }
            }
        }
        Ok(())
    }

    /// The place of a listed station among those that have a line. Lines of a station come together.
    #[inline(always)]
    fn place(&mut self, id: Id, stations: &Stations) -> Option<usize> {
        match self.last {
            Some((last, place)) if last == id => place,
            _ => {
                let place = stations.places.get(&id).map(|listed| {
                    *self.by_place.entry(*listed).or_insert_with(|| {
                        self.opened.push((*listed, Default::default()));
                        self.opened.len() - 1
                    })
                });
                self.last = Some((id, place));
                place
            }
        }
    }
}

// ---- the best ----

struct Pool {
    k: usize,
    best: Vec<Candidate>,
    /// The score of the k-th best, below which nothing is of interest.
    floor: i64,
}

impl Pool {
    #[inline(always)]
    fn offer(&mut self, score: i64, id: Id, first: i32, last: i32) {
        if score >= self.floor {
            self.insert(Candidate { id, first, last, score });
        }
    }

    #[inline(never)]
    fn insert(&mut self, candidate: Candidate) {
        let place = self.best.partition_point(|it| *it < candidate);
        self.best.insert(place, candidate);
        self.best.truncate(self.k);
        if self.best.len() == self.k {
            self.floor = self.best[self.k - 1].score;
        }
    }
}

fn scan(series: &Series, id: Id, query: &Query, pool: &mut Pool) {
    match query.score {
        Score::Highest => scan_days(series, id, pool, |value| value as i64),
        Score::Lowest => scan_days(series, id, pool, |value| -(value as i64)),
        Score::Sum(length) => scan_windows(series, id, length, pool),
        Score::Dry => scan_spells(series, id, pool, |value| value < 10),
        Score::Wet => scan_spells(series, id, pool, |value| value >= 10),
    }
}

fn scan_days(series: &Series, id: Id, pool: &mut Pool, score: impl Fn(i32) -> i64) {
    for (chunk, values) in series.days.chunks(64).enumerate() {
        // A loop without a branch, so that several values are compared at once.
        let best = values.iter().fold(i64::MIN, |best, value| {
            best.max(if *value == NONE { i64::MIN } else { score(*value) })
        });
        if best < pool.floor || best == i64::MIN {
            continue;
        }
        for (place, value) in values.iter().enumerate().filter(|(_, value)| **value != NONE) {
            let day = series.first_day + (chunk * 64 + place) as i32;
            pool.offer(score(*value), id, day, day);
        }
    }
}

fn scan_windows(series: &Series, id: Id, length: usize, pool: &mut Pool) {
    let (mut run, mut sum) = (0, 0);
    for (place, value) in series.days.iter().enumerate() {
        if *value == NONE {
            (run, sum) = (0, 0);
            continue;
        }
        run += 1;
        sum += *value as i64;
        if run > length {
            sum -= series.days[place - length] as i64;
        }
        if run >= length {
            let last = series.first_day + place as i32;
            pool.offer(sum, id, last - length as i32 + 1, last);
        }
    }
}

fn scan_spells(series: &Series, id: Id, pool: &mut Pool, passes: impl Fn(i32) -> bool) {
    let mut run = 0;
    for (place, value) in series.days.iter().chain(&[NONE]).enumerate() {
        if *value != NONE && passes(*value) {
            run += 1;
            continue;
        }
        if run > 0 {
            let last = series.first_day + place as i32 - 1;
            pool.offer(run, id, last - run as i32 + 1, last);
        }
        run = 0;
    }
}

// ---- shares of the files ----

/// What a thread makes of its share of the files: its series, and the best of them.
struct Share {
    data: Data,
    best: Vec<Candidate>,
}

/// Reads files, the first of which has this place, and scans their series.
fn take_share(command: &Command, stations: &Stations, first: usize, files: &[String]) -> Result<Share, String> {
    let mut data = Data::default();
    let mut held = Vec::new();
    let mut buffer = Vec::new();
    let hold = command.has("--hold");
    let add = |data: &mut Data, place: usize, text: &[u8]| {
        data.add_file(text, stations)
            .map_err(|(line, why)| format!("5 DailyLine file {} line {line} {why}", first + place + 1))
    };
    for (place, path) in files.iter().enumerate() {
        read_file(path, &mut buffer);
        if hold {
            held.push(std::mem::take(&mut buffer));
        } else {
            add(&mut data, place, &buffer)?;
        }
    }
    for (place, text) in held.iter().enumerate() {
        add(&mut data, place, text)?;
    }
    let mut pool = Pool { k: command.query.k, best: Vec::new(), floor: i64::MIN };
    for (place, series) in &data.opened {
        scan(&series[command.query.element], stations.ids[*place], &command.query, &mut pool);
    }
    Ok(Share { data, best: pool.best })
}

/// Reads the files in as many shares of about the same number of bytes, each in a thread of its own. Nothing if a line
/// has an error, or if a station has lines in two shares.
fn take_shares(command: &Command, stations: &Stations, threads: usize) -> Option<Vec<Share>> {
    let length = |path: &String| std::fs::metadata(path).map_or(0, |it| it.len());
    let lengths: Vec<u64> = command.files.iter().map(length).collect();
    let total: u64 = lengths.iter().sum();
    let (mut ends, mut sum) = (Vec::new(), 0);
    for (place, length) in lengths.iter().enumerate() {
        sum += length;
        if sum * threads as u64 >= total * (ends.len() as u64 + 1) {
            ends.push(place + 1);
        }
    }
    let shares: Vec<Share> = std::thread::scope(|scope| {
        let mut begin = 0;
        let running: Vec<_> = ends
            .iter()
            .map(|end| {
                let (first, files) = (begin, &command.files[begin..*end]);
                begin = *end;
                scope.spawn(move || take_share(command, stations, first, files))
            })
            .collect();
        running.into_iter().map(|it| it.join().unwrap().ok()).collect::<Option<_>>()
    })?;
    let mut seen = vec![false; stations.ids.len()];
    let mut places = shares.iter().flat_map(|share| &share.data.opened).map(|(place, _)| *place);
    let alone = places.all(|place| !std::mem::replace(&mut seen[place], true));
    alone.then_some(shares)
}

fn main() {
    let command = Command::read();
    let stations = Stations::read(&command.stations);
    let threads = command.options.iter().find_map(|it| it.strip_prefix("--threads=")).map_or(1, |it| it.parse().unwrap());
    let in_shares = if threads > 1 { take_shares(&command, &stations, threads) } else { None };
    let shares = in_shares.unwrap_or_else(|| match take_share(&command, &stations, 0, &command.files) {
        Ok(share) => vec![share],
        Err(why) => refuse(&why),
    });
    let mut pool = Pool { k: command.query.k, best: Vec::new(), floor: i64::MIN };
    for it in shares.iter().flat_map(|share| &share.best) {
        pool.offer(it.score, it.id, it.first, it.last);
    }
    let unlisted: u64 = shares.iter().map(|share| share.data.unlisted).sum();
    if unlisted > 0 {
        eprintln!("unlisted {unlisted}");
    }
    print_rows(&command.query, &pool.best);
    // The process's end gives all memory back at once.
    std::process::exit(0)
}
