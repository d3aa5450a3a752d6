//! The program's own way in plain Rust: the same passes over the same data structures, so that what
//! the two differ in is the language, its library and its compiler. All files are held; lines are
//! found by memchr; a line becomes a month of 31 readings; the usable days of a station and element
//! are gathered in pairs, with the set of its months; a BTreeMap is made of each of the five; all
//! candidates of the query are counted, listed and sorted.
//!
//!   rustc --edition 2024 -C opt-level=3 -C panic=abort -o same same.rs
//!   same --stations FILE --query QUERY [--times] FILE..
//!
//! With --times it prints the seconds of each step on standard error.

mod shared;

use shared::*;
use std::collections::{BTreeMap, BTreeSet};
use std::time::Instant;

// ---- lines ----

#[derive(Clone, Copy)]
struct Reading {
    value: Option<i32>,
    flagged: bool,
}

struct Month {
    id: Id,
    element: usize,
    year: u16,
    month: u8,
    days: [Reading; 31],
}

fn is_blank(line: &[u8]) -> bool {
    line.iter().all(|byte| *byte == b' ')
}

fn element_of(code: &[u8]) -> Option<usize> {
    match code {
        b"PRCP" => Some(0),
        b"SNOW" => Some(1),
        b"SNWD" => Some(2),
        b"TMAX" => Some(3),
        b"TMIN" => Some(4),
        _ => None,
    }
}

fn read_month(line: &[u8]) -> Result<Option<Month>, String> {
    if line.len() < 21 {
        return Err("Short".into());
    }
    match element_of(&line[17..21]) {
        None => Ok(None),
        Some(element) => Ok(Some(month_of(element, line)?)),
    }
}

fn month_of(element: usize, line: &[u8]) -> Result<Month, String> {
    if line.len() < 266 {
        return Err("Short".into());
    }
    if line.len() > 269 && !is_blank(&line[269..]) {
        return Err("TooLong".into());
    }
    let id: Id = line[..11].try_into().unwrap();
    if !is_visible(&id) {
        return Err("BadId".into());
    }
    let year = number_up_to(9999, &line[11..15]).ok_or("BadYear")? as u16;
    let month = number_up_to(12, &line[15..17]).ok_or("BadMonth")? as u8;
    Ok(Month { id, element, year, month, days: readings(line)? })
}

fn readings(line: &[u8]) -> Result<[Reading; 31], String> {
    let mut days = [Reading { value: None, flagged: false }; 31];
    for day in 0..31 {
        let start = 21 + 8 * day;
        let value = match int_field(&line[start..start + 5]) {
            Field::Bad => return Err(format!("BadValue {}", day + 1)),
            Field::Number(number) if number != -9999 => Some(number),
            _ => None,
        };
        let flagged = line.get(start + 6).is_some_and(|flag| *flag != b' ');
        days[day] = Reading { value, flagged };
    }
    Ok(days)
}

// ---- series ----

#[derive(Default)]
struct Gathering {
    seen: BTreeSet<(u16, u8)>,
    days: Vec<(i32, i32)>,
}

impl Gathering {
    /// Adds a month, or returns false if one of its time was added before.
    fn add(&mut self, month: &Month) -> bool {
        if !self.seen.insert((month.year, month.month)) {
            return false;
        }
        let (year, number) = (month.year as i32, month.month as i32);
        let first = day_number(year, number, 1);
        for (index, reading) in month.days.iter().enumerate().take(days_in_month(year, number)) {
            if let Reading { value: Some(value), flagged: false } = reading
                && (*value >= 0 || month.element >= 3)
            {
                self.days.push((first + index as i32, *value));
            }
        }
        true
    }
}

struct Reader {
    stations: Stations,
    gathered: Vec<Vec<Gathering>>,
    last: usize,
    unlisted: u64,
}

impl Reader {
    fn add_file(&mut self, file: usize, text: &[u8]) {
        let mut rest = text;
        let mut number = 0;
        while !rest.is_empty() {
            let end = line_feed(rest).unwrap_or(rest.len());
            let mut line = &rest[..end];
            rest = &rest[(end + 1).min(rest.len())..];
            number += 1;
            if let [front @ .., b'\r'] = line {
                line = front;
            }
            if is_blank(line) {
                continue;
            }
            let added = match read_month(line) {
                Ok(None) => continue,
                Ok(Some(month)) if self.add_month(&month) => Ok(()),
                Ok(Some(_)) => Err("DuplicateMonth".into()),
                Err(why) => Err(why),
            };
            if let Err(why) = added {
                refuse(&format!("5 DailyLine file {} line {number} {why}", file + 1));
            }
        }
    }

    fn add_month(&mut self, month: &Month) -> bool {
        let place = match self.stations.ids.get(self.last) {
            Some(id) if *id == month.id => self.last,
            _ => match self.stations.places.get(&month.id) {
                Some(place) => *place,
                None => {
                    self.unlisted += 1;
                    return true;
                }
            },
        };
        self.last = place;
        let gathered = &mut self.gathered[place];
        if gathered.is_empty() {
            gathered.resize_with(5, Gathering::default);
        }
        gathered[month.element].add(month)
    }

    /// The series of each station and element that has a usable day.
    fn finish(self) -> Vec<(Id, usize, BTreeMap<i32, i32>)> {
        let mut series = Vec::new();
        for (id, gathered) in self.stations.ids.iter().zip(self.gathered) {
            for (element, gathering) in gathered.into_iter().enumerate() {
                if !gathering.days.is_empty() {
                    series.push((*id, element, gathering.days.into_iter().collect()));
                }
            }
        }
        series
    }
}

// ---- candidates ----

fn offer_all(series: &[(Id, usize, BTreeMap<i32, i32>)], query: &Query, offer: &mut impl FnMut(Candidate)) {
    for (id, element, days) in series {
        if *element == query.element {
            offer_series(*id, days, query, offer);
        }
    }
}

fn offer_series(id: Id, days: &BTreeMap<i32, i32>, query: &Query, offer: &mut impl FnMut(Candidate)) {
    let of_kind = |value: i32| if query.score == Score::Dry { value < 10 } else { value >= 10 };
    let mut rest = days.iter();
    while let Some((&first, &value)) = rest.next() {
        // The values of the days that follow, as long as none is missing.
        let ahead = rest.clone().zip(first + 1..).map_while(|((&day, &value), next)| (day == next).then_some(value));
        let found = match query.score {
            Score::Highest => Some((1, value as i64)),
            Score::Lowest => Some((1, -(value as i64))),
            Score::Sum(length) => {
                let (count, total) = ahead.take(length - 1).fold((1, value as i64), |it, value| (it.0 + 1, it.1 + value as i64));
                (count == length).then_some((length as i32, total))
            }
            Score::Dry | Score::Wet if of_kind(value) && !days.get(&(first - 1)).is_some_and(|it| of_kind(*it)) => {
                let length = 1 + ahead.take_while(|value| of_kind(*value)).count();
                Some((length as i32, length as i64))
            }
            Score::Dry | Score::Wet => None,
        };
        if let Some((length, score)) = found {
            offer(Candidate { id, first, last: first + length - 1, score });
        }
    }
}

fn main() {
    let start = Instant::now();
    let mut steps = vec![("start", start)];
    let command = Command::read();
    let mut texts = Vec::new();
    for path in &command.files {
        let mut text = Vec::new();
        read_file(path, &mut text);
        texts.push(text);
    }
    steps.push(("read", Instant::now()));
    let stations = Stations::read(&command.stations);
    steps.push(("stations", Instant::now()));
    let gathered = stations.ids.iter().map(|_| Vec::new()).collect();
    let mut reader = Reader { stations, gathered, last: 0, unlisted: 0 };
    for (file, text) in texts.iter().enumerate() {
        reader.add_file(file, text);
    }
    let unlisted = reader.unlisted;
    steps.push(("lines", Instant::now()));
    let series = reader.finish();
    steps.push(("series", Instant::now()));
    let mut count = 0;
    offer_all(&series, &command.query, &mut |_| count += 1);
    let mut candidates = Vec::with_capacity(count);
    offer_all(&series, &command.query, &mut |candidate| candidates.push(candidate));
    steps.push(("candidates", Instant::now()));
    candidates.sort();
    candidates.truncate(command.query.k);
    steps.push(("order", Instant::now()));
    if unlisted > 0 {
        eprintln!("unlisted {unlisted}");
    }
    print_rows(&command.query, &candidates);
    drop((series, texts, candidates));
    steps.push(("end", Instant::now()));
    if command.has("--times") {
        for pair in steps.windows(2) {
            eprintln!("{} {:.4}", pair[1].0, (pair[1].1 - pair[0].1).as_secs_f64());
        }
    }
}
