//! The fastest form that was found for each step, in plain Rust: packed columns over blocks of 32
//! days, made while the lines are read; fields by tables; bounds from summaries of blocks; series by
//! falling bound, skipped below the floor of the best. It makes the tests of a line that the
//! program makes, and reports the first error by file and line whatever the order of months and files.
//!
//!   rustc --edition 2024 -C opt-level=3 -C panic=abort -o packed packed.rs
//!   packed --stations FILE --query QUERY [--hold | --pieces] [--only] [--times] FILE..
//!
//! With --hold all files are read before the first line is; with --pieces a file is read by 64 KiB at a
//! time; otherwise one buffer holds a file at a time. With --only the values of the query's element
//! alone are kept, and of the others the months that were seen.

mod shared;

use shared::*;
use std::collections::{BTreeSet, HashMap};
use std::io::Read;
use std::time::Instant;

const PIECE: usize = 1 << 16;

/// What stands for a day without a value while a line is read. It is less than any value.
const NONE: i32 = i32::MIN;

type Block = [i32; 32];

// ---- fields ----

/// What the kinds of five columns make of a field.
#[derive(Clone, Copy, PartialEq)]
enum Form {
    Blank,
    Positive,
    Negative,
    Bad,
}

/// Below this bit an entry has a digit times its column's weight; above it, two bits for each column
/// say what kind its byte is: a digit, a blank, a minus, or another. Entries of five columns are added up.
const KINDS: u32 = 20;

struct FieldTable {
    columns: [[u32; 256]; 5],
    forms: [Form; 1024],
}

impl FieldTable {
    fn new() -> FieldTable {
        let mut columns = [[0; 256]; 5];
        for (column, entries) in columns.iter_mut().enumerate() {
            let weight = 10u32.pow(4 - column as u32);
            for (byte, entry) in entries.iter_mut().enumerate() {
                *entry = match byte as u8 {
                    digit @ b'0'..=b'9' => (digit - b'0') as u32 * weight,
                    b' ' => 1 << (KINDS + 2 * column as u32),
                    b'-' => 2 << (KINDS + 2 * column as u32),
                    _ => 3 << (KINDS + 2 * column as u32),
                };
            }
        }
        // The form of five kinds is that of any field that has them.
        let forms = std::array::from_fn(|kinds| {
            let field: [u8; 5] = std::array::from_fn(|column| b"0 -x"[kinds >> (2 * column) & 3]);
            match int_field(&field) {
                Field::Blank => Form::Blank,
                Field::Number(_) if field.contains(&b'-') => Form::Negative,
                Field::Number(_) => Form::Positive,
                Field::Bad => Form::Bad,
            }
        });
        FieldTable { columns, forms }
    }

    /// The values of 31 groups, `NONE` if there is none or a flag. False if a field isn't a number.
    #[inline(always)]
    fn read(&self, groups: &[u8; 248], days: &mut Block) -> bool {
        let [first, second, third, fourth, fifth] = &self.columns;
        let mut bad = false;
        for (group, day) in groups.as_chunks::<8>().0.iter().zip(days.iter_mut()) {
            let [a, b, c, d, e, _, flag, _] = *group;
            let sum = first[a as usize] + second[b as usize] + third[c as usize] + fourth[d as usize] + fifth[e as usize];
            let form = self.forms[(sum >> KINDS) as usize % 1024];
            let number = (sum % (1 << KINDS)) as i32;
            let value = if form == Form::Negative { -number } else { number };
            bad |= form == Form::Bad;
            *day = if (flag == b' ') & (form != Form::Blank) { value } else { NONE };
        }
        days[31] = NONE;
        !bad
    }
}

/// The bits of the days whose value is at least `least`; the values of the others become 0. Two loops
/// without a branch, which work on lanes.
#[inline(always)]
fn keep_usable(days: &mut Block, least: i32) -> u32 {
    let mut presence = 0;
    for (place, value) in days.iter().enumerate() {
        presence |= ((*value >= least) as u32) << place;
    }
    for value in days {
        *value = if *value >= least { *value } else { 0 };
    }
    presence
}

// ---- series ----

/// Blocks that hold a usable day, by number: day d is in block d / 32 at place d % 32.
#[derive(Default, Clone)]
struct Series {
    numbers: Vec<i32>,
    presence: Vec<u32>,
    values: Vec<Block>,
}

impl Series {
    /// Adds days of a block, which go into the last part with that number or make a new one. False if the number is
    /// less than the one before.
    #[inline(always)]
    fn add_part(&mut self, number: i32, presence: u32, values: &Block) -> bool {
        if presence == 0 {
            return true;
        }
        let last = self.numbers.last().copied();
        if last == Some(number) {
            *self.presence.last_mut().unwrap() |= presence;
            // Absent days are 0 on either side.
            for (value, more) in self.values.last_mut().unwrap().iter_mut().zip(values) {
                *value |= more;
            }
            return true;
        }
        self.numbers.push(number);
        self.presence.push(presence);
        self.values.push(*values);
        last.is_none_or(|it| it < number)
    }

    /// Adds 31 days from a first one on, which lie in at most two blocks.
    #[inline(always)]
    fn add_days(&mut self, first: i32, presence: u32, values: &Block) -> bool {
        let place = (first & 31) as usize;
        let mut wide = [0; 64];
        wide[place..place + 32].copy_from_slice(values);
        let bits = (presence as u64) << place;
        let number = first >> 5;
        let [low, high] = wide.as_chunks::<32>().0 else { unreachable!() };
        self.add_part(number, bits as u32, low) & self.add_part(number + 1, (bits >> 32) as u32, high)
    }

    /// The same days with the parts of each block joined, by increasing number.
    fn in_order(&self) -> Series {
        let mut places: Vec<usize> = (0..self.numbers.len()).collect();
        places.sort_by_key(|place| self.numbers[*place]);
        let mut joined = Series::default();
        for place in places {
            joined.add_part(self.numbers[place], self.presence[place], &self.values[place]);
        }
        joined
    }

    fn clear(&mut self) {
        self.numbers.clear();
        self.presence.clear();
        self.values.clear();
    }
}

/// The months of a station and element that were read: a rising list, and a set from the first one on
/// that doesn't rise.
#[derive(Default)]
struct Months {
    rising: Vec<u32>,
    all: Option<Box<BTreeSet<u32>>>,
}

impl Months {
    /// Adds a month, or returns false if it was added before.
    #[inline(always)]
    fn add(&mut self, month: u32) -> bool {
        if self.all.is_none() && self.rising.last().is_none_or(|last| *last < month) {
            self.rising.push(month);
            return true;
        }
        self.add_late(month)
    }

    #[inline(never)]
    fn add_late(&mut self, month: u32) -> bool {
        let rising = &mut self.rising;
        self.all.get_or_insert_with(|| Box::new(std::mem::take(rising).into_iter().collect())).insert(month)
    }
}

/// What was read of a station and element.
#[derive(Default)]
struct Gathering {
    months: Months,
    series: Series,
    out_of_order: bool,
}

#[derive(Default)]
struct Station {
    place: usize,
    gathered: [Gathering; 5],
    /// Whether its lines go to its own columns. At first they go to columns that all stations share,
    /// which are copied, at their exact size, when a line of another station comes.
    closed: bool,
}

// ---- reading ----

struct Reader<'a> {
    stations: &'a Stations,
    table: FieldTable,
    /// The one element whose values are kept, or all five.
    only: Option<usize>,
    opened: Vec<Station>,
    by_place: HashMap<usize, usize>,
    /// The columns of the station that is open.
    shared: [Series; 5],
    id: Id,
    current: Option<usize>,
    unlisted: u64,
    file: usize,
    line: u64,
}

impl Reader<'_> {
    fn refuse(&self, why: &str) -> ! {
        refuse(&format!("5 DailyLine file {} line {} {why}", self.file, self.line))
    }

    fn begin_file(&mut self) {
        self.file += 1;
        self.line = 0;
    }

    /// Reads the whole lines of a text, and what follows them if the file ends there. Returns how
    /// many bytes that were.
    fn read(&mut self, text: &[u8], ends: bool) -> usize {
        let mut rest = text;
        while !rest.is_empty() {
            let end = match line_end(rest) {
                Some(end) => end,
                None if ends => rest.len(),
                None => break,
            };
            let mut line = &rest[..end];
            rest = &rest[(end + 1).min(rest.len())..];
            self.line += 1;
            if let [front @ .., b'\r'] = line {
                line = front;
            }
            self.read_line(line);
        }
        text.len() - rest.len()
    }

    #[inline(always)]
    fn read_line(&mut self, line: &[u8]) {
        if line.len() < 21 {
            if line.iter().any(|byte| *byte != b' ') {
                self.refuse("Short");
            }
            return;
        }
        let Some(element) = ELEMENTS.iter().position(|it| it[..] == line[17..21]) else {
            return;
        };
        let padded;
        let line: &[u8; 269] = match line.first_chunk() {
            Some(front) if line[269..].iter().all(|byte| *byte == b' ') => front,
            Some(_) => self.refuse("TooLong"),
            None if line.len() < 266 => self.refuse("Short"),
            None => {
                padded = with_blanks(line);
                &padded
            }
        };
        let id: Id = line[..11].try_into().unwrap();
        if id != self.id && !is_visible(&id) {
            self.refuse("BadId");
        }
        let Some(year) = number_up_to(9999, &line[11..15]) else { self.refuse("BadYear") };
        let Some(month) = number_up_to(12, &line[15..17]) else { self.refuse("BadMonth") };
        let groups: &[u8; 248] = line[21..].try_into().unwrap();
        let mut days = [0; 32];
        if !self.table.read(groups, &mut days) {
            let is_bad = |group: &[u8; 8]| matches!(int_field(&group[..5]), Field::Bad);
            let day = groups.as_chunks::<8>().0.iter().position(is_bad).unwrap();
            self.refuse(&format!("BadValue {}", day + 1));
        }
        self.add_month(id, element, year, month, days);
    }

    #[inline(always)]
    fn add_month(&mut self, id: Id, element: usize, year: i32, month: i32, mut days: Block) {
        if id != self.id {
            self.turn_to(id);
        }
        let Some(current) = self.current else {
            self.unlisted += 1;
            return;
        };
        let station = &mut self.opened[current];
        let gathering = &mut station.gathered[element];
        if !gathering.months.add((year * 12 + month) as u32) {
            self.refuse("DuplicateMonth");
        }
        if self.only.is_some_and(|only| only != element) {
            return;
        }
        days[days_in_month(year, month)..].fill(NONE);
        let presence = keep_usable(&mut days, if element < 3 { 0 } else { -9998 });
        let series = if station.closed { &mut gathering.series } else { &mut self.shared[element] };
        gathering.out_of_order |= !series.add_days(day_number(year, month, 1), presence, &days);
    }

    /// Makes another station the current one. Lines of a station mostly come together.
    #[inline(never)]
    fn turn_to(&mut self, id: Id) {
        self.close();
        self.id = id;
        self.current = self.stations.places.get(&id).map(|place| {
            *self.by_place.entry(*place).or_insert_with(|| {
                self.opened.push(Station { place: *place, ..Station::default() });
                self.opened.len() - 1
            })
        });
    }

    /// Gives the open station, if there is one, columns of its own.
    fn close(&mut self) {
        let Some(station) = self.current.map(|current| &mut self.opened[current]).filter(|it| !it.closed) else {
            return;
        };
        station.closed = true;
        for (gathering, shared) in station.gathered.iter_mut().zip(&mut self.shared) {
            gathering.series = shared.clone();
            shared.clear();
        }
    }

    /// The series of an element of each station that has a line of it.
    fn finish(mut self, element: usize) -> Vec<(Id, Series)> {
        self.close();
        let mut series = Vec::new();
        for station in &mut self.opened {
            for (place, gathering) in station.gathered.iter_mut().enumerate() {
                if gathering.out_of_order {
                    gathering.series = gathering.series.in_order();
                }
                if place == element && !gathering.series.numbers.is_empty() {
                    series.push((self.stations.ids[station.place], std::mem::take(&mut gathering.series)));
                }
            }
        }
        std::mem::forget(self.opened);
        series
    }
}

/// A line of 266 columns or more with the missing blanks.
#[cold]
fn with_blanks(line: &[u8]) -> [u8; 269] {
    let mut padded = [b' '; 269];
    padded[..line.len()].copy_from_slice(line);
    padded
}

/// The place of a line's end: the form's own place is looked at first.
#[inline(always)]
fn line_end(text: &[u8]) -> Option<usize> {
    match text.get(..270) {
        Some(record) if line_feed(record) == Some(269) => Some(269),
        _ => line_feed(text),
    }
}

/// Reads a file by pieces. What a piece has after its last whole line goes before the next one.
fn read_pieces(path: &str, buffer: &mut Vec<u8>, reader: &mut Reader) -> std::io::Result<()> {
    let mut file = std::fs::File::open(path)?;
    let mut held = 0;
    loop {
        if held == buffer.len() {
            buffer.resize((2 * held).max(PIECE), 0);
        }
        let more = file.read(&mut buffer[held..])?;
        let end = held + more;
        let used = reader.read(&buffer[..end], more == 0);
        if more == 0 {
            return Ok(());
        }
        buffer.copy_within(used..end, 0);
        held = end - used;
    }
}

// ---- the best ----

struct Pool {
    k: usize,
    best: Vec<Candidate>,
    /// The score of the k-th best, below which nothing is of interest.
    floor: i64,
}

impl Pool {
    #[inline(always)]
    fn offer(&mut self, score: i64, id: Id, first: i32, last: i32) {
        if score >= self.floor {
            self.insert(Candidate { id, first, last, score });
        }
    }

    #[inline(never)]
    fn insert(&mut self, candidate: Candidate) {
        let place = self.best.partition_point(|it| *it < candidate);
        self.best.insert(place, candidate);
        self.best.truncate(self.k);
        if self.best.len() == self.k {
            self.floor = self.best[self.k - 1].score;
        }
    }
}

fn scan(series: &Series, id: Id, query: &Query, pool: &mut Pool) {
    match query.score {
        Score::Highest => scan_days(series, id, pool, |value| value as i64),
        Score::Lowest => scan_days(series, id, pool, |value| -(value as i64)),
        Score::Sum(length) => scan_windows(series, id, length, pool),
        Score::Dry => scan_spells(series, id, pool, |presence, dry| presence & dry),
        Score::Wet => scan_spells(series, id, pool, |presence, dry| presence & !dry),
    }
}

fn scan_days(series: &Series, id: Id, pool: &mut Pool, score: impl Fn(i32) -> i64) {
    for ((number, presence), values) in series.numbers.iter().zip(&series.presence).zip(&series.values) {
        for (place, value) in values.iter().enumerate() {
            if presence >> place & 1 == 1 {
                let day = number * 32 + place as i32;
                pool.offer(score(*value), id, day, day);
            }
        }
    }
}

/// Carries the number of days since the last absent one, and the sum of the last `length` of them. The
/// value that leaves is `length` places before, since blocks of one run are neighbours.
fn scan_windows(series: &Series, id: Id, length: usize, pool: &mut Pool) {
    let (mut run, mut sum, mut next) = (0, 0, 0);
    for (index, (number, presence)) in series.numbers.iter().zip(&series.presence).enumerate() {
        if *number != next {
            (run, sum) = (0, 0);
        }
        next = number + 1;
        for place in 0..32 {
            if presence >> place & 1 == 0 {
                (run, sum) = (0, 0);
                continue;
            }
            run += 1;
            sum += series.values[index][place] as i64;
            if run > length {
                let leaving = index * 32 + place - length;
                sum -= series.values[leaving / 32][leaving % 32] as i64;
            }
            if run >= length {
                let last = number * 32 + place as i32;
                pool.offer(sum, id, last - length as i32 + 1, last);
            }
        }
    }
}

/// Goes from one end of a run of bits to the next, and carries the run that is open.
fn scan_spells(series: &Series, id: Id, pool: &mut Pool, days: impl Fn(u32, u32) -> u32) {
    let (mut run, mut next) = (0, 0);
    let mut end = |run: &mut i32, day: i32| {
        if *run > 0 {
            pool.offer(*run as i64, id, day - *run, day - 1);
        }
        *run = 0;
    };
    for ((number, presence), values) in series.numbers.iter().zip(&series.presence).zip(&series.values) {
        if *number != next {
            end(&mut run, next * 32);
        }
        next = number + 1;
        let bits = days(*presence, dry_days(values));
        let mut place = 0;
        while place < 32 {
            let rest = bits >> place;
            let ones = rest.trailing_ones().min(32 - place);
            run += ones as i32;
            place += ones;
            if place < 32 {
                end(&mut run, number * 32 + place as i32);
                place += (bits >> place).trailing_zeros().min(32 - place);
            }
        }
    }
    end(&mut run, next * 32);
}

// ---- bounds ----

#[inline(always)]
fn dry_days(values: &Block) -> u32 {
    values.iter().enumerate().fold(0, |bits, (place, value)| bits | ((*value < 10) as u32) << place)
}

/// What a bound needs of a block. Values that aren't negative need no presence word: absent is 0.
#[derive(Clone, Copy)]
struct Summary {
    greatest: i32,
    least: i32,
    total: i32,
    dry: u32,
}

#[inline(always)]
fn greatest_and_least(presence: u32, values: &Block) -> (i32, i32) {
    let (mut greatest, mut least) = (i32::MIN, i32::MAX);
    if presence == u32::MAX {
        for value in values {
            (greatest, least) = (greatest.max(*value), least.min(*value));
        }
        return (greatest, least);
    }
    for (place, value) in values.iter().enumerate() {
        let there = presence >> place & 1 == 1;
        greatest = greatest.max(if there { *value } else { i32::MIN });
        least = least.min(if there { *value } else { i32::MAX });
    }
    (greatest, least)
}

/// The summaries of the blocks of a series. Each element has those parts that its queries ask for.
fn summarize(series: &Series, element: usize, summaries: &mut Vec<Summary>) {
    summaries.clear();
    let blocks = series.presence.iter().zip(&series.values);
    match element {
        0 => summaries.extend(blocks.map(|(presence, values)| of_rain(*presence, values))),
        1 | 2 => summaries.extend(blocks.map(|(_, values)| of_snow(values))),
        _ => summaries.extend(blocks.map(|(presence, values)| of_temperature(*presence, values))),
    }
}

#[inline(never)]
fn of_rain(presence: u32, values: &Block) -> Summary {
    Summary { dry: presence & dry_days(values), ..of_snow(values) }
}

#[inline(always)]
fn of_snow(values: &Block) -> Summary {
    let greatest = values.iter().fold(0, |greatest, value| greatest.max(*value));
    Summary { greatest, least: 0, total: values.iter().sum(), dry: 0 }
}

#[inline(never)]
fn of_temperature(presence: u32, values: &Block) -> Summary {
    let (greatest, least) = greatest_and_least(presence, values);
    Summary { greatest, least, total: 0, dry: 0 }
}

/// The longest run of bits through all words; a run may go on from one word into the next.
#[derive(Default)]
struct LongestRun {
    open: i64,
    longest: i64,
    next: i32,
}

impl LongestRun {
    #[inline(always)]
    fn add(&mut self, number: i32, bits: u32) {
        if number != self.next {
            self.open = 0;
        }
        self.next = number + 1;
        if bits == u32::MAX {
            self.open += 32;
            self.longest = self.longest.max(self.open);
            return;
        }
        self.longest = self.longest.max(self.open + bits.trailing_ones() as i64);
        self.open = bits.leading_ones() as i64;
        // No run inside the word is longer than its number of bits.
        if bits.count_ones() as i64 > self.longest {
            let (mut rest, mut length) = (bits, 0);
            while rest != 0 {
                rest &= rest << 1;
                length += 1;
            }
            self.longest = self.longest.max(length);
        }
    }
}

#[inline(never)]
fn bound(series: &Series, summaries: &[Summary], query: &Query) -> i64 {
    let blocks = || series.numbers.iter().zip(&series.presence).zip(summaries);
    match query.score {
        Score::Highest => summaries.iter().fold(i32::MIN, |greatest, it| greatest.max(it.greatest)) as i64,
        Score::Lowest => -(summaries.iter().fold(i32::MAX, |least, it| least.min(it.least)) as i64),
        Score::Sum(length) => {
            let width = ((length + 30) / 32 + 1) as i32;
            let greatest = summaries.iter().fold(0, |greatest, it| greatest.max(it.greatest)) as i64;
            let (mut total, mut most, mut first) = (0, 0, 0);
            for (number, summary) in series.numbers.iter().zip(summaries) {
                total += summary.total as i64;
                while series.numbers[first] + width <= *number {
                    total -= summaries[first].total as i64;
                    first += 1;
                }
                most = most.max(total);
            }
            most.min(greatest * length as i64)
        }
        Score::Dry | Score::Wet => {
            let mut run = LongestRun::default();
            for ((number, presence), summary) in blocks() {
                run.add(*number, if query.score == Score::Dry { summary.dry } else { presence & !summary.dry });
            }
            run.longest
        }
    }
}

fn main() {
    let mut steps = vec![("start", Instant::now())];
    let command = Command::read();
    let stations = Stations::read(&command.stations);
    let mut reader = Reader {
        stations: &stations,
        table: FieldTable::new(),
        only: command.has("--only").then_some(command.query.element),
        opened: Vec::new(),
        by_place: HashMap::new(),
        shared: Default::default(),
        id: [0; 11],
        current: None,
        unlisted: 0,
        file: 0,
        line: 0,
    };
    let mut buffer = Vec::new();
    let mut held = Vec::new();
    for path in &command.files {
        if command.has("--pieces") {
            reader.begin_file();
            if read_pieces(path, &mut buffer, &mut reader).is_err() {
                eprintln!("file not read {path}");
                std::process::exit(3);
            }
            continue;
        }
        read_file(path, &mut buffer);
        if command.has("--hold") {
            held.push(std::mem::take(&mut buffer));
        } else {
            reader.begin_file();
            reader.read(&buffer, true);
        }
    }
    steps.push(("files", Instant::now()));
    for text in &held {
        reader.begin_file();
        reader.read(text, true);
    }
    let unlisted = reader.unlisted;
    let series = reader.finish(command.query.element);
    steps.push(("lines", Instant::now()));
    let mut summaries = Vec::new();
    let mut plan: Vec<(i64, &Id, &Series)> = Vec::new();
    for (id, series) in &series {
        summarize(series, command.query.element, &mut summaries);
        plan.push((bound(series, &summaries, &command.query), id, series));
    }
    plan.sort_by(|a, b| b.0.cmp(&a.0).then(a.1.cmp(b.1)));
    steps.push(("plan", Instant::now()));
    let mut pool = Pool { k: command.query.k, best: Vec::new(), floor: i64::MIN };
    for (bound, id, series) in plan {
        if bound >= pool.floor {
            scan(series, *id, &command.query, &mut pool);
        }
    }
    steps.push(("scan", Instant::now()));
    if unlisted > 0 {
        eprintln!("unlisted {unlisted}");
    }
    print_rows(&command.query, &pool.best);
    if command.has("--times") {
        for pair in steps.windows(2) {
            eprintln!("{} {:.5}", pair[1].0, (pair[1].1 - pair[0].1).as_secs_f64());
        }
    }
    // The process's end gives all memory back at once.
    std::process::exit(0)
}
