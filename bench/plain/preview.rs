//! `preview` as plain Rust, for comparisons of speed: it keeps nothing from one moment to the next, proves nothing, and
//! trusts its input, which has a fixed offset. `bench/compare` builds and runs it.
use std::fmt::Write as _;
use std::io::{Read, Write};

const HOUR: i64 = 3600;
const DAY: i64 = 86_400;

enum Json {
    Null,
    Bool,
    Number(i64),
    Text(String),
    List(Vec<Json>),
    Object(Vec<(String, Json)>),
}

struct Parser<'a> {
    bytes: &'a [u8],
    at: usize,
}

impl Parser<'_> {
    fn value(&mut self) -> Json {
        match self.bytes[self.at] {
            b'{' => self.object(),
            b'[' => self.list(),
            b'"' => Json::Text(self.text()),
            b'n' => {
                self.at += 4;
                Json::Null
            }
            b't' => {
                self.at += 4;
                Json::Bool
            }
            _ => self.number(),
        }
    }

    fn object(&mut self) -> Json {
        let mut members = Vec::new();
        self.at += 1;
        while self.bytes[self.at] != b'}' {
            let name = self.text();
            self.at += 1;
            members.push((name, self.value()));
            if self.bytes[self.at] == b',' {
                self.at += 1;
            }
        }
        self.at += 1;
        Json::Object(members)
    }

    fn list(&mut self) -> Json {
        let mut items = Vec::new();
        self.at += 1;
        while self.bytes[self.at] != b']' {
            items.push(self.value());
            if self.bytes[self.at] == b',' {
                self.at += 1;
            }
        }
        self.at += 1;
        Json::List(items)
    }

    fn text(&mut self) -> String {
        let from = self.at + 1;
        let length = self.bytes[from..].iter().position(|b| *b == b'"').unwrap();
        self.at = from + length + 1;
        String::from_utf8(self.bytes[from..from + length].to_vec()).unwrap()
    }

    fn number(&mut self) -> Json {
        let from = self.at;
        while self.at < self.bytes.len() && (self.bytes[self.at] == b'-' || self.bytes[self.at].is_ascii_digit()) {
            self.at += 1;
        }
        Json::Number(std::str::from_utf8(&self.bytes[from..self.at]).unwrap().parse().unwrap())
    }
}

impl Json {
    fn get(&self, name: &str) -> Option<&Json> {
        match self {
            Json::Object(members) => members.iter().find(|member| member.0 == name).map(|member| &member.1),
            _ => None,
        }
    }

    fn list(&self, name: &str) -> &[Json] {
        match self.get(name) {
            Some(Json::List(items)) => items,
            _ => &[],
        }
    }

    fn whole(&self) -> i64 {
        match self {
            Json::Number(number) => *number,
            _ => 0,
        }
    }

    fn number(&self, name: &str) -> i64 {
        self.get(name).map_or(0, Json::whole)
    }
}

struct Region {
    id: i64,
    items: Vec<(i64, i64)>,
    sum: i64,
}

struct Layout {
    id: i64,
    regions: Vec<Region>,
    seconds: i64,
}

struct Daypart {
    id: i64,
    window: (i64, i64),
    exceptions: Vec<(i64, (i64, i64))>,
    dates: Vec<(i64, (i64, i64))>,
}

enum When {
    Always,
    Custom { from: i64, to: i64 },
    Named { daypart: usize, date: i64 },
}

#[derive(Clone, Copy, PartialEq)]
enum Unit {
    Hour,
    Day,
    Week,
    Month,
    Year,
    MonthWeekday,
}

struct Repeat {
    unit: Unit,
    every: i64,
    days: Vec<i64>,
    until: Option<i64>,
}

struct Event {
    id: i64,
    layer: i64,
    order: i64,
    priority: i64,
    share: i64,
    shows: Vec<usize>,
    when: When,
    repeat: Option<Repeat>,
}

struct Snapshot {
    offset: i64,
    default: usize,
    layouts: Vec<Layout>,
    dayparts: Vec<Daypart>,
    events: Vec<Event>,
}

#[derive(Clone, Copy)]
struct Play {
    event: i64,
    layout: usize,
    seconds: i64,
}

fn window(value: &Json) -> (i64, i64) {
    (value.number("start"), value.number("end"))
}

fn place<T>(rows: &[T], id: i64, id_of: impl Fn(&T) -> i64) -> usize {
    rows.binary_search_by_key(&id, id_of).unwrap()
}

fn layout_of(value: &Json) -> Layout {
    let regions: Vec<Region> = value
        .list("regions")
        .iter()
        .map(|region| {
            let items: Vec<(i64, i64)> =
                region.list("items").iter().map(|item| (item.number("media"), item.number("seconds"))).collect();
            let sum = items.iter().map(|item| item.1).sum();
            Region { id: region.number("id"), items, sum }
        })
        .collect();
    let seconds = regions.iter().map(|region| region.sum).max().unwrap();
    Layout { id: value.number("id"), regions, seconds }
}

fn daypart_of(value: &Json) -> Daypart {
    let windows = |name: &str, key: &str| value.list(name).iter().map(|e| (e.number(key), window(e))).collect();
    Daypart {
        id: value.number("id"),
        window: window(value),
        exceptions: windows("exceptions", "day"),
        dates: windows("dates", "date"),
    }
}

fn repeat_of(value: &Json) -> Option<Repeat> {
    let Some(Json::Text(unit)) = value.get("unit") else { return None };
    let unit = match unit.as_str() {
        "hour" => Unit::Hour,
        "day" => Unit::Day,
        "week" => Unit::Week,
        "month" => Unit::Month,
        "year" => Unit::Year,
        _ => Unit::MonthWeekday,
    };
    let until = match value.get("until") {
        Some(Json::Number(day)) => Some(*day),
        _ => None,
    };
    Some(Repeat { unit, every: value.number("every"), days: value.list("days").iter().map(Json::whole).collect(), until })
}

fn snapshot_of(value: &Json) -> Snapshot {
    let layouts: Vec<Layout> = value.list("layouts").iter().map(layout_of).collect();
    let dayparts: Vec<Daypart> = value.list("dayparts").iter().map(daypart_of).collect();
    let layout = |id: i64| place(&layouts, id, |row| row.id);
    let campaigns = value.list("campaigns");
    let events = value
        .list("events")
        .iter()
        .map(|event| {
            let target = event.get("target").unwrap();
            let shows = match target.get("layout") {
                Some(id) => vec![layout(id.whole())],
                None => campaigns[place(campaigns, target.number("campaign"), |row| row.number("id"))]
                    .list("layouts")
                    .iter()
                    .map(|id| layout(id.whole()))
                    .collect(),
            };
            let when = event.get("when").unwrap();
            let when = if when.get("always").is_some() {
                When::Always
            } else if when.get("from").is_some() {
                When::Custom { from: when.number("from"), to: when.number("to") }
            } else {
                When::Named { daypart: place(&dayparts, when.number("daypart"), |row| row.id), date: when.number("date") }
            };
            Event {
                id: event.number("id"),
                layer: event.number("layer"),
                order: event.number("order"),
                priority: event.number("priority"),
                share: event.number("share"),
                shows,
                when,
                repeat: repeat_of(event.get("repeat").unwrap()),
            }
        })
        .collect();
    Snapshot {
        offset: value.get("zone").unwrap().number("offset") * 60,
        default: layout(value.number("default")),
        layouts,
        dayparts,
        events,
    }
}

/// Year, month from 0, and day of the month from 1.
fn civil(day: i64) -> (i64, i64, i64) {
    let z = day + 719_468;
    let era = z.div_euclid(146_097);
    let doe = z.rem_euclid(146_097);
    let yoe = (doe - doe / 1460 + doe / 36_524 - doe / 146_096) / 365;
    let doy = doe - (365 * yoe + yoe / 4 - yoe / 100);
    let mp = (5 * doy + 2) / 153;
    let month = if mp < 10 { mp + 2 } else { mp - 10 };
    (yoe + era * 400 + i64::from(month < 2), month, doy - (153 * mp + 2) / 5 + 1)
}

fn day_of(year: i64, month: i64, day: i64) -> i64 {
    let y = if month < 2 { year - 1 } else { year };
    let era = y.div_euclid(400);
    let yoe = y.rem_euclid(400);
    let doy = (153 * ((month + 10) % 12) + 2) / 5 + day - 1;
    era * 146_097 + yoe * 365 + yoe / 4 - yoe / 100 + doy - 719_468
}

fn weekday(day: i64) -> i64 {
    (day + 3).rem_euclid(7) + 1
}

/// Whether an event whose base is a day has an occurrence on another day.
fn is_date(repeat: &Option<Repeat>, base: i64, day: i64) -> bool {
    let Some(repeat) = repeat else { return day == base };
    if day < base || repeat.until.is_some_and(|until| day > until) {
        return false;
    }
    let every = repeat.every;
    match repeat.unit {
        Unit::Hour | Unit::Day => (day - base) % every == 0,
        Unit::Week => {
            repeat.days.contains(&weekday(day)) && ((day + 3).div_euclid(7) - (base + 3).div_euclid(7)) % every == 0
        }
        Unit::Month | Unit::MonthWeekday => {
            let (a, b) = (civil(day), civil(base));
            let same = if repeat.unit == Unit::Month {
                a.2 == b.2
            } else {
                weekday(day) == weekday(base) && (a.2 - 1) / 7 == (b.2 - 1) / 7
            };
            same && (12 * (a.0 - b.0) + a.1 - b.1) % every == 0
        }
        Unit::Year => {
            let (a, b) = (civil(day), civil(base));
            a.1 == b.1 && a.2 == b.2 && (a.0 - b.0) % every == 0
        }
    }
}

/// The latest date of a repeat up to a day.
fn latest_date(repeat: &Repeat, base: i64, day: i64) -> Option<i64> {
    let day = repeat.until.map_or(day, |until| until.min(day));
    if day < base {
        return None;
    }
    let every = repeat.every;
    match repeat.unit {
        Unit::Hour | Unit::Day => Some(day - (day - base) % every),
        Unit::Week => {
            let first = (base + 3).div_euclid(7);
            let mut week = (day + 3).div_euclid(7);
            week -= (week - first) % every;
            while week >= first {
                let from = week * 7 - 3;
                let found = (from..from + 7).rev().find(|d| *d <= day && *d >= base && repeat.days.contains(&weekday(*d)));
                if found.is_some() {
                    return found;
                }
                week -= every;
            }
            None
        }
        Unit::Month | Unit::Year | Unit::MonthWeekday => {
            let (year, month, number) = civil(base);
            let step = if repeat.unit == Unit::Year { 12 * every } else { every };
            let first = 12 * year + month;
            let (now_year, now_month, _) = civil(day);
            let mut index = 12 * now_year + now_month;
            index -= (index - first) % step;
            while index >= first {
                let (y, m) = (index / 12, index % 12);
                let date = if repeat.unit == Unit::MonthWeekday {
                    let one = day_of(y, m, 1);
                    one + (weekday(base) - weekday(one)).rem_euclid(7) + (number - 1) / 7 * 7
                } else {
                    day_of(y, m, number)
                };
                let inside = civil(date).1 == m;
                if inside && date <= day {
                    return (date >= base).then_some(date);
                }
                index -= step;
            }
            None
        }
    }
}

fn latest_start(repeat: &Option<Repeat>, from: i64, t: i64) -> Option<i64> {
    if t < from {
        return None;
    }
    let Some(repeat) = repeat else { return Some(from) };
    if repeat.unit == Unit::Hour {
        let last = repeat.until.map_or(t, |until| t.min(until * DAY + DAY - 1));
        return (last >= from).then(|| last - (last - from) % (repeat.every * HOUR));
    }
    let (base, second) = (from / DAY, from % DAY);
    let day = t.div_euclid(DAY);
    let date = latest_date(repeat, base, day)?;
    if date * DAY + second <= t {
        return Some(date * DAY + second);
    }
    latest_date(repeat, base, date - 1).map(|date| date * DAY + second)
}

fn is_open(daypart: &Daypart, repeat: &Option<Repeat>, base: i64, day: i64, t: i64) -> bool {
    let window = daypart.dates.iter().find(|e| e.0 == day).map(|e| e.1);
    let window = window.or_else(|| daypart.exceptions.iter().find(|e| e.0 == weekday(day)).map(|e| e.1));
    let (start, end) = window.unwrap_or(daypart.window);
    let closes = if end <= start { end + DAY } else { end };
    day * DAY + start <= t && t < day * DAY + closes && is_date(repeat, base, day)
}

fn is_active(s: &Snapshot, event: &Event, t: i64) -> bool {
    match event.when {
        When::Always => true,
        When::Custom { from, to } => latest_start(&event.repeat, from, t).is_some_and(|start| t < start + to - from),
        When::Named { daypart, date } => {
            let (daypart, day) = (&s.dayparts[daypart], t.div_euclid(DAY));
            is_open(daypart, &event.repeat, date, day, t) || is_open(daypart, &event.repeat, date, day - 1, t)
        }
    }
}

/// The active events that pass a test, of the greatest priority among them.
fn highest<'a>(s: &'a Snapshot, t: i64, test: impl Fn(&Event) -> bool) -> Vec<&'a Event> {
    let mut events: Vec<&Event> = s.events.iter().filter(|event| test(event) && is_active(s, event, t)).collect();
    let top = events.iter().map(|event| event.priority).max().unwrap_or(0);
    events.retain(|event| event.priority == top);
    events
}

/// The plays of events by order and id, as many as fill an hour.
fn plays_of(s: &Snapshot, events: &mut [&Event]) -> Vec<Play> {
    events.sort_by_key(|event| (event.order, event.id));
    let (mut plays, mut seconds) = (Vec::new(), 0);
    for event in events.iter() {
        for layout in &event.shows {
            if seconds >= HOUR {
                return plays;
            }
            let play = Play { event: event.id, layout: *layout, seconds: s.layouts[*layout].seconds };
            seconds += play.seconds;
            plays.push(play);
        }
    }
    plays
}

/// The plays of the interrupts, in rounds.
fn rounds(interrupts: &[(Play, i64)]) -> Vec<Play> {
    let count = |(play, share): &(Play, i64)| (share + play.seconds - 1) / play.seconds;
    let mut plays = Vec::new();
    let (mut round, mut seconds) = (0, 0);
    loop {
        let before = plays.len();
        for interrupt in interrupts.iter().filter(|interrupt| count(interrupt) > round) {
            if seconds < HOUR {
                plays.push(interrupt.0);
                seconds += interrupt.0.seconds;
            }
        }
        if plays.len() == before {
            return plays;
        }
        round += 1;
    }
}

/// The play that covers a second of the hour, and where it begins.
fn slot(normal: &[Play], shared: &[Play], p: i64) -> (Play, i64) {
    let room = HOUR - shared.iter().map(|play| play.seconds).sum::<i64>();
    let mut hour: Vec<Play> = Vec::new();
    if room <= 0 {
        hour.extend(shared);
    } else {
        let (mut n, mut left) = (0, room);
        while left > 0 {
            left -= normal[n % normal.len()].seconds;
            n += 1;
        }
        let mut next = 0;
        for j in 0..n {
            let till = (j + 1) * shared.len() / n;
            hour.extend(&shared[next..till]);
            next = till;
            hour.push(normal[j % normal.len()]);
        }
    }
    let mut at = 0;
    for play in hour {
        if p < at + play.seconds {
            return (play, at);
        }
        at += play.seconds;
    }
    unreachable!()
}

fn part(s: &Snapshot, mark: char, t: i64, normal: &[Play], shared: &[Play], line: &mut String) {
    let p = t.rem_euclid(HOUR);
    let (play, at) = slot(normal, shared, p);
    let layout = &s.layouts[play.layout];
    let offset = p - at;
    write!(line, " {mark}{} l{} s{} o{offset}", play.event, layout.id, t - offset).unwrap();
    for region in &layout.regions {
        let mut left = offset % region.sum;
        let item = region.items.iter().find(|item| {
            left -= item.1;
            left < 0
        });
        write!(line, " r{}:m{}", region.id, item.unwrap().0).unwrap();
    }
}

fn line(s: &Snapshot, moment: i64, line: &mut String) {
    let t = moment + s.offset;
    write!(line, "{moment}").unwrap();
    let interrupts: Vec<(Play, i64)> = highest(s, t, |event| event.layer == 0 && event.share > 0)
        .iter()
        .map(|event| {
            let layout = event.shows[0];
            (Play { event: event.id, layout, seconds: s.layouts[layout].seconds }, event.share)
        })
        .collect();
    let mut normal = plays_of(s, &mut highest(s, t, |event| event.layer == 0 && event.share == 0));
    if normal.is_empty() {
        normal.push(Play { event: 0, layout: s.default, seconds: s.layouts[s.default].seconds });
    }
    part(s, 'e', t, &normal, &rounds(&interrupts), line);
    let overlays = plays_of(s, &mut highest(s, t, |event| event.layer == 1));
    if !overlays.is_empty() {
        part(s, 'v', t, &overlays, &[], line);
    }
    line.push('\n');
}

fn main() {
    let mut input = Vec::new();
    std::io::stdin().read_to_end(&mut input).unwrap();
    let snapshot = snapshot_of(&Parser { bytes: &input, at: 0 }.value());
    let mut out = std::io::stdout().lock();
    let mut text = String::new();
    for word in std::env::args().skip(2) {
        text.clear();
        line(&snapshot, word.parse().unwrap(), &mut text);
        out.write_all(text.as_bytes()).unwrap();
    }
}
