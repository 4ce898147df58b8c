//! Reading a manifest as plain Rust, for a comparison of speed: the same rules, but for those of zones' texts and of a
//! repeat's length, with a tree of JSON, and with the text written again and compared. It shows nothing and proves nothing.
//! `bench/reading` builds and runs it.
use std::collections::HashSet;
use std::fmt::Write as _;
use std::io::Read;

enum Json {
    Null,
    True,
    Number(i64),
    Text(String),
    List(Vec<Json>),
    Object(Vec<(String, Json)>),
}

struct Parser<'a> {
    bytes: &'a [u8],
    at: usize,
}

impl Parser<'_> {
    fn byte(&mut self) -> Option<u8> {
        let byte = *self.bytes.get(self.at)?;
        self.at += 1;
        Some(byte)
    }

    fn pass(&mut self, piece: &[u8]) -> Option<()> {
        let end = self.at + piece.len();
        if self.bytes.get(self.at..end)? != piece {
            return None;
        }
        self.at = end;
        Some(())
    }

    fn value(&mut self) -> Option<Json> {
        match *self.bytes.get(self.at)? {
            b'{' => self.object(),
            b'[' => self.list(),
            b'"' => Some(Json::Text(self.text()?)),
            b'n' => self.pass(b"null").map(|()| Json::Null),
            b't' => self.pass(b"true").map(|()| Json::True),
            _ => self.number(),
        }
    }

    fn number(&mut self) -> Option<Json> {
        let from = self.at;
        while matches!(self.bytes.get(self.at), Some(b'-' | b'0'..=b'9')) {
            self.at += 1;
        }
        std::str::from_utf8(&self.bytes[from..self.at]).ok()?.parse().ok().map(Json::Number)
    }

    fn text(&mut self) -> Option<String> {
        self.at += 1;
        let mut text = Vec::new();
        loop {
            match self.byte()? {
                b'"' => return String::from_utf8(text).ok(),
                b'\\' => text.push(self.byte()?),
                byte => text.push(byte),
            }
        }
    }

    fn list(&mut self) -> Option<Json> {
        self.at += 1;
        let mut items = Vec::new();
        if self.bytes.get(self.at) == Some(&b']') {
            self.at += 1;
            return Some(Json::List(items));
        }
        loop {
            items.push(self.value()?);
            match self.byte()? {
                b']' => return Some(Json::List(items)),
                b',' => {}
                _ => return None,
            }
        }
    }

    fn object(&mut self) -> Option<Json> {
        self.at += 1;
        let mut members = Vec::new();
        if self.bytes.get(self.at) == Some(&b'}') {
            self.at += 1;
            return Some(Json::Object(members));
        }
        loop {
            let name = self.text()?;
            self.pass(b":")?;
            members.push((name, self.value()?));
            match self.byte()? {
                b'}' => return Some(Json::Object(members)),
                b',' => {}
                _ => return None,
            }
        }
    }
}

impl Json {
    fn member(&self, name: &str) -> Option<&Json> {
        let Json::Object(members) = self else { return None };
        members.iter().find(|(other, _)| other == name).map(|(_, value)| value)
    }

    fn has(&self, count: usize) -> Option<()> {
        let Json::Object(members) = self else { return None };
        (members.len() == count).then_some(())
    }

    fn number(&self, name: &str) -> Option<u32> {
        match self.member(name)? {
            Json::Number(number) => u32::try_from(*number).ok(),
            _ => None,
        }
    }

    fn id(&self, name: &str) -> Option<u32> {
        self.number(name).filter(|id| *id > 0)
    }

    fn list(&self, name: &str) -> Option<&[Json]> {
        match self.member(name)? {
            Json::List(items) => Some(items),
            _ => None,
        }
    }

    fn text(&self, name: &str) -> Option<&str> {
        match self.member(name)? {
            Json::Text(text) => Some(text),
            _ => None,
        }
    }
}

struct Region {
    id: u32,
    items: Vec<(u32, u32)>,
}

struct Layout {
    id: u32,
    regions: Vec<Region>,
}

struct Window {
    number: u32,
    start: u32,
    end: u32,
}

struct Daypart {
    id: u32,
    start: u32,
    end: u32,
    exceptions: Vec<Window>,
    dates: Vec<Window>,
}

struct Repeat {
    unit: String,
    every: u32,
    days: Vec<u32>,
    until: Option<u32>,
}

enum Target {
    Layout(u32),
    Campaign(u32),
}

enum When {
    Always,
    Custom(u32, u32),
    Named(u32, u32),
}

struct Event {
    id: u32,
    order: u32,
    priority: u32,
    share: u32,
    repeat: Option<Repeat>,
    target: Target,
    when: When,
}

struct Manifest {
    version: u32,
    default: u32,
    zone: String,
    files: Vec<(u32, u32, [u8; 16])>,
    layouts: Vec<Layout>,
    campaigns: Vec<(u32, Vec<u32>)>,
    dayparts: Vec<Daypart>,
    events: Vec<Event>,
}

fn digest(text: &str) -> Option<[u8; 16]> {
    if text.len() != 32 || !text.bytes().all(|b| matches!(b, b'0'..=b'9' | b'a'..=b'f')) {
        return None;
    }
    let mut md5 = [0; 16];
    for (place, byte) in md5.iter_mut().enumerate() {
        *byte = u8::from_str_radix(text.get(2 * place..2 * place + 2)?, 16).ok()?;
    }
    Some(md5)
}

fn distinct(ids: impl Iterator<Item = u32>) -> Option<()> {
    let mut seen = HashSet::new();
    for id in ids {
        if !seen.insert(id) {
            return None;
        }
    }
    Some(())
}

fn within(count: usize, least: usize, most: usize) -> Option<()> {
    (least <= count && count <= most).then_some(())
}

fn region(value: &Json) -> Option<Region> {
    value.has(2)?;
    let items = value.list("items")?;
    within(items.len(), 1, 64)?;
    let items: Option<Vec<_>> = items
        .iter()
        .map(|item| {
            item.has(2)?;
            Some((item.id("media")?, item.number("seconds").filter(|seconds| *seconds > 0 && *seconds <= 86_400)?))
        })
        .collect();
    Some(Region { id: value.id("id")?, items: items? })
}

fn layout(value: &Json) -> Option<Layout> {
    value.has(2)?;
    let regions: Option<Vec<_>> = value.list("regions")?.iter().map(region).collect();
    let regions = regions?;
    within(regions.len(), 1, 16)?;
    distinct(regions.iter().map(|region| region.id))?;
    Some(Layout { id: value.id("id")?, regions })
}

fn campaign(value: &Json) -> Option<(u32, Vec<u32>)> {
    value.has(2)?;
    let layouts: Option<Vec<_>> = value
        .list("layouts")?
        .iter()
        .map(|id| match id {
            Json::Number(id) => u32::try_from(*id).ok().filter(|id| *id > 0),
            _ => None,
        })
        .collect();
    let layouts = layouts?;
    within(layouts.len(), 1, 64)?;
    Some((value.id("id")?, layouts))
}

fn windows(values: &[Json], name: &str) -> Option<Vec<Window>> {
    let mut windows = Vec::new();
    for value in values {
        value.has(3)?;
        let (start, end) = (value.number("start")?, value.number("end")?);
        if start >= 86_400 || end >= 86_400 {
            return None;
        }
        windows.push(Window { number: value.number(name)?, start, end });
    }
    windows.sort_by_key(|window| window.number);
    distinct(windows.iter().map(|window| window.number))?;
    Some(windows)
}

fn daypart(version: u32, value: &Json) -> Option<Daypart> {
    value.has(if version == 1 { 4 } else { 5 })?;
    let exceptions = windows(value.list("exceptions")?, "day")?;
    if exceptions.iter().any(|window| window.number < 1 || window.number > 7) {
        return None;
    }
    let dates = if version == 1 { Vec::new() } else { windows(value.list("dates")?, "date")? };
    within(dates.len(), 0, 64)?;
    Some(Daypart { id: value.id("id")?, start: value.number("start")?, end: value.number("end")?, exceptions, dates })
}

fn repeat(version: u32, value: &Json) -> Option<Option<Repeat>> {
    if matches!(value, Json::Null) {
        return Some(None);
    }
    value.has(4)?;
    let days: Option<Vec<_>> = value
        .list("days")?
        .iter()
        .map(|day| match day {
            Json::Number(day) => u32::try_from(*day).ok().filter(|day| *day >= 1 && *day <= 7),
            _ => None,
        })
        .collect();
    let unit = value.text("unit")?.to_string();
    if !["hour", "day", "week", "month", "year"].contains(&unit.as_str()) && (version == 1 || unit != "month-weekday") {
        return None;
    }
    let until = match value.member("until")? {
        Json::Null => None,
        _ => Some(value.number("until")?),
    };
    let every = value.number("every").filter(|every| *every > 0)?;
    Some(Some(Repeat { unit, every, days: days?, until }))
}

fn target(value: &Json) -> Option<Target> {
    value.has(1)?;
    match value.id("layout") {
        Some(id) => Some(Target::Layout(id)),
        None => Some(Target::Campaign(value.id("campaign")?)),
    }
}

fn when(value: &Json) -> Option<When> {
    if let Some(Json::True) = value.member("always") {
        value.has(1)?;
        return Some(When::Always);
    }
    value.has(2)?;
    match value.number("from") {
        Some(from) => Some(When::Custom(from, value.number("to").filter(|to| *to > from)?)),
        None => Some(When::Named(value.number("date")?, value.id("daypart")?)),
    }
}

fn event(version: u32, value: &Json) -> Option<Event> {
    value.has(if version == 1 { 7 } else { 8 })?;
    if version == 2 && value.number("layer")? != 0 {
        return None;
    }
    Some(Event {
        id: value.id("id")?,
        order: value.number("order").filter(|order| *order <= 65_535)?,
        priority: value.number("priority").filter(|priority| *priority <= 65_535)?,
        share: value.number("share").filter(|share| *share <= 3_600)?,
        repeat: repeat(version, value.member("repeat")?)?,
        target: target(value.member("target")?)?,
        when: when(value.member("when")?)?,
    })
}

fn file(value: &Json) -> Option<(u32, u32, [u8; 16])> {
    value.has(3)?;
    Some((value.id("id")?, value.number("length").filter(|length| *length > 0)?, digest(value.text("md5")?)?))
}

fn rows<T>(
    value: &Json,
    name: &str,
    most: usize,
    read: impl Fn(&Json) -> Option<T>,
    id: impl Fn(&T) -> u32,
) -> Option<Vec<T>> {
    let items = value.list(name)?;
    within(items.len(), 0, most)?;
    let rows: Option<Vec<T>> = items.iter().map(read).collect();
    let mut rows = rows?;
    distinct(rows.iter().map(&id))?;
    rows.sort_by_key(&id);
    Some(rows)
}

fn zone(value: &Json) -> Option<String> {
    value.has(1)?;
    match value.member("offset") {
        Some(Json::Number(minutes)) if minutes.abs() <= 840 => Some(format!("{{\"offset\":{minutes}}}")),
        _ => Some(format!("{{\"posix\":\"{}\"}}", value.text("posix")?)),
    }
}

fn manifest(value: &Json) -> Option<Manifest> {
    value.has(8)?;
    let version = value.number("version").filter(|version| *version == 1 || *version == 2)?;
    Some(Manifest {
        version,
        default: value.id("default")?,
        zone: zone(value.member("zone")?)?,
        files: rows(value, "files", 512, file, |file| file.0)?,
        layouts: rows(value, "layouts", 512, layout, |layout| layout.id)?,
        campaigns: rows(value, "campaigns", 256, campaign, |campaign| campaign.0)?,
        dayparts: rows(value, "dayparts", 64, |value| daypart(version, value), |daypart| daypart.id)?,
        events: rows(value, "events", 1_024, |value| event(version, value), |event| event.id)?,
    })
}

fn names_what_is_there(manifest: &Manifest) -> Option<()> {
    let files: HashSet<_> = manifest.files.iter().map(|file| file.0).collect();
    let layouts: HashSet<_> = manifest.layouts.iter().map(|layout| layout.id).collect();
    let campaigns: HashSet<_> = manifest.campaigns.iter().map(|campaign| campaign.0).collect();
    let dayparts: HashSet<_> = manifest.dayparts.iter().map(|daypart| daypart.id).collect();
    let media = manifest.layouts.iter().flat_map(|layout| &layout.regions).flat_map(|region| &region.items);
    let good = layouts.contains(&manifest.default)
        && media.clone().all(|item| files.contains(&item.0))
        && manifest.campaigns.iter().flat_map(|campaign| &campaign.1).all(|id| layouts.contains(id))
        && manifest.events.iter().all(|event| match event.target {
            Target::Layout(id) => layouts.contains(&id),
            Target::Campaign(id) => campaigns.contains(&id),
        })
        && manifest.events.iter().all(|event| match event.when {
            When::Named(_, id) => dayparts.contains(&id),
            _ => true,
        });
    good.then_some(())
}

/// Writes a list, with a comma between two.
fn list<T>(out: &mut String, items: &[T], write: impl Fn(&mut String, &T)) {
    out.push('[');
    for (place, item) in items.iter().enumerate() {
        if place > 0 {
            out.push(',');
        }
        write(out, item);
    }
    out.push(']');
}

fn write_windows(out: &mut String, name: &str, windows: &[Window]) {
    list(out, windows, |out, window| {
        let _ = write!(out, "{{\"{name}\":{},\"end\":{},\"start\":{}}}", window.number, window.end, window.start);
    });
}

fn write_daypart(out: &mut String, version: u32, daypart: &Daypart) {
    out.push('{');
    if version == 2 {
        out.push_str("\"dates\":");
        write_windows(out, "date", &daypart.dates);
        out.push(',');
    }
    let _ = write!(out, "\"end\":{},\"exceptions\":", daypart.end);
    write_windows(out, "day", &daypart.exceptions);
    let _ = write!(out, ",\"id\":{},\"start\":{}}}", daypart.id, daypart.start);
}

fn write_repeat(out: &mut String, repeat: &Option<Repeat>) {
    let Some(repeat) = repeat else {
        return out.push_str("null");
    };
    out.push_str("{\"days\":");
    list(out, &repeat.days, |out, day| {
        let _ = write!(out, "{day}");
    });
    let _ = write!(out, ",\"every\":{},\"unit\":\"{}\",\"until\":", repeat.every, repeat.unit);
    match repeat.until {
        None => out.push_str("null}"),
        Some(day) => {
            let _ = write!(out, "{day}}}");
        }
    }
}

fn write_event(out: &mut String, version: u32, event: &Event) {
    let layer = if version == 2 { ",\"layer\":0" } else { "" };
    let _ = write!(
        out,
        "{{\"id\":{}{layer},\"order\":{},\"priority\":{},\"repeat\":",
        event.id, event.order, event.priority
    );
    write_repeat(out, &event.repeat);
    let _ = write!(out, ",\"share\":{},\"target\":", event.share);
    let _ = match event.target {
        Target::Layout(id) => write!(out, "{{\"layout\":{id}}}"),
        Target::Campaign(id) => write!(out, "{{\"campaign\":{id}}}"),
    };
    let _ = match event.when {
        When::Always => write!(out, ",\"when\":{{\"always\":true}}}}"),
        When::Custom(from, to) => write!(out, ",\"when\":{{\"from\":{from},\"to\":{to}}}}}"),
        When::Named(date, daypart) => write!(out, ",\"when\":{{\"date\":{date},\"daypart\":{daypart}}}}}"),
    };
}

fn write_layout(out: &mut String, layout: &Layout) {
    let _ = write!(out, "{{\"id\":{},\"regions\":", layout.id);
    list(out, &layout.regions, |out, region| {
        let _ = write!(out, "{{\"id\":{},\"items\":", region.id);
        list(out, &region.items, |out, item| {
            let _ = write!(out, "{{\"media\":{},\"seconds\":{}}}", item.0, item.1);
        });
        out.push('}');
    });
    out.push('}');
}

fn text(manifest: &Manifest) -> String {
    let mut out = String::new();
    out.push_str("{\"campaigns\":");
    list(&mut out, &manifest.campaigns, |out, campaign| {
        let _ = write!(out, "{{\"id\":{},\"layouts\":", campaign.0);
        list(out, &campaign.1, |out, id| {
            let _ = write!(out, "{id}");
        });
        out.push('}');
    });
    out.push_str(",\"dayparts\":");
    list(&mut out, &manifest.dayparts, |out, daypart| write_daypart(out, manifest.version, daypart));
    let _ = write!(out, ",\"default\":{},\"events\":", manifest.default);
    list(&mut out, &manifest.events, |out, event| write_event(out, manifest.version, event));
    out.push_str(",\"files\":");
    list(&mut out, &manifest.files, |out, file| {
        let _ = write!(out, "{{\"id\":{},\"length\":{},\"md5\":\"", file.0, file.1);
        for byte in file.2 {
            let _ = write!(out, "{byte:02x}");
        }
        out.push_str("\"}");
    });
    out.push_str(",\"layouts\":");
    list(&mut out, &manifest.layouts, write_layout);
    let _ = write!(out, ",\"version\":{},\"zone\":{}}}", manifest.version, manifest.zone);
    out
}

fn read(bytes: &[u8]) -> Option<Manifest> {
    let mut parser = Parser { bytes, at: 0 };
    let value = parser.value()?;
    if parser.at != bytes.len() {
        return None;
    }
    let manifest = manifest(&value)?;
    drop(value);
    names_what_is_there(&manifest)?;
    (text(&manifest).as_bytes() == bytes).then_some(manifest)
}

fn main() {
    let mut bytes = Vec::new();
    std::io::stdin().read_to_end(&mut bytes).expect("an input");
    match read(&bytes) {
        Some(manifest) => println!("{} layouts", manifest.layouts.len()),
        None => std::process::exit(3),
    }
}
