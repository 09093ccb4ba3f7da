//! The drawing: tracks of rows above each other, blocks from left to right.

use std::collections::{BTreeMap, BTreeSet};

use super::columns::{self, Column, AUDIO_MOST, DATA_MOST};
use super::look::{self, Look, Row};
use super::marks::{self, Mark};
use super::seen::{Refused, Seen};
use super::svg::{Area, Svg};

/// What is drawn.
pub struct Picture {
    /// The title.
    pub title: String,
    /// Lines below the title.
    pub notes: Vec<String>,
    /// The tracks, from top to bottom, all of the same blocks.
    pub tracks: Vec<Track>,
    /// Calls that gave no block.
    pub refused: Vec<Refused>,
}

/// The blocks as one end has them.
pub struct Track {
    /// Whose they are.
    pub name: &'static str,
    /// Its rows.
    pub rows: &'static [Row],
    /// Its blocks.
    pub blocks: Vec<Seen>,
}

// An A4 sheet across has room for 1,047 pixels between margins of 10 mm.
const LEFT: f64 = 116.0;
const RIGHT: f64 = 24.0;
const PLOT: f64 = 900.0;
const NARROWEST: f64 = 780.0;
const WIDEST_CELL: f64 = 34.0;
/// A code of two digits has room in a cell that is so wide.
const CODE_CELL: f64 = 15.5;
const ROW: f64 = 25.0;
const BAR: f64 = 20.0;
const LETTER: f64 = 6.0;

// The legend's lines that belong to no row.
const CHANGE: &str = "from this block on another mode is in force; the number is the block's";
const AGAIN: &str = "before this block alignment was found again; the number is the octet's in the recording";

/// Draws it.
pub fn draw(picture: &Picture) -> String {
    let blocks = picture.tracks.first().map_or(0, |track| track.blocks.len());
    let mut sheet = Sheet::new(blocks);
    sheet.heading(picture);
    for (index, track) in picture.tracks.iter().enumerate() {
        let refused = if index == 0 { picture.refused.as_slice() } else { &[] };
        sheet.track(track, refused);
    }
    sheet.legend(&picture.refused);
    let (width, height) = (sheet.width, sheet.y);
    sheet.svg.whole(width, height, &picture.title)
}

/// A drawing that is on its way.
struct Sheet {
    svg: Svg,
    /// How far down it has come.
    y: f64,
    width: f64,
    blocks: usize,
    blocks_a_column: usize,
    cell: f64,
    used: BTreeMap<Row, BTreeSet<Look>>,
    /// How often alignment was found again, and how many modes changed.
    again: Tally,
    changed: Tally,
}

/// Marks, and how many of them have no room for a number.
#[derive(Default)]
struct Tally {
    all: usize,
    dropped: usize,
}

impl Tally {
    fn add(&mut self, all: usize, marks: &[Mark]) {
        self.all += all;
        self.dropped += all - marks.iter().filter(|mark| mark.place.is_some()).count();
    }

    /// What the legend says of them.
    fn told(&self, what: &str) -> String {
        match self.dropped {
            0 => what.to_string(),
            dropped => format!("{what}; {dropped} of {} have no room for it", self.all),
        }
    }
}

impl Sheet {
    fn new(blocks: usize) -> Sheet {
        let blocks_a_column = columns::blocks_a_column(blocks);
        let columns = blocks.max(1) as f64 / blocks_a_column as f64;
        let cell = (PLOT / columns.ceil()).min(WIDEST_CELL);
        let width = (LEFT + columns.ceil() * cell + RIGHT).max(NARROWEST);
        let (svg, used) = (Svg::new(), BTreeMap::new());
        let (again, changed) = (Tally::default(), Tally::default());
        Sheet { svg, y: 0.0, width, blocks, blocks_a_column, cell, used, again, changed }
    }

    /// Where a block begins.
    fn x(&self, block: usize) -> f64 {
        LEFT + block as f64 * self.cell / self.blocks_a_column as f64
    }

    fn heading(&mut self, picture: &Picture) {
        self.svg.text(16.0, 30.0, "title", &picture.title);
        self.y = 50.0;
        for note in &picture.notes {
            for line in broken(note, self.width - 32.0) {
                self.svg.text(16.0, self.y, "note", &line);
                self.y += 15.0;
            }
        }
        self.y += 4.0;
    }

    fn track(&mut self, track: &Track, refused: &[Refused]) {
        self.svg.text(16.0, self.y + 14.0, "group", track.name);
        self.y += 30.0;
        let top = self.y;
        let (changes, refusals, found) =
            (self.changes(&track.blocks), self.refusals(refused), self.found(&track.blocks));
        let shown: Vec<Row> =
            track.rows.iter().copied().filter(|&row| row != Row::Offered || self.has_codes()).collect();
        let rows = top + 4.0 + [&refusals, &found, &changes].map(|marks| marks::height(marks)).iter().sum::<f64>();
        let bottom = rows + ROW * shown.len() as f64;
        self.axis(top, bottom);
        self.verticals(&changes, (rows, bottom), "change");
        self.verticals(&found, (rows, bottom), "again");
        self.y += 4.0;
        self.marks("refused calls", &refusals);
        self.marks("found, octet", &found);
        self.marks("mode changes", &changes);
        let columns = columns::columns(&track.blocks, self.blocks_a_column);
        for row in shown {
            self.row(row, &columns);
        }
        self.y += 12.0;
    }

    /// Block numbers on top, and light lines below them.
    fn axis(&mut self, top: f64, bottom: f64) {
        let block = self.cell / self.blocks_a_column as f64;
        let digits = self.blocks.max(1).to_string().len() as f64;
        let step = marks::round_step((digits * LETTER + 6.0) / block);
        self.svg.text(LEFT - 8.0, top - 3.0, "label", "block");
        for number in (0..self.blocks).step_by(step) {
            let x = self.x(number);
            self.svg.line((x, top), (x, bottom), "grid");
            self.svg.text(x + block / 2.0, top - 3.0, "axis", &number.to_string());
        }
    }

    fn changes(&mut self, blocks: &[Seen]) -> Vec<Mark> {
        let changes = columns::changes(blocks);
        let count = changes.len();
        let marks = changes.into_iter().map(|(number, mode)| {
            let tells = format!(
                "from block {number} on: audio [{}] of {} bits, data [{}]",
                mode.audio,
                columns::audio_bits(mode),
                mode.lsd
            );
            (self.x(number), number.to_string(), tells)
        });
        let placed = marks::placed(marks, self.width - 4.0);
        self.changed.add(count, &placed);
        placed
    }

    fn refusals(&self, refused: &[Refused]) -> Vec<Mark> {
        let marks = refused.iter().map(|Refused { before, code, refusal }| {
            let tells = format!("before block {before}: {code:02X} {refusal}");
            (self.x(*before), refusal.number().to_string(), tells)
        });
        marks::placed(marks, self.width - 4.0)
    }

    /// Where alignment was found again after a loss, by the octet of the recording.
    fn found(&mut self, blocks: &[Seen]) -> Vec<Mark> {
        let places = blocks.iter().enumerate().filter_map(|(number, seen)| Some((number, seen.found?)));
        let count = places.clone().count();
        let marks = places.map(|(number, place)| {
            let tells = format!("before block {number}: alignment found again at octet {place}");
            (self.x(number), place.to_string(), tells)
        });
        let placed = marks::placed(marks, self.width - 4.0);
        self.again.add(count, &placed);
        placed
    }

    /// Lines down from marks, where they hide no column that is as narrow as they are.
    fn verticals(&mut self, marks: &[Mark], (top, bottom): (f64, f64), class: &str) {
        if self.blocks_a_column == 1 {
            for mark in marks {
                self.svg.line((mark.x, top), (mark.x, bottom), class);
            }
        }
    }

    /// A row of marks that point down, with their labels on as many lines as they need.
    fn marks(&mut self, name: &str, marks: &[Mark]) {
        let height = marks::height(marks);
        if height == 0.0 {
            return;
        }
        self.y += height;
        self.svg.text(LEFT - 8.0, self.y - 6.0, "label", name);
        for mark in marks {
            self.svg.arrow(mark.x, self.y - 3.0, "tick", &mark.tells);
            if let Some((x, line)) = mark.place {
                self.svg.text(x, self.y - 10.0 - marks::LINE * line as f64, "mark", &mark.label);
            }
        }
    }

    fn row(&mut self, row: Row, columns: &[Column]) {
        self.svg.text(LEFT - 8.0, self.y + 15.0, "label", row.name());
        match row {
            Row::Mute => self.flat(columns, |column| look::mute(column.mute)),
            Row::Microphone => self.microphone(columns),
            Row::Offered => self.offered(columns),
            Row::Word if self.has_codes() => self.words(columns),
            Row::Word => self.flat(columns, |column| look::word(column.kind)),
            Row::Audio => self.bars(columns, |column| column.audio, AUDIO_MOST, [look::AUDIO, look::AUDIO_SOME]),
            Row::Data => self.bars(columns, |column| column.data, DATA_MOST, [look::DATA, look::DATA_SOME]),
            Row::Crc => self.flat(columns, |column| look::verdict(column.verdict)),
            Row::State => self.flat(columns, |column| look::standing(column.standing)),
        }
        self.y += ROW;
    }

    /// The area of columns from one to before another.
    fn area(&self, from: usize, to: usize) -> Area {
        let last = (to * self.blocks_a_column).min(self.blocks);
        let x = self.x(from * self.blocks_a_column);
        Area { x, y: self.y, width: self.x(last) - x, height: BAR }
    }

    /// The blocks of columns in words.
    fn named(&self, from: usize, to: usize) -> String {
        let (first, last) = (from * self.blocks_a_column, (to * self.blocks_a_column).min(self.blocks) - 1);
        if first == last {
            format!("block {first}")
        } else {
            format!("blocks {first} to {last}")
        }
    }

    /// One look, over an area; a thin line where it has no class.
    fn paint(&mut self, area: Area, look: Look, tells: &str) {
        self.used.entry(look.row).or_default().insert(look);
        if look.class.is_empty() {
            let is_bar = matches!(look.row, Row::Microphone | Row::Audio | Row::Data);
            let y = self.y + if is_bar { BAR } else { BAR / 2.0 };
            self.svg.line((area.x, y), (area.x + area.width, y), "thin");
            return;
        }
        self.svg.area(area, look.class, tells);
        let room = |text: &str| !text.is_empty() && text.chars().count() as f64 * LETTER + 5.0 <= area.width;
        if let Some(text) = [look.label, look.letter].into_iter().find(|text| room(text)) {
            self.inside(area, look.class, text);
        }
    }

    /// Text in the middle of an area.
    fn inside(&mut self, area: Area, class: &str, text: &str) {
        let class = match class {
            _ if look::is_dark(class) => "white",
            _ if look::is_hatched(class) => "halo",
            _ => "on",
        };
        self.svg.text(area.middle(), area.y + area.height / 2.0 + 4.0, class, text);
    }

    fn flat(&mut self, columns: &[Column], of: impl Fn(&Column) -> Look) {
        for (from, to, look) in runs(columns, of) {
            let tells = format!("{}: {}", self.named(from, to), look.name);
            self.paint(self.area(from, to), look, &tells);
        }
    }

    /// Whether a cell has room for a code.
    fn has_codes(&self) -> bool {
        self.cell >= CODE_CELL && self.blocks_a_column == 1
    }

    /// The codes that were offered, struck where the sender's own word went instead.
    fn offered(&mut self, columns: &[Column]) {
        for (number, column) in columns.iter().enumerate() {
            let look = look::offered(column.held.is_some());
            if let Some(code) = column.held.or(column.code) {
                self.used.entry(look.row).or_default().insert(look);
                let x = self.area(number, number + 1).middle();
                self.svg.text(x, self.y + BAR / 2.0 + 4.0, look.class, &format!("{code:02X}"));
            }
        }
    }

    /// Words with their codes, a cell each.
    fn words(&mut self, columns: &[Column]) {
        for (number, column) in columns.iter().enumerate() {
            let look = look::word(column.kind);
            let area = self.area(number, number + 1);
            let held = column.held.map_or(String::new(), |code| format!(" ({code:02X})"));
            match column.code {
                None => self.paint(area, look, &format!("block {number}: {}", look.name)),
                Some(code) => {
                    self.paint(area, look, &format!("block {number}: {code:02X}, {}{held}", look.name));
                    self.inside(area, look.class, &format!("{code:02X}"));
                }
            }
        }
    }

    /// What the voice's places have, each kind as high as its share of the blocks.
    fn microphone(&mut self, columns: &[Column]) {
        for (from, to, counts) in runs(columns, |column| column.microphone) {
            let area = self.area(from, to);
            let all = counts.iter().sum::<usize>();
            let tells = |look: Look, count| match count == all {
                true => format!("{}: {}", self.named(from, to), look.name),
                false => format!("{}: {} in {count} of {all}", self.named(from, to), look.name),
            };
            let [carried, ones, none] = counts;
            let told = [tells(look::MICROPHONE[0], carried), tells(look::MICROPHONE[1], ones)];
            if none == all {
                self.paint(area, look::MICROPHONE[2], "");
                continue;
            }
            let shares = columns::shares(counts);
            if ones > 0 {
                self.paint(area.bottom(BAR * (shares[0] + shares[1])), look::MICROPHONE[1], &told[1]);
            }
            if carried > 0 {
                self.paint(area.bottom(BAR * shares[0]), look::MICROPHONE[0], &told[0]);
            }
        }
    }

    /// Bars; where a column's blocks differ, the greatest stands behind the smallest.
    fn bars(&mut self, columns: &[Column], of: impl Fn(&Column) -> Option<(u8, u8)>, most: u8, looks: [Look; 2]) {
        let nothing = Look { class: "", name: "off, or nothing read", ..looks[0] };
        for (from, to, span) in runs(columns, of) {
            let area = self.area(from, to);
            // the least is high enough to be seen
            let height = |value: u8| BAR * (0.25 + 0.75 * f64::from(value) / f64::from(most));
            let (low, high) = match span {
                None | Some((_, 0)) => {
                    self.paint(area, nothing, "");
                    continue;
                }
                Some(span) => span,
            };
            if low < high {
                let tells = format!("{}: up to {high}", self.named(from, to));
                self.paint(area.bottom(height(high)), looks[1], &tells);
            }
            if low > 0 {
                let tells = format!("{}: {low}", self.named(from, to));
                self.paint(area.bottom(height(low)), looks[0], &tells);
            }
            let text = low.to_string();
            if low == high && area.width >= text.len() as f64 * LETTER + 4.0 {
                let y = area.y + BAR - height(low).max(11.0) / 2.0 + 4.0;
                self.svg.text(area.middle(), y, "halo", &text);
            }
        }
    }

    fn legend(&mut self, refused: &[Refused]) {
        self.y += 4.0;
        for looks in std::mem::take(&mut self.used).into_values() {
            let mut looks: Vec<Look> = looks.into_iter().collect();
            looks.sort_by_key(|look| look.class.is_empty());
            self.legend_row(&looks);
        }
        if self.changed.all > 0 {
            self.legend_mark("mode changes", &self.changed.told(CHANGE));
        }
        if self.again.all > 0 {
            self.legend_mark("found, octet", &self.again.told(AGAIN));
        }
        // each reason once, by its number
        let reasons: BTreeSet<_> = refused.iter().map(|refused| refused.refusal).collect();
        for reason in reasons {
            self.legend_mark("refused calls", &reason.to_string());
        }
        self.y += 10.0;
    }

    fn legend_mark(&mut self, name: &str, text: &str) {
        self.svg.text(LEFT - 8.0, self.y + 13.0, "label", name);
        self.svg.arrow(LEFT + 8.0, self.y + 12.0, "tick", text);
        self.svg.text(LEFT + 22.0, self.y + 13.0, "small", text);
        self.y += 18.0;
    }

    /// The looks of a row, on as many lines as they need.
    fn legend_row(&mut self, looks: &[Look]) {
        self.svg.text(LEFT - 8.0, self.y + 13.0, "label", looks[0].row.name());
        let mut x = LEFT;
        for look in looks {
            let width = 22.0 + look.name.len() as f64 * 5.2 + 16.0;
            if x + width > self.width && x > LEFT {
                x = LEFT;
                self.y += 18.0;
            }
            let area = Area { x, y: self.y + 3.0, width: 16.0, height: 12.0 };
            match look.class {
                "" => self.svg.line((x, self.y + 9.0), (x + 16.0, self.y + 9.0), "thin"),
                class if look.row == Row::Offered => self.svg.text(area.middle(), self.y + 13.0, class, "80"),
                class => self.svg.area(area, class, look.name),
            }
            self.svg.text(x + 22.0, self.y + 13.0, "small", look.name);
            x += width;
        }
        self.y += 18.0;
    }
}

/// Neighbours that are the same, taken together: from one to before another, and what they are.
fn runs<T: PartialEq>(columns: &[Column], of: impl Fn(&Column) -> T) -> Vec<(usize, usize, T)> {
    let mut runs: Vec<(usize, usize, T)> = Vec::new();
    for (number, column) in columns.iter().enumerate() {
        let value = of(column);
        match runs.last_mut() {
            Some((_, to, last)) if *last == value => *to = number + 1,
            _ => runs.push((number, number + 1, value)),
        }
    }
    runs
}

/// A text in lines that are no wider than so much.
fn broken(text: &str, width: f64) -> Vec<String> {
    let most = (width / LETTER) as usize;
    let mut lines = vec![String::new()];
    for word in text.split(' ') {
        let line = lines.last_mut().expect("there is a line");
        if !line.is_empty() && line.chars().count() + 1 + word.chars().count() > most {
            lines.push(word.to_string());
        } else {
            if !line.is_empty() {
                line.push(' ');
            }
            line.push_str(word);
        }
    }
    lines
}
