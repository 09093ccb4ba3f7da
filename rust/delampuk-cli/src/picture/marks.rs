//! Marks at a place along the blocks, with labels that do not run into each other.

/// A mark.
#[derive(Clone, Debug, PartialEq)]
pub struct Mark {
    /// Where it is.
    pub x: f64,
    /// Its label.
    pub label: String,
    /// What shows where a pointer rests on it.
    pub tells: String,
    /// Where the label begins, and the line that it stands on, 0 being the lowest; none where it has no room.
    pub place: Option<(f64, usize)>,
}

/// How high a line of labels is.
pub const LINE: f64 = 10.0;

const LINES: usize = 3;
const LETTER: f64 = 5.6;

/// Gives each label the lowest line on which it has room, left of `right`. A mark whose label has none is left out where it
/// would hide another.
pub fn placed(marks: impl Iterator<Item = (f64, String, String)>, right: f64) -> Vec<Mark> {
    let mut ends = [f64::MIN; LINES];
    let mut placed: Vec<Mark> = Vec::new();
    for (x, label, tells) in marks {
        let width = label.len() as f64 * LETTER;
        let start = (x - 3.0).min(right - width);
        let place = (0..LINES).find(|&line| ends[line] <= start).map(|line| (start, line));
        if let Some((start, line)) = place {
            ends[line] = start + width + 5.0;
        }
        let hides = placed.last().map_or(false, |last| x < last.x + 1.0);
        if place.is_some() || !hides {
            placed.push(Mark { x, label, tells, place });
        }
    }
    placed
}

/// How high the row of marks is, and 0 where there are none.
pub fn height(marks: &[Mark]) -> f64 {
    let lines = marks.iter().filter_map(|mark| mark.place).map(|(_, line)| line).max();
    lines.map_or(0.0, |line| 20.0 + LINE * line as f64)
}

/// The first of 1, 2, 5, 10, 20 and so on that is not less than a length.
pub fn round_step(least: f64) -> usize {
    let mut power = 1;
    loop {
        for part in [1, 2, 5] {
            if (part * power) as f64 >= least {
                return part * power;
            }
        }
        power *= 10;
    }
}
