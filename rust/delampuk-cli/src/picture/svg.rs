//! The few elements of SVG that a picture has, as text.

/// What is drawn so far.
pub struct Svg {
    text: String,
}

/// A corner and the extent from there.
#[derive(Clone, Copy, Debug)]
pub struct Area {
    /// From the left.
    pub x: f64,
    /// From the top.
    pub y: f64,
    /// How wide.
    pub width: f64,
    /// How high.
    pub height: f64,
}

impl Area {
    /// The middle from left to right.
    pub fn middle(&self) -> f64 {
        self.x + self.width / 2.0
    }

    /// The part at the bottom that is so high.
    pub fn bottom(&self, height: f64) -> Area {
        Area { y: self.y + self.height - height, height, ..*self }
    }
}

impl Svg {
    /// Nothing is drawn yet.
    pub fn new() -> Svg {
        Svg { text: String::new() }
    }

    /// A rectangle. What it stands for shows where a pointer rests on it.
    pub fn area(&mut self, area: Area, class: &str, tells: &str) {
        let Area { x, y, width, height } = area;
        let [x, y, width, height] = [x, y, width, height].map(number);
        self.text += &format!("<rect class=\"{class}\" x=\"{x}\" y=\"{y}\" width=\"{width}\" height=\"{height}\">");
        self.text += &format!("<title>{}</title></rect>\n", escaped(tells));
    }

    /// A line of text; the class says how it stands to its place.
    pub fn text(&mut self, x: f64, y: f64, class: &str, text: &str) {
        let [x, y] = [x, y].map(number);
        self.text += &format!("<text class=\"{class}\" x=\"{x}\" y=\"{y}\">{}</text>\n", escaped(text));
    }

    /// A straight line.
    pub fn line(&mut self, from: (f64, f64), to: (f64, f64), class: &str) {
        let [x1, y1, x2, y2] = [from.0, from.1, to.0, to.1].map(number);
        self.text += &format!("<path class=\"{class}\" d=\"M{x1} {y1}L{x2} {y2}\"/>\n");
    }

    /// A triangle that points down to a place.
    pub fn arrow(&mut self, x: f64, y: f64, class: &str, tells: &str) {
        let [left, right, tip, top] = [x - 3.0, x + 3.0, y, y - 5.0].map(number);
        let x = number(x);
        self.text += &format!("<path class=\"{class}\" d=\"M{left} {top}L{right} {top}L{x} {tip}Z\">");
        self.text += &format!("<title>{}</title></path>\n", escaped(tells));
    }

    /// The whole picture, on white.
    pub fn whole(self, width: f64, height: f64, title: &str) -> String {
        let [width, height] = [width, height].map(number);
        let title = escaped(title);
        let body = self.text;
        format!(
            "<svg xmlns=\"http://www.w3.org/2000/svg\" width=\"{width}\" height=\"{height}\" \
             viewBox=\"0 0 {width} {height}\" role=\"img\">\n<title>{title}</title>\n<style>{STYLE}</style>\n\
             <defs>{PATTERNS}</defs>\n<rect class=\"paper\" width=\"{width}\" height=\"{height}\"/>\n{body}</svg>\n"
        )
    }
}

/// Each look differs in lightness or hatch, and not in hue alone.
const STYLE: &str = "
text{font-family:sans-serif;font-size:11px;fill:#222}
.title{font-size:17px;font-weight:bold}
.group{font-size:13px;font-weight:bold}
.small,.mark{font-size:9.5px;fill:#444}
.label{text-anchor:end}
.axis{font-size:9.5px;fill:#444;text-anchor:middle}
.on{text-anchor:middle;font-size:10.5px}
.held{text-anchor:middle;font-size:10.5px;text-decoration:line-through}
.white{text-anchor:middle;font-size:10.5px;fill:#fff;font-weight:bold}
.halo{text-anchor:middle;font-size:10.5px;paint-order:stroke;stroke:#fff;stroke-width:3px}
.paper{fill:#fff}
path{fill:none;stroke:#999;stroke-width:1}
.grid{stroke:#e2e2e2}
.change{stroke:#000;stroke-dasharray:2 2}
.again{stroke:#000;stroke-width:1.6;stroke-dasharray:5 3}
.tick{fill:#000;stroke:none}
rect{stroke:#555;stroke-width:.6}
.paper{stroke:none}
.muted{fill:#3a3a3a}
.carried{fill:#2f9e78}
.ones{fill:url(#ones)}
.command{fill:#0b4a80}
.own{fill:#c2410c;stroke:#000;stroke-width:1.6}
.idle{fill:#f1f1f1}
.opener{fill:#a9d3ee}
.item{fill:url(#item)}
.message{fill:url(#message)}
.barred{fill:url(#barred);stroke:#000}
.unreadable{fill:#000}
.audio{fill:#5b9bd0}
.some{fill:#d3e5f4}
.data{fill:url(#data)}
.fewer{fill:#fbe6c3}
.good{fill:#d7ece3}
.bad{fill:#c2410c;stroke:#000}
.waiting{fill:url(#waiting)}
.read{fill:#e4eef7}
.lost{fill:#000}
";

const PATTERNS: &str = "
<pattern id=\"ones\" width=\"4\" height=\"4\" patternUnits=\"userSpaceOnUse\"><path d=\"M0 0H4V4H0Z\" style=\"fill:#fff;stroke:none\"/><path d=\"M0 1H4\" style=\"stroke:#666\"/></pattern>
<pattern id=\"item\" width=\"5\" height=\"5\" patternUnits=\"userSpaceOnUse\"><path d=\"M0 0H5V5H0Z\" style=\"fill:#f9e58a;stroke:none\"/><path d=\"M1 1H2V2H1Z\" style=\"fill:#8a6d00;stroke:none\"/></pattern>
<pattern id=\"message\" width=\"4\" height=\"4\" patternUnits=\"userSpaceOnUse\"><path d=\"M0 0H4V4H0Z\" style=\"fill:#fbf0bf;stroke:none\"/><path d=\"M1 0V4\" style=\"stroke:#cbb04a\"/></pattern>
<pattern id=\"barred\" width=\"5\" height=\"5\" patternUnits=\"userSpaceOnUse\"><path d=\"M0 0H5V5H0Z\" style=\"fill:#fff;stroke:none\"/><path d=\"M-1 4L1 6M0 0L5 5M4 -1L6 1\" style=\"stroke:#888\"/></pattern>
<pattern id=\"data\" width=\"5\" height=\"5\" patternUnits=\"userSpaceOnUse\"><path d=\"M0 0H5V5H0Z\" style=\"fill:#f3b04a;stroke:none\"/><path d=\"M-1 1L1 -1M0 5L5 0M4 6L6 4\" style=\"stroke:#fff\"/></pattern>
<pattern id=\"waiting\" width=\"6\" height=\"6\" patternUnits=\"userSpaceOnUse\"><path d=\"M0 0H6V6H0Z\" style=\"fill:#fff;stroke:none\"/><path d=\"M-1 1L1 -1M0 6L6 0M5 7L7 5\" style=\"stroke:#aaa\"/></pattern>
";

/// A number with two places at most.
fn number(value: f64) -> String {
    let text = format!("{value:.2}");
    let text = text.trim_end_matches('0').trim_end_matches('.');
    if text == "-0" {
        "0".to_string()
    } else {
        text.to_string()
    }
}

/// Text as it stands in XML; what XML cannot hold is a question mark.
pub fn escaped(text: &str) -> String {
    let mut out = String::new();
    for letter in text.chars() {
        match letter {
            '&' => out += "&amp;",
            '<' => out += "&lt;",
            '>' => out += "&gt;",
            '"' => out += "&quot;",
            '\u{0}'..='\u{1F}' | '\u{7F}'..='\u{9F}' | '\u{FFFE}' | '\u{FFFF}' => out.push('?'),
            _ => out.push(letter),
        }
    }
    out
}
