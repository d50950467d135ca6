//! The histogram as a picture in SVG.

use crate::count::Count;
use crate::show::{counted, thousands};
use std::collections::BTreeMap;
use std::fmt::Write;

const WIDTH: f64 = 960.0;
const HEIGHT: f64 = 540.0;

/// The plot's edges.
const LEFT: f64 = 116.0;
const RIGHT: f64 = 930.0;
const TOP: f64 = 110.0;
const BOTTOM: f64 = 460.0;

const BAR: &str = "#4878a8";
const BOUND: &str = "#b03030";
const LARGEST: &str = "#1f7a4d";
const GRID: &str = "#dddddd";
const INK: &str = "#222222";

/// The picture of a count: counts of agreeing keys along, numbers of pairs up, in powers of ten.
pub fn draw(count: &Count) -> String {
    let mut svg = Svg::new();
    let bars = bars(count);
    let axes = Axes::of(count, &bars);

    let title = format!(
        "Keys under which two messages agree, at {} bit{}",
        count.w,
        if count.w == 1 { "" } else { "s" }
    );
    svg.text(LEFT, 38.0, "start", 22, INK, &title);
    let about = format!(
        "all {} of different one-word messages, all {} keys; one digest word, every bit kept",
        pairs(count.pairs()),
        thousands(count.keys())
    );
    svg.text(LEFT, 62.0, "start", 14, INK, &about);

    for power in 0..=axes.powers {
        let height = 10u32.pow(power);
        let y = axes.y(f64::from(height));
        svg.line((LEFT, y), (RIGHT, y), GRID, "");
        svg.text(LEFT - 10.0, y + 5.0, "end", 14, INK, &thousands(height));
    }
    let step = (count.bound() / 8).max(1);
    for keys in (0..=count.bound()).step_by(step as usize) {
        let x = axes.x(f64::from(keys));
        svg.line((x, BOTTOM), (x, BOTTOM + 6.0), INK, "");
        svg.text(x, BOTTOM + 24.0, "middle", 14, INK, &thousands(keys));
    }

    let width = (axes.unit() * f64::from(bar_size(count)) * 0.85).min(24.0);
    for (&keys, &pairs) in &bars {
        let (x, y) = (axes.x(f64::from(keys)), axes.y(f64::from(pairs)));
        svg.bar(x - width / 2.0, y, width, BOTTOM - y);
    }
    svg.line((LEFT, BOTTOM), (RIGHT, BOTTOM), INK, "");

    // The bound's text stands above the plot, the largest count's beside its line inside.
    let x = axes.x(f64::from(count.bound()));
    svg.line((x, TOP - 8.0), (x, BOTTOM), BOUND, "6 4");
    let text = format!("proved bound {}", thousands(count.bound()));
    svg.text(x, TOP - 16.0, "end", 15, BOUND, &text);

    let x = axes.x(f64::from(count.largest));
    let top_of_bar = axes.y(f64::from(count.reached()));
    svg.line((x, TOP + 14.0), (x, top_of_bar), LARGEST, "2 3");
    for (row, note) in notes(count).iter().enumerate() {
        let y = TOP + 30.0 + 20.0 * row as f64;
        svg.text(x - 10.0, y, "end", 15, LARGEST, note);
    }
    if let Some(tight) = count.tight() {
        let keys = tight.keys();
        let pairs = count.pairs_at[&keys];
        svg.dot(axes.x(f64::from(keys)), axes.y(f64::from(pairs)));
    }

    // A digest that spreads its keys evenly over 2^w values has every pair at this count.
    let even = 1 << count.w;
    if let Some(&at_even) = count.pairs_at.get(&even) {
        let (x, y) = (axes.x(f64::from(even)), axes.y(f64::from(at_even)));
        let x = x - width / 2.0 - 8.0;
        let text = format!("{} at {}:", pairs(at_even), thousands(even));
        svg.text(x, y + 16.0, "end", 15, BAR, &text);
        let text = format!("one key in {}", thousands(even));
        svg.text(x, y + 38.0, "end", 15, BAR, &text);
    }

    let middle = (LEFT + RIGHT) / 2.0;
    let mut along = "keys under which the pair agrees".to_string();
    if bars.len() < count.pairs_at.len() {
        along += &format!("; a bar takes {} counts", bar_size(count));
    }
    svg.text(middle, BOTTOM + 54.0, "middle", 16, INK, &along);
    svg.text_up(26.0, (TOP + BOTTOM) / 2.0, 16, "pairs, logarithmic");
    svg.end()
}

/// The texts beside the largest count.
fn notes(count: &Count) -> Vec<String> {
    let mut notes = vec![format!(
        "largest count {}, of {}",
        thousands(count.largest),
        pairs(count.reached())
    )];
    if let Some(tight) = count.tight() {
        notes.push(format!(
            "\u{25cf} 1 and {}: 2{} \u{2212} 2{} = {}, proved",
            thousands(tight.second()),
            raised(tight.w + 1),
            raised(tight.h()),
            thousands(tight.keys())
        ));
    }
    if count.reported() == Some(count.largest) {
        notes.push("003 reports the same: 1.875 \u{b7} 2\u{207b}\u{2077}".to_string());
    }
    notes
}

/// A number as an exponent.
fn raised(number: u32) -> String {
    let digits = "\u{2070}\u{b9}\u{b2}\u{b3}\u{2074}\u{2075}\u{2076}\u{2077}\u{2078}\u{2079}";
    let raised = |digit: char| digits.chars().nth(digit.to_digit(10)? as usize);
    number.to_string().chars().filter_map(raised).collect()
}

/// How many neighbouring counts a bar takes.
fn bar_size(count: &Count) -> u32 {
    (count.bound() / 128).max(1)
}

/// The pairs of each bar, by the count in its middle.
fn bars(count: &Count) -> BTreeMap<u32, u32> {
    let size = bar_size(count);
    let mut bars = BTreeMap::new();
    for (keys, pairs) in &count.pairs_at {
        *bars.entry((keys + size / 2) / size * size).or_insert(0) += pairs;
    }
    bars
}

/// Where counts stand in the picture.
struct Axes {
    /// The count at the right edge.
    most_keys: f64,
    /// The power of ten at the top edge.
    powers: u32,
}

impl Axes {
    /// The height of no pairs, below one pair, so that one pair has a bar.
    const NONE: f64 = 0.4;

    fn of(count: &Count, bars: &BTreeMap<u32, u32>) -> Axes {
        let most = bars.values().copied().max().unwrap_or(1);
        let mut powers = 1;
        while 10u32.pow(powers) < most {
            powers += 1;
        }
        Axes {
            most_keys: f64::from(count.bound()) * 1.04,
            powers,
        }
    }

    /// The width of one key.
    fn unit(&self) -> f64 {
        (RIGHT - LEFT) / self.most_keys
    }

    fn x(&self, keys: f64) -> f64 {
        LEFT + keys * self.unit()
    }

    fn y(&self, pairs: f64) -> f64 {
        let height = (pairs.log10() + Axes::NONE) / (f64::from(self.powers) + Axes::NONE);
        BOTTOM - height * (BOTTOM - TOP)
    }
}

fn pairs(number: u32) -> String {
    counted(number as usize, "pair")
}

/// An SVG file, element by element.
struct Svg(String);

impl Svg {
    fn new() -> Svg {
        Svg(format!(
            "<svg xmlns=\"http://www.w3.org/2000/svg\" viewBox=\"0 0 {WIDTH} {HEIGHT}\" \
             width=\"{WIDTH}\" height=\"{HEIGHT}\" \
             font-family=\"DejaVu Sans, Verdana, Helvetica, Arial, sans-serif\">\n\
             <rect width=\"{WIDTH}\" height=\"{HEIGHT}\" fill=\"white\"/>\n"
        ))
    }

    fn add(&mut self, element: std::fmt::Arguments) {
        writeln!(self.0, "{element}").expect("a string takes every text");
    }

    /// A text of the picture's own words, which need no escapes.
    fn text(&mut self, x: f64, y: f64, anchor: &str, size: u32, colour: &str, text: &str) {
        self.add(format_args!(
            "<text x=\"{x:.1}\" y=\"{y:.1}\" text-anchor=\"{anchor}\" font-size=\"{size}\" \
             fill=\"{colour}\">{text}</text>"
        ));
    }

    /// A text that runs upwards.
    fn text_up(&mut self, x: f64, y: f64, size: u32, text: &str) {
        self.add(format_args!(
            "<text transform=\"translate({x:.1} {y:.1}) rotate(-90)\" text-anchor=\"middle\" \
             font-size=\"{size}\" fill=\"{INK}\">{text}</text>"
        ));
    }

    fn line(&mut self, from: (f64, f64), to: (f64, f64), colour: &str, dashes: &str) {
        let dashes = match dashes {
            "" => String::new(),
            dashes => format!(" stroke-width=\"2\" stroke-dasharray=\"{dashes}\""),
        };
        self.add(format_args!(
            "<line x1=\"{:.1}\" y1=\"{:.1}\" x2=\"{:.1}\" y2=\"{:.1}\" stroke=\"{colour}\"{dashes}/>",
            from.0, from.1, to.0, to.1
        ));
    }

    fn bar(&mut self, x: f64, y: f64, width: f64, height: f64) {
        self.add(format_args!(
            "<rect x=\"{x:.1}\" y=\"{y:.1}\" width=\"{width:.1}\" height=\"{height:.1}\" \
             fill=\"{BAR}\"/>"
        ));
    }

    fn dot(&mut self, x: f64, y: f64) {
        self.add(format_args!(
            "<circle cx=\"{x:.1}\" cy=\"{y:.1}\" r=\"6\" fill=\"{LARGEST}\"/>"
        ));
    }

    fn end(mut self) -> String {
        self.0.push_str("</svg>\n");
        self.0
    }
}
