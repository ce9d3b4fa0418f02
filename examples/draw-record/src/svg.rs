//! SVG by hand: a card with lines, arrows, circles, diamonds and words on it. Coordinates have one decimal.

use std::fmt::{Arguments, Display, Write};

pub const NIGHT: &str = "#101a30";
const RIM: &str = "#3d4c6e";
pub const WHITE: &str = "#f4f6fb";
pub const MUTED: &str = "#a9b6d0";
pub const QUIET: &str = "#7f8db0";
pub const AMBER: &str = "#f6b73c";
/// Amber, unlit.
pub const DUSK: &str = "#605134";
pub const SKY: &str = "#7cc4f0";
pub const CORAL: &str = "#ff6f61";

/// The lines around lamps and plates.
const OUTLINE: f64 = 2.5;

pub type Point = (f64, f64);

#[derive(Clone, Copy, Debug, PartialEq)]
pub enum Anchor {
    Start,
    Middle,
    End,
}

impl Anchor {
    /// Away from the centre, for a word to the right or to the left of it, or above or below it.
    pub fn towards(x: f64) -> Anchor {
        if x > 0.1 {
            Anchor::Start
        } else if x < -0.1 {
            Anchor::End
        } else {
            Anchor::Middle
        }
    }

    fn word(self) -> &'static str {
        match self {
            Anchor::Start => "start",
            Anchor::Middle => "middle",
            Anchor::End => "end",
        }
    }
}

/// How a line is drawn: its opacity is how much of what is behind it it hides.
#[derive(Clone, Copy)]
pub struct Stroke {
    pub colour: &'static str,
    pub width: f64,
    pub opacity: f64,
}

/// A word in bold letters of a colour, to stand in a text.
pub fn bold(word: impl Display, colour: &str) -> String {
    format!("<tspan font-weight=\"bold\" fill=\"{colour}\">{word}</tspan>")
}

/// About the width of words in letters of size 1, rather more than less.
pub fn width_of(words: &str) -> f64 {
    let width = |letter| match letter {
        'i' | 'j' | 'l' | ',' | '.' => 0.28,
        'f' | 'r' | 't' | ' ' => 0.4,
        'm' => 0.98,
        'w' => 0.82,
        _ => 0.64,
    };
    words.chars().map(width).sum()
}

/// A picture in the making.
pub struct Svg {
    out: String,
}

impl Svg {
    /// An empty card. The title and the description are for those who do not see it.
    pub fn new(width: f64, height: f64, title: &str, description: &str) -> Svg {
        let mut svg = Svg { out: String::new() };
        svg.put(format_args!(
            "<svg xmlns=\"http://www.w3.org/2000/svg\" width=\"{width}\" height=\"{height}\" viewBox=\"0 0 {width} {height}\" \
             role=\"img\" font-family=\"Verdana, 'DejaVu Sans', sans-serif\">"
        ));
        svg.put(format_args!("<title>{title}</title>"));
        svg.put(format_args!("<desc>{}</desc>", description.trim_end()));
        svg.put(format_args!(
            "<defs><radialGradient id=\"glow\"><stop offset=\"0.5\" stop-color=\"{AMBER}\" stop-opacity=\"0.45\"/>\
             <stop offset=\"1\" stop-color=\"{AMBER}\" stop-opacity=\"0\"/></radialGradient></defs>"
        ));
        let (w, h) = (width - 2.0, height - 2.0);
        svg.put(format_args!(
            "<rect x=\"1\" y=\"1\" width=\"{w}\" height=\"{h}\" rx=\"18\" fill=\"{NIGHT}\" stroke=\"{RIM}\" stroke-width=\"2\"/>"
        ));
        svg
    }

    fn put(&mut self, line: Arguments) {
        writeln!(self.out, "{line}").expect("a string takes every line");
    }

    /// What is drawn from here to `leave` is drawn around this point.
    pub fn enter(&mut self, (x, y): Point) {
        self.put(format_args!("<g transform=\"translate({x:.1} {y:.1})\">"));
    }

    pub fn leave(&mut self) {
        self.put(format_args!("</g>"));
    }

    pub fn line(&mut self, from: Point, to: Point, Stroke { colour, width, opacity }: Stroke) {
        self.put(format_args!(
            "<path d=\"M{:.1} {:.1}L{:.1} {:.1}\" stroke=\"{colour}\" stroke-width=\"{width}\" stroke-opacity=\"{opacity}\"/>",
            from.0, from.1, to.0, to.1
        ));
    }

    /// The head of an arrow with its point at `tip`, in the direction `way` of length 1.
    pub fn head(&mut self, tip: Point, way: Point, size: f64, Stroke { colour, opacity, .. }: Stroke) {
        let back = (tip.0 - size * way.0, tip.1 - size * way.1);
        let wing = (0.4 * size * way.1, -0.4 * size * way.0);
        self.put(format_args!(
            "<path d=\"M{:.1} {:.1}L{:.1} {:.1}L{:.1} {:.1}Z\" fill=\"{colour}\" fill-opacity=\"{opacity}\"/>",
            tip.0,
            tip.1,
            back.0 + wing.0,
            back.1 + wing.1,
            back.0 - wing.0,
            back.1 - wing.1
        ));
    }

    /// Light around a lamp.
    pub fn glow(&mut self, (x, y): Point, r: f64) {
        self.put(format_args!("<circle cx=\"{x:.1}\" cy=\"{y:.1}\" r=\"{r:.1}\" fill=\"url(#glow)\"/>"));
    }

    pub fn circle(&mut self, (x, y): Point, r: f64, fill: &str, stroke: &str) {
        self.put(format_args!(
            "<circle cx=\"{x:.1}\" cy=\"{y:.1}\" r=\"{r:.1}\" fill=\"{fill}\" stroke=\"{stroke}\" stroke-width=\"{OUTLINE}\"/>"
        ));
    }

    /// A ring of dashes.
    pub fn dashed_ring(&mut self, (x, y): Point, r: f64, stroke: &str) {
        self.put(format_args!(
            "<circle cx=\"{x:.1}\" cy=\"{y:.1}\" r=\"{r:.1}\" fill=\"none\" stroke=\"{stroke}\" stroke-width=\"3\" \
             stroke-dasharray=\"7 4\"/>"
        ));
    }

    /// A square on its corner, r from the centre to each.
    pub fn diamond(&mut self, (x, y): Point, r: f64, fill: &str, stroke: &str) {
        self.put(format_args!(
            "<path d=\"M{x:.1} {:.1}L{:.1} {y:.1}L{x:.1} {:.1}L{:.1} {y:.1}Z\" fill=\"{fill}\" stroke=\"{stroke}\" \
             stroke-width=\"{OUTLINE}\" stroke-linejoin=\"round\"/>",
            y - r,
            x + r,
            y + r,
            x - r
        ));
    }

    /// Words, the middle of their letters at y.
    pub fn text(&mut self, (x, y): Point, size: f64, anchor: Anchor, colour: &str, words: &str) {
        // The middle of a capital letter lies about 0.36 of the size above the line that it stands on.
        let base = y + 0.36 * size;
        self.put(format_args!(
            "<text x=\"{x:.1}\" y=\"{base:.1}\" font-size=\"{size:.1}\" text-anchor=\"{}\" fill=\"{colour}\">{words}</text>",
            anchor.word()
        ));
    }

    pub fn finish(mut self) -> String {
        self.put(format_args!("</svg>"));
        self.out
    }
}
