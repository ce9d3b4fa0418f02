//! The ring of lamps, around the point (0, 0): where each stands, and its sign.

use crate::conduct::{conducts, Conduct, Published};
use crate::facts::{Facts, Outcome};
use crate::record::Record;
use crate::svg::{bold, Anchor, Point, Stroke, Svg, AMBER, CORAL, DUSK, MUTED, NIGHT, SKY, WHITE};
use std::f64::consts::{FRAC_1_SQRT_2, TAU};

/// Sizes that depend on how many lamps there are.
pub struct Scale {
    /// From the centre to a lamp, and from a lamp's centre to its edge.
    pub ring: f64,
    pub lamp: f64,
    /// The letters beside a lamp.
    pub letters: f64,
}

/// A diamond is as much larger than a circle, the stroke behind a dark lamp longer, and the ring around a faulty one larger than all.
const DIAMOND: f64 = 1.25;
const DARK: f64 = 1.45;
pub const FAULTY: f64 = 1.6;

/// Between the ring around a faulty lamp and the words beside it.
const GAP: f64 = 10.0;

impl Scale {
    pub fn of(record: &Record) -> Scale {
        let n = record.n;
        // The longest words beside a lamp are so many times as wide as their letters are high: "published" and five digits, or ten.
        let (longest, shrunk) = if record.is_wide() { (12.9, 0.85) } else { (9.6, 1.0) };
        let (lamp, letters, most) = if n <= 8 { (26.0, 18.5 * shrunk, 180.0) } else { (19.0, 16.2 * shrunk, 205.0) };
        let room = record.picture_width() / 2.0 - 12.0 - longest * letters;
        let widest = (0..n).map(|place| way(n, place).0).fold(0.0, f64::max);
        let mut scale = Scale { ring: most, lamp, letters };
        scale.ring = most.min(room / widest - scale.clear());
        scale
    }

    /// From a lamp's centre to where the words beside it may begin.
    pub fn clear(&self) -> f64 {
        FAULTY * self.lamp + GAP
    }

    /// The same from the centre of the ring.
    pub fn beside(&self) -> f64 {
        self.ring + self.clear()
    }
}

/// The direction of a lamp from the centre, of length 1: number 1 on top, then clockwise. It is rounded, since the last digits
/// of a sine are not the same on every machine, and the picture is to be.
fn way(n: usize, place: usize) -> Point {
    let angle = TAU / n as f64 * place as f64;
    let rounded = |number: f64| (number * 1e9).round() / 1e9 + 0.0;
    (rounded(angle.sin()), rounded(-angle.cos()))
}

/// One lamp: where it stands, and what is known of it.
pub struct Lamp<'a> {
    pub number: usize,
    pub happy: bool,
    pub outcome: &'a Outcome,
    pub conduct: Conduct,
    /// The direction from the centre, of length 1.
    pub way: Point,
}

impl Lamp<'_> {
    /// The point at this distance from the centre.
    pub fn at(&self, distance: f64) -> Point {
        (distance * self.way.0, distance * self.way.1)
    }

    pub fn refused(&self) -> bool {
        matches!(self.outcome, Outcome::Refused(_))
    }

    /// It holds a share and published nothing.
    pub fn dark(&self) -> bool {
        self.conduct.published == Published::Dark
    }

    /// From the lamp's centre to where an arrow may begin or end.
    pub fn edge(&self, scale: &Scale) -> f64 {
        let size = match (self.conduct.faulty, self.refused()) {
            (true, _) => FAULTY,
            (false, true) => DIAMOND,
            (false, false) => 1.0,
        };
        size * scale.lamp + 4.0
    }

    fn colour(&self) -> &'static str {
        match (self.refused(), self.happy) {
            (true, _) => MUTED,
            (false, true) => AMBER,
            (false, false) => SKY,
        }
    }

    fn filling(&self) -> &'static str {
        match (self.happy, self.dark()) {
            (true, false) => self.colour(),
            (true, true) => DUSK,
            (false, _) => NIGHT,
        }
    }
}

pub fn lamps<'a>(facts: &'a Facts, record: &Record, happy: u16) -> Vec<Lamp<'a>> {
    let lamp = |(place, (outcome, conduct))| Lamp {
        number: place + 1,
        happy: happy >> place & 1 == 1,
        outcome,
        conduct,
        way: way(facts.n, place),
    };
    facts.lamps.iter().zip(conducts(record, facts)).enumerate().map(lamp).collect()
}

/// The lamp's sign: its shape and its filling; a happy one that holds a share is lit, unless it is dark.
pub fn draw_sign(svg: &mut Svg, centre: Point, r: f64, lamp: &Lamp) {
    if lamp.happy && !lamp.refused() && !lamp.dark() {
        svg.glow(centre, 1.9 * r);
    }
    if lamp.refused() {
        svg.diamond(centre, DIAMOND * r, lamp.filling(), lamp.colour());
    } else {
        svg.circle(centre, r, lamp.filling(), lamp.colour());
    }
}

/// The sign of a dark lamp: a stroke behind it, so that it is struck out and its number can be read.
pub fn draw_dark(svg: &mut Svg, (x, y): Point, r: f64, lamp: &Lamp) {
    let reach = DARK * r * FRAC_1_SQRT_2;
    let stroke = Stroke { colour: MUTED, width: 3.0, opacity: 1.0 };
    svg.line((x - reach, y + reach), (x + reach, y - reach), stroke);
    draw_sign(svg, (x, y), r, lamp);
}

/// The mark of a lamp that is faulty by the record.
pub fn draw_mark(svg: &mut Svg, centre: Point, r: f64) {
    svg.dashed_ring(centre, FAULTY * r, CORAL);
}

/// The lamp on the ring, with its number and with the mark where it is faulty.
pub fn draw_lamp(svg: &mut Svg, scale: &Scale, lamp: &Lamp) {
    let centre = lamp.at(scale.ring);
    let draw = if lamp.dark() { draw_dark } else { draw_sign };
    draw(svg, centre, scale.lamp, lamp);
    if lamp.conduct.faulty {
        draw_mark(svg, centre, scale.lamp);
    }
    let ink = if lamp.happy && !lamp.dark() { NIGHT } else { WHITE };
    svg.text(centre, scale.lamp * 0.85, Anchor::Middle, ink, &bold(lamp.number, ink));
}

#[cfg(test)]
mod tests {
    use super::*;
    use crate::doumbaht::happy_set;
    use crate::facts::tests::facts_of;
    use crate::record::tests::{winter, DARK};

    #[test]
    fn a_dark_lamp_is_struck_out_and_not_lit() {
        let (facts, record) = (facts_of(&winter()).unwrap(), Record::read(&winter()).unwrap());
        for lamp in lamps(&facts, &record, happy_set(&record.reports)) {
            let mut svg = Svg::new(1.0, 1.0, "", "");
            draw_lamp(&mut svg, &Scale::of(&record), &lamp);
            let drawn = svg.finish();
            let dark = DARK.contains(&lamp.number);
            assert_eq!((drawn.contains("<path"), drawn.contains("url(#glow)")), (dark, !dark), "lamp {}", lamp.number);
        }
    }
}
