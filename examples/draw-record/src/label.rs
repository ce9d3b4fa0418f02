//! The words beside each lamp: what it holds, what it published, why it refused, and what it did wrong.

use crate::conduct::{Conduct, Published};
use crate::facts::Outcome;
use crate::picture::reason;
use crate::ring::{Lamp, Scale};
use crate::svg::{bold, Anchor, Point, Svg, CORAL, MUTED, QUIET, WHITE};

/// A line of words, with a number in bold behind them or without.
pub struct Line {
    words: String,
    number: Option<u32>,
    colour: &'static str,
    /// The number's colour.
    ink: &'static str,
}

impl Line {
    fn new(words: impl Into<String>, number: Option<u32>, colour: &'static str) -> Line {
        Line { words: words.into(), number, colour, ink: colour }
    }

    fn with_ink(self, ink: &'static str) -> Line {
        Line { ink, ..self }
    }

    /// The line without colours.
    pub fn plain(&self) -> String {
        match self.number {
            Some(number) => format!("{} {number}", self.words),
            None => self.words.clone(),
        }
    }

    fn markup(&self) -> String {
        match self.number {
            Some(number) => format!("{} {}", self.words, bold(number, self.ink)),
            None => self.words.clone(),
        }
    }
}

/// All lines of a lamp with so many others, from what it holds to what it did wrong.
pub fn lines(lamp: &Lamp, others: usize) -> Vec<Line> {
    let mut lines = match *lamp.outcome {
        Outcome::Number(share) => vec![Line::new("share", Some(share), MUTED).with_ink(WHITE)],
        // The title says why.
        Outcome::Refused(8) => vec![Line::new("refused", Some(8), QUIET)],
        Outcome::Refused(number) => {
            let colour = if number == 7 { CORAL } else { WHITE };
            vec![Line::new("refused", Some(number.into()), colour), Line::new(reason(number), None, colour)]
        }
    };
    lines.extend(published(lamp.conduct.published));
    if !lamp.conduct.sound_deal {
        lines.push(Line::new("unsound deal", None, MUTED));
    }
    lines.extend(lies(&lamp.conduct, others));
    lines
}

fn published(published: Published) -> Option<Line> {
    let line = |number: Option<u32>, colour| match number {
        Some(number) => Line::new("published", Some(number), colour),
        None => Line::new("published nothing", None, colour),
    };
    match published {
        Published::Unasked => None,
        Published::Share(number) => Some(Line::new(format!("published {number}"), None, QUIET)),
        Published::Wrong(number) => Some(line(Some(number), CORAL)),
        Published::Dark => Some(line(None, MUTED)),
        Published::Unjudged(number) => Some(line(number, MUTED)),
    }
}

/// To whom the lamp lied, to whom it was silent, and how many pairs it has otherwise than they were owed, a line each.
fn lies(conduct: &Conduct, others: usize) -> impl Iterator<Item = Line> {
    let whom = |lamps: &[usize]| match lamps {
        [one] => format!("lamp {one}"),
        _ if lamps.len() == others => "all".to_string(),
        _ => format!("{} lamps", lamps.len()),
    };
    let pairs = conduct.misheard.len();
    [
        (!conduct.lied_to.is_empty()).then(|| format!("lied to {}", whom(&conduct.lied_to))),
        (!conduct.silent_to.is_empty()).then(|| format!("silent to {}", whom(&conduct.silent_to))),
        (pairs > 0).then(|| format!("altered {pairs} pair{}", if pairs > 1 { "s" } else { "" })),
    ]
    .into_iter()
    .flatten()
    .map(|words| Line::new(words, None, CORAL))
}

/// The lines of one lamp and their place, around the ring's centre.
pub struct Label {
    lines: Vec<Line>,
    letters: f64,
    anchor: Anchor,
    x: f64,
    pub top: f64,
}

impl Label {
    /// Outside of the ring, on the lamp's side of the picture.
    fn new(scale: &Scale, lamp: &Lamp, others: usize) -> Label {
        let (x, y) = lamp.at(scale.beside());
        let (lines, anchor) = (lines(lamp, others), Anchor::towards(lamp.way.0));
        let mut label = Label { lines, letters: scale.letters, anchor, x, top: 0.0 };
        let half = label.height() / 2.0;
        label.top = y + half * lamp.way.1 - half;
        label
    }

    fn step(&self) -> f64 {
        1.2 * self.letters
    }

    fn height(&self) -> f64 {
        self.step() * self.lines.len() as f64
    }

    pub fn bottom(&self) -> f64 {
        self.top + self.height()
    }

    /// Moves it to its side, away from its own lamp, where lines of it stand beside the lamp rather than above or below.
    fn keep_clear(&mut self, scale: &Scale, lamp: &Lamp) {
        let (x, y) = lamp.at(scale.ring);
        let dy = (self.top - y).max(y - self.bottom()).clamp(0.0, scale.clear());
        let dx = (scale.clear().powi(2) - dy.powi(2)).sqrt();
        match self.anchor {
            Anchor::Start => self.x = self.x.max(x + dx),
            Anchor::Middle => (),
            Anchor::End => self.x = self.x.min(x - dx),
        }
    }

    pub fn draw(&self, svg: &mut Svg) {
        for (k, line) in self.lines.iter().enumerate() {
            let at: Point = (self.x, self.top + self.step() * (k as f64 + 0.5));
            svg.text(at, self.letters, self.anchor, line.colour, &line.markup());
        }
    }
}

/// The labels of all lamps. Those of one side that would overlap are moved outwards, so that none comes to lie on a lamp.
pub fn place(scale: &Scale, lamps: &[Lamp]) -> Vec<Label> {
    let mut labels: Vec<Label> = lamps.iter().map(|lamp| Label::new(scale, lamp, lamps.len() - 1)).collect();
    for side in [Anchor::Start, Anchor::End] {
        let mut places: Vec<usize> = (0..lamps.len()).filter(|&k| labels[k].anchor == side).collect();
        places.sort_by(|&a, &b| lamps[a].way.1.total_cmp(&lamps[b].way.1));
        // The upper ones are moved up, the lower ones down; the lowest of the upper half stays.
        let upper = places.iter().filter(|&&k| lamps[k].way.1 < 0.01).count();
        for k in (1..upper).rev() {
            let limit = labels[places[k]].top - 0.4 * scale.letters - labels[places[k - 1]].height();
            let label = &mut labels[places[k - 1]];
            label.top = label.top.min(limit);
        }
        for k in upper.max(1)..places.len() {
            let limit = labels[places[k - 1]].bottom() + 0.4 * scale.letters;
            let label = &mut labels[places[k]];
            label.top = label.top.max(limit);
        }
    }
    labels.iter_mut().zip(lamps).for_each(|(label, lamp)| label.keep_clear(scale, lamp));
    labels
}

#[cfg(test)]
mod tests {
    use super::*;
    use crate::facts::tests::facts_of;
    use crate::record::tests::{darkened, stored};
    use crate::record::Record;
    use crate::ring::{lamps, FAULTY};
    use crate::svg::width_of;

    /// A label's left, right, top and bottom. A bold digit is about 0.08 wider than another.
    fn bounds(label: &Label) -> [f64; 4] {
        let wide =
            |line: &Line| width_of(&line.plain()) + line.number.map_or(0.0, |x| 0.08 * x.to_string().len() as f64);
        let width = label.letters * label.lines.iter().map(wide).fold(0.0, f64::max);
        let left = match label.anchor {
            Anchor::Start => label.x,
            Anchor::Middle => label.x - width / 2.0,
            Anchor::End => label.x - width,
        };
        [left, left + width, label.top, label.bottom()]
    }

    /// No label leaves the card, lies on another or on a lamp.
    fn check(bytes: &[u8], name: &str) {
        let Some(facts) = facts_of(bytes) else { return };
        let record = Record::read(bytes).unwrap();
        let scale = &Scale::of(&record);
        let lamps = lamps(&facts, &record, crate::doumbaht::happy_set(&record.reports));
        let all: Vec<[f64; 4]> = place(scale, &lamps).iter().map(bounds).collect();
        for (i, one) in all.iter().enumerate() {
            assert!(
                one[0] > 12.0 - record.picture_width() / 2.0 && one[1] < record.picture_width() / 2.0 - 12.0,
                "{name}: lamp {} leaves the card",
                i + 1
            );
            for (j, other) in all.iter().enumerate().skip(i + 1) {
                let apart = one[1] < other[0] || other[1] < one[0] || one[3] < other[2] || other[3] < one[2];
                assert!(apart, "{name}: the labels of {} and {} overlap", i + 1, j + 1);
            }
            for lamp in &lamps {
                let (x, y) = lamp.at(scale.ring);
                let (dx, dy) = (x.clamp(one[0], one[1]) - x, y.clamp(one[2], one[3]) - y);
                assert!(
                    (dx * dx + dy * dy).sqrt() > FAULTY * scale.lamp,
                    "{name}: label {} lies on lamp {}",
                    i + 1,
                    lamp.number
                );
            }
        }
    }

    #[test]
    fn nothing_published_is_not_in_coral() {
        let shown = |what: Published| published(what).map(|line| (line.plain(), line.colour));
        assert_eq!(shown(Published::Dark), Some(("published nothing".to_string(), MUTED)));
        assert_eq!(shown(Published::Wrong(999)), Some(("published 999".to_string(), CORAL)));
        assert_eq!(shown(Published::Share(16)), Some(("published 16".to_string(), QUIET)));
        assert_eq!(shown(Published::Unjudged(None)), shown(Published::Dark));
        assert_eq!(shown(Published::Unasked), None);
    }

    /// The records of every kind that are stored, the same with all lamps dark, and with every number of round two and on bad in
    /// some way.
    #[test]
    fn labels_keep_apart() {
        for (name, mut bytes) in stored() {
            check(&bytes, &name);
            if let Some(facts) = facts_of(&bytes) {
                check(&darkened(&bytes, 1..=facts.n), &name);
                // Silent to lamps 1 and 2, lies to the others, altered reports, nothing published.
                let pair = if bytes[0] < 128 { 4 } else { 8 };
                let pairs = 18 + pair * facts.n * (facts.t + 1);
                let silence = pairs + 2 * pair * facts.n;
                bytes[pairs..silence].fill(255);
                bytes[silence..pairs + pair * facts.n * facts.n].fill(if pair == 4 { 200 } else { 100 });
                bytes[pairs + pair * facts.n * facts.n..].fill(255);
                check(&bytes, &name);
            }
        }
    }
}
