//! The lines between lamps: quiet ones where two agree; where they do not, an arrow from the lamp whose report has no one for the
//! other. So the arrows of honest lamps point at who lied to them, or was dealt otherwise.

use crate::record::Record;
use crate::ring::{Lamp, Scale};
use crate::svg::{Point, Stroke, Svg, AMBER, CORAL};

/// How lines are drawn: the more there are, the thinner.
pub struct Lines {
    agreement: Stroke,
    denial: Stroke,
    head: f64,
}

#[derive(Clone, Copy, PartialEq)]
pub enum Kind {
    Agreement,
    /// The first of the two denies the other.
    Denial,
    Mutual,
}

impl Lines {
    pub fn of(record: &Record) -> Lines {
        let agreements = record.couples().filter(|&(i, j)| record.agree(i, j)).count();
        let denials = record.n * (record.n - 1) / 2 - agreements;
        let (width, opacity) = match agreements {
            0..=30 => (1.5, 0.4),
            31..=70 => (1.2, 0.4),
            _ => (1.1, 0.42),
        };
        let agreement = Stroke { colour: AMBER, width, opacity };
        let (width, opacity, head) = match denials {
            0..=15 => (2.4, 1.0, 14.0),
            16..=45 => (1.6, 0.9, 11.0),
            46..=80 => (1.2, 0.75, 9.0),
            _ => (1.0, 0.6, 8.0),
        };
        Lines { agreement, denial: Stroke { colour: CORAL, width, opacity }, head }
    }

    /// One line, between two points.
    pub fn draw(&self, svg: &mut Svg, kind: Kind, from: Point, to: Point) {
        if kind == Kind::Agreement {
            return svg.line(from, to, self.agreement);
        }
        let (x, y) = (to.0 - from.0, to.1 - from.1);
        let length = (x * x + y * y).sqrt();
        let way = (x / length, y / length);
        // Between neighbours there may be no room for two heads. A line ends inside of the head, or it would blunt its point.
        let head = self.head.min(0.45 * length);
        let inset = 0.8 * head;
        let start = if kind == Kind::Mutual { inset } else { 0.0 };
        let end = length - inset;
        let along = |distance: f64| (from.0 + distance * way.0, from.1 + distance * way.1);
        svg.line(along(start), along(end), self.denial);
        svg.head(to, way, head, self.denial);
        if kind == Kind::Mutual {
            svg.head(from, (-way.0, -way.1), head, self.denial);
        }
    }
}

/// What is drawn between the lamps at two places, and from which to which.
pub fn between(record: &Record, i: usize, j: usize) -> (Kind, usize, usize) {
    match (record.denies(i, j), record.denies(j, i)) {
        (false, false) => (Kind::Agreement, i, j),
        (true, false) => (Kind::Denial, i, j),
        (false, true) => (Kind::Denial, j, i),
        (true, true) => (Kind::Mutual, i, j),
    }
}

/// All lines, the agreements below.
pub fn draw_all(svg: &mut Svg, scale: &Scale, lines: &Lines, lamps: &[Lamp], record: &Record) {
    let mut all: Vec<_> = record.couples().map(|(i, j)| between(record, i, j)).collect();
    all.sort_by_key(|&(kind, ..)| kind != Kind::Agreement);
    for (kind, from, to) in all {
        let (start, end) = ends(scale, &lamps[from], &lamps[to]);
        lines.draw(svg, kind, start, end);
    }
}

/// The points at the edges of two lamps between which a line runs.
fn ends(scale: &Scale, from: &Lamp, to: &Lamp) -> (Point, Point) {
    let (start, end) = (from.at(scale.ring), to.at(scale.ring));
    let (x, y) = (end.0 - start.0, end.1 - start.1);
    let length = (x * x + y * y).sqrt();
    let (first, last) = (from.edge(scale) / length, 1.0 - to.edge(scale) / length);
    ((start.0 + first * x, start.1 + first * y), (start.0 + last * x, start.1 + last * y))
}

#[cfg(test)]
mod tests {
    use super::*;
    use crate::record::tests::EXAMPLE;

    #[test]
    fn the_arrow_starts_where_the_one_is_missing() {
        let mut record = Record::read(EXAMPLE).unwrap();
        assert!(between(&record, 1, 3) == (Kind::Agreement, 1, 3));
        record.reports[3] &= !0b10;
        assert!(between(&record, 1, 3) == (Kind::Denial, 3, 1));
        record.reports[1] &= !0b1000;
        assert!(between(&record, 1, 3) == (Kind::Mutual, 1, 3));
        record.reports[3] |= 0b10;
        assert!(between(&record, 1, 3) == (Kind::Denial, 1, 3));
    }
}
