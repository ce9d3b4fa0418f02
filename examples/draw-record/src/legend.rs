//! The legend: the signs and lines that occur in the picture, each drawn as it is drawn there, with its meaning.

use crate::facts::Facts;
use crate::lines::{between, Kind, Lines};
use crate::picture::WIDTH;
use crate::record::Record;
use crate::ring::{draw_dark, draw_mark, draw_sign, Lamp};
use crate::svg::{width_of, Anchor, Svg, MUTED};

const LETTERS: f64 = 16.0;
const ROW: f64 = 30.0;
/// Between a sign's right end and its word, and between a word and the next sign.
const INDENT: f64 = 8.0;
const GAP: f64 = 24.0;
/// Each row is narrower than this.
const ROOM: f64 = WIDTH - 48.0;

enum Sign<'a> {
    Lamp(&'a Lamp<'a>),
    Dark(&'a Lamp<'a>),
    Mark,
    Line(Kind),
}

impl Sign<'_> {
    fn width(&self) -> f64 {
        match self {
            Sign::Lamp(_) | Sign::Dark(_) => 20.0,
            Sign::Mark => 24.0,
            Sign::Line(_) => 44.0,
        }
    }
}

type Entry<'a> = (Sign<'a>, &'static str);

/// Happy and refused, in the order of the words below.
const KINDS: [(bool, bool); 4] = [(true, false), (true, true), (false, false), (false, true)];

/// The kinds of lamps that occur, each shown by one that is not dark, if there is one. Where the dealer is rejected all have refused,
/// and the set is only the largest.
fn lamp_signs<'a>(facts: &Facts, lamps: &'a [Lamp<'a>]) -> Vec<Entry<'a>> {
    let words = match facts.accepted {
        true => ["happy", "happy, refused", "unhappy, repaired", "unhappy, refused"],
        false => ["", "in the largest set", "", "outside of it"],
    };
    let mut signs = vec![];
    for ((happy, refused), word) in KINDS.into_iter().zip(words) {
        let kind = lamps.iter().filter(|lamp| lamp.happy == happy && lamp.refused() == refused);
        if let Some(lamp) = kind.min_by_key(|lamp| lamp.dark()) {
            signs.push((Sign::Lamp(lamp), word));
        }
    }
    signs
}

/// What lamps of any kind may be besides, where some are.
fn marks<'a>(lamps: &'a [Lamp<'a>]) -> Vec<Entry<'a>> {
    let mut signs = vec![];
    if let Some(lamp) = lamps.iter().find(|lamp| lamp.dark()) {
        signs.push((Sign::Dark(lamp), "dark: holds a share, published none"));
    }
    if lamps.iter().any(|lamp| lamp.conduct.faulty) {
        signs.push((Sign::Mark, "faulty by the record"));
    }
    signs
}

/// The kinds of lines that occur.
fn line_signs<'a>(record: &Record) -> Vec<Entry<'a>> {
    let words =
        [(Kind::Agreement, "agree"), (Kind::Denial, "does not confirm"), (Kind::Mutual, "neither confirms the other")];
    let occurs = |kind: Kind| record.couples().any(|(i, j)| between(record, i, j).0 == kind);
    words.into_iter().filter(|&(kind, _)| occurs(kind)).map(|(kind, word)| (Sign::Line(kind), word)).collect()
}

/// About the width of a sign and its word, and of a row of them.
fn width((sign, word): &Entry) -> f64 {
    sign.width() + INDENT + LETTERS * width_of(word)
}

fn row_width(row: &[Entry]) -> f64 {
    row.iter().map(|entry| width(entry) + GAP).sum::<f64>() - GAP
}

/// The legend in rows: the kinds of lamps, the marks and the lines, each of the three in a row of its own where it does not fit
/// behind what is before it.
pub struct Legend<'a> {
    rows: Vec<Vec<Entry<'a>>>,
}

impl<'a> Legend<'a> {
    pub fn of(facts: &Facts, lamps: &'a [Lamp<'a>], record: &Record) -> Legend<'a> {
        let mut rows = vec![lamp_signs(facts, lamps)];
        for signs in [marks(lamps), line_signs(record)] {
            match rows.last_mut() {
                Some(row) if row_width(row) + GAP + row_width(&signs) < ROOM => row.extend(signs),
                _ => rows.push(signs),
            }
        }
        Legend { rows }
    }

    pub fn height(&self) -> f64 {
        ROW * self.rows.len() as f64
    }

    /// Its first row begins at `top`.
    pub fn draw(&self, svg: &mut Svg, lines: &Lines, top: f64) {
        for (k, row) in self.rows.iter().enumerate() {
            let y = top + ROW * (k as f64 + 0.5);
            let mut x = (WIDTH - row_width(row)) / 2.0;
            for entry @ (sign, word) in row {
                let right = x + sign.width();
                match sign {
                    Sign::Lamp(lamp) => draw_sign(svg, (x + 10.0, y), 8.0, lamp),
                    Sign::Dark(lamp) => draw_dark(svg, (x + 10.0, y), 8.0, lamp),
                    Sign::Mark => draw_mark(svg, (x + 12.0, y), 7.5),
                    Sign::Line(kind) => lines.draw(svg, *kind, (x, y), (right, y)),
                }
                svg.text((right + INDENT, y), LETTERS, Anchor::Start, MUTED, word);
                x += width(entry) + GAP;
            }
        }
    }
}

#[cfg(test)]
mod tests {
    use super::*;
    use crate::doumbaht::happy_set;
    use crate::facts::tests::facts_of;
    use crate::record::tests::{darkened, stored, winter, EXAMPLE};
    use crate::ring;

    /// What is to be seen of the legend of a record that is not refused.
    fn with_legend<T>(bytes: &[u8], see: impl Fn(&Legend) -> T) -> Option<T> {
        let (facts, record) = (facts_of(bytes)?, Record::read(bytes)?);
        let lamps = ring::lamps(&facts, &record, happy_set(&record.reports));
        Some(see(&Legend::of(&facts, &lamps, &record)))
    }

    /// Its words, row by row.
    fn words(bytes: &[u8]) -> Vec<Vec<&'static str>> {
        let row = |row: &Vec<Entry>| row.iter().map(|&(_, word)| word).collect();
        with_legend(bytes, |legend| legend.rows.iter().map(row).collect()).unwrap()
    }

    /// The numbers of the lamps that show what is happy and what is dark.
    fn shown(bytes: &[u8]) -> (usize, usize) {
        let see = |legend: &Legend| match legend.rows[0][..] {
            [(Sign::Lamp(happy), "happy"), (Sign::Dark(dark), _), ..] => (happy.number, dark.number),
            _ => (0, 0),
        };
        with_legend(bytes, see).unwrap()
    }

    #[test]
    fn dark_is_said_where_a_lamp_is() {
        assert_eq!(words(&winter()), [["happy", "dark: holds a share, published none", "agree"]]);
        assert_eq!(words(EXAMPLE), [["happy", "faulty by the record", "agree"]]);
        // Lamp 3, which publishes 999, is faulty by nothing else.
        assert_eq!(words(&darkened(EXAMPLE, [3])), [["happy", "dark: holds a share, published none", "agree"]]);
        // After a rejected dealer no one is, though nothing is published.
        let rejected = words(include_bytes!("../../../docs/pictures/rejected.rec"));
        assert!(!rejected.concat().contains(&"dark: holds a share, published none"));
    }

    #[test]
    fn happy_is_shown_by_a_lit_lamp() {
        assert_eq!(shown(&winter()), (1, 2));
        assert_eq!(shown(&darkened(EXAMPLE, [1, 3])), (2, 1));
        assert_eq!(shown(&darkened(EXAMPLE, 1..=5)), (1, 1));
    }

    #[test]
    fn rows_fit_on_the_card() {
        for (name, bytes) in stored() {
            let fits = |legend: &Legend| legend.rows.iter().all(|row| !row.is_empty() && row_width(row) < ROOM);
            assert_ne!(with_legend(&bytes, fits), Some(false), "{name}");
            if let Some(facts) = facts_of(&bytes) {
                assert_eq!(with_legend(&darkened(&bytes, 1..=facts.n), fits), Some(true), "{name}, all dark");
            }
        }
    }
}
