//! The picture of a record: the verdict, the ring of lamps, what was opened in the middle, and a legend.
//! Filled is in the happy set, hollow is outside; a circle holds a share, a diamond refused; a stroke behind it marks who is dark,
//! a ring of dashes who is faulty by the record: no two of these differ in colour alone. Coral is for what is wrong. The picture
//! brings its own background, for white and for dark pages.

use crate::deal;
use crate::facts::{Facts, Outcome};
use crate::label::{self, Label};
use crate::legend::Legend;
use crate::lines::{draw_all, Lines};
use crate::record::Record;
use crate::ring::{self, Lamp, Scale};
use crate::svg::{bold, Anchor, Svg, AMBER, CORAL, MUTED, NIGHT, WHITE};

pub const WIDTH: f64 = 800.0;
const MARGIN: f64 = 32.0;

const MISFIT: &str = "The deals do not fit together: dealt so, or altered on the way.";

/// What a refusal's number means, in two or three words.
pub fn reason(number: u8) -> &'static str {
    match number {
        1 => "wrong size",
        6 => "wrong directory",
        7 => "report altered",
        8 => "dealer rejected",
        9 => "no column fits",
        10 => "no opening fits",
        _ => "",
    }
}

/// The picture of a record that is not refused.
pub fn draw(text: &str, facts: &Facts, happy: u16, record: &Record) -> String {
    let scale = &Scale::of(record);
    let lamps = ring::lamps(facts, record, happy);
    let labels = label::place(scale, &lamps);
    let legend = Legend::of(facts, &lamps, record);
    // A faulty lamp may have made up the deal that it says it was dealt.
    let misfit = !deal::fit(record, (0..facts.n).filter(|&place| !lamps[place].conduct.faulty));
    let subtitle = subtitle(facts, &lamps, misfit);

    // The card is as high as the subtitle and the labels need.
    let head = 90.0 + 26.0 * subtitle.len() as f64;
    let top = labels.iter().map(|label| label.top).fold(-scale.beside(), f64::min);
    let bottom = labels.iter().map(Label::bottom).fold(scale.beside(), f64::max);
    let below = (head - top + bottom + 22.0).ceil();
    let height = below + legend.height() + 16.0;

    let verdict = if facts.accepted { "Dealer accepted" } else { "Dealer rejected" };
    let mut svg = Svg::new(record.picture_width(), height, verdict, &describe(text, &lamps, misfit));
    svg.text((MARGIN, 46.0), 30.0, Anchor::Start, WHITE, &bold(verdict, WHITE));
    for (k, (line, colour)) in subtitle.iter().enumerate() {
        svg.text((MARGIN, 84.0 + 26.0 * k as f64), 17.0, Anchor::Start, colour, line);
    }
    svg.enter((record.picture_width() / 2.0, head - top));
    let lines = Lines::of(record);
    draw_all(&mut svg, scale, &lines, &lamps, record);
    draw_opened(&mut svg, &facts.opened);
    lamps.iter().for_each(|lamp| ring::draw_lamp(&mut svg, scale, lamp));
    labels.iter().for_each(|label| label.draw(&mut svg));
    svg.leave();
    // The legend stands in the middle of a card as wide as most are.
    if record.is_wide() {
        svg.enter(((record.picture_width() - WIDTH) / 2.0, 0.0));
        legend.draw(&mut svg, &lines, below);
        svg.leave();
    } else {
        legend.draw(&mut svg, &lines, below);
    }
    svg.finish()
}

/// How many lamps there are, how many of them are dark, how many faulty by the record, how many all agree, what an opening that is
/// refused would have needed, and whether the deals fit together.
fn subtitle(facts: &Facts, lamps: &[Lamp], misfit: bool) -> Vec<(String, &'static str)> {
    let (n, t) = (facts.n, facts.t);
    let happy = lamps.iter().filter(|lamp| lamp.happy).count();
    let faulty = lamps.iter().filter(|lamp| lamp.conduct.faulty).count();
    let blamed = if faulty > t { CORAL } else { MUTED };
    let faulty = match faulty {
        0 => "none is".to_string(),
        1 => "1 is".to_string(),
        count => format!("{count} are"),
    };
    let dark = match lamps.iter().filter(|lamp| lamp.dark()).count() {
        0 => String::new(),
        count => format!(", {count} dark"),
    };
    let mut lines = vec![];
    if facts.accepted {
        let happy = format!("{happy} of them happy{dark}");
        lines.push((format!("{n} lamps, {happy}; {t} may be faulty, by the record {faulty}."), blamed));
    } else {
        lines.push((format!("{n} lamps; {t} may be faulty, by the record {faulty}."), blamed));
        lines.push((format!("The largest set of lamps that all agree has {happy}, and {} are needed.", n - t), MUTED));
    }
    if facts.opened == Outcome::Refused(10) {
        let sent = lamps.iter().filter(|lamp| lamp.conduct.published.is_sent()).count();
        let needed = (2 * t + 1).max(sent.saturating_sub(t));
        lines.push((format!("{sent} shares are published, and {needed} that agree are needed."), MUTED));
    }
    if misfit {
        lines.push((MISFIT.to_string(), CORAL));
    }
    lines
}

/// The text of the record, and what the picture adds to it.
fn describe(text: &str, lamps: &[Lamp], misfit: bool) -> String {
    let mut text = text.to_string();
    if misfit {
        text.push_str(MISFIT);
        text.push('\n');
    }
    let dark: String = lamps.iter().filter(|lamp| lamp.dark()).map(|lamp| format!(" {}", lamp.number)).collect();
    if !dark.is_empty() {
        text.push_str(&format!("dark, with a share that is not published:{dark}\n"));
    }
    for lamp in lamps.iter().filter(|lamp| lamp.conduct.faulty) {
        let lines: Vec<String> = label::lines(lamp, lamps.len() - 1).iter().map(label::Line::plain).collect();
        text.push_str(&format!("lamp {} is faulty by the record: {}\n", lamp.number, lines.join(", ")));
    }
    text
}

/// What was opened, on a plate that hides the lines behind it.
fn draw_opened(svg: &mut Svg, opened: &Outcome) {
    let outline = if matches!(opened, Outcome::Number(_)) { AMBER } else { CORAL };
    svg.circle((0.0, 0.0), 50.0, NIGHT, outline);
    match *opened {
        Outcome::Number(number) => {
            svg.text((0.0, -21.0), 14.0, Anchor::Middle, MUTED, "opened");
            let letters = if number < 100_000 { 25.0 } else { 14.5 };
            svg.text((0.0, 6.0), letters, Anchor::Middle, WHITE, &bold(number, WHITE));
        }
        Outcome::Refused(number) => {
            let (above, below) = reason(number).rsplit_once(' ').unwrap_or_default();
            svg.text((0.0, -28.0), 14.0, Anchor::Middle, MUTED, "opened");
            svg.text((0.0, -8.0), 15.0, Anchor::Middle, CORAL, &format!("refused {}", bold(number, CORAL)));
            svg.text((0.0, 12.0), 12.5, Anchor::Middle, MUTED, above);
            svg.text((0.0, 27.0), 12.5, Anchor::Middle, MUTED, below);
        }
    }
}

/// The picture of a refused record: that one line.
pub fn refused(text: &str, number: u8) -> String {
    let line = format!("Record refused {number}: {}", reason(number));
    let mut svg = Svg::new(WIDTH, 110.0, &line, text);
    svg.diamond((58.0, 55.0), 18.0, NIGHT, CORAL);
    svg.text((96.0, 55.0), 28.0, Anchor::Start, WHITE, &bold(&line, WHITE));
    svg.finish()
}

#[cfg(test)]
mod tests {
    use super::*;
    use crate::doumbaht;
    use crate::facts::tests::facts_of;
    use crate::record::tests::{darkened, winter, EXAMPLE};

    /// The first line below the verdict, and the lines of the description behind the record's text.
    fn said(bytes: &[u8]) -> (String, String) {
        let (facts, record) = (facts_of(bytes).unwrap(), Record::read(bytes).unwrap());
        let lamps = ring::lamps(&facts, &record, doumbaht::happy_set(&record.reports));
        let text = doumbaht::text(bytes);
        let added = describe(&text, &lamps, false)[text.len()..].to_string();
        (subtitle(&facts, &lamps, false).swap_remove(0).0, added)
    }

    #[test]
    fn dark_lamps_are_counted_and_named() {
        let (line, added) = said(&winter());
        assert_eq!(line, "16 lamps, 16 of them happy, 9 dark; 3 may be faulty, by the record none is.");
        assert_eq!(added, "dark, with a share that is not published: 2 3 4 7 8 9 12 13 14\n");
        let (line, added) = said(&darkened(EXAMPLE, [5]));
        assert_eq!(line, "5 lamps, 5 of them happy, 1 dark; 1 may be faulty, by the record 1 is.");
        assert_eq!(added, "dark, with a share that is not published: 5\nlamp 3 is faulty by the record: share 16, published 999\n");
    }

    #[test]
    fn a_refused_opening_says_what_it_needs() {
        let told = |bytes: &[u8]| {
            let (facts, record) = (facts_of(bytes).unwrap(), Record::read(bytes).unwrap());
            let lamps = ring::lamps(&facts, &record, doumbaht::happy_set(&record.reports));
            subtitle(&facts, &lamps, false).into_iter().map(|(line, _)| line).collect::<Vec<_>>()
        };
        assert_eq!(told(EXAMPLE).len(), 1);
        // Two true shares and the lie of lamp 3, then two true ones alone.
        assert_eq!(told(&darkened(EXAMPLE, [4, 5]))[1], "3 shares are published, and 3 that agree are needed.");
        assert_eq!(told(&darkened(EXAMPLE, [3, 4, 5]))[1], "2 shares are published, and 3 that agree are needed.");
        // With all sixteen there, four lies are too many.
        let four = include_bytes!("../../../crates/cases/data/open-16-3-wrong-4.rec");
        assert_eq!(told(four)[1], "16 shares are published, and 13 that agree are needed.");
    }

    #[test]
    fn where_none_is_dark_it_is_not_said() {
        let (line, added) = said(EXAMPLE);
        assert_eq!(line, "5 lamps, 5 of them happy; 1 may be faulty, by the record 1 is.");
        assert_eq!(added, "lamp 3 is faulty by the record: share 16, published 999\n");
    }
}
