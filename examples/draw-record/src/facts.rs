//! The lines of a record's text, read back.

/// A number, or the number of a refusal.
#[derive(Debug, PartialEq)]
pub enum Outcome {
    Number(u32),
    Refused(u8),
}

/// What the text of a record that is not refused says. The happy set is asked of the library itself.
#[derive(Debug, PartialEq)]
pub struct Facts {
    pub n: usize,
    pub t: usize,
    pub accepted: bool,
    pub lamps: Vec<Outcome>,
    pub opened: Outcome,
}

#[derive(Debug, PartialEq)]
pub enum Reading {
    Facts(Facts),
    Refused(u8),
}

/// The outcome behind `word`, or behind "refused ".
fn outcome(rest: &str, word: &str) -> Option<Outcome> {
    match rest.strip_prefix("refused ") {
        Some(number) => number.parse().ok().map(Outcome::Refused),
        None => rest.strip_prefix(word)?.parse().ok().map(Outcome::Number),
    }
}

/// Reads the text, line by line; none if it is not a record's.
pub fn parse(text: &str) -> Option<Reading> {
    let mut lines = text.lines();
    let first = lines.next()?;
    if let Some(number) = first.strip_prefix("record refused ") {
        return number.parse().ok().map(Reading::Refused);
    }
    let (n, t) = first.strip_prefix("size ")?.split_once(' ')?;
    let (n, t) = (n.parse().ok()?, t.parse().ok()?);
    let accepted = match lines.next()? {
        "dealer accepted" => true,
        "dealer rejected" => false,
        _ => return None,
    };
    if accepted {
        lines.next()?.strip_prefix("happy ")?;
    }
    let mut lamps = Vec::new();
    for i in 1..=n {
        let line = lines.next()?.strip_prefix(&format!("lamp {i} "))?;
        lamps.push(outcome(line, "share ")?);
    }
    let opened = outcome(lines.next()?.strip_prefix("opened ")?, "")?;
    if lines.next().is_some() {
        return None;
    }
    Some(Reading::Facts(Facts { n, t, accepted, lamps, opened }))
}

#[cfg(test)]
pub mod tests {
    use super::*;

    /// What the library says of a record that it does not refuse.
    pub fn facts_of(bytes: &[u8]) -> Option<Facts> {
        match parse(&crate::doumbaht::text(bytes)).expect("a text") {
            Reading::Facts(facts) => Some(facts),
            Reading::Refused(_) => None,
        }
    }

    const LINES: [&str; 9] = [
        "size 5 1",
        "dealer accepted",
        "happy 1 2 3 4",
        "lamp 1 share 10",
        "lamp 2 share 13",
        "lamp 3 refused 7",
        "lamp 4 share 65520",
        "lamp 5 share 22",
        "opened refused 10",
    ];

    #[test]
    fn every_line_counts() {
        let Some(Reading::Facts(facts)) = parse(&LINES.join("\n")) else { panic!("not read") };
        assert_eq!((facts.n, facts.t, facts.accepted), (5, 1, true));
        assert_eq!(facts.lamps[2], Outcome::Refused(7));
        assert_eq!(facts.lamps[3], Outcome::Number(65520));
        assert_eq!(facts.opened, Outcome::Refused(10));
        for left_out in 0..LINES.len() {
            let mut lines = LINES.to_vec();
            lines.remove(left_out);
            assert_eq!(parse(&lines.join("\n")), None);
        }
        assert_eq!(parse(&(LINES.join("\n") + "\nopened 7")), None);
    }

    #[test]
    fn rejected_has_no_happy_line() {
        let mut lines = LINES.to_vec();
        lines[1] = "dealer rejected";
        assert_eq!(parse(&lines.join("\n")), None);
        lines.remove(2);
        let Some(Reading::Facts(facts)) = parse(&lines.join("\n")) else { panic!("not read") };
        assert!(!facts.accepted);
    }

    #[test]
    fn refused_record() {
        assert_eq!(parse("record refused 6\n"), Some(Reading::Refused(6)));
        assert_eq!(parse(""), None);
    }
}
