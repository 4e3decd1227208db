//! The figures as tables of docs/BENCHMARKS.md.
use super::figures::{Call, Figure};

const WITH: [(&str, Call); 4] =
    [("the check", Call::Check), ("merge of 256", Call::Merge), ("picture", Call::Picture), ("spot", Call::Spot)];

const WITHOUT: [(&str, Call); 6] = [
    ("merge of 256", Call::Merge),
    ("the oracle's", Call::OracleMerge),
    ("picture", Call::Picture),
    ("the oracle's", Call::OraclePicture),
    ("spot", Call::Spot),
    ("the oracle's", Call::OracleSpot),
];

pub fn told(figures: &[Figure]) -> String {
    let mut text = String::new();
    for document in in_turn(figures.iter().map(|figure| figure.document.as_str())) {
        for (checked, sentence, columns) in
            [(true, "with the check", &WITH[..]), (false, "the check left out", &WITHOUT[..])]
        {
            text += &format!("\n**{document}**, {sentence}:\n\n");
            text += &table(figures, document, checked, columns);
        }
    }
    text
}

fn table(figures: &[Figure], document: &str, checked: bool, columns: &[(&str, Call)]) -> String {
    let of_these = |figure: &&Figure| figure.document == document && figure.checked == checked;
    let mut text = String::from("| rows |");
    columns.iter().for_each(|(name, _)| text += &format!(" {name} |"));
    text += "\n|---|";
    text += &"---|".repeat(columns.len());
    for rows in in_turn(figures.iter().filter(of_these).map(|figure| figure.rows)) {
        text += &format!("\n| {rows} |");
        for (_, call) in columns {
            let figure = figures.iter().filter(of_these).find(|figure| figure.rows == rows && figure.call == *call);
            text += &figure.map_or(" |".into(), |figure| format!(" {} |", cell(figure.times)));
        }
    }
    text + "\n"
}

fn cell([lower, median, upper]: [f64; 3]) -> String {
    format!("{} ({} to {})", short(median), short(lower), short(upper))
}

/// Three digits that count.
fn short(time: f64) -> String {
    let places = (2 - time.log10().floor() as i32).clamp(0, 5) as usize;
    format!("{time:.places$}")
}

/// Each once, as it first comes.
fn in_turn<T: PartialEq>(all: impl Iterator<Item = T>) -> Vec<T> {
    let mut seen = vec![];
    all.for_each(|one| {
        if !seen.contains(&one) {
            seen.push(one);
        }
    });
    seen
}

#[cfg(test)]
mod tests {
    use super::*;
    use crate::bench::figures;

    #[test]
    fn a_table_has_what_was_measured_and_gaps_where_nothing_was() {
        let lines = "checked flat 256 check 1.5 2 2.25\nchecked flat 512 spot 0.0123456 12.345 123.45";
        let read = figures::read(lines).unwrap();
        assert_eq!(read.iter().map(Figure::to_string).collect::<Vec<_>>().join("\n"), lines);
        let text = told(&read);
        assert!(text.contains("| 256 | 2.00 (1.50 to 2.25) | | | |"), "{text}");
        assert!(text.contains("| 512 | | | | 12.3 (0.0123 to 123) |"), "{text}");
        assert!(figures::read("checked flat many check 1 2 3").is_err());
        assert!(figures::read("checked flat 256 check 1 2").is_err());
    }
}
