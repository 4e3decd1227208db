//! A figure as a line of text, so that the runs with and without the check can be told together.
use std::fmt;
use std::str::FromStr;

#[derive(Clone, Copy, PartialEq, Debug)]
pub enum Call {
    Check,
    Merge,
    Picture,
    Spot,
    OracleMerge,
    OraclePicture,
    OracleSpot,
}

impl Call {
    pub const ALL: [Call; 7] =
        [Call::Check, Call::Merge, Call::Picture, Call::Spot, Call::OracleMerge, Call::OraclePicture, Call::OracleSpot];

    fn name(self) -> &'static str {
        match self {
            Call::Check => "check",
            Call::Merge => "merge",
            Call::Picture => "picture",
            Call::Spot => "spot",
            Call::OracleMerge => "oracle-merge",
            Call::OraclePicture => "oracle-picture",
            Call::OracleSpot => "oracle-spot",
        }
    }
}

/// Lower quartile, median and upper quartile, in ms.
#[derive(PartialEq, Debug)]
pub struct Figure {
    pub checked: bool,
    pub document: String,
    pub rows: usize,
    pub call: Call,
    pub times: [f64; 3],
}

const CHECKED: [(bool, &str); 2] = [(true, "checked"), (false, "unchecked")];

impl fmt::Display for Figure {
    fn fmt(&self, to: &mut fmt::Formatter<'_>) -> fmt::Result {
        let Figure { checked, document, rows, call, times: [lower, median, upper] } = self;
        let build = CHECKED.into_iter().find(|(is, _)| is == checked).map_or("", |(_, build)| build);
        write!(to, "{build} {document} {rows} {} {lower} {median} {upper}", call.name())
    }
}

impl FromStr for Figure {
    type Err = String;

    fn from_str(line: &str) -> Result<Figure, String> {
        let none = || format!("no figure: {line}");
        let [build, document, rows, call, lower, median, upper] = line.split(' ').collect::<Vec<_>>()[..] else {
            return Err(none());
        };
        let time = |word: &str| word.parse::<f64>().map_err(|_| none());
        Ok(Figure {
            checked: CHECKED.into_iter().find(|(_, name)| *name == build).ok_or_else(none)?.0,
            document: document.into(),
            rows: rows.parse().map_err(|_| none())?,
            call: Call::ALL.into_iter().find(|known| known.name() == call).ok_or_else(none)?,
            times: [time(lower)?, time(median)?, time(upper)?],
        })
    }
}

/// All figures of a text, one to a line.
pub fn read(text: &str) -> Result<Vec<Figure>, String> {
    text.lines().map(str::parse).collect()
}

/// The medians of one call on one kind of document, by rows.
pub fn medians(figures: &[Figure], document: &str, checked: bool, call: Call) -> Vec<(usize, f64)> {
    let of_these = |figure: &&Figure| figure.document == document && figure.checked == checked && figure.call == call;
    figures.iter().filter(of_these).map(|figure| (figure.rows, figure.times[1])).collect()
}
