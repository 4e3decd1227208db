//! The medians drawn: a panel for each kind of document, rows to the right, time upwards, each step of the scale tenfold.
use super::figures::{medians, Call, Figure};
use std::fmt::Write;

const WIDTH: f64 = 400.0;
const HEIGHT: f64 = 380.0;
const LEFT: f64 = 60.0;
const TOP: f64 = 40.0;
const GAP: f64 = 70.0;
const ROWS: [f64; 5] = [256.0, 512.0, 1024.0, 2048.0, 4096.0];
/// In ms: powers of ten.
const LEAST: i32 = -3;
const MOST: i32 = 3;

/// What is drawn: with the check, without it, and the oracle's, in one colour for each call.
const LINES: [(&str, &str, [(bool, Call, &str); 3]); 3] = [
    (
        "merge of 256",
        "#b03020",
        [(true, Call::Merge, ""), (false, Call::Merge, "7 3"), (false, Call::OracleMerge, "1 4")],
    ),
    (
        "picture",
        "#2060a0",
        [(true, Call::Picture, ""), (false, Call::Picture, "7 3"), (false, Call::OraclePicture, "1 4")],
    ),
    ("spot", "#308040", [(true, Call::Spot, ""), (false, Call::Spot, "7 3"), (false, Call::OracleSpot, "1 4")]),
];

pub fn drawn(figures: &[Figure]) -> String {
    let (wide, high) = (LEFT + 2.0 * (WIDTH + GAP), TOP + HEIGHT + 90.0);
    let mut svg = format!(
        "<svg xmlns=\"http://www.w3.org/2000/svg\" viewBox=\"0 0 {wide} {high}\" font-family=\"sans-serif\" font-size=\"12\">\n\
         <rect width=\"{wide}\" height=\"{high}\" fill=\"white\"/>\n"
    );
    for (document, left) in [("crowded", LEFT), ("flat", LEFT + WIDTH + GAP)] {
        panel(&mut svg, document, left);
        for (_, colour, lines) in LINES {
            for (checked, call, dashes) in lines {
                line(&mut svg, &medians(figures, document, checked, call), left, colour, dashes);
            }
        }
    }
    legend(&mut svg);
    svg + "</svg>\n"
}

fn across(left: f64, rows: f64) -> f64 {
    let [first, .., last] = ROWS;
    left + WIDTH * (rows / first).log2() / (last / first).log2()
}

fn up(time: f64) -> f64 {
    TOP + HEIGHT * (1.0 - (time.log10() - f64::from(LEAST)) / f64::from(MOST - LEAST))
}

fn panel(svg: &mut String, document: &str, left: f64) {
    let (right, bottom) = (left + WIDTH, TOP + HEIGHT);
    for power in LEAST..=MOST {
        let (time, y) = (10f64.powi(power), up(10f64.powi(power)));
        let _ = writeln!(svg, "<path d=\"M{left} {y}H{right}\" stroke=\"#ddd\"/>");
        let _ = writeln!(svg, "<text x=\"{}\" y=\"{}\" text-anchor=\"end\">{time}</text>", left - 6.0, y + 4.0);
    }
    for rows in ROWS {
        let x = across(left, rows);
        let _ = writeln!(svg, "<path d=\"M{x} {TOP}V{bottom}\" stroke=\"#ddd\"/>");
        let _ = writeln!(svg, "<text x=\"{x}\" y=\"{}\" text-anchor=\"middle\">{rows}</text>", bottom + 18.0);
    }
    let _ = writeln!(svg, "<text x=\"{left}\" y=\"{}\" font-weight=\"bold\">{document}: ms by rows</text>", TOP - 14.0);
}

fn line(svg: &mut String, medians: &[(usize, f64)], left: f64, colour: &str, dashes: &str) {
    let points: Vec<String> =
        medians.iter().map(|(rows, time)| format!("{:.1},{:.1}", across(left, *rows as f64), up(*time))).collect();
    let points = points.join(" ");
    let style = format!("fill=\"none\" stroke=\"{colour}\" stroke-width=\"2\" stroke-dasharray=\"{dashes}\"");
    let _ = writeln!(svg, "<polyline points=\"{points}\" {style}/>");
}

fn legend(svg: &mut String) {
    let y = TOP + HEIGHT + 44.0;
    for ((name, colour, _), x) in LINES.into_iter().zip([LEFT, LEFT + 130.0, LEFT + 230.0]) {
        let _ = writeln!(svg, "<rect x=\"{x}\" y=\"{}\" width=\"12\" height=\"12\" fill=\"{colour}\"/>", y - 10.0);
        let _ = writeln!(svg, "<text x=\"{}\" y=\"{y}\">{name}</text>", x + 18.0);
    }
    let names = ["with the check of the document", "the check left out", "the oracle"];
    for ((name, (.., dashes)), x) in names.into_iter().zip(LINES[0].2).zip([LEFT, LEFT + 250.0, LEFT + 420.0]) {
        let (y, end) = (y + 24.0, x + 36.0);
        let dashed = format!("stroke=\"#444\" stroke-width=\"2\" stroke-dasharray=\"{dashes}\"");
        let _ = writeln!(svg, "<path d=\"M{x} {}H{end}\" {dashed}/>", y - 4.0);
        let _ = writeln!(svg, "<text x=\"{}\" y=\"{y}\">{name}</text>", end + 8.0);
    }
}
