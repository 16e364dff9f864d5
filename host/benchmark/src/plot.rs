//! Time against size, as SVG.

use crate::sides::Timed;
use crate::statistics::Spread;
use std::fmt::Write;

const WIDTH: f64 = 800.0;
const HEIGHT: f64 = 480.0;
const LEFT: f64 = 70.0;
/// Room for the curves' names at their ends.
const RIGHT: f64 = 200.0;
const TOP: f64 = 50.0;
const BOTTOM: f64 = 60.0;
/// Two names stand at least so far apart.
const LINE: f64 = 16.0;

const RUST: &str = "#b4500b";
const OURS: &str = "#1c5d99";
const INK: &str = "#333333";
const GRID: &str = "#dddddd";

struct Curve {
    name: &'static str,
    color: &'static str,
    /// The readings are dashed.
    dashes: &'static str,
    /// Bytes and seconds.
    points: Vec<(f64, Spread)>,
}

fn curves(timed: &[Timed]) -> [Curve; 4] {
    let points = |of: fn(&Timed) -> Spread| -> Vec<(f64, Spread)> {
        let point = |timed: &Timed| (timed.bytes as f64, of(timed));
        timed.iter().map(point).collect()
    };
    [
        Curve {
            name: "Rust: parse and to_siin",
            color: RUST,
            dashes: "none",
            points: points(|timed| timed.text.rust),
        },
        Curve {
            name: "Rust: parse",
            color: RUST,
            dashes: "6 4",
            points: points(|timed| timed.reading.rust),
        },
        Curve {
            name: "ours: text call",
            color: OURS,
            dashes: "none",
            points: points(|timed| timed.text.ours),
        },
        Curve {
            name: "ours: reading",
            color: OURS,
            dashes: "6 4",
            points: points(|timed| timed.reading.ours),
        },
    ]
}

/// A round step that cuts a length into at most eight parts.
fn step(length: f64) -> f64 {
    let mut ten = 10f64.powf((length / 8.0).log10().floor());
    loop {
        for factor in [1.0, 2.0, 5.0] {
            if length <= 8.0 * ten * factor {
                return ten * factor;
            }
        }
        ten *= 10.0;
    }
}

/// Without the digits that a product of a fraction ends in.
fn number(mark: f64) -> f64 {
    (mark * 1e6).round() / 1e6
}

/// Both axes are linear and start at zero, so that a time that grows linearly is a straight line
/// through the corner. A bar at each point goes from the least to the most time.
pub fn svg(timed: &[Timed]) -> String {
    let curves = curves(timed);
    let all = || curves.iter().flat_map(|curve| &curve.points);
    let widest = all().map(|(bytes, _)| *bytes).fold(1.0, f64::max);
    let longest = all().map(|(_, time)| time.most * 1e3).fold(1e-6, f64::max);
    let (across, up) = (WIDTH - LEFT - RIGHT, HEIGHT - TOP - BOTTOM);
    let step_up = step(longest);
    let high = (longest / step_up).ceil() * step_up;
    let step_across = step(widest / 1e6);
    let wide = (widest / 1e6 / step_across).ceil() * step_across;
    let x = |megabytes: f64| LEFT + megabytes / wide * across;
    let y = |milliseconds: f64| TOP + up - milliseconds / high * up;

    let mut out = String::new();
    // Writing to a string does not fail.
    let mut put = |line: String| writeln!(out, "{line}").unwrap();
    put(format!(
        "<svg xmlns=\"http://www.w3.org/2000/svg\" viewBox=\"0 0 {WIDTH} {HEIGHT}\" \
         font-family=\"sans-serif\" font-size=\"13\" fill=\"{INK}\">"
    ));
    put("<title>Time against the size of the save</title>".into());
    put("<rect width=\"100%\" height=\"100%\" fill=\"#ffffff\"/>".into());
    put(format!(
        "<text x=\"{LEFT}\" y=\"26\" font-size=\"16\">Time against the size of the save</text>"
    ));
    let (bottom, right) = (TOP + up, LEFT + across);
    for mark in 0..=(high / step_up).round() as usize {
        let at = y(mark as f64 * step_up);
        let shown = number(mark as f64 * step_up);
        put(format!(
            "<path d=\"M{LEFT} {at:.1}H{right}\" stroke=\"{GRID}\"/>\
             <text x=\"{}\" y=\"{:.1}\" text-anchor=\"end\">{shown}</text>",
            LEFT - 8.0,
            at + 4.0
        ));
    }
    for mark in 0..=(wide / step_across).round() as usize {
        let place = x(mark as f64 * step_across);
        let shown = number(mark as f64 * step_across);
        put(format!(
            "<path d=\"M{place:.1} {bottom}v5\" stroke=\"{INK}\"/>\
             <text x=\"{place:.1}\" y=\"{}\" text-anchor=\"middle\">{shown}</text>",
            bottom + 20.0
        ));
    }
    put(format!(
        "<path d=\"M{LEFT} {TOP}V{bottom}H{right}\" fill=\"none\" stroke=\"{INK}\"/>"
    ));
    put(format!(
        "<text x=\"{}\" y=\"{}\" text-anchor=\"middle\">size of the file, MB</text>",
        LEFT + across / 2.0,
        HEIGHT - 14.0
    ));
    let middle = TOP + up / 2.0;
    put(format!(
        "<text x=\"18\" y=\"{middle}\" text-anchor=\"middle\" \
         transform=\"rotate(-90 18 {middle})\">time, ms</text>"
    ));
    let mut names: Vec<(f64, &Curve)> = Vec::new();
    for curve in &curves {
        let color = curve.color;
        let place = |(bytes, time): &(f64, Spread)| (x(bytes / 1e6), y(time.median * 1e3));
        let line: Vec<String> = curve
            .points
            .iter()
            .map(|point| format!("{:.1},{:.1}", place(point).0, place(point).1))
            .collect();
        put(format!(
            "<polyline points=\"{}\" fill=\"none\" stroke=\"{color}\" stroke-width=\"2\" \
             stroke-dasharray=\"{}\"/>",
            line.join(" "),
            curve.dashes
        ));
        for point in &curve.points {
            let ((at_x, at_y), time) = (place(point), point.1);
            put(format!(
                "<path d=\"M{at_x:.1} {:.1}V{:.1}\" stroke=\"{color}\"/>\
                 <circle cx=\"{at_x:.1}\" cy=\"{at_y:.1}\" r=\"3\" fill=\"{color}\"/>",
                y(time.least * 1e3),
                y(time.most * 1e3)
            ));
        }
        if let Some(last) = curve.points.last() {
            names.push((place(last).1, curve));
        }
    }
    names.sort_by(|a, b| a.0.total_cmp(&b.0));
    // The lowest name stays inside the picture, and those above make room for it.
    let mut below = HEIGHT - BOTTOM + LINE;
    for (at, _) in names.iter_mut().rev() {
        *at = at.min(below - LINE);
        below = *at;
    }
    for (at, curve) in names {
        put(format!(
            "<text x=\"{:.1}\" y=\"{:.1}\" fill=\"{}\">{}</text>",
            x(widest / 1e6) + 10.0,
            at + 4.0,
            curve.color,
            curve.name
        ));
    }
    put("</svg>".into());
    out
}

#[cfg(test)]
mod tests {
    use super::*;
    use crate::sides::Compared;

    #[test]
    fn steps() {
        assert_eq!(step(16.0), 2.0);
        assert_eq!(step(8.0), 1.0);
        assert_eq!(step(300.0), 50.0);
        assert_eq!(step(801.0), 200.0);
    }

    #[test]
    fn a_picture_of_both_sides() {
        let spread = |median: f64| Spread {
            median,
            least: median * 0.9,
            most: median * 1.1,
        };
        let timed: Vec<Timed> = [1, 16]
            .into_iter()
            .map(|size| {
                let compared = |ours: f64, rust: f64| Compared {
                    ours: spread(ours * size as f64),
                    rust: spread(rust * size as f64),
                    ratio: spread(rust / ours),
                };
                Timed {
                    bytes: size * 1_000_000,
                    text_bytes: size * 3_000_000,
                    rows: 4096,
                    reading: compared(0.01, 0.02),
                    text: compared(0.03, 0.06),
                }
            })
            .collect();
        let picture = svg(&timed);
        assert!(picture.starts_with("<svg ") && picture.ends_with("</svg>\n"));
        assert_eq!(picture.matches("<polyline").count(), 4);
        assert_eq!(picture.matches("<circle").count(), 8);
        for name in [
            "Rust: parse<",
            "Rust: parse and to_siin<",
            "ours: text call<",
            "ours: reading<",
        ] {
            assert!(picture.contains(name), "{name}");
        }
        assert!(!picture.contains("NaN") && !picture.contains("inf"));
    }
}
