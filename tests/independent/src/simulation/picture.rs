//! The distributions by class as a picture (SVG): for each class a curve of how many of its tasks come at least so close to their bounds. Where it ends, on the
//! right, stands the share of the tasks that are as late as their bounds.

use super::closeness::Class;

const WIDTH: u32 = 690;
const HEIGHT: u32 = 300;
/// Where the curves are drawn.
const LEFT: f64 = 52.0;
const RIGHT: f64 = 432.0;
const TOP: f64 = 20.0;
const BASE: f64 = 244.0;
/// Labels are at least so far apart.
const LINE: f64 = 17.0;
const POINTS: u32 = 100;

const STYLE: &str = "
    text { font: 12px sans-serif; fill: #444 }
    .grid { stroke: #ddd }
    .curve { fill: none; stroke-width: 2 }
    .c0, .c2 { stroke-dasharray: 6 3 }
    .c0, .c1 { stroke: #0072b2 }
    .c2, .c3 { stroke: #d55e00 }
    .l0, .l1 { fill: #0072b2 }
    .l2, .l3 { fill: #c04e00 }
    @media (prefers-color-scheme: dark) {
      text { fill: #bbb }
      .grid { stroke: #444 }
      .c0, .c1 { stroke: #56b4e9 }
      .c2, .c3 { stroke: #ff9d4d }
      .l0, .l1 { fill: #56b4e9 }
      .l2, .l3 { fill: #ff9d4d }
    }
  ";

pub fn text(classes: &[Class; 4]) -> String {
    let known: Vec<(usize, &Class)> = classes.iter().enumerate().filter(|(_, class)| !class.quotients.is_empty()).collect();
    let curves: String = known.iter().map(|&(at, class)| curve(at, class)).collect();
    format!(
        "<svg xmlns=\"http://www.w3.org/2000/svg\" viewBox=\"0 0 {WIDTH} {HEIGHT}\" width=\"{WIDTH}\" height=\"{HEIGHT}\" role=\"img\">
  <title>How many tasks of each class come how close to their bounds</title>
  <style>{STYLE}</style>
{}{curves}{}</svg>
",
        axes(),
        labels(known)
    )
}

/// Where a quotient of observed by bound stands, and where a share of the tasks does.
fn across(quotient: f64) -> f64 {
    LEFT + (RIGHT - LEFT) * quotient
}

fn up(share: f64) -> f64 {
    BASE - (BASE - TOP) * share
}

fn axes() -> String {
    let marks = [0.0, 0.25, 0.5, 0.75, 1.0];
    let below: String = marks.iter().map(|mark| words(across(*mark), BASE + 17.0, "middle", "", &format!("{mark}"))).collect();
    let beside: String = marks.iter().map(|mark| words(LEFT - 8.0, up(*mark) + 4.0, "end", "", &format!("{} %", 100.0 * mark))).collect();
    let grid: String = marks.iter().map(|mark| line(LEFT, up(*mark), RIGHT, up(*mark)) + &line(across(*mark), TOP, across(*mark), BASE)).collect();
    let under = words((LEFT + RIGHT) / 2.0, BASE + 38.0, "middle", "", "tasks whose observed / bound is at least this");
    grid + &below + &beside + &under
}

fn line(x1: f64, y1: f64, x2: f64, y2: f64) -> String {
    format!("  <line class=\"grid\" x1=\"{x1}\" y1=\"{y1}\" x2=\"{x2}\" y2=\"{y2}\"/>\n")
}

fn words(x: f64, y: f64, anchor: &str, class: &str, text: &str) -> String {
    let text = text.replace('<', "&lt;").replace('>', "&gt;");
    format!("  <text class=\"{class}\" x=\"{x}\" y=\"{y:.1}\" text-anchor=\"{anchor}\">{text}</text>\n")
}

fn curve(at: usize, class: &Class) -> String {
    let point = |hundredths: u32| {
        let quotient = f64::from(hundredths) / f64::from(POINTS);
        format!("{:.1},{:.1}", across(quotient), up(class.reaching(quotient)))
    };
    let points: Vec<String> = (0..=POINTS).map(point).collect();
    format!("  <polyline class=\"curve c{at}\" points=\"{}\"/>\n", points.join(" "))
}

/// Each beside the end of its curve, or above that, where two would stand on each other.
fn labels(mut known: Vec<(usize, &Class)>) -> String {
    known.sort_by(|(_, one), (_, other)| one.reaching(1.0).total_cmp(&other.reaching(1.0)));
    let mut lowest = f64::INFINITY;
    let label = |(at, class): (usize, &Class)| {
        let equal = class.reaching(1.0);
        let y = lowest.min(up(equal) + 4.0);
        lowest = y - LINE;
        words(RIGHT + 10.0, y, "start", &format!("l{at}"), &format!("{}: {:.1} % equal", class.name, 100.0 * equal))
    };
    known.into_iter().map(label).collect()
}
