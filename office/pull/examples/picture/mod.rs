//! A season as a picture, in SVG: a point for the F number of each series' contrast, the
//! worst of the latest twenty as a line of steps, the refusals at the foot.
//!
//! What has no place on the F axis has a lane of its own: infinite F above it; below it,
//! F at or below zero, or too small, where the axis is logarithmic, series that give no
//! F, and the refused ones. A lane is drawn where something stands in it, and the legend explains
//! what is drawn.

mod scale;
mod svg;

use crate::judged::{Entry, Season, LATEST};
use scale::{round_step, Scale};
use svg::{Anchor, Svg};

const WIDTH: f64 = 1080.0;
const HEIGHT: f64 = 520.0;
/// The plot: its left and right end, its top and its bottom, lanes included.
const LEFT: f64 = 92.0;
const RIGHT: f64 = 824.0;
const TOP: f64 = 80.0;
const BOTTOM: f64 = 462.0;
/// The height of a lane, and of that of the refused ones, whose numbers stand in it.
const LANE: f64 = 28.0;
const REFUSED_LANE: f64 = 36.0;

const BLUE: &str = "#1f5fa8";
const ORANGE: &str = "#d9730d";
const RED: &str = "#c01c28";
const GREY: &str = "#77767b";
const PALE: &str = "#e4e4e4";
const BAND: &str = "#f3f1e8";
const WHITE: &str = "#ffffff";

/// From this distance of neighbouring series on, refusals have their numbers beside them.
const ROOM_FOR_NUMBERS: f64 = 11.0;

/// Where the lanes stand, of those that are used.
#[derive(Default)]
struct Lanes {
    infinite: Option<f64>,
    low: Option<f64>,
    no_f: Option<f64>,
    refused: Option<f64>,
}

/// All that says where something is drawn.
struct Layout {
    series: usize,
    /// Series numbers across the plot, the left-over bytes' place included.
    across: usize,
    scale: Scale,
    /// The F axis: its upper and its lower end.
    axis: (f64, f64),
    lanes: Lanes,
}

impl Layout {
    fn of(season: &Season) -> Layout {
        let series = season.entries.len();
        let numbers: Vec<f64> = season.entries.iter().filter_map(Entry::f).collect();
        let scale = Scale::of(&numbers);
        let mut axis = (TOP, BOTTOM);
        let mut lanes = Lanes::default();
        if season.left_over > 0 || season.entries.iter().any(|entry| entry.answer.is_err()) {
            lanes.refused = Some(axis.1 - REFUSED_LANE + 14.0);
            axis.1 -= REFUSED_LANE;
        }
        if season.entries.iter().any(gives_none) {
            lanes.no_f = Some(axis.1 - LANE / 2.0);
            axis.1 -= LANE;
        }
        if numbers.iter().any(|&f| f != f64::INFINITY && scale.place(f).is_none()) {
            lanes.low = Some(axis.1 - LANE / 2.0);
            axis.1 -= LANE;
        }
        if numbers.contains(&f64::INFINITY) {
            lanes.infinite = Some(axis.0 + LANE / 2.0);
            axis.0 += LANE;
        }
        let across = (series + usize::from(season.left_over > 0)).max(1);
        Layout { series, across, scale, axis, lanes }
    }

    /// The distance of neighbouring series.
    fn step(&self) -> f64 {
        (RIGHT - LEFT) / self.across as f64
    }

    /// The middle of a series, from 1.
    fn x(&self, number: usize) -> f64 {
        LEFT + (number as f64 - 0.5) * self.step()
    }

    /// The height of an F number, on the axis or in its lane.
    fn y(&self, f: f64) -> f64 {
        let lane = if f == f64::INFINITY { self.lanes.infinite } else { self.lanes.low };
        let on_axis = self.scale.place(f).map(|at| self.axis.1 - at * (self.axis.1 - self.axis.0));
        on_axis.or(lane).unwrap_or(self.axis.1)
    }
}

/// An accepted series that gives no F: without a contrast, or with none.
fn gives_none(entry: &Entry) -> bool {
    entry.answer.is_ok() && entry.f().is_none()
}

/// The picture of a season.
pub fn picture(season: &Season) -> String {
    let layout = Layout::of(season);
    let mut svg = Svg::new(WIDTH, HEIGHT);
    svg.text((LEFT, 30.0), 18, Anchor::Start, "F of the contrast over the season");
    svg.text((LEFT, 54.0), 13, Anchor::Start, &season.worst_sentence());
    latest_band(&mut svg, &layout);
    f_axis(&mut svg, &layout);
    series_axis(&mut svg, &layout);
    lanes(&mut svg, &layout);
    worst_line(&mut svg, &layout, season);
    for (i, entry) in season.entries.iter().enumerate() {
        point(&mut svg, &layout, i + 1, entry);
    }
    worst_ring(&mut svg, &layout, season);
    left_over(&mut svg, &layout, season);
    if season.entries.is_empty() {
        let middle = ((LEFT + RIGHT) / 2.0, (TOP + BOTTOM) / 2.0);
        svg.text(middle, 14, Anchor::Middle, "no closed series");
    }
    legend(&mut svg, &layout, season);
    svg.finish()
}

/// The latest twenty, behind all else.
fn latest_band(svg: &mut Svg, layout: &Layout) {
    let latest = layout.series.min(LATEST) as f64 * layout.step();
    let right = LEFT + layout.series as f64 * layout.step();
    svg.rectangle((right - latest, TOP), (latest, BOTTOM - TOP), BAND);
}

fn f_axis(svg: &mut Svg, layout: &Layout) {
    let (top, bottom) = layout.axis;
    for tick in layout.scale.ticks() {
        let y = bottom - tick.at * (bottom - top);
        svg.line((LEFT, y), (RIGHT, y), PALE);
        svg.text((LEFT - 8.0, y + 4.0), 12, Anchor::End, &tick.text);
    }
    svg.line((LEFT, TOP), (LEFT, BOTTOM), GREY);
    let name = if layout.scale.is_log() { "F (logarithmic)" } else { "F" };
    svg.upwards((24.0, (top + bottom) / 2.0), 13, name);
}

fn series_axis(svg: &mut Svg, layout: &Layout) {
    svg.line((LEFT, BOTTOM), (RIGHT, BOTTOM), GREY);
    let step = round_step((layout.series as f64 / 12.0).max(1.0)) as usize;
    for number in (step..=layout.series).step_by(step) {
        let x = layout.x(number);
        svg.line((x, BOTTOM), (x, BOTTOM + 5.0), GREY);
        svg.text((x, BOTTOM + 19.0), 12, Anchor::Middle, &number.to_string());
    }
    svg.text(((LEFT + RIGHT) / 2.0, BOTTOM + 42.0), 13, Anchor::Middle, "series");
}

/// The names of the lanes, and a line between them and the axis.
fn lanes(svg: &mut Svg, layout: &Layout) {
    let low = if layout.scale.is_log() { "lower" } else { "−∞" };
    let Lanes { infinite, low: low_lane, no_f, refused } = layout.lanes;
    let names = [(infinite, "∞"), (low_lane, low), (no_f, "no F"), (refused, "refused")];
    for (y, name) in names.into_iter().filter_map(|(y, name)| Some((y?, name))) {
        svg.text_in((LEFT - 8.0, y + 4.0), 12, Anchor::End, GREY, name);
    }
    for y in [layout.axis.0, layout.axis.1] {
        svg.line((LEFT, y), (RIGHT, y), GREY);
    }
}

/// The worst after each series, as steps; nothing where there is none.
fn worst_line(svg: &mut Svg, layout: &Layout, season: &Season) {
    let mut path = String::new();
    let mut drawing = false;
    for (i, entry) in season.entries.iter().enumerate() {
        let Some(worst) = entry.worst else {
            drawing = false;
            continue;
        };
        let (y, half) = (layout.y(worst.f), layout.step() / 2.0);
        let (from, to) = (layout.x(i + 1) - half, layout.x(i + 1) + half);
        let letter = if drawing { 'L' } else { 'M' };
        path += &format!("{letter}{from:.1} {y:.1}L{to:.1} {y:.1}");
        drawing = true;
    }
    if !path.is_empty() {
        svg.path(&path, ORANGE);
    }
}

/// The mark of a series: a point, hollow where the contrast is outside; a square where
/// it gives no F; a cross where it was refused.
fn point(svg: &mut Svg, layout: &Layout, number: usize, entry: &Entry) {
    let x = layout.x(number);
    match &entry.answer {
        Err(refusal) => {
            let y = layout.lanes.refused.unwrap_or(BOTTOM);
            refusal_mark(svg, layout, (x, y), refusal.number());
        }
        Ok(Some(test)) if test.f.is_some() => {
            let fill = if test.inside { BLUE } else { WHITE };
            svg.circle((x, layout.y(test.f.unwrap_or(0.0))), 3.2, fill, BLUE);
        }
        Ok(_) => square(svg, (x, layout.lanes.no_f.unwrap_or(BOTTOM))),
    }
}

fn square(svg: &mut Svg, (x, y): (f64, f64)) {
    svg.rectangle((x - 3.0, y - 3.0), (6.0, 6.0), GREY);
}

fn refusal_mark(svg: &mut Svg, layout: &Layout, (x, y): (f64, f64), number: u32) {
    svg.cross((x, y), 3.5, RED);
    if layout.step() >= ROOM_FOR_NUMBERS {
        svg.text_in((x, y + 17.0), 10, Anchor::Middle, RED, &number.to_string());
    }
}

/// A ring about the point that is the worst of the latest twenty.
fn worst_ring(svg: &mut Svg, layout: &Layout, season: &Season) {
    if let Some(worst) = season.entries.last().and_then(|entry| entry.worst) {
        svg.circle((layout.x(worst.series), layout.y(worst.f)), 7.0, "none", ORANGE);
    }
}

/// Bytes after the last closing record: a bar behind the last series, and their refusal.
fn left_over(svg: &mut Svg, layout: &Layout, season: &Season) {
    if season.left_over > 0 {
        let x = layout.x(layout.across);
        svg.line((x, TOP), (x, BOTTOM - REFUSED_LANE), RED);
        refusal_mark(svg, layout, (x, layout.lanes.refused.unwrap_or(BOTTOM)), 2);
    }
}

/// What an entry of the legend draws at a point.
type Mark = fn(&mut Svg, (f64, f64));

/// An entry for each thing that is drawn.
fn legend(svg: &mut Svg, layout: &Layout, season: &Season) {
    let any = |holds: fn(&Entry) -> bool| season.entries.iter().any(holds);
    let numbered = layout.step() >= ROOM_FOR_NUMBERS;
    let entries: [(bool, Mark, &str); 9] = [
        (
            any(|e| is_f(e, true)),
            |svg, at| svg.circle(at, 3.2, BLUE, BLUE),
            "F of the contrast, inside",
        ),
        (
            any(|e| is_f(e, false)),
            |svg, at| svg.circle(at, 3.2, WHITE, BLUE),
            "F of the contrast, outside",
        ),
        (any(|e| e.worst.is_some()), stroke, "worst of the latest twenty"),
        (worst_now(season), |svg, at| svg.circle(at, 7.0, "none", ORANGE), "the worst at the end"),
        (any(|_| true), band, "the latest twenty series"),
        (any(gives_none), square, "no contrast, or F is none"),
        (any(|e| e.answer.is_err()) && numbered, red_cross, "refused, with its number"),
        (any(|e| e.answer.is_err()) && !numbered, red_cross, "refused"),
        (season.left_over > 0, red_bar, "bytes left over, refused with 2"),
    ];
    let mut y = TOP + 8.0;
    for (_, mark, text) in entries.into_iter().filter(|(drawn, ..)| *drawn) {
        mark(svg, (RIGHT + 28.0, y));
        svg.text((RIGHT + 46.0, y + 4.0), 12, Anchor::Start, text);
        y += 24.0;
    }
    legend_of_lanes(svg, layout, y + 6.0);
}

/// What the lanes are, in words.
fn legend_of_lanes(svg: &mut Svg, layout: &Layout, mut y: f64) {
    let low = if layout.scale.is_log() {
        "lower: 0, below it, or very small"
    } else {
        "−∞: F is infinite, below zero"
    };
    let lanes = [(layout.lanes.infinite, "∞: F is infinite"), (layout.lanes.low, low)];
    for (_, text) in lanes.into_iter().filter(|(lane, _)| lane.is_some()) {
        svg.text_in((RIGHT + 20.0, y), 12, Anchor::Start, GREY, text);
        y += 20.0;
    }
}

fn is_f(entry: &Entry, inside: bool) -> bool {
    matches!(entry.answer, Ok(Some(test)) if test.f.is_some() && test.inside == inside)
}

fn worst_now(season: &Season) -> bool {
    season.entries.last().is_some_and(|entry| entry.worst.is_some())
}

fn stroke(svg: &mut Svg, (x, y): (f64, f64)) {
    svg.path(&format!("M{:.1} {y:.1}L{:.1} {y:.1}", x - 10.0, x + 10.0), ORANGE);
}

fn band(svg: &mut Svg, (x, y): (f64, f64)) {
    svg.rectangle((x - 10.0, y - 7.0), (20.0, 14.0), BAND);
}

fn red_cross(svg: &mut Svg, at: (f64, f64)) {
    svg.cross(at, 3.5, RED);
}

fn red_bar(svg: &mut Svg, (x, y): (f64, f64)) {
    svg.line((x, y - 8.0), (x, y + 8.0), RED);
}

#[cfg(test)]
mod tests {
    use super::svg::well_formed;
    use super::*;
    use pull::{Refusal, Test};
    use reader::random::Random;
    use reader::season::joined;
    use reader::season_tries::{of_beta, Stock};

    /// A season of such numbers; none for a refused series.
    fn season_of(numbers: &[Option<f64>], left_over: usize) -> Season {
        let mut season = Season { entries: Vec::new(), left_over };
        for &f in numbers {
            let test = Test { f, df: None, rank: 1, inside: true };
            let answer = if f.is_some() { Ok(Some(test)) } else { Err(Refusal::Records) };
            season.add(answer);
        }
        season
    }

    #[test]
    fn odd_seasons_are_well_formed() {
        let tiny = f64::from_bits(1);
        let seasons: [(&str, Vec<Option<f64>>); 12] = [
            ("empty", vec![]),
            ("all refused", vec![None; 30]),
            ("one series", vec![Some(9.0)]),
            ("one infinite", vec![Some(f64::INFINITY)]),
            ("infinite among others", vec![Some(1.0), Some(f64::INFINITY), None, Some(2.0)]),
            ("below all", vec![Some(f64::NEG_INFINITY), Some(1.0)]),
            ("all equal", vec![Some(4.0); 25]),
            ("all zero", vec![Some(0.0), Some(-0.0), Some(0.0)]),
            ("negative", vec![Some(-3.0), Some(-1.0)]),
            ("of every size", vec![Some(tiny), Some(f64::MAX), Some(-f64::MAX), Some(0.0)]),
            ("tiny", vec![Some(tiny)]),
            ("many", (0..3000).map(|i| (i % 7 > 0).then_some(f64::from(i))).collect()),
        ];
        for (name, numbers) in seasons {
            for left_over in [0, 5] {
                let picture = picture(&season_of(&numbers, left_over));
                assert_eq!(well_formed(&picture), Ok(()), "{name}");
                assert_eq!(picture.contains("left over"), left_over > 0, "{name}");
            }
        }
    }

    #[test]
    fn random_seasons_are_well_formed() {
        let (stock, mut random) = (Stock::new(), Random::new(5));
        for _ in 0..100 {
            let file = stock.season(&mut random);
            assert_eq!(well_formed(&picture(&Season::of(&file))), Ok(()));
        }
    }

    /// What is drawn is explained, and what is not is not.
    #[test]
    fn what_the_legend_says() {
        let file = joined(&[of_beta(6.0), Vec::new(), of_beta(2.0)], &[]);
        let text = picture(&Season::of(&file));
        for there in ["F of the contrast, inside", "refused, with its number", "series"] {
            assert!(text.contains(there), "{there}");
        }
        for absent in ["left over", "∞", "outside", "F is none", "logarithm"] {
            assert!(!text.contains(absent), "{absent}");
        }
        assert_eq!(text.matches("<circle").count(), 2 + 1 + 2);
    }
}
