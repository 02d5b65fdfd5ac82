//! The chart's panels of ratios: for each line of the table how the times lie, and below that how the instructions lie.

use crate::about::TARGET;
use crate::rows::{Spread, Summary};
use crate::svg::{Anchor, Svg, FAINT, INK, MARGIN};
use crate::table::spread;

const LEFT: f64 = 250.0;
const RIGHT: f64 = 640.0;
const LINE: f64 = 22.0;
const GAP: f64 = 8.0;

/// How a spread is drawn: where in its line, how high, and in which colours.
struct Look {
    from_top: f64,
    height: f64,
    range: &'static str,
    median: &'static str,
}

const TIMES: Look = Look { from_top: 3.0, height: 9.0, range: "#8cc3dc", median: "#0b4f6c" };
const COUNTS: Look = Look { from_top: 13.5, height: 4.0, range: "#e3c08f", median: "#7c4a03" };

/// The ratios' axis, which is the same for all panels.
pub struct Ratios {
    begin: f64,
    end: f64,
}

impl Ratios {
    const STEP: f64 = 0.25;

    /// The axis ends at the ticks next to the least and the most.
    pub fn new<'a>(summaries: impl Iterator<Item = &'a Summary>) -> Ratios {
        let spreads: Vec<Spread> = summaries.flat_map(|summary| [summary.times, summary.counts]).collect();
        let least = spreads.iter().map(|spread| spread.least).fold(1.0, f64::min);
        let most = spreads.iter().map(|spread| spread.most).fold(TARGET, f64::max);
        Ratios { begin: (least / Self::STEP).floor() * Self::STEP, end: (most / Self::STEP).ceil() * Self::STEP }
    }

    fn x(&self, ratio: f64) -> f64 {
        LEFT + (RIGHT - LEFT) * (ratio - self.begin) / (self.end - self.begin)
    }

    /// What the shapes mean. Returns where it ends, as the functions below do.
    pub fn draw_key(&self, svg: &mut Svg, top: f64) -> f64 {
        svg.bold(MARGIN, top, Anchor::Start, 15, "Peeriewick's number / plain C's number (less is better)");
        for (place, (look, name)) in [(TIMES, "times"), (COUNTS, "instructions")].iter().enumerate() {
            let (x, y) = (MARGIN + 270.0 * place as f64, top + 14.0);
            svg.rect(x, y + 6.0 - look.height / 2.0, 60.0, look.height, look.range);
            svg.rect(x + 24.0, y + 6.0 - look.height / 2.0 - 2.0, 3.0, look.height + 4.0, look.median);
            svg.text(x + 70.0, y + 10.0, Anchor::Start, 12, &format!("{}: least, median, most", name));
        }
        top + 30.0
    }

    pub fn draw(&self, svg: &mut Svg, top: f64, title: &str, summaries: &[Summary]) -> f64 {
        svg.bold(MARGIN, top, Anchor::Start, 13, title);
        svg.text(RIGHT + 150.0, top, Anchor::End, 12, "times");
        svg.text(RIGHT + 290.0, top, Anchor::End, 12, "instructions");
        let tops = line_tops(top + 26.0, summaries);
        let bottom = tops.last().map_or(top, |last| last + LINE) + 2.0;
        self.draw_axis(svg, top + 22.0, bottom);
        for (place, (summary, &y)) in summaries.iter().zip(&tops).enumerate() {
            if place == 0 || summaries[place - 1].work != summary.work {
                svg.bold(MARGIN, y + 14.0, Anchor::Start, 13, summary.work.name());
            }
            self.draw_line(svg, y, summary);
        }
        bottom + 30.0
    }

    /// The lines of equal numbers and of the target are drawn before the spreads, so that these can be read.
    fn draw_axis(&self, svg: &mut Svg, top: f64, bottom: f64) {
        let ticks = ((self.end - self.begin) / Self::STEP).round() as usize;
        for tick in 0..=ticks {
            let ratio = self.begin + Self::STEP * tick as f64;
            let x = self.x(ratio);
            svg.line((x, top), (x, bottom), FAINT, 1.0, false);
            svg.text(x, bottom + 15.0, Anchor::Middle, 11, &format!("{}", ratio));
        }
        svg.line((LEFT, bottom), (RIGHT, bottom), INK, 1.0, false);
        let (equal, target) = (self.x(1.0), self.x(TARGET));
        svg.line((equal, top), (equal, bottom), INK, 1.0, false);
        svg.line((target, top), (target, bottom), "#c81e1e", 1.0, true);
        svg.text(target, top - 3.0, Anchor::Middle, 11, &format!("target {}", TARGET));
    }

    fn draw_line(&self, svg: &mut Svg, y: f64, summary: &Summary) {
        svg.text(LEFT - 8.0, y + 14.0, Anchor::End, 12, &summary.name);
        self.draw_spread(svg, y, summary.times, &TIMES);
        self.draw_spread(svg, y, summary.counts, &COUNTS);
        svg.text(RIGHT + 150.0, y + 14.0, Anchor::End, 12, &spread(summary.times));
        svg.text(RIGHT + 290.0, y + 14.0, Anchor::End, 12, &spread(summary.counts));
    }

    fn draw_spread(&self, svg: &mut Svg, y: f64, spread: Spread, look: &Look) {
        let (from, to) = (self.x(spread.least), self.x(spread.most));
        svg.rect(from, y + look.from_top, to - from, look.height, look.range);
        svg.rect(self.x(spread.median) - 1.5, y + look.from_top - 1.0, 3.0, look.height + 2.0, look.median);
    }
}

/// A gap stands before each new work.
fn line_tops(top: f64, summaries: &[Summary]) -> Vec<f64> {
    let mut y = top;
    let mut tops = Vec::new();
    for (place, summary) in summaries.iter().enumerate() {
        if place > 0 && summaries[place - 1].work != summary.work {
            y += GAP;
        }
        tops.push(y);
        y += LINE;
    }
    tops
}
