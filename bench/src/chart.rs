//! The measurement as a chart: how the ratios lie by size and by family, and the time per move by size.

use crate::engine::ENGINES;
use crate::families::WITHOUT_VOTERS;
use crate::inputs::{Tape, SIZES, TAPES};
use crate::ratios::Ratios;
use crate::rows::{by_family, by_size, median_time, Row, Spread, Work};
use crate::svg::{Anchor, Svg, FAINT, INK, MARGIN};
use crate::table::grouped;

const WIDTH: f64 = 960.0;
const COLOURS: [&str; 2] = ["#b45309", "#0b6e99"];

pub fn chart(rows: &[Row], about: &[String]) -> String {
    let panels = [
        ("By size, over all seeds and all families but voters", by_size(rows, &WITHOUT_VOTERS)),
        ("By family, over all sizes and seeds", by_family(rows)),
    ];
    let ratios = Ratios::new(panels.iter().flat_map(|(_, summaries)| summaries));
    let mut svg = Svg::new(WIDTH);
    svg.bold(MARGIN, 38.0, Anchor::Start, 20, "Peeriewick beside a plain engine in C");
    let mut y = 60.0;
    for line in about {
        svg.text(MARGIN, y, Anchor::Start, 12, line);
        y += 18.0;
    }
    y = ratios.draw_key(&mut svg, y + 18.0);
    for (title, summaries) in &panels {
        y = ratios.draw(&mut svg, y + 26.0, title, summaries);
    }
    let moves = Moves::new(rows, y + 60.0);
    moves.draw(&mut svg, rows);
    svg.finish(moves.bottom + 56.0)
}

/// Medians of the time per move, without voters. Both axes are logarithmic.
struct Moves {
    least: f64,
    most: f64,
    top: f64,
    bottom: f64,
}

impl Moves {
    const LEFT: f64 = 110.0;
    const RIGHT: f64 = 660.0;
    const HEIGHT: f64 = 280.0;
    const LEGEND: f64 = 700.0;

    /// The axis of times ends at the marks next to the least and the most.
    fn new(rows: &[Row], top: f64) -> Moves {
        let of_work = |work| SIZES.map(|gates| [0, 1].map(|which| median_time(rows, &WITHOUT_VOTERS, work, gates, which)));
        let Spread { least, most, .. } = Spread::of(TAPES.map(Work::Run).map(of_work).into_iter().flatten().flatten());
        let below = ticks().filter(|&tick| tick <= least).fold(1.0, f64::max);
        let above = ticks().filter(|&tick| tick >= most).fold(1e9, f64::min);
        Moves { least: below, most: above, top, bottom: top + Self::HEIGHT }
    }

    fn x(gates: usize) -> f64 {
        let (first, last) = (SIZES[0] as f64 / 1.3, SIZES[SIZES.len() - 1] as f64 * 1.3);
        Self::LEFT + (Self::RIGHT - Self::LEFT) * (gates as f64 / first).ln() / (last / first).ln()
    }

    fn y(&self, time: f64) -> f64 {
        self.bottom - (self.bottom - self.top) * (time / self.least).ln() / (self.most / self.least).ln()
    }

    fn draw(&self, svg: &mut Svg, rows: &[Row]) {
        let title = "Time per move of a run, median over all seeds and all families but voters (both axes logarithmic)";
        svg.bold(MARGIN, self.top - 22.0, Anchor::Start, 15, title);
        self.draw_axes(svg);
        for (place, tape) in TAPES.into_iter().enumerate() {
            for (which, engine) in ENGINES.iter().enumerate() {
                let point = |gates| (Self::x(gates), self.y(median_time(rows, &WITHOUT_VOTERS, Work::Run(tape), gates, which)));
                draw_series(svg, &SIZES.map(point), COLOURS[which], tape);
                let (x, y) = (Self::LEGEND, self.top + 20.0 + 26.0 * (2 * place + which) as f64);
                draw_series(svg, &[(x, y), (x + 34.0, y)], COLOURS[which], tape);
                svg.text(x + 44.0, y + 4.0, Anchor::Start, 12, &format!("{}, {}", engine.name, tape_name(tape)));
            }
        }
    }

    fn draw_axes(&self, svg: &mut Svg) {
        for tick in ticks().filter(|&tick| tick >= self.least && tick <= self.most) {
            let y = self.y(tick);
            svg.line((Self::LEFT, y), (Self::RIGHT, y), FAINT, 1.0, false);
            svg.text(Self::LEFT - 8.0, y + 4.0, Anchor::End, 12, &time_name(tick));
        }
        for gates in SIZES {
            let x = Self::x(gates);
            svg.line((x, self.top), (x, self.bottom), FAINT, 1.0, false);
            svg.text(x, self.bottom + 18.0, Anchor::Middle, 12, &grouped(gates as f64));
        }
        svg.line((Self::LEFT, self.top), (Self::LEFT, self.bottom), INK, 1.0, false);
        svg.line((Self::LEFT, self.bottom), (Self::RIGHT, self.bottom), INK, 1.0, false);
        svg.text((Self::LEFT + Self::RIGHT) / 2.0, self.bottom + 40.0, Anchor::Middle, 13, "gates of the map");
        svg.upward(44.0, (self.top + self.bottom) / 2.0, 13, "time per move");
    }
}

/// 1, 2, 5, 10, 20 and so on, in nanoseconds.
fn ticks() -> impl Iterator<Item = f64> {
    (0..9).flat_map(|decade| [1.0, 2.0, 5.0].map(|digit| digit * 10f64.powi(decade)))
}

fn time_name(nanoseconds: f64) -> String {
    match nanoseconds {
        time if time < 1e3 => format!("{} ns", time),
        time if time < 1e6 => format!("{} µs", time / 1e3),
        time => format!("{} ms", time / 1e6),
    }
}

fn tape_name(tape: Tape) -> &'static str {
    match tape {
        Tape::DownUp => "down and up",
        Tape::Greedy => "greedy",
    }
}

/// Greedy tapes are dashed lines with squares, the others plain lines with discs.
fn draw_series(svg: &mut Svg, points: &[(f64, f64)], colour: &str, tape: Tape) {
    for ends in points.windows(2) {
        svg.line(ends[0], ends[1], colour, 2.0, tape == Tape::Greedy);
    }
    for &(x, y) in points {
        match tape {
            Tape::DownUp => svg.circle(x, y, 4.0, colour),
            Tape::Greedy => svg.rect(x - 3.5, y - 3.5, 7.0, 7.0, colour),
        }
    }
}
