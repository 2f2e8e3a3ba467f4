//! The course of a run as a picture: share and window over time, in plain SVG 1.1.

use crate::link::{Capacity, Micros, SECOND};
use crate::rows::Row;
use crate::run::Point;
use std::fmt::{self, Display, Formatter};

const WIDTH: f64 = 720.0;
const HEIGHT: f64 = 150.0;
const LEFT: f64 = 56.0;
const TOP: f64 = 40.0;
const GAP: f64 = 44.0;

/// How many parts of the run have their own share.
const PARTS: u64 = 120;

/// The colours of the classic manner and of an end by itself.
const COLOURS: [&str; 2] = ["#999999", "#0b63b0"];

/// A row's picture.
pub struct Picture<'a> {
    row: &'a Row,
    courses: &'a [Vec<Point>],
}

/// The picture of these courses, of the classic manner first.
pub fn draw<'a>(row: &'a Row, courses: &'a [Vec<Point>]) -> Picture<'a> {
    Picture { row, courses }
}

/// A panel with an axis from 0 up to some value.
struct Panel {
    top: f64,
    greatest: f64,
    end: Micros,
}

impl Panel {
    fn place(&self, time: Micros, value: f64) -> (f64, f64) {
        let across = LEFT + WIDTH * time as f64 / self.end as f64;
        let height = HEIGHT * (value / self.greatest).min(1.0);
        (across, self.top + HEIGHT - height)
    }

    /// The frame, the name and the two ends of the axis.
    fn frame(&self, f: &mut Formatter<'_>, name: &str, greatest: &str) -> fmt::Result {
        let (top, bottom) = (self.top, self.top + HEIGHT);
        writeln!(
            f,
            r##"<rect x="{LEFT}" y="{top}" width="{WIDTH}" height="{HEIGHT}" fill="none" stroke="#444444"/>"##
        )?;
        writeln!(f, r#"<text x="{LEFT}" y="{:.0}">{name}</text>"#, top - 6.0)?;
        for (value, height) in [(greatest, top + 10.0), ("0", bottom)] {
            writeln!(
                f,
                r#"<text x="{:.0}" y="{height:.0}" text-anchor="end">{value}</text>"#,
                LEFT - 6.0
            )?;
        }
        let seconds = self.end / SECOND;
        writeln!(
            f,
            r#"<text x="{:.0}" y="{:.0}" text-anchor="end">{seconds} s</text>"#,
            LEFT + WIDTH,
            bottom + 16.0
        )
    }

    /// A line through these moments.
    fn line(&self, f: &mut Formatter<'_>, colour: &str, moments: &[(Micros, f64)]) -> fmt::Result {
        write!(f, r#"<polyline fill="none" stroke="{colour}" points=""#)?;
        for (time, value) in moments {
            let (across, down) = self.place(*time, *value);
            write!(f, "{across:.1},{down:.1} ")?;
        }
        writeln!(f, r#""/>"#)
    }
}

impl Picture<'_> {
    fn end(&self) -> Micros {
        self.row.scenario.measured.end
    }

    /// The share in each part of the run.
    fn shares(&self, course: &[Point]) -> Vec<(Micros, f64)> {
        let part = self.end() / PARTS;
        let Capacity::Packets(rate) = self.row.scenario.there.capacity else {
            return Vec::new();
        };
        let full = rate as f64 * part as f64 / SECOND as f64;
        // Between two moments the number grows evenly.
        let delivered_by = |time: Micros| {
            let past = course.partition_point(|point| point.time <= time);
            let before = past.checked_sub(1).map(|last| course[last]);
            let (from, begun) = before.map_or((0.0, 0), |it| (it.delivered as f64, it.time));
            match course.get(past) {
                None => from,
                Some(after) => {
                    let gone = (time - begun) as f64 / (after.time - begun).max(1) as f64;
                    from + gone * (after.delivered as f64 - from)
                }
            }
        };
        let share = |number: u64| {
            let (from, to) = (
                delivered_by(number * part),
                delivered_by((number + 1) * part),
            );
            ((number + 1) * part, (to - from) / full)
        };
        (0..PARTS).map(share).collect()
    }

    /// The window, as steps, at most a few for each part.
    fn windows(&self, course: &[Point]) -> Vec<(Micros, f64)> {
        let apart = self.end() / (8 * PARTS);
        let mut moments: Vec<(Micros, f64)> = Vec::new();
        for point in course {
            if moments
                .last()
                .is_none_or(|(time, _)| point.time >= time + apart)
            {
                moments.push((point.time, f64::from(point.window)));
            }
        }
        moments
    }
}

impl Display for Picture<'_> {
    fn fmt(&self, f: &mut Formatter<'_>) -> fmt::Result {
        let windows: Vec<_> = self.courses.iter().map(|it| self.windows(it)).collect();
        let greatest = windows
            .iter()
            .flatten()
            .map(|(_, window)| *window)
            .fold(4.0, f64::max);
        let (width, height) = (LEFT + WIDTH + 16.0, TOP + 2.0 * HEIGHT + GAP + 28.0);
        writeln!(
            f,
            r#"<svg xmlns="http://www.w3.org/2000/svg" version="1.1" width="{width}" height="{height}" font-family="sans-serif" font-size="12">"#
        )?;
        writeln!(f, r##"<rect width="100%" height="100%" fill="#ffffff"/>"##)?;
        writeln!(
            f,
            r#"<text x="{LEFT}" y="16" font-size="14">{}</text>"#,
            self.row.title
        )?;
        for (colour, (name, place)) in COLOURS
            .iter()
            .zip([("classic", 560.0), ("by itself", 640.0)])
        {
            writeln!(
                f,
                r#"<text x="{place}" y="16" fill="{colour}">{name}</text>"#
            )?;
        }
        let end = self.end();
        let share = Panel {
            top: TOP,
            greatest: 1.05,
            end,
        };
        let window = Panel {
            top: TOP + HEIGHT + GAP,
            greatest: 1.05 * greatest,
            end,
        };
        share.frame(f, "share of what the link carries", "1")?;
        window.frame(f, "window, in packets", &format!("{greatest}"))?;
        for ((course, windows), colour) in self.courses.iter().zip(&windows).zip(COLOURS) {
            share.line(f, colour, &self.shares(course))?;
            window.line(f, colour, windows)?;
        }
        writeln!(f, "</svg>")
    }
}
