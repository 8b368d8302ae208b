//! Where the desks, their words and the links of a picture are: the desks on a ring, the words outside it, the links inside.

use super::geometry::{tenths, width, Area, Curve, Place};
use std::f64::consts::TAU;

/// The size of a desk, of letters and of a line.
pub const RADIUS: f64 = 24.0;
pub const LETTERS: f64 = 12.0;
pub const LINE: f64 = 14.0;

/// So far words keep from their desk and from all else, and links from a desk that they don't belong to.
const BESIDE: f64 = 8.0;
const APART: f64 = 4.0;
const CLEAR: f64 = 4.0;

/// Which end of its lines a label's x is.
#[derive(Clone, Copy, Debug, PartialEq, Eq)]
pub enum Anchor {
    Start,
    Middle,
    End,
}

/// The words of a desk.
#[derive(Clone, Debug)]
pub struct Label {
    pub x: f64,
    pub anchor: Anchor,
    pub area: Area,
    pub lines: Vec<String>,
}

impl Label {
    /// Lines on the side of a desk that looks away from the middle, as near as they are clear of it.
    fn beside(desk: Place, lines: &[String], scale: f64) -> Label {
        let label = |step: u32| Label::at(desk, lines, scale, RADIUS + BESIDE + f64::from(step));
        let clear = |label: &Label| label.area.distance(desk) >= RADIUS + BESIDE - 2.0;
        (0..40).map(label).find(clear).unwrap_or_else(|| label(40))
    }

    /// Lines whose nearest point is about so far from the middle of a desk.
    fn at(desk: Place, lines: &[String], scale: f64, away: f64) -> Label {
        let far = desk.distance(Place { x: 0.0, y: 0.0 });
        let (out_x, out_y) = if far > 0.0 { (desk.x / far, desk.y / far) } else { (0.0, 1.0) };
        let wide = lines.iter().map(|line| width(line, scale * LETTERS)).fold(0.0, f64::max);
        let high = scale * LINE * lines.len() as f64;
        let x = tenths(desk.x + out_x * away);
        let top = tenths(desk.y + out_y * away + high * (out_y - 1.0) / 2.0);
        let (anchor, left) = match out_x {
            out if out > 0.1 => (Anchor::Start, x),
            out if out < -0.1 => (Anchor::End, x - wide),
            _ => (Anchor::Middle, x - wide / 2.0),
        };
        let area = Area { left, top, right: left + wide, bottom: top + high };
        Label { x, anchor, area, lines: lines.to_vec() }
    }
}

/// A desk's place and words.
#[derive(Clone, Debug)]
pub struct Spot {
    pub at: Place,
    pub label: Label,
}

/// Spots for desks with these words: on the smallest ring on which no words touch another desk or its words.
pub fn spots(words: &[Vec<String>]) -> Vec<Spot> {
    scaled_spots(words, 1.0)
}

/// The same with letters and lines that are so much larger.
pub fn scaled_spots(words: &[Vec<String>], scale: f64) -> Vec<Spot> {
    let least = match words.len() {
        0 | 1 => 0.0,
        desks => (desks as f64 * 3.5 * RADIUS / TAU).max(80.0),
    };
    // 32 desks whose words are all 200 wide have room on a ring of 1,100.
    let rings = (0..=110).map(|step| ring(least + 10.0 * f64::from(step), words, scale));
    let mut last = Vec::new();
    for spots in rings {
        last = spots;
        if !crowded(&last) {
            break;
        }
    }
    last
}

/// Spots on a ring of a given radius, the first at the top.
fn ring(radius: f64, words: &[Vec<String>], scale: f64) -> Vec<Spot> {
    let spot = |(turn, lines): (usize, &Vec<String>)| {
        let angle = TAU * turn as f64 / words.len() as f64;
        let at = Place { x: tenths(radius * angle.sin()), y: tenths(-radius * angle.cos()) };
        Spot { at, label: Label::beside(at, lines, scale) }
    };
    words.iter().enumerate().map(spot).collect()
}

fn crowded(spots: &[Spot]) -> bool {
    let touches = |(one, other): (&Spot, &Spot)| {
        one.label.area.grown(APART).overlaps(other.label.area)
            || one.label.area.distance(other.at) < RADIUS + APART
            || other.label.area.distance(one.at) < RADIUS + APART
    };
    let pairs = |place: usize| spots[place + 1..].iter().map(move |other| (&spots[place], other));
    (0..spots.len()).flat_map(pairs).any(touches)
}

/// The link of two of the spots: straight, or bent towards the middle by as little as keeps it off every other desk.
pub fn link(spots: &[Spot], one: usize, other: usize) -> Curve {
    let (from, to) = (spots[one].at, spots[other].at);
    let bent = |step: u32| {
        let half = f64::from(50 - step) / 100.0;
        Curve { from, to, bend: Place { x: tenths((from.x + to.x) * half), y: tenths((from.y + to.y) * half) } }
    };
    let others = || spots.iter().enumerate().filter(|&(place, _)| place != one && place != other);
    let clear =
        |curve: &Curve| others().all(|(_, spot)| curve.places().all(|place| place.distance(spot.at) > RADIUS + CLEAR));
    (0..=50).map(bent).find(clear).unwrap_or(bent(50))
}
