//! Places, areas and curves of a picture, and how wide a text is. The middle of the ring of desks is 0, 0; y grows downwards.

#[derive(Clone, Copy, Debug, PartialEq)]
pub struct Place {
    pub x: f64,
    pub y: f64,
}

impl Place {
    pub fn distance(self, other: Place) -> f64 {
        let (x, y) = (self.x - other.x, self.y - other.y);
        (x * x + y * y).sqrt()
    }

    /// The place on the way to another: 0 is here, 1 is there.
    fn towards(self, other: Place, share: f64) -> Place {
        Place { x: self.x + share * (other.x - self.x), y: self.y + share * (other.y - self.y) }
    }
}

/// In tenths, so that a picture is the same on every machine; + 0.0 makes 0 of -0.
pub fn tenths(length: f64) -> f64 {
    (length * 10.0).round() / 10.0 + 0.0
}

/// A rectangle.
#[derive(Clone, Copy, Debug, PartialEq)]
pub struct Area {
    pub left: f64,
    pub top: f64,
    pub right: f64,
    pub bottom: f64,
}

impl Area {
    /// The area of a disc.
    pub fn around(at: Place, radius: f64) -> Area {
        Area { left: at.x - radius, top: at.y - radius, right: at.x + radius, bottom: at.y + radius }
    }

    pub fn grown(self, by: f64) -> Area {
        Area { left: self.left - by, top: self.top - by, right: self.right + by, bottom: self.bottom + by }
    }

    /// The smallest area with both.
    pub fn with(self, other: Area) -> Area {
        Area {
            left: self.left.min(other.left),
            top: self.top.min(other.top),
            right: self.right.max(other.right),
            bottom: self.bottom.max(other.bottom),
        }
    }

    pub fn overlaps(self, other: Area) -> bool {
        self.left < other.right && other.left < self.right && self.top < other.bottom && other.top < self.bottom
    }

    /// How far a place is from the area; 0 inside.
    pub fn distance(self, place: Place) -> f64 {
        place.distance(Place { x: place.x.clamp(self.left, self.right), y: place.y.clamp(self.top, self.bottom) })
    }

    pub fn width(self) -> f64 {
        self.right - self.left
    }

    pub fn height(self) -> f64 {
        self.bottom - self.top
    }
}

/// A curve from one place to another that a third one bends: SVG's `Q`. It is straight if the bend is on the way.
#[derive(Clone, Copy, Debug, PartialEq)]
pub struct Curve {
    pub from: Place,
    pub bend: Place,
    pub to: Place,
}

impl Curve {
    /// So many pieces are measured.
    const PIECES: usize = 64;

    /// A part of it begins and ends at one of so many places.
    const CUTS: u32 = 1024;

    /// Places along the curve, both ends among them.
    pub fn places(self) -> impl Iterator<Item = Place> {
        (0..=Curve::PIECES).map(move |piece| self.at(piece as f64 / Curve::PIECES as f64))
    }

    fn at(self, share: f64) -> Place {
        self.between(share, share)
    }

    /// What bends the part of the curve between two shares of the way; with the same share twice, the place there.
    fn between(self, one: f64, other: f64) -> Place {
        self.from.towards(self.bend, one).towards(self.bend.towards(self.to, one), other)
    }

    /// The part of the curve that is at least so far from its start, and so far from its end.
    pub fn cut(self, from_start: f64, from_end: f64) -> Curve {
        let shares = || (0..=Curve::CUTS).map(|piece| piece as f64 / Curve::CUTS as f64);
        let first = shares().find(|&share| self.at(share).distance(self.from) >= from_start).unwrap_or(0.0);
        let last = shares().rev().find(|&share| self.at(share).distance(self.to) >= from_end).unwrap_or(1.0);
        Curve { from: self.at(first), bend: self.between(first, last), to: self.at(last) }
    }

    /// Where the two strokes of an arrow's head begin that meet at the curve's end: so far back, and half as far to either side.
    pub fn barbs(self, back: f64) -> [Place; 2] {
        let length = self.bend.distance(self.to);
        let (x, y) = (back * (self.to.x - self.bend.x) / length, back * (self.to.y - self.bend.y) / length);
        [0.5, -0.5].map(|side| Place { x: self.to.x - x - side * y, y: self.to.y - y + side * x })
    }
}

/// How wide a text is at a font size: an estimate by classes of letters, for the widest of the usual sans-serif fonts
/// (DejaVu Sans, Verdana). In others the text is narrower.
pub fn width(text: &str, size: f64) -> f64 {
    let share = |letter| match letter {
        'i' | 'j' | 'l' => 0.3,
        ' ' | ',' | '.' | ':' | ';' | '\'' | '(' | ')' | '-' | 'f' | 'r' | 't' => 0.43,
        'm' | 'w' | 'M' | 'W' => 1.0,
        '+' => 0.84,
        letter if letter.is_ascii_uppercase() => 0.75,
        _ => 0.65,
    };
    text.chars().map(share).sum::<f64>() * size
}

#[cfg(test)]
mod tests {
    use super::*;

    const ORIGIN: Place = Place { x: 0.0, y: 0.0 };

    #[test]
    fn distances_and_overlaps() {
        let area = Area::around(ORIGIN, 2.0);
        assert_eq!(area.distance(Place { x: 5.0, y: 6.0 }), 5.0);
        assert_eq!(area.distance(Place { x: 1.0, y: -1.0 }), 0.0);
        assert!(area.overlaps(Area::around(Place { x: 3.0, y: 0.0 }, 1.5)));
        assert!(!area.overlaps(Area::around(Place { x: 4.0, y: 0.0 }, 1.5)));
        assert_eq!(area.grown(1.0).with(Area::around(Place { x: 9.0, y: 0.0 }, 1.0)).width(), 13.0);
    }

    #[test]
    fn a_curve_goes_from_end_to_end_by_way_of_its_bend() {
        let curve = Curve { from: ORIGIN, bend: Place { x: 4.0, y: 8.0 }, to: Place { x: 8.0, y: 0.0 } };
        let places: Vec<Place> = curve.places().collect();
        assert_eq!((places[0], places[Curve::PIECES]), (curve.from, curve.to));
        assert_eq!(places[Curve::PIECES / 2], Place { x: 4.0, y: 4.0 });
    }

    #[test]
    fn a_curve_is_cut_near_its_ends_and_stays_the_same_curve() {
        let curve = Curve { from: ORIGIN, bend: Place { x: 40.0, y: 80.0 }, to: Place { x: 80.0, y: 0.0 } };
        let part = curve.cut(20.0, 30.0);
        let (start, end) = (part.from.distance(curve.from), part.to.distance(curve.to));
        assert!((20.0..20.3).contains(&start) && (30.0..30.3).contains(&end), "{start} {end}");
        for place in part.places() {
            let near =
                (0..=4000).map(|piece| curve.at(f64::from(piece) / 4000.0).distance(place)).fold(f64::MAX, f64::min);
            assert!(near < 0.1, "{place:?} is {near} beside the curve");
        }
    }

    #[test]
    fn barbs_lie_behind_the_end_on_both_sides() {
        let up = Curve { from: ORIGIN, bend: Place { x: 0.0, y: -5.0 }, to: Place { x: 0.0, y: -20.0 } };
        assert_eq!(up.barbs(10.0), [Place { x: 5.0, y: -10.0 }, Place { x: -5.0, y: -10.0 }]);
    }

    #[test]
    fn widths_grow_with_letters_and_size() {
        assert!(width("iii", 12.0) < width("aaa", 12.0) && width("aaa", 12.0) < width("mmm", 12.0));
        assert_eq!(width("ab", 24.0), 2.0 * width("ab", 12.0));
        assert_eq!(width("", 12.0), 0.0);
    }
}
