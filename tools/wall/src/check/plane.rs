//! Points, affine maps and path data, read as SVG has them.

pub type Point = [f64; 2];

/// Left, top, right, bottom.
#[derive(Clone, Copy, Debug, Default, PartialEq)]
pub struct Span(pub [f64; 4]);

impl Span {
    /// The smallest one around points, if there are any.
    pub fn around(points: &[Point]) -> Option<Span> {
        let first = points.first()?;
        let grow = |s: [f64; 4], p: &Point| [s[0].min(p[0]), s[1].min(p[1]), s[2].max(p[0]), s[3].max(p[1])];
        Some(Span(points.iter().fold([first[0], first[1], first[0], first[1]], grow)))
    }

    /// The smallest one around two points.
    pub fn of(p: Point, q: Point) -> Span {
        Span([p[0].min(q[0]), p[1].min(q[1]), p[0].max(q[0]), p[1].max(q[1])])
    }

    /// The smallest one around two.
    pub fn and(&self, other: &Span) -> Span {
        let (a, b) = (self.0, other.0);
        Span([a[0].min(b[0]), a[1].min(b[1]), a[2].max(b[2]), a[3].max(b[3])])
    }

    pub fn grown(&self, by: f64) -> Span {
        let s = self.0;
        Span([s[0] - by, s[1] - by, s[2] + by, s[3] + by])
    }

    /// With a part of its sides, about its middle.
    pub fn narrowed(&self, part: f64) -> Span {
        let ([x, y], s) = (self.middle(), self.0);
        let (wide, high) = (part * (s[2] - s[0]) / 2.0, part * (s[3] - s[1]) / 2.0);
        Span([x - wide, y - high, x + wide, y + high])
    }

    pub fn holds(&self, other: &Span) -> bool {
        let (a, b) = (self.0, other.0);
        a[0] <= b[0] && a[1] <= b[1] && b[2] <= a[2] && b[3] <= a[3]
    }

    pub fn corners(&self) -> [Point; 4] {
        let [left, top, right, bottom] = self.0;
        [[left, top], [right, top], [right, bottom], [left, bottom]]
    }

    pub fn middle(&self) -> Point {
        [(self.0[0] + self.0[2]) / 2.0, (self.0[1] + self.0[3]) / 2.0]
    }
}

/// The map (x, y) to (a x + c y + e, b x + d y + f).
#[derive(Clone, Copy, Debug, PartialEq)]
pub struct Map(pub [f64; 6]);

impl Map {
    pub const SAME: Map = Map([1.0, 0.0, 0.0, 1.0, 0.0, 0.0]);

    pub fn at(&self, [x, y]: Point) -> Point {
        let m = self.0;
        [m[0] * x + m[2] * y + m[4], m[1] * x + m[3] * y + m[5]]
    }

    /// This map after another.
    pub fn after(&self, inner: &Map) -> Map {
        let (m, n) = (self.0, inner.0);
        let [e, f] = self.at([n[4], n[5]]);
        Map([
            m[0] * n[0] + m[2] * n[1],
            m[1] * n[0] + m[3] * n[1],
            m[0] * n[2] + m[2] * n[3],
            m[1] * n[2] + m[3] * n[3],
            e,
            f,
        ])
    }

    /// How much it stretches lengths at least.
    pub fn scale(&self) -> f64 {
        let m = self.0;
        (m[0] * m[0] + m[1] * m[1]).min(m[2] * m[2] + m[3] * m[3]).sqrt()
    }

    /// The map of a `transform` attribute.
    pub fn read(text: &str) -> Option<Map> {
        let mut map = Map::SAME;
        let mut rest = text.trim_start_matches(separator);
        while !rest.is_empty() {
            let (name, after) = rest.split_once('(')?;
            let (inside, after) = after.split_once(')')?;
            let list: Option<Vec<f64>> = inside.split(separator).filter(|s| !s.is_empty()).map(number).collect();
            map = map.after(&one(name.trim(), &list?)?);
            rest = after.trim_start_matches(separator);
        }
        Some(map)
    }
}

fn separator(c: char) -> bool {
    matches!(c, ' ' | ',' | '\t' | '\n' | '\r')
}

/// A finite number.
pub fn number(text: &str) -> Option<f64> {
    text.parse().ok().filter(|x: &f64| x.is_finite())
}

fn one(name: &str, list: &[f64]) -> Option<Map> {
    let moved = |x: f64, y: f64| Map([1.0, 0.0, 0.0, 1.0, x, y]);
    Some(match (name, list) {
        ("translate", &[x]) => moved(x, 0.0),
        ("translate", &[x, y]) => moved(x, y),
        ("scale", &[s]) => Map([s, 0.0, 0.0, s, 0.0, 0.0]),
        ("scale", &[x, y]) => Map([x, 0.0, 0.0, y, 0.0, 0.0]),
        ("rotate", &[degrees]) => turned(degrees),
        ("rotate", &[degrees, x, y]) => moved(x, y).after(&turned(degrees)).after(&moved(-x, -y)),
        ("matrix", &[a, b, c, d, e, f]) => Map([a, b, c, d, e, f]),
        _ => return None,
    })
}

fn turned(degrees: f64) -> Map {
    let (sin, cos) = degrees.to_radians().sin_cos();
    Map([cos, sin, -sin, cos, 0.0, 0.0])
}

/// The stretches of a path, each a list of points; none where it has anything but straight pieces.
pub fn stretches(d: &str) -> Option<Vec<Vec<Point>>> {
    let mut list: Vec<Vec<Point>> = Vec::new();
    let mut at = [0.0, 0.0];
    let mut rest = d.trim_start_matches(separator);
    while let Some(command) = rest.chars().next() {
        let inside = &rest[command.len_utf8()..];
        let end = inside.find(|c: char| c.is_ascii_alphabetic() && c != 'e' && c != 'E').unwrap_or(inside.len());
        let numbers = numbers(&inside[..end])?;
        let from = if command.is_ascii_lowercase() { at } else { [0.0, 0.0] };
        let points: Vec<Point> = match command.to_ascii_uppercase() {
            'Z' if numbers.is_empty() => vec![*list.last()?.first()?],
            'M' | 'L' if numbers.len() % 2 == 0 => pairs(&numbers, command.is_ascii_lowercase(), at),
            'H' if numbers.len() == 1 => vec![[from[0] + numbers[0], at[1]]],
            'V' if numbers.len() == 1 => vec![[at[0], from[1] + numbers[0]]],
            _ => return None,
        };
        at = *points.last()?;
        if command.eq_ignore_ascii_case(&'M') {
            list.push(points);
        } else {
            list.last_mut()?.extend(points);
        }
        rest = &inside[end..];
    }
    Some(list)
}

/// Points of pairs of numbers, each counted from the one before where they are relative.
fn pairs(numbers: &[f64], relative: bool, from: Point) -> Vec<Point> {
    let mut at = from;
    let step = |two: &[f64]| {
        at = if relative { [at[0] + two[0], at[1] + two[1]] } else { [two[0], two[1]] };
        at
    };
    numbers.chunks_exact(2).map(step).collect()
}

/// Numbers with blanks, a comma or only a sign between them.
fn numbers(text: &str) -> Option<Vec<f64>> {
    let mut list = Vec::new();
    for word in text.split(separator).filter(|word| !word.is_empty()) {
        let mut start = 0;
        for (i, c) in word.char_indices() {
            let signed = matches!(c, '-' | '+') && i > start && !word[..i].ends_with(['e', 'E']);
            if signed {
                list.push(number(&word[start..i])?);
                start = i;
            }
        }
        list.push(number(&word[start..])?);
    }
    Some(list)
}

/// The distance from a point to a straight piece.
pub fn away(p: Point, a: Point, b: Point) -> f64 {
    let (dx, dy) = (b[0] - a[0], b[1] - a[1]);
    let square = dx * dx + dy * dy;
    let part = if square > 0.0 { (((p[0] - a[0]) * dx + (p[1] - a[1]) * dy) / square).clamp(0.0, 1.0) } else { 0.0 };
    let (x, y) = (a[0] + part * dx - p[0], a[1] + part * dy - p[1]);
    (x * x + y * y).sqrt()
}

#[cfg(test)]
mod tests {
    use super::*;

    #[test]
    fn paths() {
        let square = vec![vec![[1.0, 2.0], [3.0, 2.0], [3.0, -4.5], [1.0, 2.0]]];
        assert_eq!(stretches("M1 2L3 2V-4.5Z"), Some(square.clone()));
        assert_eq!(stretches(" m1,2 h2 l0-6.5z"), Some(square));
        assert_eq!(stretches("M0 0L1 1M2 2L3 3").map(|list| list.len()), Some(2));
        assert_eq!(stretches("M0 0 1 1").map(|list| list[0].len()), Some(2));
        for wrong in ["L1 1", "M1", "M0 0C1 1 2 2 3 3", "M0 0L1 nan", "M0 0LZ x", "M"] {
            assert_eq!(stretches(wrong), None, "{wrong}");
        }
    }

    #[test]
    fn maps() {
        let map = Map::read("translate(10, 5) rotate(90) scale(2)").unwrap();
        let [x, y] = map.at([1.0, 0.0]);
        assert!((x - 10.0).abs() < 1e-12 && (y - 7.0).abs() < 1e-12);
        let [x, y] = Map::read("rotate(180 3 4)").unwrap().at([4.0, 4.0]);
        assert!((x - 2.0).abs() < 1e-12 && (y - 4.0).abs() < 1e-12);
        assert_eq!(Map::read("skewX(3)"), None);
    }
}
