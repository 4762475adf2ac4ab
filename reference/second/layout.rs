//! A layout call: refusals in their order, and the drawing.
use super::around::Obstacles;
use super::interior::{bar, bar_x, interior, row_y, Interior};
use super::network::{ill_sized, Kind, Mesh, Network, Options};
use super::placement::{placed, Placed};
use super::route::{routes, Line, Routes};
use super::{maximum, minimum, Point, Rule};

/// Lengths of the lent lists; of the work lists only whether one of fixed length is too short.
pub struct Room {
    pub positions: usize,
    pub bars: usize,
    pub boxes: usize,
    pub scales: usize,
    pub roles: usize,
    pub pieces: usize,
    pub branches: usize,
    pub crossings: usize,
    pub work_short: bool,
}

#[derive(Clone)]
pub struct Drawing {
    pub unit: f64,
    pub bounds: [f64; 4],
    pub positions: Vec<f64>,
    pub bars: Vec<f64>,
    pub boxes: Vec<f64>,
    pub scales: Vec<f64>,
    pub roles: Vec<u8>,
    pub pieces: Vec<f64>,
    pub branches: Vec<u32>,
    pub crossings: usize,
    /// How many points detours put in.
    pub detours: usize,
}

/// The pieces of a drawing, those without length left out.
#[derive(Default)]
struct Pieces {
    numbers: Vec<f64>,
    branches: Vec<u32>,
}

impl Pieces {
    fn run(&mut self, branch: usize, points: &[Point]) {
        for i in 1..points.len() {
            let (p, q) = (points[i - 1], points[i]);
            if p.0 != q.0 || p.1 != q.1 {
                self.numbers.extend([p.0, p.1, q.0, q.1]);
                self.branches.push(branch as u32);
            }
        }
    }
}

/// All that stands before lines are led.
struct Laid<'a> {
    net: &'a Network<'a>,
    options: &'a Options,
    inner: Interior,
    drawn: Placed,
}

impl Laid<'_> {
    fn block(&self, bus: usize) -> f64 {
        self.drawn.unit * self.drawn.scales[self.net.station(bus)]
    }

    fn bar(&self, bus: usize) -> [f64; 4] {
        let b = &self.drawn.boxes[self.net.station(bus)];
        let x = bar_x(self.options, b, self.inner.column[bus], self.block(bus));
        let (y0, y1) = bar(self.options, b, self.inner.rows[bus], self.block(bus));
        [x, y0, x, y1]
    }

    fn position(&self, bus: usize) -> Point {
        let [x, y0, _, y1] = self.bar(bus);
        (x, (y0 + y1) / 2.0)
    }

    /// The bar's x and the row's y of one end of a branch.
    fn row_end(&self, branch: usize, end: usize, bus: usize) -> Point {
        let b = &self.drawn.boxes[self.net.station(bus)];
        let y = row_y(self.options, b, self.inner.row_of[branch][end], self.block(bus));
        (self.bar(bus)[0], y)
    }

    /// The row's y on the right side where the other station's place is at least as far right, else on the left.
    fn exit(&self, branch: usize, end: usize, bus: usize, other: usize) -> Point {
        let (s, t) = (self.net.station(bus), self.net.station(other));
        let b = &self.drawn.boxes[s];
        let right = self.drawn.places[t].0 >= self.drawn.places[s].0;
        (if right { b[2] } else { b[0] }, self.row_end(branch, end, bus).1)
    }
}

fn short(net: &Network, room: &Room) -> bool {
    let (n, m, k) = (net.buses(), net.branches(), net.stations());
    room.work_short
        || room.positions < 2 * n
        || room.bars < 4 * n
        || room.boxes < 4 * k
        || room.scales < k
        || room.roles < m
}

/// Refusals 1 to 7 and 15, in their order.
fn early(net: &Network, options: &Options, room: &Room) -> Option<u32> {
    if let Some(number) = net.shape() {
        return Some(number);
    }
    if !options.fit() {
        return Some(5);
    }
    if net.far() {
        return Some(6);
    }
    short(net, room).then_some(7)
}

fn bounds(laid: &Laid, occupied: &[usize]) -> [f64; 4] {
    let Some(&first) = occupied.first() else { return [0.0, 0.0, 1.0, 1.0] };
    let mut all = laid.drawn.boxes[first];
    for &s in occupied {
        let b = &laid.drawn.boxes[s];
        all = [minimum(all[0], b[0]), minimum(all[1], b[1]), maximum(all[2], b[2]), maximum(all[3], b[3])];
    }
    all
}

impl Laid<'_> {
    /// Roles, the pieces of branches that are no lines, and the lines, each with its two buses; in the order of branches.
    fn branches(&self) -> (Vec<u8>, Pieces, Vec<(usize, usize, usize)>) {
        let (mut roles, mut pieces, mut lines) = (Vec::new(), Pieces::default(), Vec::new());
        for e in 0..self.net.branches() {
            roles.push(match self.net.kind(e) {
                Kind::Undrawn => 2,
                Kind::Open(a, b) => {
                    pieces.run(e, &[self.position(a), self.position(b)]);
                    2
                }
                Kind::Internal(a, b) => {
                    pieces.run(e, &[self.row_end(e, 0, a), self.row_end(e, 1, b)]);
                    1
                }
                Kind::Line(a, b) => {
                    lines.push((e, a, b));
                    0
                }
            });
        }
        (roles, pieces, lines)
    }

    fn asked(&self, lines: &[(usize, usize, usize)], occupied: &[usize]) -> Vec<Line> {
        let vertex = |bus: usize| occupied.iter().position(|&s| s == self.net.station(bus)).expect("occupied");
        let exits = |e: usize, a: usize, b: usize| [self.exit(e, 0, a, b), self.exit(e, 1, b, a)];
        lines.iter().map(|&(e, a, b)| Line { ends: [vertex(a), vertex(b)], exits: exits(e, a, b) }).collect()
    }

    /// The lines' points over the mesh; refusals 9 and 10.
    fn routes(&self, lines: &[Line], occupied: &[usize], mesh: &Mesh, most: usize) -> Result<Routes, u32> {
        if occupied.len() < 3 || self.options.iterations == 0 {
            return Ok(Routes { crossings: 0, ways: vec![Vec::new(); lines.len()] });
        }
        if mesh.ill_formed(occupied.len()) {
            return Err(9);
        }
        let routed = routes(mesh, occupied, &self.drawn, lines, self.gap(), self.options.iterations);
        if routed.crossings > most { Err(10) } else { Ok(routed) }
    }

    /// Between lines, and twice that between a line and a box that it is led round.
    fn gap(&self) -> f64 {
        0.8 * self.drawn.unit
    }

    /// A line's whole path, led round boxes where there are iterations; and how many points that put in.
    fn path(&self, (e, a, b): (usize, usize, usize), line: &Line, way: &[Point], boxes: &Obstacles) -> (Vec<Point>, usize) {
        let mut path = vec![line.exits[0]];
        path.extend(way);
        path.push(line.exits[1]);
        let own = [self.net.station(a), self.net.station(b)];
        let (mut path, inserted) =
            if self.options.iterations == 0 { (path, 0) } else { boxes.led_round(path, own, self.gap()) };
        path.insert(0, self.row_end(e, 0, a));
        path.push(self.row_end(e, 1, b));
        (path, inserted)
    }

    /// The drawing, all but its lines' and other pieces.
    fn drawing(&self, occupied: &[usize], roles: Vec<u8>) -> Drawing {
        let (mut positions, mut bars) = (Vec::new(), Vec::new());
        for bus in 0..self.net.buses() {
            let (x, y) = self.position(bus);
            positions.extend([x, y]);
            bars.extend(self.bar(bus));
        }
        Drawing {
            unit: self.drawn.unit,
            bounds: bounds(self, occupied),
            positions,
            bars,
            boxes: self.drawn.boxes.concat(),
            scales: self.drawn.scales.clone(),
            roles,
            pieces: Vec::new(),
            branches: Vec::new(),
            crossings: 0,
            detours: 0,
        }
    }
}

pub fn layout(net: &Network, options: &Options, mesh: &Mesh, room: &Room, rule: Rule) -> Result<Drawing, u32> {
    if let Some(number) = early(net, options, room) {
        return Err(number);
    }
    let seeds = net.seeds();
    let inner = interior(net, options, &seeds);
    let drawn = placed(net, options, &seeds, &inner.size);
    let occupied = net.occupied();
    if ill_sized(&drawn.boxes, &occupied, &[]) {
        return Err(8);
    }
    let laid = Laid { net, options, inner, drawn };
    let (roles, mut pieces, lines) = laid.branches();
    let asked = laid.asked(&lines, &occupied);
    let routed = laid.routes(&asked, &occupied, mesh, room.crossings)?;
    let boxes = Obstacles::new(&laid.drawn.boxes, &occupied, rule);
    let mut detours = 0;
    for (l, &line) in lines.iter().enumerate() {
        let (path, inserted) = laid.path(line, &asked[l], &routed.ways[l], &boxes);
        pieces.run(line.0, &path);
        detours += inserted;
    }
    if pieces.branches.len() > (room.pieces / 4).min(room.branches) {
        return Err(11);
    }
    let bare = laid.drawing(&occupied, roles);
    Ok(Drawing { pieces: pieces.numbers, branches: pieces.branches, crossings: routed.crossings, detours, ..bare })
}
