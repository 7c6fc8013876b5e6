//! Reference model of document 01, with wishes 1, 2, 4 and 5 of document 02: chart
//! overlay on a whole-number star-quadtree. Written for clarity; every edit rebuilds
//! all entries from the table. Nothing here is clever on purpose, save that
//! the search for cells hands only what met a square on to its quarters.

// ---------------------------------------------------------------- limits

pub const MAX_TRIANGLES: usize = 512;
pub const TABLE_LEN: usize = 3072;
pub const ENTRY_LEN: usize = 16_384;
pub const PAIRS_LEN: usize = 8192;
pub const MAX_PAIRS: usize = 4096;
pub const WINDOW_LEN: usize = 512;
pub const MARK: u16 = 65_535;
pub const LAST_LEVEL: u8 = 16;
/// One past the last key.
pub const KEY_END: u64 = 1 << 32;

// ------------------------------------------------------- points, triangles

#[derive(Clone, Copy, PartialEq, Eq, PartialOrd, Ord, Hash, Debug)]
pub struct Point {
    pub x: i64,
    pub y: i64,
}

pub fn pt(x: u16, y: u16) -> Point {
    Point { x: x as i64, y: y as i64 }
}

pub type Tri = [Point; 3];

/// D(p,q,r). Coordinates reach 65,536 (corners of squares), so |D| < 2^34.
pub fn d(p: Point, q: Point, r: Point) -> i64 {
    (q.x - p.x) * (r.y - p.y) - (q.y - p.y) * (r.x - p.x)
}

pub fn doubled_area(t: &Tri) -> i64 {
    d(t[0], t[1], t[2])
}

/// Where a point is, seen from a triangle; the value is the number told.
#[derive(Clone, Copy, PartialEq, Eq, Debug)]
pub enum Position {
    Inside = 0,
    OnAb = 1,
    OnBc = 2,
    OnCa = 3,
    AtA = 4,
    AtB = 5,
    AtC = 6,
    Outside = 7,
}

impl Position {
    pub fn number(self) -> u8 {
        self as u8
    }
}

/// By the signs and zeros of the D of ab, bc and ca: a D below 0 is outside,
/// one zero is that side, two are the corner where both sides end.
pub fn position(t: &Tri, p: Point) -> Position {
    let ds = [0, 1, 2].map(|k| d(t[k], t[(k + 1) % 3], p));
    if ds.iter().any(|&v| v < 0) {
        return Position::Outside;
    }
    match ds.map(|v| v == 0) {
        [false, false, false] => Position::Inside,
        [true, false, false] => Position::OnAb,
        [false, true, false] => Position::OnBc,
        [false, false, true] => Position::OnCa,
        [true, true, false] => Position::AtB,
        [false, true, true] => Position::AtC,
        // Three zeros are met by no triangle with D > 0, and told as a.
        [true, _, true] => Position::AtA,
    }
}

/// The triangle turned so that its first corner is corner k.
pub fn turned(t: &Tri, k: usize) -> Tri {
    [t[k % 3], t[(k + 1) % 3], t[(k + 2) % 3]]
}

pub fn tri_of_numbers(n: &[u16]) -> Tri {
    [pt(n[0], n[1]), pt(n[2], n[3]), pt(n[4], n[5])]
}

pub fn numbers_of_tri(t: &Tri) -> [u16; 6] {
    let f = |v: i64| u16::try_from(v).expect("coordinate in range");
    [f(t[0].x), f(t[0].y), f(t[1].x), f(t[1].y), f(t[2].x), f(t[2].y)]
}

// ------------------------------------------- a point strictly inside both

/// A line as a*x + b*y + c, which is D(p,q,(x,y)) of the side p to q.
/// |a|, |b| < 2^16 and |c| < 2^32.
#[derive(Clone, Copy)]
struct Line {
    a: i64,
    b: i64,
    c: i64,
}

/// The point X/W, Y/W with W > 0.
/// Corners have W = 1. A crossing of two lines has |X|, |Y| < 2^49 and
/// W < 2^33. The clip below makes every new vertex straight from two of the
/// given lines, never from vertices, so that these bounds always hold.
#[derive(Clone, Copy)]
struct Vertex {
    x: i64,
    y: i64,
    w: i64,
}

fn line_of(p: Point, q: Point) -> Line {
    Line { a: p.y - q.y, b: q.x - p.x, c: p.x * q.y - q.x * p.y }
}

/// W times D of the line at the vertex; below 2^67 in size.
fn at(l: &Line, v: &Vertex) -> i128 {
    l.a as i128 * v.x as i128 + l.b as i128 * v.y as i128 + l.c as i128 * v.w as i128
}

/// Where two lines cross; they must not be parallel.
fn crossing(l: &Line, m: &Line) -> Vertex {
    let x = l.b * m.c - m.b * l.c;
    let y = l.c * m.a - m.c * l.a;
    let w = l.a * m.b - m.a * l.b;
    assert!(w != 0);
    if w > 0 { Vertex { x, y, w } } else { Vertex { x: -x, y: -y, w: -w } }
}

/// A convex polygon: each vertex with the line of the edge that leaves it.
type Polygon = Vec<(Vertex, Line)>;

fn polygon_of(t: &Tri) -> Polygon {
    (0..3)
        .map(|k| (Vertex { x: t[k].x, y: t[k].y, w: 1 }, line_of(t[k], t[(k + 1) % 3])))
        .collect()
}

/// The part of the polygon where the line is at least 0.
fn clip(poly: &Polygon, l: &Line) -> Polygon {
    let mut out = Vec::new();
    for i in 0..poly.len() {
        let (p, edge) = poly[i];
        let q = poly[(i + 1) % poly.len()].0;
        let (dp, dq) = (at(l, &p), at(l, &q));
        if dp > 0 {
            out.push((p, edge));
            if dq < 0 {
                out.push((crossing(&edge, l), *l));
            }
        } else if dp == 0 {
            out.push((p, if dq < 0 { *l } else { edge }));
        } else if dq > 0 {
            out.push((crossing(&edge, l), edge));
        }
    }
    out
}

/// Is some point strictly inside both triangles?
/// The common part K of the closed triangles is clipped out. K has positive
/// area exactly when for each of the six sides some vertex of K is off the
/// side's line: then the mean of the vertices is strictly inside both, and a
/// point strictly inside both is itself a weighted mean of the vertices.
pub fn share_ground(s: &Tri, t: &Tri) -> bool {
    // Bounding boxes without common inner points: nothing to clip.
    let lo = |u: &Tri, f: fn(&Point) -> i64| u.iter().map(f).min().unwrap();
    let hi = |u: &Tri, f: fn(&Point) -> i64| u.iter().map(f).max().unwrap();
    for f in [(|p: &Point| p.x) as fn(&Point) -> i64, |p: &Point| p.y] {
        if hi(s, f) <= lo(t, f) || hi(t, f) <= lo(s, f) {
            return false;
        }
    }
    let s_lines: Vec<Line> = (0..3).map(|k| line_of(s[k], s[(k + 1) % 3])).collect();
    let t_lines: Vec<Line> = (0..3).map(|k| line_of(t[k], t[(k + 1) % 3])).collect();
    let mut k = polygon_of(s);
    for l in &t_lines {
        k = clip(&k, l);
    }
    s_lines.iter().chain(&t_lines).all(|l| k.iter().any(|(v, _)| at(l, v) > 0))
}

// ------------------------------------------------------------- rectangles

/// A closed rectangle. It has points unless right < left or bottom < top; a
/// width or height of 0 makes it a piece of a line, or a point.
#[derive(Clone, Copy, PartialEq, Eq, Debug)]
pub struct Window {
    pub left: i64,
    pub top: i64,
    pub right: i64,
    pub bottom: i64,
}

impl Window {
    pub fn is_empty(&self) -> bool {
        self.right < self.left || self.bottom < self.top
    }

    /// Have two of them a point in common? Both have points.
    pub fn touches(&self, other: &Window) -> bool {
        self.left.max(other.left) <= self.right.min(other.right) && self.top.max(other.top) <= self.bottom.min(other.bottom)
    }
}

/// Have the triangle and the rectangle a point in common, whole or fractional?
/// The triangle is clipped by the four half planes of the rectangle, and what
/// is left, be it a piece of a line or a point, has a vertex.
pub fn in_window(t: &Tri, w: &Window) -> bool {
    let from_left = Line { a: 1, b: 0, c: -w.left };
    let from_top = Line { a: 0, b: 1, c: -w.top };
    let to_right = Line { a: -1, b: 0, c: w.right };
    let to_bottom = Line { a: 0, b: -1, c: w.bottom };
    let left_over = [from_left, from_top, to_right, to_bottom].iter().fold(polygon_of(t), |k, l| clip(&k, l));
    !left_over.is_empty()
}

// ------------------------------------------------------- squares, Z-order

/// Bit k of x at place 2k, bit k of y at place 2k + 1.
pub fn z(x: u16, y: u16) -> u32 {
    let mut key = 0u32;
    for k in 0..16 {
        if x & (1 << k) != 0 {
            key += 1 << (2 * k);
        }
        if y & (1 << k) != 0 {
            key += 1 << (2 * k + 1);
        }
    }
    key
}

#[derive(Clone, Copy, PartialEq, Eq, Debug)]
pub struct Square {
    pub level: u8,
    pub x: i64,
    pub y: i64,
}

/// 4^(16 - level), the number of keys of a square.
pub fn keys_of_level(level: u8) -> u64 {
    1u64 << (2 * (16 - level as u32))
}

impl Square {
    pub const WHOLE: Square = Square { level: 0, x: 0, y: 0 };

    pub fn side(&self) -> i64 {
        1 << (16 - self.level)
    }

    pub fn key(&self) -> u32 {
        z(self.x as u16, self.y as u16)
    }

    /// The square of a cell, its corner picked bit by bit from the key.
    pub fn of_cell(key: u32, level: u8) -> Square {
        let picked = |first: u32| (0..16).map(|k| ((key >> (2 * k + first) & 1) as i64) << k).sum();
        Square { level, x: picked(0), y: picked(1) }
    }

    /// With its whole border: it reaches to 65,536.
    pub fn closed(&self) -> Window {
        Window { left: self.x, top: self.y, right: self.x + self.side(), bottom: self.y + self.side() }
    }

    pub fn corners(&self) -> [Point; 4] {
        let (l, t) = (self.x, self.y);
        let (r, b) = (self.x + self.side(), self.y + self.side());
        [Point { x: l, y: t }, Point { x: r, y: t }, Point { x: l, y: b }, Point { x: r, y: b }]
    }

    /// Top left, top right, bottom left, bottom right.
    pub fn quarters(&self) -> [Square; 4] {
        let h = self.side() / 2;
        let q = |dx, dy| Square { level: self.level + 1, x: self.x + dx, y: self.y + dy };
        [q(0, 0), q(h, 0), q(0, h), q(h, h)]
    }
}

fn boxes_apart(points: &[Point], sq: &Square) -> bool {
    let (l, t) = (sq.x, sq.y);
    let (r, b) = (sq.x + sq.side(), sq.y + sq.side());
    points.iter().all(|p| p.x < l)
        || points.iter().all(|p| p.x > r)
        || points.iter().all(|p| p.y < t)
        || points.iter().all(|p| p.y > b)
}

pub fn side_meets(s: &[Point; 2], sq: &Square) -> bool {
    if boxes_apart(s, sq) {
        return false;
    }
    let ds = sq.corners().map(|c| d(s[0], s[1], c));
    !(ds.iter().all(|&v| v > 0) || ds.iter().all(|&v| v < 0))
}

pub fn triangle_meets(t: &Tri, sq: &Square) -> bool {
    if boxes_apart(t, sq) {
        return false;
    }
    let corners = sq.corners();
    !(0..3).any(|k| corners.iter().all(|&c| d(t[k], t[(k + 1) % 3], c) < 0))
}

// -------------------------------------------------------- cells, entries

#[derive(Clone, Copy, PartialEq, Eq, Debug)]
pub struct Entry {
    pub key: u32,
    pub level: u8,
    pub item: u16,
}

/// Is some point an end of every one of these sides?
pub fn have_common_end(sides: &[[Point; 2]]) -> bool {
    match sides.first() {
        None => true,
        Some(first) => first.iter().any(|e| sides.iter().all(|s| s.contains(e))),
    }
}

/// Appends the entries of the cells within sq; false when there are too many.
/// `sides` and `tris` are those that met the square above: what meets a part
/// meets the whole, so none is missed.
fn gather(sq: &Square, sides: &[[Point; 2]], tris: &[(u16, Tri)], out: &mut Vec<Entry>) -> bool {
    let sides: Vec<[Point; 2]> = sides.iter().filter(|s| side_meets(s, sq)).copied().collect();
    let tris: Vec<(u16, Tri)> = tris.iter().filter(|t| triangle_meets(&t.1, sq)).copied().collect();
    if sq.level == LAST_LEVEL || have_common_end(&sides) {
        let (key, level) = (sq.key(), sq.level);
        if tris.is_empty() {
            out.push(Entry { key, level, item: MARK });
        }
        for (item, _) in tris {
            out.push(Entry { key, level, item });
        }
        return out.len() <= ENTRY_LEN;
    }
    sq.quarters().iter().all(|q| gather(q, &sides, &tris, out))
}

/// The entries of a table, or none when there are more than 16,384.
pub fn entries_of(table: &[Tri]) -> Option<Vec<Entry>> {
    let mut sides = Vec::new();
    let mut tris = Vec::new();
    for (i, t) in table.iter().enumerate() {
        for k in 0..3 {
            sides.push([t[k], t[(k + 1) % 3]]);
        }
        tris.push((i as u16, *t));
    }
    let mut out = Vec::new();
    if gather(&Square::WHOLE, &sides, &tris, &mut out) { Some(out) } else { None }
}

// ------------------------------------------------ edits on the plain table

#[derive(Clone, Copy, PartialEq, Eq, Debug)]
pub struct Refusal {
    pub number: u8,
    /// The triangle of refusal 5, else 0.
    pub triangle: usize,
}

fn no(number: u8) -> Refusal {
    Refusal { number, triangle: 0 }
}

/// The new table and its entries.
pub type Outcome = Result<(Vec<Tri>, Vec<Entry>), Refusal>;

fn with_entries(table: Vec<Tri>) -> Outcome {
    match entries_of(&table) {
        Some(e) => Ok((table, e)),
        None => Err(no(11)),
    }
}

pub fn plain_load(given: &[u16]) -> Outcome {
    if given.len() % 6 != 0 || given.len() > TABLE_LEN {
        return Err(no(4));
    }
    let table: Vec<Tri> = given.chunks(6).map(tri_of_numbers).collect();
    if let Some(triangle) = table.iter().position(|t| doubled_area(t) <= 0) {
        return Err(Refusal { number: 5, triangle });
    }
    with_entries(table)
}

/// Is p in the triangle, its border counted? Told by areas: those that p makes
/// with the three sides sum to the triangle's own, and to more from outside.
pub fn holds(t: &Tri, p: Point) -> bool {
    (0..3).map(|k| d(t[k], t[(k + 1) % 3], p).abs()).sum::<i64>() == doubled_area(t)
}

/// Is p on the side from a to b, and at neither end?
/// Told by the way from p to either end: no area between them, and opposite.
pub fn strictly_between(a: Point, b: Point, p: Point) -> bool {
    let (to_a, to_b) = ((a.x - p.x, a.y - p.y), (b.x - p.x, b.y - p.y));
    to_a.0 * to_b.1 == to_a.1 * to_b.0 && to_a.0 * to_b.0 + to_a.1 * to_b.1 < 0
}

/// What an insert puts in place of old triangles, and what it adds after all.
struct Made {
    replaced: Vec<(usize, Tri)>,
    added: Vec<Tri>,
}

/// The parts of triangle t, with p inside.
fn split(table: &[Tri], t: usize, p: Point) -> Made {
    let [a, b, c] = table[t];
    Made { replaced: vec![(t, [a, b, p])], added: vec![[b, c, p], [c, a, p]] }
}

/// The parts of triangle t, of which (a,b,c) is the rotation with p on ab,
/// and of its neighbour.
fn side_split(table: &[Tri], t: usize, [a, b, c]: Tri, p: Point) -> Made {
    let mut made = Made { replaced: vec![(t, [a, p, c])], added: vec![[p, b, c]] };
    // Every other triangle in every rotation: those with the side b to a.
    let mut beside: Vec<(usize, Point)> = Vec::new();
    for (j, other) in table.iter().enumerate().filter(|(j, _)| *j != t) {
        for [from, to, d] in [0, 1, 2].map(|k| turned(other, k)) {
            if (from, to) == (b, a) {
                beside.push((j, d));
            }
        }
    }
    if let Some((j, d)) = beside.into_iter().min_by_key(|n| n.0) {
        made.replaced.push((j, [b, p, d]));
        made.added.push([p, a, d]);
    }
    made
}

pub fn plain_insert(table: &[Tri], p: Point) -> Outcome {
    // All that hold p, however they hold it; then the lowest.
    let holders: Vec<usize> = (0..table.len()).filter(|&i| holds(&table[i], p)).collect();
    let Some(&t) = holders.iter().min() else { return Err(no(7)) };
    if table[t].contains(&p) {
        return Err(no(14));
    }
    let on_ab = (0..3).map(|k| turned(&table[t], k)).find(|s| strictly_between(s[0], s[1], p));
    let made = match on_ab {
        Some(rotation) => side_split(table, t, rotation, p),
        None => split(table, t, p),
    };
    if table.len() + made.added.len() > MAX_TRIANGLES {
        return Err(no(10));
    }
    let kept = (0..table.len()).map(|i| made.replaced.iter().find(|r| r.0 == i).map_or(table[i], |r| r.1));
    with_entries(kept.chain(made.added).collect())
}

pub fn plain_take_out(table: &[Tri], p: Point) -> Outcome {
    let places: Vec<usize> = (0..table.len()).filter(|&i| table[i].contains(&p)).collect();
    if places.len() != 3 {
        return Err(no(8));
    }
    // Each of the three turned to end in p, lowest number first.
    let ends: Vec<Tri> = places
        .iter()
        .map(|&i| (0..3).map(|k| turned(&table[i], k)).find(|t| t[2] == p).unwrap())
        .collect();
    let (a, b) = (ends[0][0], ends[0][1]);
    let fits = |s: &Tri, t: &Tri| s[0] == b && s[1] == t[0] && t[1] == a;
    let c = if fits(&ends[1], &ends[2]) {
        ends[1][1]
    } else if fits(&ends[2], &ends[1]) {
        ends[2][1]
    } else {
        return Err(no(8));
    };
    let mut new = Vec::new();
    for i in 0..table.len() {
        if i == places[0] {
            new.push([a, b, c]);
        } else if i != places[1] && i != places[2] {
            new.push(table[i]);
        }
    }
    with_entries(new)
}

pub fn plain_flip(table: &[Tri], i: u64, j: u64) -> Outcome {
    let n = table.len() as u64;
    if i >= n || j >= n {
        return Err(no(6));
    }
    let (i, j) = (i as usize, j as usize);
    for ki in 0..3 {
        for kj in 0..3 {
            let [a, b, c] = turned(&table[i], ki);
            let [b2, a2, dd] = turned(&table[j], kj);
            if b2 == b && a2 == a {
                let first = [a, dd, c];
                let second = [dd, b, c];
                if doubled_area(&first) > 0 && doubled_area(&second) > 0 {
                    let mut new = table.to_vec();
                    new[i] = first;
                    new[j] = second;
                    return with_entries(new);
                }
            }
        }
    }
    Err(no(9))
}

// -------------------------------------------------------------- raw chart

/// The lent buffers of one chart and both counts. Lengths are free, so that
/// short and long buffers can be tried.
#[derive(Clone, PartialEq, Eq)]
pub struct Chart {
    pub table: Vec<u16>,
    pub keys: Vec<u32>,
    pub levels: Vec<u8>,
    pub items: Vec<u16>,
    pub n: u64,
    pub m: u64,
}

impl Chart {
    pub fn blank() -> Chart {
        Chart {
            table: vec![0; TABLE_LEN],
            keys: vec![0; ENTRY_LEN],
            levels: vec![0; ENTRY_LEN],
            items: vec![0; ENTRY_LEN],
            n: 0,
            m: 0,
        }
    }

    pub fn is_short(&self) -> bool {
        self.table.len() < TABLE_LEN
            || self.keys.len() < ENTRY_LEN
            || self.levels.len() < ENTRY_LEN
            || self.items.len() < ENTRY_LEN
    }

    /// The used triangles; only when the count is at most 512.
    pub fn used_table(&self) -> Vec<Tri> {
        (0..self.n as usize).map(|i| tri_of_numbers(&self.table[6 * i..6 * i + 6])).collect()
    }

    /// The used entries; only when the count is at most 16,384.
    pub fn used_entries(&self) -> Vec<Entry> {
        (0..self.m as usize)
            .map(|i| Entry { key: self.keys[i], level: self.levels[i], item: self.items[i] })
            .collect()
    }

    /// The chain rule; the buffers must be long enough.
    pub fn chain_holds(&self) -> bool {
        if self.n > MAX_TRIANGLES as u64 || self.m < 1 || self.m > ENTRY_LEN as u64 {
            return false;
        }
        if self.used_table().iter().any(|t| doubled_area(t) <= 0) {
            return false;
        }
        let e = self.used_entries();
        if e.iter().any(|e| e.level > LAST_LEVEL) {
            return false;
        }
        let end = |e: &Entry| e.key as u64 + keys_of_level(e.level);
        if e.iter().any(|e| e.key as u64 % keys_of_level(e.level) != 0) {
            return false;
        }
        if e[0].key != 0 || end(e.last().unwrap()) != KEY_END {
            return false;
        }
        let same_cell = |p: &Entry, q: &Entry| p.key == q.key && p.level == q.level;
        for w in e.windows(2) {
            let stays = same_cell(&w[0], &w[1]) && w[1].item > w[0].item;
            let follows = w[1].key as u64 == end(&w[0]);
            if !stays && !follows {
                return false;
            }
        }
        (0..e.len()).all(|i| {
            let alone = (i == 0 || !same_cell(&e[i - 1], &e[i]))
                && (i + 1 == e.len() || !same_cell(&e[i + 1], &e[i]));
            (e[i].item as u64) < self.n || (e[i].item == MARK && alone)
        })
    }

    /// Are the entries those of the table? After the chain rule.
    pub fn is_filed(&self) -> bool {
        entries_of(&self.used_table()) == Some(self.used_entries())
    }

    /// Numbers 1 and 2.
    fn check_1_2(&self) -> u8 {
        if self.is_short() {
            1
        } else if !self.chain_holds() {
            2
        } else {
            0
        }
    }

    /// Writes all four lists in full length and sets the counts.
    fn store(&mut self, table: &[Tri], entries: &[Entry]) {
        let numbers: Vec<u16> = table.iter().flat_map(numbers_of_tri).collect();
        for i in 0..TABLE_LEN {
            self.table[i] = numbers.get(i).copied().unwrap_or(0);
        }
        for i in 0..ENTRY_LEN {
            let e = entries.get(i).copied().unwrap_or(Entry { key: 0, level: 0, item: 0 });
            self.keys[i] = e.key;
            self.levels[i] = e.level;
            self.items[i] = e.item;
        }
        self.n = table.len() as u64;
        self.m = entries.len() as u64;
    }

    fn finish(&mut self, o: Outcome) -> Refusal {
        match o {
            Ok((table, entries)) => {
                self.store(&table, &entries);
                no(0)
            }
            Err(r) => r,
        }
    }

    fn edit(&mut self, f: impl Fn(&[Tri]) -> Outcome) -> Refusal {
        let number = self.check_1_2();
        if number != 0 {
            return no(number);
        }
        if !self.is_filed() {
            return no(3);
        }
        let o = f(&self.used_table());
        self.finish(o)
    }

    // ------------------------------------------------------- public calls
    // Load and edits give the number (and triangle of refusal 5); the counts
    // given back are those left in n and m.

    pub fn load(&mut self, given: &[u16]) -> Refusal {
        if self.is_short() {
            return no(1);
        }
        self.finish(plain_load(given))
    }

    pub fn insert(&mut self, p: Point) -> Refusal {
        self.edit(|table| plain_insert(table, p))
    }

    pub fn take_out(&mut self, p: Point) -> Refusal {
        self.edit(|table| plain_take_out(table, p))
    }

    pub fn flip(&mut self, i: u64, j: u64) -> Refusal {
        self.edit(|table| plain_flip(table, i, j))
    }

    /// The cell's triangle numbers; nothing for the mark and refusals.
    pub fn listing(&self, x: u16, y: u16) -> Vec<u16> {
        if self.check_1_2() != 0 {
            return Vec::new();
        }
        let key = z(x, y) as u64;
        self.used_entries()
            .iter()
            .filter(|e| e.key as u64 <= key && key < e.key as u64 + keys_of_level(e.level))
            .map(|e| e.item)
            .filter(|&t| t != MARK)
            .collect()
    }

    /// The number, the triangle found, and where the point is in it.
    pub fn locate(&self, x: u16, y: u16) -> (u8, Option<u16>, Position) {
        let number = self.check_1_2();
        if number != 0 {
            return (number, None, Position::Outside);
        }
        let table = self.used_table();
        self.listing(x, y)
            .into_iter()
            .map(|t| (t, position(&table[t as usize], pt(x, y))))
            .filter(|found| found.1 != Position::Outside)
            .min_by_key(|found| found.0)
            .map_or((0, None, Position::Outside), |(t, place)| (0, Some(t), place))
    }

    /// The number, and how many triangles are written to the lent list.
    pub fn window(&self, w: &Window, list: &mut [u16]) -> (u8, u64) {
        if self.is_short() || list.len() < WINDOW_LEN {
            return (1, 0);
        }
        if !self.chain_holds() {
            return (2, 0);
        }
        if w.is_empty() {
            return (15, 0);
        }
        // Those listed in some cell that touches the window, ascending; then those in it.
        let near: std::collections::BTreeSet<u16> = self
            .used_entries()
            .iter()
            .filter(|e| e.item != MARK && Square::of_cell(e.key, e.level).closed().touches(w))
            .map(|e| e.item)
            .collect();
        let table = self.used_table();
        let found: Vec<u16> = near.into_iter().filter(|&t| in_window(&table[t as usize], w)).collect();
        list[..WINDOW_LEN].fill(0);
        list[..found.len()].copy_from_slice(&found);
        (0, found.len() as u64)
    }

    pub fn sound(&self) -> (u8, bool) {
        let number = self.check_1_2();
        if number != 0 {
            return (number, false);
        }
        let t = self.used_table();
        let clash = (0..t.len()).any(|i| (i + 1..t.len()).any(|j| share_ground(&t[i], &t[j])));
        (0, !clash)
    }

    pub fn area(&self) -> (u8, i64) {
        let number = self.check_1_2();
        if number != 0 {
            return (number, 0);
        }
        (0, self.used_table().iter().map(doubled_area).sum())
    }
}

// ---------------------------------------------------------------- overlay

/// A cell as it stands in the entries: key range and triangle numbers.
pub struct Cell {
    pub start: u64,
    pub end: u64,
    pub items: Vec<u16>,
}

pub fn cells_of(entries: &[Entry]) -> Vec<Cell> {
    let mut cells: std::collections::BTreeMap<(u32, u8), Vec<u16>> = Default::default();
    for e in entries {
        let list = cells.entry((e.key, e.level)).or_default();
        if e.item != MARK {
            list.push(e.item);
        }
    }
    cells
        .into_iter()
        .map(|((key, level), items)| Cell {
            start: key as u64,
            end: key as u64 + keys_of_level(level),
            items,
        })
        .collect()
}

/// The number of pairs of cells whose ranges overlap: for each range of one
/// side, those of the other that start before its end, less those that end
/// at or before its start.
pub fn count_meetings(a: &[Cell], b: &[Cell]) -> u64 {
    let mut starts: Vec<u64> = b.iter().map(|c| c.start).collect();
    let mut ends: Vec<u64> = b.iter().map(|c| c.end).collect();
    starts.sort_unstable();
    ends.sort_unstable();
    a.iter()
        .map(|c| {
            let begun = starts.partition_point(|&s| s < c.end);
            let over = ends.partition_point(|&e| e <= c.start);
            (begun - over) as u64
        })
        .sum()
}

/// All pairs (i,j), ascending, that the overlay lists, without limit.
pub fn list_pairs(ta: &[Tri], ca: &[Cell], tb: &[Tri], cb: &[Cell]) -> Vec<(u16, u16)> {
    // near[i][j]: a cell listing i and a cell listing j overlap.
    let mut near = vec![vec![false; tb.len()]; ta.len()];
    for a in ca {
        // cb is sorted by key and its ranges do not overlap one another.
        let from = cb.partition_point(|b| b.end <= a.start);
        for b in cb[from..].iter().take_while(|b| b.start < a.end) {
            for &i in &a.items {
                for &j in &b.items {
                    near[i as usize][j as usize] = true;
                }
            }
        }
    }
    let mut pairs = Vec::new();
    for i in 0..ta.len() {
        for j in 0..tb.len() {
            if near[i][j] && share_ground(&ta[i], &tb[j]) {
                pairs.push((i as u16, j as u16));
                // One over the limit is enough to know number 12.
                if pairs.len() > MAX_PAIRS {
                    return pairs;
                }
            }
        }
    }
    pairs
}

#[derive(Clone, PartialEq, Eq, Debug)]
pub struct Answer {
    pub number: u8,
    pub pairs: u64,
    pub meetings: u64,
}

pub fn overlay(a: &Chart, b: &Chart, pairs: &mut [u16]) -> Answer {
    let refused = |number| Answer { number, pairs: 0, meetings: 0 };
    if a.is_short() || b.is_short() || pairs.len() < PAIRS_LEN {
        return refused(1);
    }
    if !a.chain_holds() || !b.chain_holds() {
        return refused(2);
    }
    let (ca, cb) = (cells_of(&a.used_entries()), cells_of(&b.used_entries()));
    let list = list_pairs(&a.used_table(), &ca, &b.used_table(), &cb);
    pairs[..PAIRS_LEN].fill(0);
    if list.len() > MAX_PAIRS {
        return refused(12);
    }
    for (k, &(i, j)) in list.iter().enumerate() {
        pairs[2 * k] = i;
        pairs[2 * k + 1] = j;
    }
    Answer { number: 0, pairs: list.len() as u64, meetings: count_meetings(&ca, &cb) }
}

// -------------------------------------------------------- command program

/// The log of a command stream.
pub fn run_log(input: &[u8]) -> String {
    let mut out = String::from("overlay log\n");
    let mut charts = [Chart::blank(), Chart::blank()];
    for c in &mut charts {
        assert_eq!(c.load(&[]).number, 0);
    }
    let mut pairs = vec![0u16; PAIRS_LEN];
    let mut waiting: Vec<u16> = Vec::new();
    let mut at = 0;
    while at < input.len() {
        let start = at;
        let command = input[at];
        at += 1;
        // Length of the operands: with a chart byte or not, and 16-bit words.
        let (with_chart, words) = match command {
            1 => (false, 6),
            2 => (true, 0),
            3..=6 => (true, 2),
            7 => (false, 0),
            _ => {
                out += &format!("bad {start}\n");
                return out;
            }
        };
        let len = usize::from(with_chart) + 2 * words;
        let operands = match input.get(at..at + len) {
            Some(o) if !(with_chart && o[0] > 1) => o,
            _ => {
                out += &format!("bad {start}\n");
                return out;
            }
        };
        at += len;
        let (c, rest) = if with_chart { (operands[0] as usize, &operands[1..]) } else { (0, operands) };
        let w: Vec<u16> = rest.chunks(2).map(|b| b[0] as u16 + 256 * b[1] as u16).collect();
        let chart = &mut charts[c];
        match command {
            1 => {
                if waiting.len() == TABLE_LEN {
                    out += "1 4\n";
                } else {
                    waiting.extend(&w);
                }
            }
            2 | 3 | 4 | 5 => {
                let r = match command {
                    2 => chart.load(&std::mem::take(&mut waiting)),
                    3 => chart.insert(pt(w[0], w[1])),
                    4 => chart.take_out(pt(w[0], w[1])),
                    _ => chart.flip(w[0] as u64, w[1] as u64),
                };
                out += &match r.number {
                    0 => format!("{command} 0 {}\n", chart.m),
                    5 => format!("{command} 5 {}\n", r.triangle),
                    x => format!("{command} {x}\n"),
                };
            }
            6 => {
                out += &match chart.locate(w[0], w[1]) {
                    (0, Some(t), place) => format!("6 0 {t} {}\n", place.number()),
                    (0, None, _) => format!("6 0 {MARK}\n"),
                    (x, ..) => format!("6 {x}\n"),
                };
            }
            _ => {
                let [a, b] = &charts;
                let r = overlay(a, b, &mut pairs);
                if r.number == 0 {
                    out += &format!("7 0 {} {}\n", r.pairs, r.meetings);
                    for p in pairs.chunks(2).take(r.pairs as usize) {
                        out += &format!("{} {}\n", p[0], p[1]);
                    }
                } else {
                    out += &format!("7 {}\n", r.number);
                }
            }
        }
    }
    out
}
