//! Random command streams, fixed by kind and seed.

mod small;

use crate::model::*;
pub use small::numbered;
use std::collections::BTreeMap;

/// A small generator of random numbers (splitmix64).
pub struct Rng(u64);

impl Rng {
    pub fn new(seed: u64) -> Rng {
        Rng(seed.wrapping_mul(0x2545_F491_4F6C_DD1D) ^ 0x1234_5678_9ABC_DEF1)
    }

    pub fn next(&mut self) -> u64 {
        self.0 = self.0.wrapping_add(0x9E37_79B9_7F4A_7C15);
        let mut v = self.0;
        v = (v ^ (v >> 30)).wrapping_mul(0xBF58_476D_1CE4_E5B9);
        v = (v ^ (v >> 27)).wrapping_mul(0x94D0_49BB_1331_11EB);
        v ^ (v >> 31)
    }

    /// 0 to n - 1.
    pub fn below(&mut self, n: i64) -> i64 {
        (self.next() % n as u64) as i64
    }

    /// lo to hi, both included.
    pub fn range(&mut self, lo: i64, hi: i64) -> i64 {
        lo + self.below(hi - lo + 1)
    }

    pub fn chance(&mut self, percent: i64) -> bool {
        self.below(100) < percent
    }

    pub fn pick<T: Copy>(&mut self, list: &[T]) -> T {
        list[self.below(list.len() as i64) as usize]
    }

    pub fn shuffle<T>(&mut self, list: &mut [T]) {
        for i in (1..list.len()).rev() {
            list.swap(i, self.below(i as i64 + 1) as usize);
        }
    }
}

fn gcd(a: i64, b: i64) -> i64 {
    if b == 0 { a } else { gcd(b, a % b) }
}

fn point(x: i64, y: i64) -> Point {
    Point { x: x.clamp(0, 65_535), y: y.clamp(0, 65_535) }
}

/// A stream in the making; follows the plain tables so that later commands
/// can aim at what is there.
struct Stream {
    bytes: Vec<u8>,
    tables: [Vec<Tri>; 2],
    waiting: Vec<u16>,
    rng: Rng,
}

impl Stream {
    fn word(&mut self, v: i64) {
        self.bytes.extend((v as u16).to_le_bytes());
    }

    fn words(&mut self, list: &[i64]) {
        list.iter().for_each(|v| self.word(*v));
    }

    fn head(&mut self, command: u8, c: usize) {
        self.bytes.extend([command, c as u8]);
    }

    fn follow(&mut self, c: usize, o: Outcome) -> bool {
        match o {
            Ok((table, _)) => {
                self.tables[c] = table;
                true
            }
            Err(_) => false,
        }
    }

    fn tri(&mut self, t: &Tri) {
        self.bytes.push(1);
        for v in numbers_of_tri(t) {
            self.word(v as i64);
        }
        if self.waiting.len() < TABLE_LEN {
            self.waiting.extend(numbers_of_tri(t));
        }
    }

    fn load(&mut self, c: usize) -> bool {
        self.head(2, c);
        let given = std::mem::take(&mut self.waiting);
        self.follow(c, plain_load(&given))
    }

    fn load_all(&mut self, c: usize, table: &[Tri]) -> bool {
        for t in table {
            self.tri(t);
        }
        self.load(c)
    }

    fn insert(&mut self, c: usize, p: Point) -> bool {
        self.head(3, c);
        self.words(&[p.x, p.y]);
        let o = plain_insert(&self.tables[c], p);
        self.follow(c, o)
    }

    fn take_out(&mut self, c: usize, p: Point) -> bool {
        self.head(4, c);
        self.words(&[p.x, p.y]);
        let o = plain_take_out(&self.tables[c], p);
        self.follow(c, o)
    }

    fn flip(&mut self, c: usize, i: i64, j: i64) -> bool {
        self.head(5, c);
        self.words(&[i, j]);
        let o = plain_flip(&self.tables[c], i as u64, j as u64);
        self.follow(c, o)
    }

    fn locate(&mut self, c: usize, p: Point) {
        self.head(6, c);
        self.words(&[p.x, p.y]);
    }

    fn overlay(&mut self) {
        self.bytes.push(7);
    }

    // --------------------------------------------------------- aimed picks

    /// A lattice point in or near triangle t.
    fn point_of(&mut self, t: &Tri) -> Point {
        let (mut x, mut y, mut sum) = (0, 0, 0);
        for c in t {
            let w = self.rng.range(1, 1000);
            x += w * c.x;
            y += w * c.y;
            sum += w;
        }
        let p = point((x + sum / 2) / sum, (y + sum / 2) / sum);
        if position(t, p) == Position::Inside || self.rng.chance(30) {
            return p;
        }
        // A small triangle: take any of its inner points near by.
        let near: Vec<Point> = (-3..=3)
            .flat_map(|dx| (-3..=3).map(move |dy| (dx, dy)))
            .map(|(dx, dy)| point(p.x + dx, p.y + dy))
            .filter(|&q| position(t, q) == Position::Inside)
            .collect();
        if near.is_empty() { p } else { self.rng.pick(&near) }
    }

    fn some_corner(&mut self, c: usize) -> Point {
        if self.tables[c].is_empty() {
            return point(self.rng.below(65_536), self.rng.below(65_536));
        }
        let t = self.rng.pick(&self.tables[c]);
        self.rng.pick(&t)
    }

    /// A grid point on a side of one of these and at none of its ends; none
    /// where no side has one.
    fn point_on(&mut self, tris: &[Tri]) -> Option<Point> {
        let mut sides = Vec::new();
        for t in tris {
            for k in 0..3 {
                let (p, q) = (t[k], t[(k + 1) % 3]);
                let (dx, dy) = (q.x - p.x, q.y - p.y);
                let parts = gcd(dx.abs(), dy.abs());
                if parts > 1 {
                    sides.push((p, dx / parts, dy / parts, parts));
                }
            }
        }
        if sides.is_empty() {
            return None;
        }
        let (p, dx, dy, parts) = self.rng.pick(&sides);
        let n = self.rng.range(1, parts - 1);
        Some(point(p.x + n * dx, p.y + n * dy))
    }

    /// Such a point of the chart, or a corner.
    fn side_point(&mut self, c: usize) -> Point {
        let table = self.tables[c].clone();
        self.point_on(&table).unwrap_or_else(|| self.some_corner(c))
    }

    fn beside(&mut self, p: Point, reach: i64) -> Point {
        point(p.x + self.rng.range(-reach, reach), p.y + self.rng.range(-reach, reach))
    }

    /// A point of a triangle: on a side, at a corner, and less often inside.
    fn held_point(&mut self, c: usize) -> Point {
        match self.rng.below(7) {
            0 if !self.tables[c].is_empty() => {
                let t = self.rng.pick(&self.tables[c]);
                self.point_of(&t)
            }
            1..=3 => self.side_point(c),
            _ => self.some_corner(c),
        }
    }

    /// A point to insert: inside a triangle or on a side, and less often beside
    /// a side, at a corner or anywhere.
    fn new_point(&mut self, c: usize) -> Point {
        match self.rng.below(20) {
            0..=10 if !self.tables[c].is_empty() => {
                let t = self.rng.pick(&self.tables[c]);
                self.point_of(&t)
            }
            11..=16 => self.side_point(c),
            17 => {
                let p = self.side_point(c);
                self.beside(p, 1)
            }
            18 => self.some_corner(c),
            _ => point(self.rng.below(65_536), self.rng.below(65_536)),
        }
    }

    /// A point of one triangle: inside, on a side or at a corner.
    fn point_by(&mut self, t: &Tri) -> Point {
        match self.rng.below(8) {
            0..=2 => self.point_of(t),
            3..=6 => self.point_on(&[*t]).unwrap_or(t[0]),
            _ => self.rng.pick(t),
        }
    }

    /// Pairs that share a side in opposite directions.
    fn neighbours(&self, c: usize) -> Vec<(i64, i64)> {
        let mut by_side: BTreeMap<(Point, Point), Vec<i64>> = BTreeMap::new();
        for (i, t) in self.tables[c].iter().enumerate() {
            for k in 0..3 {
                by_side.entry((t[k], t[(k + 1) % 3])).or_default().push(i as i64);
            }
        }
        let mut out = Vec::new();
        for ((p, q), is) in &by_side {
            for j in by_side.get(&(*q, *p)).into_iter().flatten() {
                out.extend(is.iter().map(|i| (*i, *j)));
            }
        }
        out
    }

    /// Points that are a corner of exactly three triangles.
    fn threes(&self, c: usize) -> Vec<Point> {
        let mut count: BTreeMap<Point, usize> = BTreeMap::new();
        for t in &self.tables[c] {
            for p in t {
                *count.entry(*p).or_default() += 1;
            }
        }
        count.into_iter().filter(|e| e.1 == 3).map(|e| e.0).collect()
    }

    fn some_point(&mut self, c: usize) -> Point {
        let n = self.tables[c].len();
        match self.rng.below(6) {
            0 => point(self.rng.below(65_536), self.rng.below(65_536)),
            1 => {
                let p = self.some_corner(c);
                self.beside(p, 2)
            }
            2 | 3 => self.held_point(c),
            4 => {
                // The middle of a side, or close to it.
                let (p, q) = (self.some_corner(c), self.some_corner(c));
                point((p.x + q.x) / 2, (p.y + q.y) / 2)
            }
            _ if n > 0 => {
                let t = self.rng.pick(&self.tables[c]);
                self.point_of(&t)
            }
            _ => point(self.rng.below(65_536), self.rng.below(65_536)),
        }
    }

    /// One random edit or question; mostly such as can be accepted.
    fn step(&mut self, c: usize) {
        let n = self.tables[c].len() as i64;
        match self.rng.below(100) {
            0..=39 if n > 0 => {
                let p = self.new_point(c);
                self.insert(c, p);
            }
            40..=64 => {
                let list = self.neighbours(c);
                if !list.is_empty() {
                    let (i, j) = self.rng.pick(&list);
                    self.flip(c, i, j);
                }
            }
            65..=76 => {
                let list = self.threes(c);
                if !list.is_empty() {
                    let p = self.rng.pick(&list);
                    self.take_out(c, p);
                }
            }
            77..=88 => {
                let p = self.some_point(c);
                self.locate(c, p);
            }
            89..=91 => {
                let p = self.some_point(c);
                self.insert(c, p);
            }
            92..=94 => {
                let (i, j) = (self.rng.range(0, n), self.rng.range(0, n));
                self.flip(c, i, j);
            }
            95..=96 => {
                let p = self.some_point(c);
                self.take_out(c, p);
            }
            97 => self.overlay(),
            _ => {
                let p = self.held_point(c);
                self.locate(c, p);
            }
        }
    }

    fn steps(&mut self, count: i64) {
        for _ in 0..count {
            let c = self.rng.below(2) as usize;
            self.step(c);
        }
    }

    /// A triangle with D > 0 from a maker of points; gives up after a while.
    fn some_tri(&mut self, mut make: impl FnMut(&mut Rng) -> Point) -> Tri {
        for _ in 0..200 {
            let t = [make(&mut self.rng), make(&mut self.rng), make(&mut self.rng)];
            let v = doubled_area(&t);
            if v > 0 {
                return t;
            }
            if v < 0 {
                return [t[0], t[2], t[1]];
            }
        }
        [point(0, 0), point(1, 0), point(0, 1)]
    }

    /// One more triangle: any, or one on a side of those before it, the other way round.
    fn next_tri(&mut self, before: &[Tri], make: impl Fn(&mut Rng) -> Point) -> Tri {
        if !before.is_empty() && self.rng.chance(40) {
            let t = turned(&self.rng.pick(before), self.rng.below(3) as usize);
            let facing = [t[1], t[0], make(&mut self.rng)];
            if doubled_area(&facing) > 0 {
                return turned(&facing, self.rng.below(3) as usize);
            }
        }
        self.some_tri(make)
    }

    // ---------------------------------------------------------------- kinds

    /// The start of a mesh: one or two triangles over a box.
    fn mesh_base(&mut self) -> Vec<Tri> {
        let s = match self.rng.below(4) {
            0 | 1 => 65_535,
            _ => 1 << self.rng.range(4, 15),
        };
        let (x, y) = if s == 65_535 {
            (0, 0)
        } else {
            (self.rng.range(0, 65_535 - s), self.rng.range(0, 65_535 - s))
        };
        let [a, b, c, d4] = [point(x, y), point(x + s, y), point(x + s, y + s), point(x, y + s)];
        let mut base = match self.rng.below(4) {
            0 => vec![[a, b, d4]],
            1 => vec![[a, b, c], [a, c, d4]],
            _ => vec![[a, b, d4], [c, d4, b]],
        };
        for t in &mut base {
            *t = turned(t, self.rng.below(3) as usize);
        }
        base
    }

    fn mesh(&mut self) {
        for c in 0..2 {
            let base = self.mesh_base();
            self.load_all(c, &base);
        }
        let count = self.rng.range(20, 90);
        self.steps(count);
        self.overlay();
        if self.rng.chance(30) {
            // Take apart again what can be taken apart.
            for c in 0..2 {
                while let Some(&p) = self.threes(c).last() {
                    if !self.take_out(c, p) {
                        break;
                    }
                }
            }
            self.overlay();
        }
    }

    fn soup(&mut self) {
        for _ in 0..self.rng.range(1, 3) {
            for c in 0..2 {
                let n = self.rng.range(0, 16);
                let size = 1i64 << self.rng.range(2, 16);
                let spread = (1i64 << self.rng.range(4, 16)).max(size);
                let (ox, oy) =
                    (self.rng.below(65_537 - spread), self.rng.below(65_537 - spread));
                let mut table = Vec::new();
                for _ in 0..n {
                    let (x, y) =
                        (ox + self.rng.below(spread), oy + self.rng.below(spread));
                    let t = self.some_tri(|r| point(x + r.below(size), y + r.below(size)));
                    table.push(t);
                    if self.rng.chance(15) {
                        table.push(turned(&t, self.rng.below(3) as usize));
                    }
                }
                self.load_all(c, &table);
            }
            self.overlay();
            let count = self.rng.range(0, 25);
            self.steps(count);
            self.overlay();
        }
    }

    fn touch(&mut self) {
        for _ in 0..self.rng.range(1, 3) {
            let g = self.rng.range(2, 9);
            // Near the corner of a square of some level, or anywhere.
            let (ox, oy) = if self.rng.chance(70) {
                let s = 1i64 << self.rng.range(1, 15);
                let near = |r: &mut Rng| (s * r.range(0, 65_535 / s) - r.below(g + 1)).clamp(0, 65_535 - g);
                (near(&mut self.rng), near(&mut self.rng))
            } else {
                (self.rng.below(65_536 - g), self.rng.below(65_536 - g))
            };
            let step = if self.rng.chance(25) { 1i64 << self.rng.range(1, 10) } else { 1 };
            for c in 0..2 {
                let n = self.rng.range(1, 40);
                let mut table = Vec::new();
                for _ in 0..n {
                    let t = self.next_tri(&table, |r| point(ox + step * r.range(0, g), oy + step * r.range(0, g)));
                    table.push(t);
                }
                if self.rng.chance(8) {
                    // A faulty one among them.
                    let k = self.rng.below(table.len() as i64) as usize;
                    table[k] = [table[k][0], table[k][2], table[k][1]];
                }
                self.load_all(c, &table);
            }
            self.overlay();
            let count = self.rng.range(10, 60);
            self.steps(count);
            for c in 0..2 {
                for _ in 0..6 {
                    let p = if self.rng.chance(60) {
                        self.held_point(c)
                    } else {
                        point(ox + step * self.rng.range(-1, g + 1), oy + step * self.rng.range(-1, g + 1))
                    };
                    self.locate(c, p);
                    if self.rng.chance(30) {
                        self.take_out(c, p);
                    }
                }
            }
            self.overlay();
        }
    }

    /// A table of exactly so many entries: some triangles, then copies, each
    /// of which adds as many entries as its first has.
    fn table_of_entries(&mut self, target: usize) -> Vec<Tri> {
        loop {
            let mut table = Vec::new();
            for _ in 0..self.rng.range(3, 12) {
                let size = 1i64 << self.rng.range(3, 13);
                let (x, y) = (self.rng.below(65_536 - size), self.rng.below(65_536 - size));
                table.push(self.some_tri(|r| point(x + r.range(0, size), y + r.range(0, size))));
            }
            let Some(entries) = entries_of(&table) else { continue };
            if entries.len() > target {
                continue;
            }
            let rest = target - entries.len();
            let mut worth = vec![0usize; table.len()];
            for e in entries.iter().filter(|e| e.item != MARK) {
                worth[e.item as usize] += 1;
            }
            // Fewest copies for each sum, and the last one taken.
            let mut best: Vec<Option<(usize, usize)>> = vec![None; rest + 1];
            best[0] = Some((0, 0));
            for s in 1..=rest {
                for (k, &w) in worth.iter().enumerate() {
                    if w <= s {
                        if let Some((copies, _)) = best[s - w] {
                            if best[s].is_none_or(|b| copies + 1 < b.0) {
                                best[s] = Some((copies + 1, k));
                            }
                        }
                    }
                }
            }
            let Some((copies, _)) = best[rest] else { continue };
            if table.len() + copies > MAX_TRIANGLES {
                continue;
            }
            let mut s = rest;
            while s > 0 {
                let k = best[s].unwrap().1;
                table.push(table[k]);
                s -= worth[k];
            }
            self.rng.shuffle(&mut table);
            return table;
        }
    }

    /// A grid of squares, each cut in two.
    fn grid(&mut self, columns: i64, rows: i64, step: i64, ox: i64, oy: i64) -> Vec<Tri> {
        let mut table = Vec::new();
        for r in 0..rows {
            for k in 0..columns {
                let at = |dx: i64, dy: i64| point(ox + step * (k + dx), oy + step * (r + dy));
                if self.rng.chance(50) {
                    table.push([at(0, 0), at(1, 0), at(0, 1)]);
                    table.push([at(1, 1), at(0, 1), at(1, 0)]);
                } else {
                    table.push([at(0, 0), at(1, 0), at(1, 1)]);
                    table.push([at(0, 0), at(1, 1), at(0, 1)]);
                }
            }
        }
        table
    }

    fn full(&mut self) {
        match self.rng.below(4) {
            0 => {
                // Near 512 triangles.
                let size = 1i64 << self.rng.range(3, 14);
                let (x, y) = (self.rng.below(65_536 - size), self.rng.below(65_536 - size));
                let t = self.some_tri(|r| point(x + r.range(0, size), y + r.range(0, size)));
                let n = self.rng.range(500, 514);
                for _ in 0..n {
                    let turned = turned(&t, self.rng.below(3) as usize);
                    self.tri(&turned);
                }
                self.load(0);
                for _ in 0..10 {
                    let p = self.point_by(&t);
                    self.insert(0, p);
                }
                self.steps(8);
            }
            1 => {
                // At the limit of entries.
                let target = self.rng.range(16_382, 16_386) as usize;
                let table = self.table_of_entries(target);
                if !self.load_all(0, &table) {
                    let table = self.table_of_entries(ENTRY_LEN);
                    self.load_all(0, &table);
                }
                let other = self.table_of_entries(2000);
                self.load_all(1, &other);
                for _ in 0..6 {
                    self.step(0);
                }
                self.overlay();
                let p = self.some_point(0);
                self.locate(0, p);
            }
            2 => {
                // A mesh that grows until it is full.
                let base = self.mesh_base();
                let c = self.rng.below(2) as usize;
                self.load_all(c, &base);
                let mut refused = 0;
                for _ in 0..400 {
                    let tri = self.rng.pick(&self.tables[c]);
                    let p = self.point_of(&tri);
                    if position(&tri, p) == Position::Inside && !self.insert(c, p) {
                        refused += 1;
                    }
                    if refused > 5 {
                        break;
                    }
                }
                for _ in 0..40 {
                    self.step(c);
                }
                self.overlay();
            }
            _ => {
                // Grids of up to 512 triangles over one another.
                for c in 0..2 {
                    let step = self.rng.pick(&[1, 2, 3, 4, 5, 8, 16, 64, 1024, 4095, 4096]);
                    let (columns, rows) = self.rng.pick(&[(16, 16), (8, 32), (16, 15), (10, 10), (4, 4)]);
                    let (w, h) = (step * columns, step * rows);
                    let (ox, oy) = (
                        self.rng.range(0, (65_535 - w).max(0)).min(40_000),
                        self.rng.range(0, (65_535 - h).max(0)).min(40_000),
                    );
                    let (ox, oy) = if self.rng.chance(50) { (ox / 64 * 64, oy / 64 * 64) } else { (ox, oy) };
                    let mut table = self.grid(columns, rows, step, ox, oy);
                    table.retain(|t| doubled_area(t) > 0);
                    self.load_all(c, &table);
                }
                self.overlay();
                self.steps(25);
                self.overlay();
            }
        }
    }

    /// Groups of copies, so placed that only those of one group share ground;
    /// p copies in one chart and q in the other make p times q pairs.
    fn many(&mut self) {
        let target = self.rng.pick(&[4094, 4095, 4096, 4096, 4097, 4098]);
        let mut rest = target;
        let mut tables = [Vec::new(), Vec::new()];
        let mut places: Vec<i64> = (0..16).collect();
        self.rng.shuffle(&mut places);
        for (k, place) in places.into_iter().enumerate() {
            if rest == 0 {
                break;
            }
            let room = [0, 1].map(|c: usize| 500 - tables[c].len() as i64);
            let (p, q) = if rest <= 60 || k == 15 {
                (1, rest.min(room[1]))
            } else {
                let p = self.rng.range(20, 90).min(room[0]).min(rest);
                (p, (rest / p).min(room[1]))
            };
            if p < 1 || q < 1 || room[0] < 1 {
                break;
            }
            rest -= p * q;
            let (x, y) = (16_384 * (place % 4), 16_384 * (place / 4));
            let s = 1i64 << self.rng.range(3, 13);
            let lead = [0, 1].map(|_| {
                let e = self.rng.range(0, s / 4);
                [point(x + 2 + e, y + 2), point(x + 1 + s, y + 2), point(x + 2, y + 1 + s)]
            });
            for (c, count) in [(0, p), (1, q)] {
                for _ in 0..count {
                    let t = turned(&lead[c], self.rng.below(3) as usize);
                    tables[c].push(t);
                }
            }
        }
        for (c, table) in tables.iter_mut().enumerate() {
            self.rng.shuffle(table);
            self.load_all(c, table);
        }
        self.overlay();
        // An insert moves the count a little.
        for _ in 0..3 {
            let c = self.rng.below(2) as usize;
            if self.tables[c].is_empty() {
                continue;
            }
            let tri = self.rng.pick(&self.tables[c]);
            let p = self.point_by(&tri);
            let done = self.insert(c, p);
            self.overlay();
            if done && self.rng.chance(60) {
                self.take_out(c, p);
                self.overlay();
            }
        }
    }

    fn edge(&mut self) {
        const ENDS: [i64; 20] = [
            0, 0, 0, 1, 2, 3, 255, 256, 16_383, 16_384, 32_767, 32_768, 32_769, 49_152, 65_532, 65_533,
            65_534, 65_535, 65_535, 65_535,
        ];
        for _ in 0..self.rng.range(1, 4) {
            for c in 0..2 {
                let n = self.rng.range(1, 7);
                let mut table = Vec::new();
                for _ in 0..n {
                    table.push(self.some_tri(|r| point(r.pick(&ENDS), r.pick(&ENDS))));
                }
                if self.rng.chance(15) {
                    let t = table[0];
                    table.push([t[0], t[2], t[1]]);
                }
                if !self.load_all(c, &table) {
                    self.load_all(c, &table[..1]);
                }
            }
            self.overlay();
            for _ in 0..self.rng.range(5, 25) {
                let c = self.rng.below(2) as usize;
                let p = point(self.rng.pick(&ENDS), self.rng.pick(&ENDS));
                match self.rng.below(6) {
                    0 => self.locate(c, p),
                    1 => {
                        self.insert(c, p);
                    }
                    2 => {
                        self.take_out(c, p);
                    }
                    _ => self.step(c),
                }
            }
            self.overlay();
        }
    }

    fn bad(&mut self) {
        match self.rng.below(4) {
            0 => self.touch(),
            1 => self.edge(),
            2 => {
                let base = self.mesh_base();
                self.load_all(0, &base);
                self.steps(12);
            }
            _ => {
                // More than 512 waiting triangles.
                let t = self.some_tri(|r| point(r.below(200), r.below(200)));
                for _ in 0..self.rng.range(510, 516) {
                    self.tri(&t);
                }
                if self.rng.chance(60) {
                    self.load(0);
                }
            }
        }
        let keep = self.bytes.len();
        match self.rng.below(6) {
            0 => {
                let b = self.rng.pick(&[0, 8, 9, 10, 13, 32, 48, 49, 50, 55, 128, 255]);
                self.bytes.push(b);
                self.overlay();
            }
            1 => {
                let command = self.rng.range(2, 6) as u8;
                let c = self.rng.pick(&[2, 3, 48, 255]);
                self.bytes.extend([command, c]);
                for _ in 0..self.rng.below(6) {
                    self.bytes.push(0);
                }
            }
            2 => {
                let t = self.some_tri(|r| point(r.below(65_536), r.below(65_536)));
                self.tri(&t);
                let cut = self.rng.range(1, 12) as usize;
                self.bytes.truncate(keep + 13 - cut);
            }
            3 => {
                self.insert(0, point(1, 1));
                let cut = self.rng.range(1, 5) as usize;
                self.bytes.truncate(keep + 6 - cut);
            }
            4 => {
                for _ in 0..self.rng.range(1, 40) {
                    let b = if self.rng.chance(50) { self.rng.range(0, 8) } else { self.rng.range(0, 255) };
                    self.bytes.push(b as u8);
                }
            }
            _ => {
                let len = self.rng.range(0, keep as i64) as usize;
                self.bytes.truncate(len);
            }
        }
    }
}

/// The stream of a kind, or none for an unknown kind.
pub fn stream(kind: &str, seed: u64) -> Option<Vec<u8>> {
    let salt = kind.bytes().fold(seed, |s, b| s.wrapping_mul(257).wrapping_add(b as u64));
    let mut s = Stream::new(salt);
    match kind {
        "mesh" => s.mesh(),
        "soup" => s.soup(),
        "touch" => s.touch(),
        "full" => s.full(),
        "many" => s.many(),
        "bad" => s.bad(),
        "edge" => s.edge(),
        _ if s.small(kind) => {}
        _ => return None,
    }
    Some(s.bytes)
}
