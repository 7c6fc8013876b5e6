//! Short command streams, of which many can be run in a second, and the kind of each numbered stream.

use super::*;

/// How many of a hundred numbered streams are of each kind.
const SHARES: [(&str, u64); 17] = [
    ("tiny", 26),
    ("patch", 15),
    ("spoilt", 15),
    ("cuts", 8),
    ("far", 8),
    ("wild", 7),
    ("refused", 6),
    ("noise", 5),
    ("pairs", 2),
    ("entries", 1),
    ("waiting", 1),
    ("mesh", 1),
    ("soup", 1),
    ("edge", 1),
    ("bad", 1),
    ("touch", 1),
    ("many", 1),
];
const HUNDRED: u64 = 100;
/// A full chart takes long: it comes in place of `many`, once in so many hundreds.
const FULL_ONCE_IN: u64 = 10;

/// The kind of a numbered stream, and which of its kind it is.
fn kind_of(number: u64) -> (&'static str, u64) {
    let (round, place) = (number / HUNDRED, number * 37 % HUNDRED);
    if place == HUNDRED - 1 && round % FULL_ONCE_IN == 1 {
        return ("full", round / FULL_ONCE_IN);
    }
    let mut first = 0;
    for (kind, share) in SHARES {
        if place < first + share {
            return (kind, round * share + place - first);
        }
        first += share;
    }
    unreachable!("the shares sum to a hundred")
}

/// Stream NUMBER of a seed, and its kind.
pub fn numbered(seed: u64, number: u64) -> (&'static str, Vec<u8>) {
    let (kind, turn) = kind_of(number);
    let mixed = |n: u64| Rng::new(seed ^ n.rotate_left(32)).next();
    if kind == "cuts" {
        // one stream with every command, cut at each of its bytes in turn
        let mut s = Stream::new(mixed(turn / (EVERY_LEN + 1)));
        s.every();
        s.bytes.truncate((turn % (EVERY_LEN + 1)) as usize);
        return (kind, s.bytes);
    }
    (kind, stream(kind, mixed(number)).expect("a kind"))
}

/// The bytes of `every`.
const EVERY_LEN: u64 = 2 * 15 + 6 + 6 + 6 + 6 + 1;

impl Stream {
    pub fn new(seed: u64) -> Stream {
        Stream { bytes: Vec::new(), tables: [Vec::new(), Vec::new()], waiting: Vec::new(), rng: Rng::new(seed) }
    }

    /// Each command once, and a second triangle and load.
    fn every(&mut self) {
        for c in 0..2 {
            let t = self.some_tri(|r| point(r.below(65_536), r.below(65_536)));
            self.load_all(c, &[t]);
        }
        let c = self.rng.below(2) as usize;
        let p = self.some_point(c);
        self.insert(c, p);
        self.take_out(c, p);
        self.flip(c, 0, 1);
        self.locate(c, p);
        self.overlay();
    }

    /// A few commands of any kind on points of the same few places.
    fn few(&mut self, most: i64, make: impl Fn(&mut Rng) -> Point) {
        for _ in 0..self.rng.range(1, most) {
            let (c, p) = (self.rng.below(2) as usize, make(&mut self.rng));
            let n = self.tables[c].len() as i64;
            match self.rng.below(14) {
                0 => self.locate(c, p),
                1..=3 => {
                    let p = self.held_point(c);
                    self.locate(c, p);
                }
                4 => {
                    self.insert(c, p);
                }
                5 => {
                    self.take_out(c, p);
                }
                6 => {
                    let (i, j) = (self.rng.range(0, n), self.rng.range(0, n));
                    self.flip(c, i, j);
                }
                7 => self.overlay(),
                _ => self.step(c),
            }
        }
    }

    /// Few triangles on so few points that everything touches.
    fn tiny(&mut self) {
        let g = self.rng.range(1, 4);
        let s = 1i64 << self.rng.range(0, 16);
        let (ox, oy) = [0, 1].map(|_| (s * self.rng.range(0, 65_535 / s) - self.rng.below(g + 1)).clamp(0, 65_535 - g)).into();
        let make = move |r: &mut Rng| point(ox + r.range(0, g), oy + r.range(0, g));
        for c in 0..2 {
            let mut table = Vec::new();
            for _ in 0..self.rng.range(0, 5) {
                let t = self.next_tri(&table, make);
                table.push(t);
            }
            if self.rng.chance(10) {
                table.push([make(&mut self.rng), make(&mut self.rng), make(&mut self.rng)]);
            }
            self.load_all(c, &table);
        }
        self.overlay();
        self.few(8, make);
        self.overlay();
    }

    /// A small mesh with edits at real places, under another.
    fn patch(&mut self) {
        for c in 0..2 {
            let base = self.mesh_base();
            self.load_all(c, &base);
        }
        let count = self.rng.range(2, 9);
        self.steps(count);
        self.overlay();
    }

    /// Coordinates near 65,535, and x and y never alike.
    fn far(&mut self) {
        let ends = [(65_535, 0), (0, 65_535), (65_535, 32_768), (16_384, 65_535), (65_535, 65_000)];
        let (ex, ey) = self.rng.pick(&ends);
        let (rx, ry) = (self.rng.pick(&[3, 40, 300, 9000]), self.rng.pick(&[2, 17, 700, 30_000]));
        let make = move |r: &mut Rng| point(ex + r.range(-rx, rx / 3), ey + r.range(-ry, ry / 3));
        for c in 0..2 {
            let table: Vec<Tri> = (0..self.rng.range(1, 3)).map(|_| self.some_tri(make)).collect();
            self.load_all(c, &table);
        }
        self.few(6, make);
        self.overlay();
    }

    /// Edits of charts that a load was refused for, or that none was made for.
    fn refused(&mut self) {
        let c = self.rng.below(2) as usize;
        let good = self.some_tri(|r| point(r.below(900), r.below(90)));
        if self.rng.chance(50) {
            self.load_all(c, &[good]);
        }
        let sliver = [point(0, 0), point(65_535, 0), point(65_535, 1)];
        let other = [point(0, 0), point(65_535, 1), point(0, 1)];
        let flat = [point(0, 0), point(5, 5), point(9, 9)];
        match self.rng.below(8) {
            0 => self.load_all(c, &[sliver, other]),
            1 => self.load_all(c, &[good, flat, flat]),
            2 => self.load_all(c, &[good, [good[0], good[2], good[1]]]),
            _ => self.load_all(c, &[flat]),
        };
        self.few(8, |r| point(r.below(900), r.below(90)));
        let p = self.some_corner(c);
        self.take_out(c, p);
        self.load(c);
        self.overlay();
    }

    /// Commands with any operands.
    fn wild(&mut self) {
        for _ in 0..self.rng.range(1, 12) {
            let ends = [0, 1, 2, 255, 256, 511, 512, 32_768, 65_534, 65_535];
            let [a, b, d] = [0; 3].map(|_| if self.rng.chance(60) { self.rng.pick(&ends) } else { self.rng.below(65_536) });
            let c = self.rng.below(2) as usize;
            match self.rng.range(1, 7) {
                1 => self.tri(&[point(a, b), point(b, d), point(d, a)]),
                2 => {
                    self.load(c);
                }
                3 => {
                    self.insert(c, point(a, b));
                }
                4 => {
                    self.take_out(c, point(a, b));
                }
                5 => {
                    self.flip(c, a, b);
                }
                6 => self.locate(c, point(a, b)),
                _ => self.overlay(),
            }
        }
    }

    /// Any bytes, or none.
    fn noise(&mut self) {
        let most = self.rng.pick(&[0, 1, 2, 13, 60]);
        for _ in 0..self.rng.range(0, most) {
            let b = if self.rng.chance(80) { self.rng.pick(&[0, 0, 1, 2, 3, 4, 5, 6, 7, 8]) } else { self.rng.below(256) as u8 };
            self.bytes.push(b);
        }
    }

    /// A short stream with one fault: cut, a byte changed, put in or taken out, or one more command with a wrong chart.
    fn spoilt(&mut self) {
        match self.rng.below(3) {
            0 => self.tiny(),
            1 => self.wild(),
            _ => self.patch(),
        }
        let at = self.rng.below(self.bytes.len() as i64) as usize;
        let any = self.rng.below(256) as u8;
        match self.rng.below(6) {
            0 | 1 => self.bytes.truncate(at),
            2 => self.bytes[at] = any,
            3 => self.bytes.insert(at, any),
            4 => {
                self.bytes.remove(at);
            }
            _ => {
                let (command, chart) = (self.rng.range(2, 6) as u8, self.rng.range(2, 255) as u8);
                self.bytes.extend([command, chart, 1, 0, 1, 0]);
                self.overlay();
            }
        }
    }

    /// Some 512 triangles that wait, and inserts into as many: one, now and then one beyond its side ab, and copies of it
    /// or of one elsewhere.
    fn waiting_table(&mut self) {
        let t = self.some_tri(|r| point(4 * r.below(9), 4 + 4 * r.below(5)));
        let beyond = [t[1], t[0], point(t[0].x + t[1].x - t[2].x, t[0].y + t[1].y - t[2].y)];
        let faces = doubled_area(&beyond) > 0 && self.rng.chance(60);
        let copied = if self.rng.chance(25) { t } else { [point(65_000, 9), point(65_001, 9), point(65_000, 10)] };
        let n = self.rng.pick(&[508, 509, 510, 510, 510, 511, 511, 512, 513, 514]);
        for k in 0..n {
            self.tri(match k {
                3 => &t,
                7 if faces => &beyond,
                _ => &copied,
            });
        }
        if n > 511 && self.rng.chance(30) {
            // one more that is faulty: it is dropped unseen
            self.tri(&[t[0], t[2], t[1]]);
        }
        let c = self.rng.below(2) as usize;
        self.load(c);
        for _ in 0..7 {
            let p = self.point_by(&t);
            self.insert(c, p);
        }
    }

    /// A table of 16,384 entries, or one less or more: the halves of a thin box, and copies of both.
    fn entries(&mut self) {
        let target = self.rng.pick(&[ENTRY_LEN - 1, ENTRY_LEN, ENTRY_LEN, ENTRY_LEN + 1]);
        let mut table = loop {
            let (w, h) = (self.rng.range(60, 400), self.rng.range(2, 9));
            let (x, y) = (self.rng.range(0, 65_535 - w), self.rng.range(0, 65_535 - h));
            let [a, b, c, d] = [point(x, y), point(x + w, y), point(x + w, y + h), point(x, y + h)];
            let pair = vec![[a, b, d], [c, d, b]];
            let entries = entries_of(&pair).expect("few entries");
            let [first, second] = [0, 1].map(|i| entries.iter().filter(|e| e.item == i).count());
            let rest = target - entries.len();
            let fits = |n: &usize| rest >= n * second && (rest - n * second) % first == 0;
            let Some(n) = (0..first).find(fits) else { continue };
            let copies = (rest - n * second) / first;
            if n + copies < MAX_TRIANGLES - 4 {
                break [vec![pair[0], pair[1]], vec![pair[0]; copies], vec![pair[1]; n]].concat();
            }
        };
        let c = self.rng.below(2) as usize;
        if !self.load_all(c, &table) {
            table.pop();
            self.load_all(c, &table);
        }
        self.flip(c, 0, 1);
        let p = self.point_of(&table[1]);
        self.insert(c, p);
        self.take_out(c, p);
        self.locate(c, p);
        self.overlay();
    }

    /// Copies that make 4,096 pairs, or a few less or more.
    fn pairs(&mut self) {
        let (p, q) = self.rng.pick(&[(64, 64), (8, 512), (128, 32), (63, 65), (17, 241), (64, 65), (241, 17), (513, 8), (9, 455)]);
        let t = self.some_tri(|r| point(r.below(5), 65_535 - r.below(9)));
        for (c, count) in [(0, p), (1, q)] {
            self.load_all(c, &vec![turned(&t, c); count]);
        }
        self.overlay();
        if self.rng.chance(40) {
            // one pair more or less
            self.tri(&t);
            self.load(1);
            self.overlay();
        }
    }

    /// A stream of a kind of this module; whether there is such a kind.
    pub fn small(&mut self, kind: &str) -> bool {
        match kind {
            "tiny" => self.tiny(),
            "patch" => self.patch(),
            "far" => self.far(),
            "refused" => self.refused(),
            "wild" => self.wild(),
            "noise" => self.noise(),
            "spoilt" => self.spoilt(),
            "waiting" => self.waiting_table(),
            "entries" => self.entries(),
            "pairs" => self.pairs(),
            _ => return false,
        }
        true
    }
}
