//! Command line of the reference model.
//!
//!   model log          command stream on standard input, log on output
//!   model entries      one triangle per line as six decimal numbers (only
//!                      the order of the numbers counts); prints the number
//!                      of entries, then `key level triangle` for
//!                      each, or `over` above 16,384. A table that a load
//!                      would refuse otherwise prints `refused NUMBER TRIANGLE`.
//!   model calls        script of calls on raw buffers, see below
//!   model gen KIND SEED  random command stream; KIND is one of mesh, soup,
//!                      touch, full, many, bad, edge, or of the short ones
//!                      tiny, patch, far, refused, wild, noise, spoilt,
//!                      waiting, pairs, entries; SEED is decimal
//!   model streams SEED FROM COUNT STEP  the numbered streams FROM, FROM +
//!                      STEP, .. of a seed: for each a line `KIND BYTES
//!                      BYTES`, then the stream and its log, of so many bytes
//!   model logs         for each line `BYTES` and stream of so many bytes on
//!                      standard input, a line `BYTES` and the log
//!
//! tests/fuzz.py draws by `streams`, the model's own tests by `gen`. The
//! streams of tests/vectors are named by the same kinds and by seeds, but they
//! came from another program, a part of them with their logs: `gen` of that
//! kind and seed draws another stream. The model reads them like every other
//! (tests/log_cases.py).
//!
//! Script of `model calls`
//!
//! One command per line; words are separated by blanks; empty lines and lines
//! that start with # are skipped. There are two charts, C is 0 or 1. BUF is
//! one of
//!   table0 keys0 levels0 items0 table1 keys1 levels1 items1 pairs
//! with places of 16, 32, 8, 16 bits for a chart and 16 bits for pairs.
//! At the start each buffer has its demanded length (3,072, 16,384, 16,384,
//! 16,384, 8,192), all places are 0, and all counts are 0. The places of pairs
//! are lent to overlays as pairs and to windows as their list.
//!
//! Commands without a printed line:
//!   len BUF N [V]        make BUF N places long; new places get V (default 0)
//!   lend BUF N           calls get the first N places of BUF, until the next
//!                        len or lend of it; they do not see the places after
//!   set BUF INDEX V ...  put values at INDEX and the places after it
//!   fill BUF V           put V at every place
//!   counts C N M         counts of triangles and entries of chart C
//!   copy A B             chart B becomes a copy of chart A, counts too
//!
//! Calls. Each prints one line that ends with HASH. Load and edits leave the
//! counts they give back as the counts of the chart.
//!   load C n1 n2 ...     load NUMBER REF N M HASH
//!   insert C x y         insert NUMBER REF N M HASH
//!   take_out C x y       take_out NUMBER REF N M HASH
//!   flip C i j           flip NUMBER REF N M HASH
//!   locate C x y         locate NUMBER TRIANGLE POSITION HASH   (TRIANGLE or
//!                        `nowhere`; POSITION is its number, 7 with `nowhere`)
//!   listing C x y        listing LENGTH t1 t2 ... HASH   (it has no number)
//!   sound C              sound NUMBER yes|no HASH
//!   area C               area NUMBER SUM HASH
//!   overlay A B          overlay NUMBER PAIRS MEETINGS HASH   (A, B may be equal)
//!   window C left top right bottom
//!                        window NUMBER LISTED HASH   (the list is in pairs)
//! REF is the triangle of refusal 5, else 0; N and M are both counts.
//!
//! HASH is 16 hexadecimal digits: 64-bit FNV-1a (start 14695981039346656037,
//! factor 1099511628211) over the bytes of all nine buffers in the order
//! above, each place low byte first (2, 4, 1, 2 bytes wide), in full length;
//! lengths and counts do not go in.
//!
//! Other lines:
//!   dump BUF [FROM TO]   prints `dump BUF LENGTH v v v ...`
//!   sum C                prints `sum S`, a checksum of the buffers of chart C:
//!                        S * 31 + value + 1 modulo 4,294,967,291 for each place
//!   sum                  the same of both charts and then of pairs
//!   echo WORDS           prints `echo WORDS`
//!
//! A line that is not of these forms, or a value that does not fit its place,
//! prints `error LINE` (counted from 1) and ends the run with status 1.
//! Points are 16-bit; i, j and counts are up to 64-bit.

mod gen;
mod model;
#[cfg(test)]
mod tests;

use model::*;
use std::io::{BufRead, Read, Result, Write};

fn main() {
    let args: Vec<String> = std::env::args().skip(1).collect();
    let words: Vec<&str> = args.iter().map(|s| s.as_str()).collect();
    let (out, status) = match words[..] {
        ["log"] => (run_log(&read_all()).into_bytes(), 0),
        ["entries"] => (entries_text(&text(read_all())).into_bytes(), 0),
        ["calls"] => {
            let (out, ok) = run_calls(&text(read_all()));
            (out.into_bytes(), i32::from(!ok))
        }
        ["streams", seed, from, count, step] => {
            let [Ok(seed), Ok(from), Ok(count), Ok(step)] = [seed, from, count, step].map(|w| w.parse()) else { usage() };
            std::process::exit(i32::from(write_streams(seed, from, count, step).is_err()))
        }
        ["logs"] => std::process::exit(i32::from(answer_streams().is_err())),
        ["gen", kind, seed] => {
            let Ok(seed) = seed.parse() else { usage() };
            let Some(bytes) = gen::stream(kind, seed) else { usage() };
            (bytes, 0)
        }
        _ => usage(),
    };
    let mut stdout = std::io::stdout().lock();
    let written = stdout.write_all(&out).and_then(|_| stdout.flush());
    std::process::exit(if written.is_err() { 1 } else { status });
}

fn usage() -> ! {
    eprintln!("usage: model log | entries | calls | gen KIND SEED | streams SEED FROM COUNT STEP | logs");
    std::process::exit(2)
}

fn read_all() -> Vec<u8> {
    let mut v = Vec::new();
    std::io::stdin().lock().read_to_end(&mut v).expect("standard input");
    v
}

fn text(bytes: Vec<u8>) -> String {
    String::from_utf8(bytes).expect("text")
}

/// Numbered streams with their logs, each written as soon as it is made.
fn write_streams(seed: u64, from: u64, count: u64, step: u64) -> Result<()> {
    let mut out = std::io::stdout().lock();
    for k in 0..count {
        let (kind, bytes) = gen::numbered(seed, from + k * step);
        let log = run_log(&bytes).into_bytes();
        let head = format!("{kind} {} {}\n", bytes.len(), log.len());
        out.write_all(&[head.into_bytes(), bytes, log].concat())?;
        out.flush()?;
    }
    Ok(())
}

/// The logs of streams as they come, until the input ends.
fn answer_streams() -> Result<()> {
    let (mut input, mut out) = (std::io::stdin().lock(), std::io::stdout().lock());
    let mut head = String::new();
    while input.read_line(&mut head)? > 0 {
        let mut bytes = vec![0; head.trim().parse().expect("a length")];
        input.read_exact(&mut bytes)?;
        let log = run_log(&bytes).into_bytes();
        out.write_all(&[format!("{}\n", log.len()).into_bytes(), log].concat())?;
        out.flush()?;
        head.clear();
    }
    Ok(())
}

fn entries_text(input: &str) -> String {
    let numbers: Vec<u16> =
        input.split_whitespace().map(|w| w.parse().expect("a number 0 to 65535")).collect();
    match plain_load(&numbers) {
        Ok((_, entries)) => {
            let mut out = format!("{}\n", entries.len());
            for e in entries {
                out += &format!("{} {} {}\n", e.key, e.level, e.item);
            }
            out
        }
        Err(r) if r.number == 11 => "over\n".into(),
        Err(r) => format!("refused {} {}\n", r.number, r.triangle),
    }
}

// ------------------------------------------------------------------ calls

pub struct Bench {
    charts: [Chart; 2],
    pairs: Vec<u16>,
    /// How many places of each buffer calls get, in the order above.
    lent: [usize; 9],
}

/// The places of a chart that calls do not see.
struct Rest {
    table: Vec<u16>,
    keys: Vec<u32>,
    levels: Vec<u8>,
    items: Vec<u16>,
}

fn hide(c: &mut Chart, lent: &[usize]) -> Rest {
    Rest {
        table: c.table.split_off(lent[0]),
        keys: c.keys.split_off(lent[1]),
        levels: c.levels.split_off(lent[2]),
        items: c.items.split_off(lent[3]),
    }
}

fn show(c: &mut Chart, rest: Rest) {
    c.table.extend(rest.table);
    c.keys.extend(rest.keys);
    c.levels.extend(rest.levels);
    c.items.extend(rest.items);
}

/// The place of a buffer in the order above.
fn buffer_number(name: &str) -> Option<usize> {
    let names = ["table0", "keys0", "levels0", "items0", "table1", "keys1", "levels1", "items1", "pairs"];
    names.iter().position(|n| *n == name)
}

fn hash(b: &Bench) -> u64 {
    let mut h: u64 = 14_695_981_039_346_656_037;
    let mut byte = |x: u8| h = (h ^ x as u64).wrapping_mul(1_099_511_628_211);
    for c in &b.charts {
        c.table.iter().for_each(|v| v.to_le_bytes().into_iter().for_each(&mut byte));
        c.keys.iter().for_each(|v| v.to_le_bytes().into_iter().for_each(&mut byte));
        c.levels.iter().for_each(|v| byte(*v));
        c.items.iter().for_each(|v| v.to_le_bytes().into_iter().for_each(&mut byte));
    }
    b.pairs.iter().for_each(|v| v.to_le_bytes().into_iter().for_each(&mut byte));
    h
}

/// A short checksum of a chart's buffers, place by place, after one of what went before.
fn checksum(before: u64, c: &Chart) -> u64 {
    let mut s = before;
    let mut place = |v: u64| s = (s * 31 + v + 1) % 4_294_967_291;
    c.table.iter().for_each(|v| place(*v as u64));
    c.keys.iter().for_each(|v| place(*v as u64));
    c.levels.iter().for_each(|v| place(*v as u64));
    c.items.iter().for_each(|v| place(*v as u64));
    s
}

/// One of the nine buffers.
enum Buf<'a> {
    Wide(&'a mut Vec<u32>),
    Mid(&'a mut Vec<u16>),
    Small(&'a mut Vec<u8>),
}

impl Buf<'_> {
    fn len(&self) -> usize {
        match self {
            Buf::Wide(v) => v.len(),
            Buf::Mid(v) => v.len(),
            Buf::Small(v) => v.len(),
        }
    }

    fn get(&self, i: usize) -> u64 {
        match self {
            Buf::Wide(v) => v[i] as u64,
            Buf::Mid(v) => v[i] as u64,
            Buf::Small(v) => v[i] as u64,
        }
    }

    /// None when the place or the value does not fit.
    fn put(&mut self, i: usize, x: u64) -> Option<()> {
        match self {
            Buf::Wide(v) => *v.get_mut(i)? = x.try_into().ok()?,
            Buf::Mid(v) => *v.get_mut(i)? = x.try_into().ok()?,
            Buf::Small(v) => *v.get_mut(i)? = x.try_into().ok()?,
        }
        Some(())
    }

    fn resize(&mut self, n: usize, x: u64) -> Option<()> {
        match self {
            Buf::Wide(v) => v.resize(n, x.try_into().ok()?),
            Buf::Mid(v) => v.resize(n, x.try_into().ok()?),
            Buf::Small(v) => v.resize(n, x.try_into().ok()?),
        }
        Some(())
    }
}

impl Bench {
    fn new() -> Bench {
        let four = [TABLE_LEN, ENTRY_LEN, ENTRY_LEN, ENTRY_LEN];
        let lent = [&four[..], &four[..], &[PAIRS_LEN]].concat().try_into().expect("nine");
        Bench { charts: [Chart::blank(), Chart::blank()], pairs: vec![0; PAIRS_LEN], lent }
    }

    fn buf(&mut self, name: &str) -> Option<Buf<'_>> {
        if name == "pairs" {
            return Some(Buf::Mid(&mut self.pairs));
        }
        if !name.is_ascii() || name.is_empty() {
            return None;
        }
        let (kind, c) = name.split_at(name.len() - 1);
        let chart = &mut self.charts[chart_number(c)?];
        match kind {
            "table" => Some(Buf::Mid(&mut chart.table)),
            "keys" => Some(Buf::Wide(&mut chart.keys)),
            "levels" => Some(Buf::Small(&mut chart.levels)),
            "items" => Some(Buf::Mid(&mut chart.items)),
            _ => None,
        }
    }

    /// The printed line without its hash for a call, with `None` inside for a
    /// command that prints nothing; None when the line is not understood.
    fn line(&mut self, w: &[&str]) -> Option<Option<String>> {
        let num = |i: usize| -> Option<u64> { w.get(i)?.parse().ok() };
        let name = w[0];
        let exact = |n: usize| if w.len() == n { Some(()) } else { None };
        match name {
            "len" => {
                let v = if w.len() == 4 { num(3)? } else { exact(3).map(|_| 0)? };
                let n = num(2)?;
                if n > 1 << 24 {
                    return None;
                }
                self.buf(w[1])?.resize(n as usize, v)?;
                self.lent[buffer_number(w[1])?] = n as usize;
                return Some(None);
            }
            "lend" => {
                exact(3)?;
                let n = num(2)? as usize;
                if n > self.buf(w[1])?.len() {
                    return None;
                }
                self.lent[buffer_number(w[1])?] = n;
                return Some(None);
            }
            "set" => {
                if w.len() < 4 {
                    return None;
                }
                let from = num(2)? as usize;
                for k in 3..w.len() {
                    self.buf(w[1])?.put(from.checked_add(k - 3)?, num(k)?)?;
                }
                return Some(None);
            }
            "fill" => {
                exact(3)?;
                let mut b = self.buf(w[1])?;
                for i in 0..b.len() {
                    b.put(i, num(2)?)?;
                }
                return Some(None);
            }
            "dump" => {
                if w.len() != 2 {
                    exact(4)?;
                }
                let b = self.buf(w[1])?;
                let (from, to) = if w.len() == 2 {
                    (0, b.len())
                } else {
                    (num(2)? as usize, num(3)? as usize)
                };
                if from > to || to > b.len() {
                    return None;
                }
                let mut s = format!("dump {} {}", w[1], b.len());
                for i in from..to {
                    s += &format!(" {}", b.get(i));
                }
                return Some(Some(s));
            }
            "sum" if w.len() == 1 => {
                let both = checksum(checksum(0, &self.charts[0]), &self.charts[1]);
                let sum = self.pairs.iter().fold(both, |s, v| (s * 31 + *v as u64 + 1) % 4_294_967_291);
                return Some(Some(format!("sum {sum}")));
            }
            "sum" => {
                exact(2)?;
                let c = &self.charts[chart_number(w[1])?];
                return Some(Some(format!("sum {}", checksum(0, c))));
            }
            "copy" => {
                exact(3)?;
                let (from, to) = (chart_number(w[1])?, chart_number(w[2])?);
                self.charts[to] = self.charts[from].clone();
                self.lent.copy_within(4 * from..4 * from + 4, 4 * to);
                return Some(None);
            }
            "echo" => return Some(Some(w.join(" "))),
            _ => {}
        }
        let lent = self.lent;
        let rests = [hide(&mut self.charts[0], &lent[..4]), hide(&mut self.charts[1], &lent[4..8])];
        let hidden = self.pairs.split_off(lent[8]);
        let said = self.call(w)?;
        for (chart, rest) in self.charts.iter_mut().zip(rests) {
            show(chart, rest);
        }
        self.pairs.extend(hidden);
        Some(said.map(|said| format!("{said} {:016x}", hash(self))))
    }

    /// What a call on the lent places prints, without its hash.
    fn call(&mut self, w: &[&str]) -> Option<Option<String>> {
        let num = |i: usize| -> Option<u64> { w.get(i)?.parse().ok() };
        let coord = |i: usize| -> Option<u16> { w.get(i)?.parse().ok() };
        let name = w[0];
        let exact = |n: usize| if w.len() == n { Some(()) } else { None };
        let c = chart_number(w.get(1)?)?;
        let edited = |r: Refusal, chart: &Chart| {
            format!("{name} {} {} {} {}", r.number, r.triangle, chart.n, chart.m)
        };
        let chart = &mut self.charts[c];
        let said = match name {
            "counts" => {
                exact(4)?;
                (chart.n, chart.m) = (num(2)?, num(3)?);
                return Some(None);
            }
            "load" => {
                let mut given = Vec::new();
                for k in 2..w.len() {
                    given.push(coord(k)?);
                }
                let r = chart.load(&given);
                edited(r, chart)
            }
            "insert" => {
                exact(4)?;
                let r = chart.insert(pt(coord(2)?, coord(3)?));
                edited(r, chart)
            }
            "take_out" => {
                exact(4)?;
                let r = chart.take_out(pt(coord(2)?, coord(3)?));
                edited(r, chart)
            }
            "flip" => {
                exact(4)?;
                let r = chart.flip(num(2)?, num(3)?);
                edited(r, chart)
            }
            "locate" => {
                exact(4)?;
                let (number, found, place) = chart.locate(coord(2)?, coord(3)?);
                let found = found.map_or("nowhere".to_string(), |t| t.to_string());
                format!("locate {number} {found} {}", place.number())
            }
            "listing" => {
                exact(4)?;
                let list = chart.listing(coord(2)?, coord(3)?);
                let mut s = format!("listing {}", list.len());
                for t in list {
                    s += &format!(" {t}");
                }
                s
            }
            "sound" => {
                exact(2)?;
                let (number, yes) = chart.sound();
                format!("sound {number} {}", if yes { "yes" } else { "no" })
            }
            "area" => {
                exact(2)?;
                let (number, sum) = chart.area();
                format!("area {number} {sum}")
            }
            "overlay" => {
                exact(3)?;
                let (a, b) = (&self.charts[c], &self.charts[chart_number(w[2])?]);
                let r = overlay(a, b, &mut self.pairs);
                format!("overlay {} {} {}", r.number, r.pairs, r.meetings)
            }
            "window" => {
                exact(6)?;
                let [left, top, right, bottom] = [coord(2)?, coord(3)?, coord(4)?, coord(5)?].map(i64::from);
                let (number, listed) = chart.window(&Window { left, top, right, bottom }, &mut self.pairs);
                format!("window {number} {listed}")
            }
            _ => return None,
        };
        Some(Some(said))
    }
}

fn chart_number(w: &str) -> Option<usize> {
    match w {
        "0" => Some(0),
        "1" => Some(1),
        _ => None,
    }
}

/// The output of a script, and whether every line was understood.
pub fn run_calls(script: &str) -> (String, bool) {
    let mut bench = Bench::new();
    let mut out = String::new();
    for (i, line) in script.lines().enumerate() {
        let words: Vec<&str> = line.split_whitespace().collect();
        if words.is_empty() || words[0].starts_with('#') {
            continue;
        }
        match bench.line(&words) {
            Some(Some(s)) => out += &(s + "\n"),
            Some(None) => {}
            None => {
                out += &format!("error {}\n", i + 1);
                return (out, false);
            }
        }
    }
    (out, true)
}
