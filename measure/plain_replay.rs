//! A replay in plain Rust, with the standard library alone: what the program's time stands beside, and another reading of
//! large files. It keeps a hash map of orders with a fast hash and a vector of levels with the best at its end for each
//! stock, and gives stocks to threads by their locate codes.
//!
//!     plain_replay replay FILE [--workers N]   prints the report that `itch replay FILE` prints
//!     plain_replay scan FILE                   goes over the entries and reads each head, and nothing else
use std::collections::{BTreeMap, HashMap};
use std::fmt::Write as _;
use std::hash::{BuildHasherDefault, Hasher};
use std::io::Write as _;

#[derive(Default, Clone, Copy)]
struct Mix(u64);
impl Hasher for Mix {
    fn finish(&self) -> u64 {
        self.0
    }
    fn write(&mut self, _: &[u8]) {
        unreachable!()
    }
    fn write_u64(&mut self, x: u64) {
        let p = (x ^ 0x9E37_79B9_7F4A_7C15) as u128 * 0xD6E8_FEB8_6659_FD93u128;
        self.0 = (p as u64) ^ ((p >> 64) as u64);
    }
}
type Map<V> = HashMap<u64, V, BuildHasherDefault<Mix>>;

#[derive(Clone, Copy)]
struct Order {
    buy: bool,
    shares: u32,
    price: u32,
    mpid: [u8; 4],
    has_mpid: bool,
}
struct Trade {
    number: u64,
    shares: u64,
    price: u32,
    printed: bool,
    broken: bool,
}

/// Levels by rising key: a bid's price, or an ask's price with its bits turned, so that the best stands last.
#[derive(Default)]
struct Levels(Vec<(u32, u64)>);
impl Levels {
    /// Looks near the best first: most changes are there.
    fn find(&self, key: u32) -> Result<usize, usize> {
        for (steps, i) in (0..self.0.len()).rev().enumerate() {
            if self.0[i].0 == key {
                return Ok(i);
            }
            if self.0[i].0 < key {
                return Err(i + 1);
            }
            if steps == 8 {
                return self.0[..i].binary_search_by(|level| level.0.cmp(&key));
            }
        }
        Err(0)
    }
    fn raise(&mut self, key: u32, shares: u64) {
        match self.find(key) {
            Ok(i) => self.0[i].1 += shares,
            Err(i) => self.0.insert(i, (key, shares)),
        }
    }
    fn lower(&mut self, key: u32, shares: u64) {
        if shares == 0 {
            return;
        }
        let i = self.find(key).unwrap();
        self.0[i].1 -= shares;
        if self.0[i].1 == 0 {
            self.0.remove(i);
        }
    }
}
fn key(buy: bool, price: u32) -> u32 {
    if buy { price } else { !price }
}
#[derive(Default)]
struct Stock {
    orders: Map<Order>,
    bids: Levels,
    asks: Levels,
    trades: Vec<Trade>,
    directory: Option<[u8; 8]>,
    trading: Option<[u8; 6]>,
    regsho: Option<u8>,
    count: u64,
    shares: u128,
    notional: u128,
    unprinted: u128,
}
fn be16(b: &[u8]) -> u16 {
    u16::from_be_bytes(b[..2].try_into().unwrap())
}
fn be32(b: &[u8]) -> u32 {
    u32::from_be_bytes(b[..4].try_into().unwrap())
}
fn be64(b: &[u8]) -> u64 {
    u64::from_be_bytes(b[..8].try_into().unwrap())
}
fn size(kind: u8) -> Option<usize> {
    Some(match kind {
        b'S' => 12,
        b'R' => 39,
        b'H' => 25,
        b'Y' => 20,
        b'L' => 26,
        b'V' => 35,
        b'W' => 12,
        b'K' => 28,
        b'J' => 35,
        b'h' => 21,
        b'A' => 36,
        b'F' => 40,
        b'E' => 31,
        b'C' => 36,
        b'X' => 23,
        b'D' => 19,
        b'U' => 35,
        b'P' => 44,
        b'Q' => 40,
        b'B' => 19,
        b'I' => 50,
        b'N' => 20,
        _ => return None,
    })
}
/// 0 applied, 255 passed, else the fault's number.
const PASSED: u8 = 255;
impl Stock {
    fn side(&mut self, buy: bool) -> &mut Levels {
        if buy { &mut self.bids } else { &mut self.asks }
    }
    fn put(&mut self, reference: u64, o: Order) {
        self.orders.insert(reference, o);
        self.side(o.buy).raise(key(o.buy, o.price), o.shares as u64);
    }
    fn off(&mut self, reference: u64, shares: u32) -> Result<Order, u8> {
        let o = self.orders.get_mut(&reference).ok_or(6u8)?;
        if shares > o.shares {
            return Err(9);
        }
        o.shares -= shares;
        let now = *o;
        if now.shares == 0 {
            self.orders.remove(&reference);
        }
        self.side(now.buy)
            .lower(key(now.buy, now.price), shares as u64);
        Ok(now)
    }
    fn trade(&mut self, number: u64, shares: u64, price: u32, printed: bool) {
        self.trades.push(Trade {
            number,
            shares,
            price,
            printed,
            broken: false,
        });
        if printed {
            self.count += 1;
            self.shares += shares as u128;
            self.notional += shares as u128 * price as u128;
        } else {
            self.unprinted += shares as u128;
        }
    }
    fn step(&mut self, p: &[u8]) -> u8 {
        match self.run(p) {
            Ok(()) => 0,
            Err(f) => f,
        }
    }
    fn run(&mut self, p: &[u8]) -> Result<(), u8> {
        let stock_is = |s: &Stock, at: usize| {
            if s.directory.as_ref().unwrap() == &p[at..at + 8] {
                Ok(())
            } else {
                Err(3u8)
            }
        };
        if p[0] == b'R' {
            if let Some(d) = &self.directory {
                if d != &p[11..19] {
                    return Err(4);
                }
            }
            self.directory = Some(p[11..19].try_into().unwrap());
            return Ok(());
        }
        if self.directory.is_none() {
            return Err(2);
        }
        match p[0] {
            b'H' => {
                stock_is(self, 11)?;
                self.trading = Some(p[19..25].try_into().unwrap());
            }
            b'Y' => {
                stock_is(self, 11)?;
                self.regsho = Some(p[19]);
            }
            b'L' => stock_is(self, 15)?,
            b'J' | b'h' | b'N' => stock_is(self, 11)?,
            b'I' => stock_is(self, 28)?,
            b'A' | b'F' => {
                stock_is(self, 24)?;
                if p[19] != b'B' && p[19] != b'S' {
                    return Err(7);
                }
                let shares = be32(&p[20..]);
                if shares == 0 {
                    return Err(8);
                }
                let reference = be64(&p[11..]);
                if self.orders.contains_key(&reference) {
                    return Err(5);
                }
                let has_mpid = p[0] == b'F';
                let mpid = if has_mpid {
                    p[36..40].try_into().unwrap()
                } else {
                    [0; 4]
                };
                self.put(
                    reference,
                    Order {
                        buy: p[19] == b'B',
                        shares,
                        price: be32(&p[32..]),
                        mpid,
                        has_mpid,
                    },
                );
            }
            b'E' => {
                let shares = be32(&p[19..]);
                let o = self.off(be64(&p[11..]), shares)?;
                self.trade(be64(&p[23..]), shares as u64, o.price, true);
            }
            b'C' => {
                if p[31] != b'Y' && p[31] != b'N' {
                    return Err(10);
                }
                let shares = be32(&p[19..]);
                self.off(be64(&p[11..]), shares)?;
                self.trade(be64(&p[23..]), shares as u64, be32(&p[32..]), p[31] == b'Y');
            }
            b'X' => {
                self.off(be64(&p[11..]), be32(&p[19..]))?;
            }
            b'D' => {
                let o = self.orders.remove(&be64(&p[11..])).ok_or(6u8)?;
                self.side(o.buy).lower(key(o.buy, o.price), o.shares as u64);
            }
            b'U' => {
                let (old, new) = (be64(&p[11..]), be64(&p[19..]));
                let o = *self.orders.get(&old).ok_or(6u8)?;
                if self.orders.contains_key(&new) {
                    return Err(5);
                }
                let shares = be32(&p[27..]);
                if shares == 0 {
                    return Err(8);
                }
                self.orders.remove(&old);
                self.side(o.buy).lower(key(o.buy, o.price), o.shares as u64);
                self.put(
                    new,
                    Order {
                        shares,
                        price: be32(&p[31..]),
                        ..o
                    },
                );
            }
            b'P' => {
                stock_is(self, 24)?;
                if p[19] != b'B' && p[19] != b'S' {
                    return Err(7);
                }
                self.trade(be64(&p[36..]), be32(&p[20..]) as u64, be32(&p[32..]), true);
            }
            b'Q' => {
                stock_is(self, 19)?;
                self.trade(be64(&p[31..]), be64(&p[11..]), be32(&p[27..]), true);
            }
            b'B' => {
                let number = be64(&p[11..]);
                let mut any = false;
                for t in &mut self.trades {
                    if t.number == number && !t.broken {
                        any = true;
                        t.broken = true;
                        if t.printed {
                            self.count -= 1;
                            self.shares -= t.shares as u128;
                            self.notional -= t.shares as u128 * t.price as u128;
                        } else {
                            self.unprinted -= t.shares as u128;
                        }
                    }
                }
                if !any {
                    return Err(11);
                }
            }
            _ => unreachable!(),
        }
        Ok(())
    }
}
enum Part {
    Locate(u16),
    Nowhere(u8),
}
fn part(p: &[u8]) -> Part {
    match size(p[0]) {
        None => Part::Nowhere(PASSED),
        Some(n) if n != p.len() => Part::Nowhere(1),
        Some(_) => match p[0] {
            b'S' | b'V' | b'W' | b'K' => Part::Nowhere(0),
            _ => Part::Locate(be16(&p[1..])),
        },
    }
}
fn quote(out: &mut String, bytes: &[u8]) {
    let end = bytes.iter().rposition(|b| *b != b' ').map_or(0, |i| i + 1);
    out.push('"');
    for &b in &bytes[..end] {
        if (0x20..0x7f).contains(&b) && b != b'"' && b != b'\\' {
            out.push(b as char)
        } else {
            write!(out, "\\x{b:02x}").unwrap()
        }
    }
    out.push('"');
}
struct Day {
    bytes: Vec<u8>,
    at: Vec<u64>,
    marked: bool,
    tail: usize,
}
fn load(file: &str) -> Day {
    let bytes = std::fs::read(file).unwrap();
    let (mut at, mut i, mut marked) = (Vec::new(), 0, false);
    loop {
        if i + 2 > bytes.len() {
            break;
        }
        let n = be16(&bytes[i..]) as usize;
        if n == 0 {
            marked = true;
            i += 2;
            break;
        }
        if i + 2 + n > bytes.len() {
            break;
        }
        at.push(i as u64);
        i += 2 + n;
    }
    let tail = bytes.len() - i;
    Day {
        bytes,
        at,
        marked,
        tail,
    }
}
impl Day {
    fn payload(&self, i: usize) -> &[u8] {
        let a = self.at[i] as usize;
        let n = be16(&self.bytes[a..]) as usize;
        &self.bytes[a + 2..a + 2 + n]
    }
}
fn main() {
    let words: Vec<String> = std::env::args().collect();
    let day = load(&words[2]);
    if words[1] == "scan" {
        let sum = (0..day.at.len()).fold(0u64, |s, i| {
            let p = day.payload(i);
            s.wrapping_add(
                p[0] as u64
                    + be16(
                        &p[1.min(p.len() - 1)..]
                            .iter()
                            .copied()
                            .chain([0, 0])
                            .take(2)
                            .collect::<Vec<_>>(),
                    ) as u64,
            )
        });
        println!("{} {}", day.at.len(), sum);
        return;
    }
    let workers: usize = words
        .iter()
        .position(|w| w == "--workers")
        .map_or(1, |i| words[i + 1].parse().unwrap());
    let mut outcomes = vec![0u8; day.at.len()];
    let mut event = None;
    let mut own: Vec<Vec<u32>> = vec![Vec::new(); workers];
    for i in 0..day.at.len() {
        let p = day.payload(i);
        match part(p) {
            Part::Nowhere(o) => {
                outcomes[i] = o;
                if p[0] == b'S' && o == 0 {
                    event = Some(p[11]);
                }
            }
            Part::Locate(l) => own[l as usize % workers].push(i as u32),
        }
    }
    let mut stocks: BTreeMap<u16, Stock> = BTreeMap::new();
    let done: Vec<_> = std::thread::scope(|s| {
        let handles: Vec<_> = own
            .iter()
            .map(|mine| {
                let day = &day;
                s.spawn(move || {
                    let mut stocks: Vec<Option<Box<Stock>>> = (0..65536).map(|_| None).collect();
                    let mut out = Vec::with_capacity(mine.len());
                    for &i in mine {
                        let p = day.payload(i as usize);
                        out.push(
                            stocks[be16(&p[1..]) as usize]
                                .get_or_insert_with(Default::default)
                                .step(p),
                        );
                    }
                    (stocks, out)
                })
            })
            .collect();
        handles.into_iter().map(|h| h.join().unwrap()).collect()
    });
    for (k, (mine, out)) in done.into_iter().enumerate() {
        for (i, o) in own[k].iter().zip(out) {
            outcomes[*i as usize] = o;
        }
        for (l, s) in mine.into_iter().enumerate() {
            if let Some(s) = s {
                stocks.insert(l as u16, *s);
            }
        }
    }
    let mut out = String::new();
    let (mut applied, mut passed, mut refused) = (0u64, 0u64, 0u64);
    for (i, o) in outcomes.iter().enumerate() {
        match *o {
            0 => applied += 1,
            PASSED => passed += 1,
            f => {
                refused += 1;
                writeln!(out, "message {} refused F{f}", i + 1).unwrap();
            }
        }
    }
    write!(
        out,
        "messages {} applied {applied} passed {passed} refused {refused} marked {} tail {} event ",
        outcomes.len(),
        if day.marked { "yes" } else { "no" },
        day.tail
    )
    .unwrap();
    match event {
        None => out.push_str("none"),
        Some(e) => quote(&mut out, &[e]),
    }
    out.push('\n');
    for (l, s) in &stocks {
        let Some(d) = &s.directory else { continue };
        write!(out, "stock {l} ").unwrap();
        quote(&mut out, d);
        out.push_str(" state ");
        match &s.trading {
            None => out.push_str("none reason none"),
            Some(t) => {
                quote(&mut out, &t[..1]);
                out.push_str(" reason ");
                quote(&mut out, &t[2..6]);
            }
        }
        out.push_str(" regsho ");
        match s.regsho {
            None => out.push_str("none"),
            Some(a) => quote(&mut out, &[a]),
        }
        out.push('\n');
        for (p, n) in s.bids.0.iter().rev() {
            writeln!(out, "bid {p} {n}").unwrap();
        }
        for (p, n) in s.asks.0.iter().rev().map(|(k, n)| (!k, n)) {
            writeln!(out, "ask {p} {n}").unwrap();
        }
        writeln!(
            out,
            "trades {} shares {} notional {} unprinted {}",
            s.count, s.shares, s.notional, s.unprinted
        )
        .unwrap();
    }
    let _ = stocks
        .values()
        .map(|s| {
            s.orders
                .values()
                .filter(|o| o.has_mpid && o.mpid[0] == 0)
                .count()
        })
        .sum::<usize>();
    std::io::stdout().write_all(out.as_bytes()).unwrap();
    std::process::exit(if refused > 0 { 1 } else { 0 });
}
