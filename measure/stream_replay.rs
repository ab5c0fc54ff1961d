//! A replay in plain Rust, with the standard library alone, whose memory doesn't grow with the file. It publishes nothing and
//! keeps no spent references. The file is read in segments. The reader copies each message to the buffer of its batch of
//! stocks (locate code modulo BATCHES), behind its number and its length, while threads do the batches of the segment before,
//! each from its first message to its last. So what a batch reads lies in one piece, in the order in which it is read, and the
//! rows of some 60 to 130 stocks stay in a processor's own cache.
//!
//!     stream_replay replay FILE [--workers N] [--segment MIB] [--batches B]   prints the report that `itch replay FILE` prints
use std::collections::{BTreeMap, HashMap};
use std::fmt::Write as _;
use std::hash::{BuildHasherDefault, Hasher};
use std::io::{Read as _, Write as _};

#[derive(Default, Clone, Copy)]
struct Mix(u64);
impl Hasher for Mix {
    fn finish(&self) -> u64 {
        self.0
    }
    fn write(&mut self, _: &[u8]) {
        unreachable!()
    }
    fn write_u64(&mut self, x: u64) {
        let p = (x ^ 0x9E37_79B9_7F4A_7C15) as u128 * 0xD6E8_FEB8_6659_FD93u128;
        self.0 = (p as u64) ^ ((p >> 64) as u64);
    }
}
type Map<V> = HashMap<u64, V, BuildHasherDefault<Mix>>;

#[derive(Clone, Copy)]
struct Order {
    buy: bool,
    shares: u32,
    price: u32,
    mpid: [u8; 4],
    has_mpid: bool,
}
struct Trade {
    number: u64,
    shares: u64,
    price: u32,
    printed: bool,
    broken: bool,
}

/// Levels by rising key: a bid's price, or an ask's price with its bits turned, so that the best stands last.
#[derive(Default)]
struct Levels(Vec<(u32, u64)>);
impl Levels {
    /// Looks near the best first: most changes are there.
    fn find(&self, key: u32) -> Result<usize, usize> {
        for (steps, i) in (0..self.0.len()).rev().enumerate() {
            if self.0[i].0 == key {
                return Ok(i);
            }
            if self.0[i].0 < key {
                return Err(i + 1);
            }
            if steps == 8 {
                return self.0[..i].binary_search_by(|level| level.0.cmp(&key));
            }
        }
        Err(0)
    }
    fn raise(&mut self, key: u32, shares: u64) {
        match self.find(key) {
            Ok(i) => self.0[i].1 += shares,
            Err(i) => self.0.insert(i, (key, shares)),
        }
    }
    fn lower(&mut self, key: u32, shares: u64) {
        if shares == 0 {
            return;
        }
        let i = self.find(key).unwrap();
        self.0[i].1 -= shares;
        if self.0[i].1 == 0 {
            self.0.remove(i);
        }
    }
}
fn key(buy: bool, price: u32) -> u32 {
    if buy { price } else { !price }
}
#[derive(Default)]
struct Stock {
    orders: Map<Order>,
    bids: Levels,
    asks: Levels,
    trades: Vec<Trade>,
    directory: Option<[u8; 8]>,
    trading: Option<[u8; 6]>,
    regsho: Option<u8>,
    count: u64,
    shares: u128,
    notional: u128,
    unprinted: u128,
}
fn be16(b: &[u8]) -> u16 {
    u16::from_be_bytes(b[..2].try_into().unwrap())
}
fn be32(b: &[u8]) -> u32 {
    u32::from_be_bytes(b[..4].try_into().unwrap())
}
fn be64(b: &[u8]) -> u64 {
    u64::from_be_bytes(b[..8].try_into().unwrap())
}
fn size(kind: u8) -> Option<usize> {
    Some(match kind {
        b'S' => 12,
        b'R' => 39,
        b'H' => 25,
        b'Y' => 20,
        b'L' => 26,
        b'V' => 35,
        b'W' => 12,
        b'K' => 28,
        b'J' => 35,
        b'h' => 21,
        b'A' => 36,
        b'F' => 40,
        b'E' => 31,
        b'C' => 36,
        b'X' => 23,
        b'D' => 19,
        b'U' => 35,
        b'P' => 44,
        b'Q' => 40,
        b'B' => 19,
        b'I' => 50,
        b'N' => 20,
        _ => return None,
    })
}
/// 0 applied, 255 passed, else the fault's number.
const PASSED: u8 = 255;
impl Stock {
    fn side(&mut self, buy: bool) -> &mut Levels {
        if buy { &mut self.bids } else { &mut self.asks }
    }
    fn put(&mut self, reference: u64, o: Order) {
        self.orders.insert(reference, o);
        self.side(o.buy).raise(key(o.buy, o.price), o.shares as u64);
    }
    fn off(&mut self, reference: u64, shares: u32) -> Result<Order, u8> {
        let o = self.orders.get_mut(&reference).ok_or(6u8)?;
        if shares > o.shares {
            return Err(9);
        }
        o.shares -= shares;
        let now = *o;
        if now.shares == 0 {
            self.orders.remove(&reference);
        }
        self.side(now.buy)
            .lower(key(now.buy, now.price), shares as u64);
        Ok(now)
    }
    fn trade(&mut self, number: u64, shares: u64, price: u32, printed: bool) {
        self.trades.push(Trade {
            number,
            shares,
            price,
            printed,
            broken: false,
        });
        if printed {
            self.count += 1;
            self.shares += shares as u128;
            self.notional += shares as u128 * price as u128;
        } else {
            self.unprinted += shares as u128;
        }
    }
    fn step(&mut self, p: &[u8]) -> u8 {
        match self.run(p) {
            Ok(()) => 0,
            Err(f) => f,
        }
    }
    fn run(&mut self, p: &[u8]) -> Result<(), u8> {
        let stock_is = |s: &Stock, at: usize| {
            if s.directory.as_ref().unwrap() == &p[at..at + 8] {
                Ok(())
            } else {
                Err(3u8)
            }
        };
        if p[0] == b'R' {
            if let Some(d) = &self.directory {
                if d != &p[11..19] {
                    return Err(4);
                }
            }
            self.directory = Some(p[11..19].try_into().unwrap());
            return Ok(());
        }
        if self.directory.is_none() {
            return Err(2);
        }
        match p[0] {
            b'H' => {
                stock_is(self, 11)?;
                self.trading = Some(p[19..25].try_into().unwrap());
            }
            b'Y' => {
                stock_is(self, 11)?;
                self.regsho = Some(p[19]);
            }
            b'L' => stock_is(self, 15)?,
            b'J' | b'h' | b'N' => stock_is(self, 11)?,
            b'I' => stock_is(self, 28)?,
            b'A' | b'F' => {
                stock_is(self, 24)?;
                if p[19] != b'B' && p[19] != b'S' {
                    return Err(7);
                }
                let shares = be32(&p[20..]);
                if shares == 0 {
                    return Err(8);
                }
                let reference = be64(&p[11..]);
                if self.orders.contains_key(&reference) {
                    return Err(5);
                }
                let has_mpid = p[0] == b'F';
                let mpid = if has_mpid {
                    p[36..40].try_into().unwrap()
                } else {
                    [0; 4]
                };
                self.put(
                    reference,
                    Order {
                        buy: p[19] == b'B',
                        shares,
                        price: be32(&p[32..]),
                        mpid,
                        has_mpid,
                    },
                );
            }
            b'E' => {
                let shares = be32(&p[19..]);
                let o = self.off(be64(&p[11..]), shares)?;
                self.trade(be64(&p[23..]), shares as u64, o.price, true);
            }
            b'C' => {
                if p[31] != b'Y' && p[31] != b'N' {
                    return Err(10);
                }
                let shares = be32(&p[19..]);
                self.off(be64(&p[11..]), shares)?;
                self.trade(be64(&p[23..]), shares as u64, be32(&p[32..]), p[31] == b'Y');
            }
            b'X' => {
                self.off(be64(&p[11..]), be32(&p[19..]))?;
            }
            b'D' => {
                let o = self.orders.remove(&be64(&p[11..])).ok_or(6u8)?;
                self.side(o.buy).lower(key(o.buy, o.price), o.shares as u64);
            }
            b'U' => {
                let (old, new) = (be64(&p[11..]), be64(&p[19..]));
                let o = *self.orders.get(&old).ok_or(6u8)?;
                if self.orders.contains_key(&new) {
                    return Err(5);
                }
                let shares = be32(&p[27..]);
                if shares == 0 {
                    return Err(8);
                }
                self.orders.remove(&old);
                self.side(o.buy).lower(key(o.buy, o.price), o.shares as u64);
                self.put(
                    new,
                    Order {
                        shares,
                        price: be32(&p[31..]),
                        ..o
                    },
                );
            }
            b'P' => {
                stock_is(self, 24)?;
                if p[19] != b'B' && p[19] != b'S' {
                    return Err(7);
                }
                self.trade(be64(&p[36..]), be32(&p[20..]) as u64, be32(&p[32..]), true);
            }
            b'Q' => {
                stock_is(self, 19)?;
                self.trade(be64(&p[31..]), be64(&p[11..]), be32(&p[27..]), true);
            }
            b'B' => {
                let number = be64(&p[11..]);
                let mut any = false;
                for t in &mut self.trades {
                    if t.number == number && !t.broken {
                        any = true;
                        t.broken = true;
                        if t.printed {
                            self.count -= 1;
                            self.shares -= t.shares as u128;
                            self.notional -= t.shares as u128 * t.price as u128;
                        } else {
                            self.unprinted -= t.shares as u128;
                        }
                    }
                }
                if !any {
                    return Err(11);
                }
            }
            _ => unreachable!(),
        }
        Ok(())
    }
}
enum Part {
    Locate(u16),
    Nowhere(u8),
}
fn part(p: &[u8]) -> Part {
    match size(p[0]) {
        None => Part::Nowhere(PASSED),
        Some(n) if n != p.len() => Part::Nowhere(1),
        Some(_) => match p[0] {
            b'S' | b'V' | b'W' | b'K' => Part::Nowhere(0),
            _ => Part::Locate(be16(&p[1..])),
        },
    }
}
fn quote(out: &mut String, bytes: &[u8]) {
    let end = bytes.iter().rposition(|b| *b != b' ').map_or(0, |i| i + 1);
    out.push('"');
    for &b in &bytes[..end] {
        if (0x20..0x7f).contains(&b) && b != b'"' && b != b'\\' {
            out.push(b as char)
        } else {
            write!(out, "\\x{b:02x}").unwrap()
        }
    }
    out.push('"');
}

/// A stretch of the file: whole entries, and for each batch its messages, each with its number (4 bytes) and its length (2 bytes) before it.
struct Segment {
    bytes: Vec<u8>,
    lists: Vec<Vec<u8>>,
}

fn main() {
    let words: Vec<String> = std::env::args().collect();
    let option = |name: &str, or: usize| {
        words
            .iter()
            .position(|w| w == name)
            .map_or(or, |i| words[i + 1].parse().unwrap())
    };
    let (workers, size, batches) = (
        option("--workers", 1),
        option("--segment", 16) << 20,
        option("--batches", 128),
    );
    let mut file = std::fs::File::open(&words[2]).unwrap();
    let (mut applied, mut passed, mut number) = (0u64, 0u64, 0u32);
    let mut refused: Vec<(u32, u8)> = Vec::new();
    let (mut event, mut marked, mut tail) = (None, false, 0u64);
    let mut stocks: BTreeMap<u16, Stock> = BTreeMap::new();
    let mut carried: Vec<u8> = Vec::new();
    let mut last = false;
    let mut read = |segment: &mut Segment, last: &mut bool, refused: &mut Vec<(u32, u8)>| {
        for l in &mut segment.lists {
            l.clear();
        }
        segment.bytes[..carried.len()].copy_from_slice(&carried);
        let mut end = carried.len();
        while end < size {
            let n = file.read(&mut segment.bytes[end..size]).unwrap();
            if n == 0 {
                break;
            }
            end += n;
        }
        *last = end < size;
        let mut i = 0;
        if marked {
            tail += (end - i) as u64;
            i = end;
        }
        while i + 2 <= end {
            let n = be16(&segment.bytes[i..]) as usize;
            if n == 0 {
                marked = true;
                i += 2;
                tail = (end - i) as u64;
                i = end;
                break;
            }
            if i + 2 + n > end {
                break;
            }
            number += 1;
            let p = &segment.bytes[i + 2..i + 2 + n];
            match part(p) {
                Part::Nowhere(0) => {
                    applied += 1;
                    if p[0] == b'S' {
                        event = Some(p[11]);
                    }
                }
                Part::Nowhere(PASSED) => passed += 1,
                Part::Nowhere(f) => refused.push((number, f)),
                Part::Locate(l) => {
                    let list = &mut segment.lists[l as usize % batches];
                    list.extend_from_slice(&number.to_le_bytes());
                    list.extend_from_slice(&(n as u16).to_le_bytes());
                    list.extend_from_slice(p);
                }
            }
            i += 2 + n;
        }
        carried = segment.bytes[i..end].to_vec();
        if *last && !marked {
            tail = carried.len() as u64;
        }
    };
    let make = || Segment {
        bytes: vec![0; size + 65538],
        lists: vec![Vec::new(); batches],
    };
    let (mut now, mut next) = (make(), make());
    read(&mut now, &mut last, &mut refused);
    let mut all: Vec<(Vec<Option<Box<Stock>>>, u64, Vec<(u32, u8)>)> =
        (0..batches).map(|_| (Vec::new(), 0, Vec::new())).collect();
    let step =
        |segment: &Segment, b: usize, one: &mut (Vec<Option<Box<Stock>>>, u64, Vec<(u32, u8)>)| {
            let rows = &mut one.0;
            if rows.is_empty() {
                rows.resize_with(65536 / batches + 1, || None);
            }
            let mut rest: &[u8] = &segment.lists[b];
            while rest.len() >= 6 {
                let number = u32::from_le_bytes(rest[..4].try_into().unwrap());
                let n = u16::from_le_bytes(rest[4..6].try_into().unwrap()) as usize;
                let p = &rest[6..6 + n];
                rest = &rest[6 + n..];
                match rows[be16(&p[1..]) as usize / batches]
                    .get_or_insert_with(Default::default)
                    .step(p)
                {
                    0 => one.1 += 1,
                    f => one.2.push((number, f)),
                }
            }
        };
    loop {
        let ended = last;
        // batches dealt by load: the heaviest first, each to the thread with least
        let mut order: Vec<usize> = (0..batches).collect();
        order.sort_by_key(|&b| std::cmp::Reverse(now.lists[b].len()));
        let mut groups: Vec<Vec<usize>> = vec![Vec::new(); workers];
        let mut load = vec![0usize; workers];
        for b in order {
            let k = (0..workers).min_by_key(|&k| load[k]).unwrap();
            load[k] += now.lists[b].len();
            groups[k].push(b);
        }
        let mut owner = vec![0; batches];
        for (k, g) in groups.iter().enumerate() {
            for &b in g {
                owner[b] = k;
            }
        }
        let mut hands: Vec<Vec<(usize, &mut (Vec<Option<Box<Stock>>>, u64, Vec<(u32, u8)>))>> =
            (0..workers).map(|_| Vec::new()).collect();
        for (b, one) in all.iter_mut().enumerate() {
            hands[owner[b]].push((b, one));
        }
        let (now_ref, step_ref) = (&now, &step);
        if workers == 1 {
            for (b, one) in hands.pop().unwrap() {
                step(&now, b, one);
            }
            if !ended {
                read(&mut next, &mut last, &mut refused);
            }
        } else {
            std::thread::scope(|s| {
                for hand in hands {
                    s.spawn(move || {
                        for (b, one) in hand {
                            step_ref(now_ref, b, one);
                        }
                    });
                }
                if !ended {
                    read(&mut next, &mut last, &mut refused);
                }
            });
        }
        if ended {
            break;
        }
        std::mem::swap(&mut now, &mut next);
    }
    for (b, (rows, a, r)) in all.into_iter().enumerate() {
        applied += a;
        refused.extend(r);
        for (l, stock) in rows.into_iter().enumerate() {
            if let Some(stock) = stock {
                stocks.insert((l * batches + b) as u16, *stock);
            }
        }
    }
    refused.sort_unstable();
    let mut out = String::new();
    for (n, f) in &refused {
        writeln!(out, "message {n} refused F{f}").unwrap();
    }
    write!(out, "messages {number} applied {applied} passed {passed} refused {} marked {} tail {tail} event ", refused.len(), if marked { "yes" } else { "no" }).unwrap();
    match event {
        None => out.push_str("none"),
        Some(e) => quote(&mut out, &[e]),
    }
    out.push('\n');
    for (l, s) in &stocks {
        let Some(d) = &s.directory else { continue };
        write!(out, "stock {l} ").unwrap();
        quote(&mut out, d);
        out.push_str(" state ");
        match &s.trading {
            None => out.push_str("none reason none"),
            Some(t) => {
                quote(&mut out, &t[..1]);
                out.push_str(" reason ");
                quote(&mut out, &t[2..6]);
            }
        }
        out.push_str(" regsho ");
        match s.regsho {
            None => out.push_str("none"),
            Some(a) => quote(&mut out, &[a]),
        }
        out.push('\n');
        for (p, n) in s.bids.0.iter().rev() {
            writeln!(out, "bid {p} {n}").unwrap();
        }
        for (p, n) in s.asks.0.iter().rev().map(|(k, n)| (!k, n)) {
            writeln!(out, "ask {p} {n}").unwrap();
        }
        writeln!(
            out,
            "trades {} shares {} notional {} unprinted {}",
            s.count, s.shares, s.notional, s.unprinted
        )
        .unwrap();
    }
    let _ = stocks
        .values()
        .map(|s| {
            s.orders
                .values()
                .filter(|o| o.has_mpid && o.mpid[0] == 0)
                .count()
        })
        .sum::<usize>();
    std::io::stdout().write_all(out.as_bytes()).unwrap();
    std::process::exit(if refused.is_empty() { 0 } else { 1 });
}
