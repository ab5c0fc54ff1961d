// A realistic synthetic ITCH 5.0 day in BinaryFILE form. Standard library only.
//     make_day OUT MESSAGES STOCKS SEED
// MESSAGES counts every payload of the file (at least 8 * STOCKS + 20).
// Nothing in the file is refused, also where references are spent for the day: they
// and match numbers rise over the whole day, as on the real feed.
use std::fs::File;
use std::io::{BufWriter, Write};

struct Rng(u64);
impl Rng {
    fn next(&mut self) -> u64 {
        // splitmix64
        self.0 = self.0.wrapping_add(0x9e3779b97f4a7c15);
        let mut z = self.0;
        z = (z ^ (z >> 30)).wrapping_mul(0xbf58476d1ce4e5b9);
        z = (z ^ (z >> 27)).wrapping_mul(0x94d049bb133111eb);
        z ^ (z >> 31)
    }
    fn below(&mut self, n: u64) -> u64 {
        ((self.next() as u128 * n as u128) >> 64) as u64
    }
    fn unit(&mut self) -> f64 {
        (self.next() >> 11) as f64 / (1u64 << 53) as f64
    }
    // 0, 1, 2, .. with mean near `mean`
    fn geometric(&mut self, mean: f64) -> u64 {
        let u = 1.0 - self.unit();
        (u.ln() / (mean / (1.0 + mean)).ln()) as u64
    }
}

#[derive(Clone, Copy)]
struct Order {
    reference: u64,
    buy: bool,
    shares: u32,
    price: u32,
}

struct Stock {
    locate: u16,
    name: [u8; 8],
    mid: u32,           // in ticks of 100 (one cent)
    orders: Vec<Order>, // oldest first, roughly
    matches: Vec<u64>,  // recent trades that aren't broken
}

struct Out {
    w: BufWriter<File>,
    buf: Vec<u8>,
    sent: u64,
    bytes: u64,
    time: u64,
}
impl Out {
    fn head(&mut self, kind: u8, locate: u16) {
        self.buf.clear();
        self.buf.extend_from_slice(&[0, 0, kind]);
        self.buf.extend_from_slice(&locate.to_be_bytes());
        self.buf.extend_from_slice(&[0, 0]);
        self.buf.extend_from_slice(&self.time.to_be_bytes()[2..]);
    }
    fn n4(&mut self, v: u32) -> &mut Self {
        self.buf.extend_from_slice(&v.to_be_bytes());
        self
    }
    fn n8(&mut self, v: u64) -> &mut Self {
        self.buf.extend_from_slice(&v.to_be_bytes());
        self
    }
    fn a(&mut self, v: &[u8]) -> &mut Self {
        self.buf.extend_from_slice(v);
        self
    }
    fn send(&mut self) {
        let n = (self.buf.len() - 2) as u16;
        self.buf[0..2].copy_from_slice(&n.to_be_bytes());
        self.w.write_all(&self.buf).expect("write");
        self.sent += 1;
        self.bytes += self.buf.len() as u64;
    }
    fn system(&mut self, event: u8) {
        self.head(b'S', 0);
        self.a(&[event]);
        self.send();
    }
}

fn name_of(i: usize) -> [u8; 8] {
    // A, B, .., Z, AA, AB, ..
    let mut letters = Vec::new();
    let mut k = i + 1;
    while k > 0 {
        k -= 1;
        letters.push(b'A' + (k % 26) as u8);
        k /= 26;
    }
    letters.reverse();
    let mut name = [b' '; 8];
    name[..letters.len()].copy_from_slice(&letters);
    name
}

fn shares_of(rng: &mut Rng) -> u32 {
    match rng.below(10) {
        0..=5 => 100,
        6 => 200 + 100 * rng.below(9) as u32,
        7 => 1 + rng.below(99) as u32,
        8 => 1 + rng.below(1500) as u32,
        _ => 100 * (1 + rng.geometric(8.0) as u32),
    }
}

fn price_of(rng: &mut Rng, mid: u32, buy: bool) -> u32 {
    // most orders close to the top, a few far away
    let away = if rng.below(50) == 0 {
        rng.below(mid as u64 / 2 + 1)
    } else {
        rng.geometric(6.0)
    } as u32;
    let ticks = if buy {
        mid.saturating_sub(1 + away).max(1)
    } else {
        mid + 1 + away
    };
    ticks * 100
}

// the place of a live order: mostly a young one, at times any
fn place_of(rng: &mut Rng, stock: &Stock) -> usize {
    let n = stock.orders.len();
    if rng.below(6) == 0 {
        return rng.below(n as u64) as usize;
    }
    n - 1 - (rng.geometric(12.0) as usize).min(n - 1)
}

// the place of an order close to the top of a side, to be executed
fn top_place(rng: &mut Rng, stock: &Stock) -> usize {
    let mut best = place_of(rng, stock);
    for _ in 0..8 {
        let k = place_of(rng, stock);
        let (o, b) = (stock.orders[k], stock.orders[best]);
        if o.buy == b.buy && ((o.buy && o.price > b.price) || (!o.buy && o.price < b.price)) {
            best = k;
        }
    }
    best
}

fn main() {
    let args: Vec<String> = std::env::args().collect();
    if args.len() != 5 {
        eprintln!("make_day OUT MESSAGES STOCKS SEED");
        std::process::exit(2);
    }
    let wanted: u64 = args[2].parse().expect("MESSAGES");
    let count: usize = args[3].parse().expect("STOCKS");
    let mut rng = Rng(args[4].parse().expect("SEED"));
    assert!((1..=65535).contains(&count), "STOCKS is 1 to 65535");
    assert!(
        wanted >= 8 * count as u64 + 20,
        "too few MESSAGES for so many STOCKS"
    );
    let mut out = Out {
        w: BufWriter::with_capacity(1 << 20, File::create(&args[1]).expect("OUT")),
        buf: Vec::with_capacity(64),
        sent: 0,
        bytes: 0,
        time: 3 * 3_600_000_000_000,
    };

    let mut stocks: Vec<Stock> = (0..count)
        .map(|i| Stock {
            locate: i as u16 + 1,
            name: name_of(i),
            mid: 200 + rng.below(30_000) as u32,
            orders: Vec::new(),
            matches: Vec::new(),
        })
        .collect();

    // Zipf over a shuffled order of the stocks, so that locates aren't by activity
    let mut by_rank: Vec<usize> = (0..count).collect();
    for i in (1..count).rev() {
        by_rank.swap(i, rng.below(i as u64 + 1) as usize);
    }
    let mut sum = 0.0;
    let cumulative: Vec<f64> = (0..count)
        .map(|k| {
            sum += 1.0 / (k as f64 + 3.0).powf(0.9);
            sum
        })
        .collect();

    out.system(b'O');
    for s in &stocks {
        out.time += 1 + rng.below(2000);
        out.head(b'R', s.locate);
        out.a(&s.name)
            .a(b"QN")
            .n4(100)
            .a(b"NCZ PNN1N")
            .n4(0)
            .a(b"N");
        out.send();
    }
    for s in &stocks {
        out.time += 1 + rng.below(2000);
        out.head(b'H', s.locate);
        out.a(&s.name).a(b"T ").a(b"    ");
        out.send();
        out.head(b'Y', s.locate);
        out.a(&s.name).a(b"0");
        out.send();
    }
    for s in &stocks {
        for k in 0..3u64 {
            out.time += 1 + rng.below(2000);
            out.head(b'L', s.locate);
            out.a([b"GSCO", b"NITE", b"CDRG"][k as usize])
                .a(&s.name)
                .a(b"YNA");
            out.send();
        }
    }
    out.time = 4 * 3_600_000_000_000;
    out.system(b'S');

    let end = wanted - 2; // then E and C
    let first = out.sent;
    let span = end.saturating_sub(first).max(1);
    let open_at = first + span / 12;
    let close_at = first + span * 11 / 12;
    let step = 16 * 3_600_000_000_000 / span;
    let mut reference: u64 = 1000;
    let mut match_no: u64 = 1;
    let (mut opened, mut closed, mut declined) = (false, false, false);

    while out.sent < end {
        out.time += 1 + rng.below(2 * step.max(1));
        if !opened && out.sent >= open_at {
            opened = true;
            out.system(b'Q');
            for i in (0..count).step_by(2) {
                if out.sent + 1 >= end {
                    break;
                }
                let s = &mut stocks[i];
                out.head(b'Q', s.locate);
                out.n8(rng.below(20_000))
                    .a(&s.name)
                    .n4(s.mid * 100)
                    .n8(match_no)
                    .a(b"O");
                out.send();
                match_no += 1;
            }
            continue;
        }
        if opened && !declined {
            declined = true;
            out.head(b'V', 0);
            out.n8(350_000_000_000)
                .n8(320_000_000_000)
                .n8(280_000_000_000);
            out.send();
            continue;
        }
        if !closed && (out.sent >= close_at || out.sent + 1 == end) {
            closed = true;
            out.system(b'M');
            continue;
        }
        let u = rng.unit() * sum;
        let rank = cumulative.partition_point(|c| *c <= u).min(count - 1);
        let s = &mut stocks[by_rank[rank]];
        if rng.below(400) == 0 {
            s.mid = if rng.below(2) == 0 {
                s.mid + 1
            } else {
                s.mid - (s.mid > 100) as u32
            };
        }
        // per mille and a half: A 42, F 2, D 40, U 8, E 4, C 0.3, X 2, P 1.5, rest 0.2 per cent
        let mut pick = rng.below(1000);
        if s.orders.len() > 20_000 && pick < 440 {
            pick = 440; // D: keeps the book of one stock within reason
        }
        if s.orders.is_empty() && (440..983).contains(&pick) {
            pick = 0;
        }
        match pick {
            0..=439 => {
                let attributed = pick >= 420;
                let buy = rng.below(2) == 0;
                reference += 1 + rng.below(8);
                let o = Order {
                    reference,
                    buy,
                    shares: shares_of(&mut rng),
                    price: price_of(&mut rng, s.mid, buy),
                };
                out.head(if attributed { b'F' } else { b'A' }, s.locate);
                out.n8(o.reference)
                    .a(if buy { b"B" } else { b"S" })
                    .n4(o.shares)
                    .a(&s.name)
                    .n4(o.price);
                if attributed {
                    out.a([b"GSCO", b"NITE", b"CDRG", b"ETMM"][rng.below(4) as usize]);
                }
                out.send();
                s.orders.push(o);
            }
            440..=839 => {
                let k = place_of(&mut rng, s);
                let o = s.orders.swap_remove(k);
                out.head(b'D', s.locate);
                out.n8(o.reference);
                out.send();
            }
            840..=919 => {
                let k = place_of(&mut rng, s);
                let old = s.orders[k];
                reference += 1 + rng.below(8);
                let new = Order {
                    reference,
                    buy: old.buy,
                    shares: shares_of(&mut rng),
                    price: price_of(&mut rng, s.mid, old.buy),
                };
                out.head(b'U', s.locate);
                out.n8(old.reference)
                    .n8(new.reference)
                    .n4(new.shares)
                    .n4(new.price);
                out.send();
                s.orders.swap_remove(k);
                s.orders.push(new);
            }
            920..=962 => {
                let printed_at = pick >= 960; // C
                let k = top_place(&mut rng, s);
                let o = s.orders[k];
                let taken = if rng.below(3) > 0 {
                    o.shares
                } else {
                    1 + rng.below(o.shares as u64) as u32
                };
                out.head(if printed_at { b'C' } else { b'E' }, s.locate);
                out.n8(o.reference).n4(taken).n8(match_no);
                if printed_at {
                    out.a(if rng.below(3) == 0 { b"N" } else { b"Y" })
                        .n4(s.mid * 100);
                }
                out.send();
                if s.matches.len() < 64 {
                    s.matches.push(match_no);
                }
                match_no += 1;
                if taken == o.shares {
                    s.orders.swap_remove(k);
                } else {
                    s.orders[k].shares -= taken;
                }
            }
            963..=982 => {
                let k = place_of(&mut rng, s);
                let o = s.orders[k];
                let taken = if o.shares > 1 {
                    1 + rng.below(o.shares as u64 - 1) as u32
                } else {
                    1
                };
                out.head(b'X', s.locate);
                out.n8(o.reference).n4(taken);
                out.send();
                if taken == o.shares {
                    s.orders.swap_remove(k);
                } else {
                    s.orders[k].shares -= taken;
                }
            }
            983..=997 => {
                out.head(b'P', s.locate);
                let shares = shares_of(&mut rng);
                out.n8(0)
                    .a(b"B")
                    .n4(shares)
                    .a(&s.name)
                    .n4(s.mid * 100)
                    .n8(match_no);
                out.send();
                if s.matches.len() < 64 {
                    s.matches.push(match_no);
                }
                match_no += 1;
            }
            _ => match rng.below(20) {
                0..=9 => {
                    out.head(b'I', s.locate);
                    out.n8(rng.below(50_000))
                        .n8(rng.below(5_000))
                        .a(b"B")
                        .a(&s.name);
                    out.n4(s.mid * 100).n4(s.mid * 100).n4(s.mid * 100).a(b"C1");
                    out.send();
                }
                10 | 11 => {
                    out.head(b'Q', s.locate);
                    out.n8(rng.below(90_000))
                        .a(&s.name)
                        .n4(s.mid * 100)
                        .n8(match_no)
                        .a(b"I");
                    out.send();
                    match_no += 1;
                }
                12 | 13 => {
                    if s.matches.is_empty() {
                        continue;
                    }
                    let k = rng.below(s.matches.len() as u64) as usize;
                    let m = s.matches.swap_remove(k);
                    out.head(b'B', s.locate);
                    out.n8(m);
                    out.send();
                }
                14 => {
                    out.head(b'N', s.locate);
                    out.a(&s.name).a(b"A");
                    out.send();
                }
                15 => {
                    out.head(b'H', s.locate);
                    out.a(&s.name).a(if rng.below(2) == 0 {
                        b"H T1  "
                    } else {
                        b"T     "
                    });
                    out.send();
                }
                16 => {
                    out.head(b'Y', s.locate);
                    out.a(&s.name).a(b"1");
                    out.send();
                }
                17 => {
                    out.head(b'J', s.locate);
                    out.a(&s.name)
                        .n4(s.mid * 100)
                        .n4(s.mid * 110)
                        .n4(s.mid * 90)
                        .n4(0);
                    out.send();
                }
                18 => {
                    out.head(b'h', s.locate);
                    out.a(&s.name).a(b"QT");
                    out.send();
                }
                _ => {
                    out.head(b'K', s.locate);
                    out.a(&s.name).n4(34_200).a(b"A").n4(s.mid * 100);
                    out.send();
                }
            },
        }
    }
    out.time += 1_000_000;
    out.system(b'E');
    out.system(b'C');
    out.w.write_all(&[0, 0]).expect("write");
    out.w.flush().expect("write");
    let live: usize = stocks.iter().map(|s| s.orders.len()).sum();
    let most = stocks.iter().map(|s| s.orders.len()).max().unwrap_or(0);
    eprintln!(
        "{} messages, {} bytes, {} stocks, {} orders live at the end, {} in the fullest book",
        out.sent,
        out.bytes + 2,
        count,
        live,
        most
    );
}
