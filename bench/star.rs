// Star rows of three dimensions with a sum and a count, made and merged on each dimension, in plain Rust.
use std::time::Instant;
struct Table { ids: Vec<u32>, sums: Vec<i128>, counts: Vec<u64> }
impl Table {
    fn len(&self) -> usize { self.counts.len() }
    fn fill(rows: usize, cards: [u32; 3]) -> Table {
        let mut t = Table { ids: Vec::with_capacity(rows * 6), sums: Vec::with_capacity(rows * 2), counts: Vec::with_capacity(rows * 2) };
        let mut x: u64 = 88172645463325252;
        for _ in 0..rows {
            x ^= x << 13; x ^= x >> 7; x ^= x << 17;
            let a = (x % 1000003) as u32 % cards[0];
            let b = (x / 1000003 % 1000003) as u32 % cards[1];
            let c = (x / 1000006000009 % 1000003) as u32 % cards[2];
            t.ids.extend_from_slice(&[a, b, c]);
            t.sums.push((x % 1000) as i128);
            t.counts.push(1);
        }
        t
    }
    fn starred(&mut self, start: usize, end: usize, level: usize) -> usize {
        let (mut lo, mut hi) = ([u32::MAX; 3], [0u32; 3]);
        for i in start..end { for d in 0..3 { let v = self.ids[i * 3 + d]; lo[d] = lo[d].min(v); hi[d] = hi[d].max(v); } }
        let mut words: Vec<u64> = Vec::with_capacity(end - start);
        for i in start..end {
            let mut k = 0u64;
            for d in 0..3 { if d != level { k = k * (hi[d] - lo[d] + 1) as u64 + (self.ids[i * 3 + d] - lo[d]) as u64; } }
            words.push(k << 20 | (i - start) as u64);
        }
        words.sort_unstable();
        let before = self.len();
        let mut last = u64::MAX;
        for w in words {
            let i = start + (w & 1048575) as usize;
            if w >> 20 == last {
                let n = self.len() - 1;
                self.sums[n] += self.sums[i];
                self.counts[n] += self.counts[i];
            } else {
                last = w >> 20;
                for d in 0..3 { let v = self.ids[i * 3 + d]; self.ids.push(if d == level { u32::MAX } else { v }); }
                self.sums.push(self.sums[i]);
                self.counts.push(self.counts[i]);
            }
        }
        self.len() - before
    }
}
fn main() {
    let rows: usize = std::env::args().nth(1).map_or(1, |w| w.parse().unwrap());
    for cards in [[20u32, 20, 10], [100, 100, 25], [1000, 1000, 1000]] {
        for level in 0..4 {
            let s = Instant::now();
            let mut t = Table::fill(rows, cards);
            let made = s.elapsed().as_micros();
            let s = Instant::now();
            let k = t.starred(0, rows, level);
            eprintln!("{made} {}", s.elapsed().as_micros());
            println!("{k}");
        }
    }
}
