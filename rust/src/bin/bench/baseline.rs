//! The baseline: the whole call as an expert writes it in plain Rust. Neighbours in compressed rows of small numbers, marks with
//! stamps, a queue, a search that stops as soon as it knows, one running sum for each constraint, for each flight what it adds to the
//! total; and before them the refusals, after them the verdicts and the work memory.

use crate::plans::distance;
use crate::refusals::{status, Call, Refused};
use qirfadhun::lists::Numbers;

fn excess(n: u32) -> u64 {
    n.saturating_sub(1) as u64
}

/// The violation of constraint k, from 0, but for kind 5.
fn violation(k: usize, q: &[u64], all: u64, excess: u64, border: u64, deviation: u64, bounded: &[u64; 16]) -> u64 {
    match q[0] {
        1 => excess + (distance(q[1], all, q[2]) != 0) as u64,
        2 => border.saturating_sub(q[2]),
        3 => deviation.saturating_sub(q[2]),
        _ => bounded[k],
    }
}

fn smallest_joined(plan: &Numbers, sector_of: &[u8]) -> Vec<u16> {
    fn root(parent: &mut [u16], mut v: usize) -> usize {
        while parent[v] as usize != v {
            parent[v] = parent[parent[v] as usize];
            v = parent[v] as usize;
        }
        v
    }
    let mut parent: Vec<u16> = (0..=plan.regions as u16).collect();
    for e in plan.edges.chunks(3) {
        let (a, b) = (e[0] as usize, e[1] as usize);
        if sector_of[a] == sector_of[b] {
            let (x, y) = (root(&mut parent, a), root(&mut parent, b));
            parent[x.max(y)] = x.min(y) as u16;
        }
    }
    (0..parent.len()).map(|v| root(&mut parent, v) as u16).collect()
}

/// The constraints of kind 5 and, where there are any, the visits of each flight and the flights that visit each region, in
/// compressed rows, and what each flight adds to the total.
struct Flights {
    timed: Vec<[u64; 4]>,
    first: Vec<usize>,
    visits: Vec<(u16, u32)>,
    start: Vec<u16>,
    visitors: Vec<u8>,
    price: Vec<u64>,
}

impl Flights {
    fn new(plan: &Numbers) -> Self {
        let four = |q: &[u64]| [q[0], q[1], q[2], q[3]];
        let timed: Vec<_> = plan.constraints.chunks(4).map(four).filter(|q| q[0] == 5).collect();
        let counts = if timed.is_empty() { &[] } else { &plan.counts[..] };
        let mut first = vec![0];
        for &n in counts {
            first.push(first[first.len() - 1] + n as usize);
        }
        let visits: Vec<_> = plan.visits.chunks(2).take(first[counts.len()]).map(|v| (v[0] as u16, v[1] as u32)).collect();
        let mut start = vec![0; plan.regions as usize + 2];
        let mut last = vec![0; plan.regions as usize + 1];
        let mut pairs = vec![];
        for k in 0..counts.len() {
            for &(v, _) in &visits[first[k]..first[k + 1]] {
                if std::mem::replace(&mut last[v as usize], k + 1) != k + 1 {
                    start[v as usize + 1] += 1;
                    pairs.push((v, k as u8));
                }
            }
        }
        for v in 1..start.len() {
            start[v] += start[v - 1];
        }
        let mut end = start.clone();
        let mut visitors = vec![0; pairs.len()];
        for (v, k) in pairs {
            visitors[end[v as usize] as usize] = k;
            end[v as usize] += 1;
        }
        Flights { timed, first, visits, start, visitors, price: vec![0; counts.len()] }
    }

    fn row(&self, v: usize) -> std::ops::Range<usize> {
        self.start[v] as usize..self.start[v + 1] as usize
    }

    fn stretch_price(&self, seconds: u32) -> u64 {
        self.timed.iter().map(|q| q[3] * distance(q[1], seconds as u64, q[2])).sum()
    }

    /// What a flight adds to the total: by all its stretches, or by those that visit the region.
    fn price_of(&self, k: usize, sector_of: &[u8], region: Option<usize>) -> u64 {
        let (mut price, mut seconds, mut sector, mut counts) = (0, 0, 0, false);
        for &(v, dwell) in &self.visits[self.first[k]..self.first[k + 1]] {
            let own = sector_of[v as usize];
            if own != sector {
                if counts {
                    price += self.stretch_price(seconds);
                }
                (seconds, sector, counts) = (0, own, region.is_none());
            }
            seconds += dwell;
            counts |= region == Some(v as usize);
        }
        if counts {
            price += self.stretch_price(seconds);
        }
        price
    }
}

/// All that is kept of a colouring between two moves; regions and sectors are numbered from 1.
struct Engine<'a> {
    plan: &'a Numbers,
    start: Vec<u32>,
    near: Vec<u16>,
    area: Vec<u32>,
    sector_of: Vec<u8>,
    label: Vec<u16>,
    components: Vec<u32>,
    workload: Vec<u64>,
    whole: u64,
    all: u64,
    excess: u64,
    border: u64,
    deviation: u64,
    bounded: [u64; 16],
    flights: Flights,
    dwell: u64,
    total: u64,
    mark: Vec<u32>,
    stamp: u32,
    queue: Vec<u16>,
}

impl<'a> Engine<'a> {
    fn new(plan: &'a Numbers, colouring: &[u64]) -> Self {
        let (regions, sectors) = (plan.regions as usize, plan.sectors as usize);
        let mut start = vec![0u32; regions + 2];
        for e in plan.edges.chunks(3) {
            start[e[0] as usize + 1] += 1;
            start[e[1] as usize + 1] += 1;
        }
        for v in 1..regions + 2 {
            start[v] += start[v - 1];
        }
        let mut end = start.clone();
        let mut near = vec![0; 2 * plan.edges.len() / 3];
        let mut area = vec![0; near.len()];
        for e in plan.edges.chunks(3) {
            for (a, b) in [(e[0], e[1]), (e[1], e[0])] {
                let cell = end[a as usize] as usize;
                end[a as usize] += 1;
                near[cell] = b as u16;
                area[cell] = e[2] as u32;
            }
        }
        let sector_of: Vec<u8> = std::iter::once(0).chain(colouring.iter().map(|&c| c as u8)).collect();
        let label = smallest_joined(plan, &sector_of);
        let mut engine = Engine {
            plan,
            start,
            near,
            area,
            label,
            components: vec![0; sectors + 1],
            workload: vec![0; sectors + 1],
            whole: plan.workloads.iter().sum(),
            all: 0,
            excess: 0,
            border: 0,
            deviation: 0,
            bounded: [0; 16],
            flights: Flights::new(plan),
            dwell: 0,
            total: 0,
            mark: vec![0; regions + 1],
            stamp: 0,
            queue: vec![0; regions + 1],
            sector_of,
        };
        engine.add_up();
        engine
    }

    fn add_up(&mut self) {
        let plan = self.plan;
        for v in 1..=plan.regions as usize {
            let c = self.sector_of[v] as usize;
            self.workload[c] += plan.workloads[v - 1];
            self.border += plan.outside[v - 1];
            self.components[c] += (self.label[v] as usize == v) as u32;
        }
        for e in plan.edges.chunks(3) {
            if self.sector_of[e[0] as usize] != self.sector_of[e[1] as usize] {
                self.border += e[2];
            }
        }
        self.all = self.components.iter().map(|&n| n as u64).sum();
        self.excess = self.components.iter().map(|&n| excess(n)).sum();
        self.deviation = self.workload[1..].iter().map(|&x| (plan.sectors * x).abs_diff(self.whole)).sum();
        for (k, q) in plan.constraints.chunks(4).enumerate() {
            if q[0] == 4 {
                self.bounded[k] = self.workload[1..].iter().map(|&x| distance(q[1], x, q[2])).sum();
            }
        }
        for k in 0..self.flights.price.len() {
            self.flights.price[k] = self.flights.price_of(k, &self.sector_of, None);
        }
        self.dwell = self.flights.price.iter().sum();
        self.total = self.total_of(self.all, self.excess, self.border, self.deviation, &self.bounded, self.dwell);
    }

    fn total_of(&self, all: u64, excess: u64, border: u64, deviation: u64, bounded: &[u64; 16], dwell: u64) -> u64 {
        let mut total = dwell;
        for (k, q) in self.plan.constraints.chunks(4).enumerate() {
            total += q[3] * violation(k, q, all, excess, border, deviation, bounded);
        }
        total
    }

    fn row(&self, v: usize) -> std::ops::Range<usize> {
        self.start[v] as usize..self.start[v + 1] as usize
    }

    /// The pieces that v's component falls into without v; where they are made, each is labelled and the new labels are counted.
    fn pieces(&mut self, v: usize, make: bool, relabelled: &mut i64) -> u32 {
        let c = self.sector_of[v];
        let mut unreached = 0;
        for i in self.row(v) {
            unreached += (self.sector_of[self.near[i] as usize] == c) as u32;
        }
        if unreached <= 1 && !make {
            return unreached;
        }
        self.stamp += 2;
        let (reached, wanted) = (self.stamp - 1, self.stamp);
        self.mark[v] = reached;
        for i in self.row(v) {
            let u = self.near[i] as usize;
            if self.sector_of[u] == c {
                self.mark[u] = wanted;
            }
        }
        let mut n = 0;
        for i in self.row(v) {
            let u = self.near[i] as usize;
            if self.sector_of[u] != c || self.mark[u] == reached {
                continue;
            }
            n += 1;
            let (mut head, mut end) = (0, 1);
            self.queue[0] = u as u16;
            self.mark[u] = reached;
            unreached -= 1;
            if unreached == 0 && !make {
                break;
            }
            let mut smallest = u;
            while head < end {
                let y = self.queue[head] as usize;
                head += 1;
                smallest = smallest.min(y);
                for j in self.row(y) {
                    let z = self.near[j] as usize;
                    if self.sector_of[z] == c && self.mark[z] != reached {
                        if self.mark[z] == wanted {
                            unreached -= 1;
                            if unreached == 0 && !make {
                                return n;
                            }
                        }
                        self.mark[z] = reached;
                        self.queue[end] = z as u16;
                        end += 1;
                    }
                }
            }
            if make {
                for k in 0..end {
                    let y = self.queue[k] as usize;
                    *relabelled += (self.label[y] != smallest as u16) as i64;
                    self.label[y] = smallest as u16;
                }
            }
        }
        n
    }

    /// The components of sector d that share a face with v.
    fn touching(&mut self, v: usize, d: u8) -> u32 {
        self.stamp += 1;
        let mut n = 0;
        for i in self.row(v) {
            let u = self.near[i] as usize;
            if self.sector_of[u] == d {
                let label = self.label[u] as usize;
                if self.mark[label] != self.stamp {
                    self.mark[label] = self.stamp;
                    n += 1;
                }
            }
        }
        n
    }

    /// Gives v to sector d and labels the component that it comes to; the new labels are counted.
    fn come(&mut self, v: usize, d: u8, left: u16) -> i64 {
        self.sector_of[v] = d;
        let mut smallest = v as u16;
        for i in self.row(v) {
            let u = self.near[i] as usize;
            if self.sector_of[u] == d {
                smallest = smallest.min(self.label[u]);
            }
        }
        self.stamp += 1;
        self.mark[v] = self.stamp;
        self.queue[0] = v as u16;
        let (mut head, mut end) = (0, 1);
        while head < end {
            let y = self.queue[head] as usize;
            head += 1;
            for j in self.row(y) {
                let z = self.near[j] as usize;
                if self.sector_of[z] == d && self.mark[z] != self.stamp && self.label[z] != smallest {
                    self.mark[z] = self.stamp;
                    self.queue[end] = z as u16;
                    end += 1;
                }
            }
        }
        for k in 1..end {
            self.label[self.queue[k] as usize] = smallest;
        }
        self.label[v] = smallest;
        end as i64 - 1 + (smallest != left) as i64
    }

    /// What all flights add to the total once v is in sector d; where that is made, what each of them does.
    fn dwell_after(&mut self, v: usize, d: u8, make: bool) -> u64 {
        let mut dwell = self.dwell;
        let c = std::mem::replace(&mut self.sector_of[v], d);
        for i in self.flights.row(v) {
            let k = self.flights.visitors[i] as usize;
            let price = self.flights.price_of(k, &self.sector_of, None);
            dwell = dwell + price - self.flights.price[k];
            if make {
                self.flights.price[k] = price;
            }
        }
        self.sector_of[v] = c;
        dwell
    }

    /// The total after giving v to sector d and, where that is made, how many labels are new.
    fn recolour(&mut self, v: usize, d: u8, make: bool) -> (u64, i64) {
        let c = self.sector_of[v];
        if c == d {
            return (self.total, 0);
        }
        let (own, other) = (c as usize, d as usize);
        let left = self.label[v];
        let mut relabelled = 0;
        let pieces = self.pieces(v, make, &mut relabelled);
        let touching = self.touching(v, d);
        let (mut here, mut there) = (0, 0);
        for i in self.row(v) {
            let sector = self.sector_of[self.near[i] as usize];
            if sector == d {
                there += self.area[i] as u64;
            } else if sector == c {
                here += self.area[i] as u64;
            }
        }
        let border = self.border + here - there;
        let (n, m) = (self.components[own], self.components[other]);
        let (n_after, m_after) = (n + pieces - 1, m + 1 - touching);
        let all = self.all + n_after as u64 + m_after as u64 - n as u64 - m as u64;
        let over = self.excess + excess(n_after) + excess(m_after) - excess(n) - excess(m);
        let (x, y) = (self.workload[own], self.workload[other]);
        let workload = self.plan.workloads[v - 1];
        let (x_after, y_after) = (x - workload, y + workload);
        let off = |x: u64| (self.plan.sectors * x).abs_diff(self.whole);
        let deviation = self.deviation + off(x_after) + off(y_after) - off(x) - off(y);
        let mut bounded = self.bounded;
        for (k, q) in self.plan.constraints.chunks(4).enumerate() {
            if q[0] == 4 {
                let d = |x| distance(q[1], x, q[2]);
                bounded[k] = bounded[k] + d(x_after) + d(y_after) - d(x) - d(y);
            }
        }
        let dwell = self.dwell_after(v, d, make);
        let total = self.total_of(all, over, border, deviation, &bounded, dwell);
        if make {
            self.components[own] = n_after;
            self.components[other] = m_after;
            self.workload[own] = x_after;
            self.workload[other] = y_after;
            (self.all, self.excess, self.border, self.deviation) = (all, over, border, deviation);
            self.bounded = bounded;
            self.dwell = dwell;
            self.total = total;
            relabelled += self.come(v, d, left);
        }
        (total, relabelled)
    }

    fn region_violation(&self, v: usize) -> u64 {
        let c = self.sector_of[v];
        let x = self.workload[c as usize];
        let mut border = self.plan.outside[v - 1];
        for i in self.row(v) {
            if self.sector_of[self.near[i] as usize] != c {
                border += self.area[i] as u64;
            }
        }
        let mut sum = 0;
        for i in self.flights.row(v) {
            sum += self.flights.price_of(self.flights.visitors[i] as usize, &self.sector_of, Some(v));
        }
        for q in self.plan.constraints.chunks(4) {
            let part = match q[0] {
                1 => excess(self.components[c as usize]),
                2 => border,
                3 => (self.plan.sectors * x).abs_diff(self.whole),
                4 => distance(q[1], x, q[2]),
                _ => 0,
            };
            sum += q[3] * part;
        }
        sum
    }

    fn step(&mut self, kind: u64, v: usize, second: u64) -> [i64; 4] {
        let before = self.total;
        if kind <= 2 {
            let (total, n) = self.recolour(v, second as u8, kind == 2);
            return [0, total as i64 - before as i64, self.total as i64, if kind == 2 { n } else { 0 }];
        }
        if kind == 5 {
            return [0, self.region_violation(v) as i64, before as i64, 0];
        }
        let w = second as usize;
        let (c, d) = (self.sector_of[v], self.sector_of[w]);
        if c == d {
            return [0, 0, before as i64, 0];
        }
        if kind == 4 {
            let labels = self.label.clone();
            self.recolour(v, d, true);
            let (total, _) = self.recolour(w, c, true);
            let n = labels.iter().zip(&self.label).filter(|(a, b)| a != b).count();
            return [0, total as i64 - before as i64, total as i64, n as i64];
        }
        self.recolour(v, d, true);
        let (total, _) = self.recolour(w, c, false);
        self.recolour(v, c, true);
        [0, total as i64 - before as i64, before as i64, 0]
    }

    /// A verdict for each constraint.
    fn put_verdicts(&mut self, verdicts: &mut [u64]) {
        for ((k, q), verdict) in self.plan.constraints.chunks(4).enumerate().zip(verdicts.chunks_mut(2)) {
            let v = if q[0] == 5 {
                self.flights.timed = vec![[5, q[1], q[2], 1]];
                (0..self.flights.price.len()).map(|k| self.flights.price_of(k, &self.sector_of, None)).sum()
            } else {
                violation(k, q, self.all, self.excess, self.border, self.deviation, &self.bounded)
            };
            verdict.copy_from_slice(&[(v == 0) as u64, v]);
        }
    }

    /// The labels, the component counts, the workload sums and the border.
    fn put_work(&self, work: &mut [u64]) {
        let labels = self.label[1..].iter().map(|&l| l as u64);
        let components = self.components[1..].iter().map(|&n| n as u64);
        let numbers = labels.chain(components).chain(self.workload[1..].iter().copied()).chain([self.border]);
        for (place, number) in work.iter_mut().zip(numbers) {
            *place = number;
        }
    }
}

/// Judges, takes the moves in turn and judges again; answers the first and the last total.
pub fn call(call: Call) -> Result<(u64, u64), Refused> {
    call.refusal()?;
    let Call { plan, colouring, moves, rows, verdicts, work } = call;
    let mut engine = Engine::new(plan, colouring);
    let first = engine.total;
    for (m, row) in moves.chunks(3).zip(rows.chunks_mut(4)) {
        let answer = match status(plan.regions, plan.sectors, m[0], m[1], m[2]) {
            0 => engine.step(m[0], m[1] as usize, m[2]),
            status => [status, 0, engine.total as i64, 0],
        };
        row.copy_from_slice(&answer);
    }
    for (c, &sector) in colouring.iter_mut().zip(&engine.sector_of[1..]) {
        *c = sector as u64;
    }
    engine.put_verdicts(verdicts);
    engine.put_work(work);
    Ok((first, engine.total))
}
