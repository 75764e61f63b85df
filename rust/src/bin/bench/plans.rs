//! What is measured on: grids of regions numbered at random, with faces to the outside along their rims, sectors grown from seeds,
//! flights along their edges, and moves as a search proposes them.

use qirfadhun::lists::Numbers;

/// The ends of a plan's edges, as indices.
fn ends(plan: &Numbers) -> impl Iterator<Item = (usize, usize)> + '_ {
    plan.edges.chunks(3).map(|e| (e[0] as usize - 1, e[1] as usize - 1))
}

/// Random numbers that are the same in every run.
pub struct Random(pub u64);

impl Random {
    pub fn below(&mut self, n: u64) -> u64 {
        self.0 ^= self.0 << 13;
        self.0 ^= self.0 >> 7;
        self.0 ^= self.0 << 17;
        self.0 % n
    }
}

/// A grid with diagonals: `height` times `width` regions, those at the rim with a face to the outside, no flights, and 16 constraints
/// of the kinds 1 to 4.
pub fn grid(random: &mut Random, height: usize, width: usize, sectors: u64) -> Numbers {
    let regions = height * width;
    let mut number: Vec<u64> = (1..=regions as u64).collect();
    for i in (1..regions).rev() {
        number.swap(i, random.below(i as u64 + 1) as usize);
    }
    let mut edges = vec![];
    let mut outside = vec![0; regions];
    let mut apart = Random(random.0); // so that all else is the same with faces to the outside and without
    for (i, j) in (0..height).flat_map(|i| (0..width).map(move |j| (i, j))) {
        if i == 0 || j == 0 || i + 1 == height || j + 1 == width {
            outside[number[i * width + j] as usize - 1] = 1 + apart.below(1_000_000);
        }
        for (down, right) in [(0, 1), (1, 0), (1, 1)] {
            if i + down < height && j + right < width {
                let (a, b) = (number[i * width + j], number[(i + down) * width + j + right]);
                edges.push([a.min(b), a.max(b), 1 + random.below(1_000_000)]);
            }
        }
    }
    edges.sort();
    let mut plan = Numbers {
        regions: regions as u64,
        sectors,
        workloads: (0..regions).map(|_| random.below(1_000_001)).collect(),
        outside,
        edges: edges.concat(),
        counts: vec![],
        visits: vec![],
        constraints: (0..16).flat_map(|k| constraint(k, sectors)).collect(),
        colouring: vec![0; regions],
    };
    grow_sectors(random, &mut plan);
    plan
}

fn constraint(k: u64, sectors: u64) -> [u64; 4] {
    match k % 4 {
        0 => [1, 3, sectors, 1000],
        1 => [2, 1, 1000, 1],
        2 => [3, 1, 40, 2],
        _ => [4, 1 + k / 4 % 6, 5_000_000, 3],
    }
}

/// Each sector starts from a region of its own and takes in neighbours that have none.
fn grow_sectors(random: &mut Random, plan: &mut Numbers) {
    let ends: Vec<_> = ends(plan).collect();
    let sector_of = &mut plan.colouring;
    for sector in 1..=plan.sectors {
        let seed = loop {
            let region = random.below(plan.regions) as usize;
            if sector_of[region] == 0 {
                break region;
            }
        };
        sector_of[seed] = sector;
    }
    while sector_of.contains(&0) {
        for &(a, b) in &ends {
            if sector_of[a] == 0 {
                sector_of[a] = sector_of[b];
            } else if sector_of[b] == 0 {
                sector_of[b] = sector_of[a];
            }
        }
    }
}

/// Flights of so many visits each, which go along edges and not straight back, from 10 to 300 seconds a visit.
pub fn fly(random: &mut Random, plan: &mut Numbers, flights: usize, visits: usize) {
    plan.counts = vec![visits as u64; flights];
    plan.visits = vec![];
    for _ in 0..flights {
        let (mut before, mut region) = (0, 1 + random.below(plan.regions));
        for _ in 0..visits {
            plan.visits.extend([region, 10 + random.below(291)]);
            let own = plan.edges.chunks(3).filter(|e| e[..2].contains(&region));
            let ahead: Vec<u64> = own.map(|e| e[0] + e[1] - region).filter(|&u| u != before).collect();
            (before, region) = (region, ahead[random.below(ahead.len() as u64) as usize]);
        }
    }
}

/// What a list is made of: how often each kind of move stands in it, of a hundred, and whether recolourings go to a neighbour's sector
/// across a border of the first colouring, as a search proposes them, or half of them to a neighbour's and half to any.
pub struct List {
    pub name: &'static str,
    pub kinds: &'static [(u64, u64)],
    pub across: bool,
}

const fn list(name: &'static str, kinds: &'static [(u64, u64)]) -> List {
    List { name, kinds, across: false }
}

/// The lists that are measured.
pub const LISTS: [List; 8] = [
    list("probes", &[(1, 100)]),
    List { name: "probes at borders", kinds: &[(1, 100)], across: true },
    list("made moves", &[(2, 100)]),
    list("exchange probes", &[(3, 100)]),
    list("exchanges", &[(4, 100)]),
    list("mix", &[(1, 25), (2, 25), (3, 25), (4, 25)]),
    List { name: "a search", kinds: &[(1, 90), (2, 8), (4, 2)], across: true },
    list("questions", &[(5, 100)]),
];

impl List {
    fn kind(&self, random: &mut Random) -> u64 {
        let mut left = random.below(100);
        for &(kind, often) in self.kinds {
            if left < often {
                return kind;
            }
            left -= often;
        }
        unreachable!("the kinds of a list make a hundred")
    }

    /// `n` moves: a region at an edge is given to a sector, exchanged with a neighbour of another sector, or asked about.
    pub fn moves(&self, random: &mut Random, plan: &Numbers, n: usize) -> Vec<u64> {
        let ends: Vec<_> = ends(plan).collect();
        let borders: Vec<_> = ends.iter().copied().filter(|&(a, b)| plan.colouring[a] != plan.colouring[b]).collect();
        let mut moves = vec![];
        for _ in 0..n {
            let kind = self.kind(random);
            let from = if self.across || kind == 3 || kind == 4 { &borders } else { &ends };
            let (one, other) = from[random.below(from.len() as u64) as usize];
            let (a, b) = if random.below(2) == 0 { (one, other) } else { (other, one) };
            let second = match kind {
                1 | 2 if self.across || random.below(2) == 0 => plan.colouring[b],
                1 | 2 => 1 + random.below(plan.sectors),
                3 | 4 => b as u64 + 1,
                _ => 0,
            };
            moves.extend([kind, a as u64 + 1, second]);
        }
        moves
    }
}

/// How far x is from standing in the relation to the limit.
pub fn distance(relation: u64, x: u64, limit: u64) -> u64 {
    match relation {
        1 => x.saturating_sub(limit),
        2 => (x + 1).saturating_sub(limit),
        3 => x.abs_diff(limit),
        4 => (x == limit) as u64,
        5 => (limit + 1).saturating_sub(x),
        _ => limit.saturating_sub(x),
    }
}
