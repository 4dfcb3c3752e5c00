//! Places boxes in layers, such that few arrows cross and most are short.

/// What stands in a layer: a box, or the place where an arrow passes that goes further down.
#[derive(Clone, Copy, Debug)]
pub struct Slot {
    pub layer: usize,
    pub width: f64,
    pub is_passage: bool,
    /// Whether it stands right of all that does not.
    pub is_apart: bool,
}

/// Slots, and links from one to another in the layer below it.
#[derive(Default)]
pub struct Layers {
    pub slots: Vec<Slot>,
    pub links: Vec<(usize, usize)>,
}

/// The slots of each layer, from the left.
type Rows = Vec<Vec<usize>>;

const GAP: f64 = 26.0;
/// More change nothing.
const SWEEPS: usize = 40;

impl Layers {
    /// The middle of each slot, from the left.
    pub fn places(&self) -> Vec<f64> {
        let rows = self.best_rows();
        let mut places = vec![0.0; self.slots.len()];
        for sweep in 0..SWEEPS {
            for layer in in_turn(rows.len(), sweep) {
                self.place(&rows[layer], &mut places);
            }
        }
        self.set_apart(&mut places);
        let left = |slot: usize| places[slot] - self.slots[slot].width / 2.0;
        let least = (0..self.slots.len()).map(left).fold(f64::INFINITY, f64::min);
        places.iter().map(|place| place - least).collect()
    }

    /// Of the orders that were tried, the one in which the fewest links cross.
    fn best_rows(&self) -> Rows {
        let layers = self.slots.iter().map(|slot| slot.layer + 1).max().unwrap_or(0);
        let mut rows = vec![Vec::new(); layers];
        for (slot, Slot { layer, .. }) in self.slots.iter().enumerate() {
            rows[*layer].push(slot);
        }
        let mut best = rows.clone();
        for sweep in 0..SWEEPS {
            for layer in in_turn(layers, sweep) {
                self.sort(layer, &mut rows);
            }
            self.exchange_neighbours(&mut rows);
            if self.crossings(&rows) < self.crossings(&best) {
                best = rows.clone();
            }
        }
        best
    }

    /// Brings the slots of a layer into the order of those that they are linked with.
    fn sort(&self, layer: usize, rows: &mut Rows) {
        let ranks: Vec<f64> = ranks(rows, self.slots.len()).iter().map(|rank| *rank as f64).collect();
        rows[layer].sort_by(|one, other| {
            let key = |slot: usize| (self.slots[slot].is_apart, self.wanted(slot, &ranks).0);
            key(*one).partial_cmp(&key(*other)).expect("a mean is a number")
        });
    }

    fn exchange_neighbours(&self, rows: &mut Rows) {
        let mut fewest = self.crossings(rows);
        loop {
            let before = fewest;
            for layer in 0..rows.len() {
                for right in 1..rows[layer].len() {
                    let (one, other) = (rows[layer][right - 1], rows[layer][right]);
                    if self.slots[one].is_apart != self.slots[other].is_apart {
                        continue;
                    }
                    rows[layer].swap(right - 1, right);
                    let crossings = self.crossings(rows);
                    if crossings < fewest {
                        fewest = crossings;
                    } else {
                        rows[layer].swap(right - 1, right);
                    }
                }
            }
            if fewest == before {
                return;
            }
        }
    }

    fn crossings(&self, rows: &Rows) -> usize {
        let rank = ranks(rows, self.slots.len());
        let cross = |(from, to): (usize, usize), (other_from, other_to): (usize, usize)| {
            self.slots[from].layer == self.slots[other_from].layer
                && rank[from] < rank[other_from]
                && rank[to] > rank[other_to]
        };
        let of_link = |link| self.links.iter().filter(|other| cross(link, **other)).count();
        self.links.iter().map(|link| of_link(*link)).sum()
    }

    /// How much a link is worth being upright: most between passages, so that long arrows are straight.
    fn weight(&self, (from, to): (usize, usize)) -> f64 {
        match (self.slots[from].is_passage, self.slots[to].is_passage) {
            (true, true) => 8.0,
            (false, false) => 1.0,
            _ => 2.0,
        }
    }

    /// The weighted mean of what a slot is linked with, and the sum of the weights; without links, where it is.
    fn wanted(&self, slot: usize, places: &[f64]) -> (f64, f64) {
        let (mut sum, mut weights) = (0.0, 0.0);
        for link in self.links.iter().filter(|(from, to)| slot == *from || slot == *to) {
            let other = if slot == link.0 { link.1 } else { link.0 };
            sum += places[other] * self.weight(*link);
            weights += self.weight(*link);
        }
        if weights == 0.0 {
            (places[slot], 1.0)
        } else {
            (sum / weights, weights)
        }
    }

    /// Places a row as near as may be to what its slots want, by least squares: neighbours that come too close make a
    /// block, which stands at the mean of what they want.
    fn place(&self, row: &[usize], places: &mut [f64]) {
        let mut offsets = vec![0.0; row.len()];
        for at in 1..row.len() {
            let widths = self.slots[row[at - 1]].width + self.slots[row[at]].width;
            offsets[at] = offsets[at - 1] + widths / 2.0 + GAP;
        }
        let mut blocks: Vec<Block> = Vec::new();
        for (slot, offset) in row.iter().zip(&offsets) {
            let (wanted, weight) = self.wanted(*slot, places);
            let mut block = Block { at: wanted - offset, weight, slots: 1 };
            while let Some(before) = blocks.pop() {
                if before.at < block.at {
                    blocks.push(before);
                    break;
                }
                block = before.with(block);
            }
            blocks.push(block);
        }
        let starts = blocks.iter().flat_map(|block| vec![block.at; block.slots]);
        for ((slot, offset), start) in row.iter().zip(&offsets).zip(starts) {
            places[*slot] = start + offset;
        }
    }

    /// Moves what stands apart into one column, right of everything else.
    fn set_apart(&self, places: &mut [f64]) {
        let widest = self.slots.iter().map(|slot| slot.width).fold(0.0, f64::max);
        let (apart, others): (Vec<usize>, Vec<usize>) =
            (0..self.slots.len()).partition(|slot| self.slots[*slot].is_apart);
        let right = |slot: &usize| places[*slot] + self.slots[*slot].width / 2.0;
        let column = others.iter().map(right).fold(f64::NEG_INFINITY, f64::max) + widest / 2.0 + 3.0 * GAP;
        for slot in apart {
            places[slot] = column;
        }
    }
}

/// The layers from the lowest up, and every other time from the highest down.
fn in_turn(layers: usize, sweep: usize) -> Vec<usize> {
    if sweep % 2 == 0 {
        (0..layers).collect()
    } else {
        (0..layers).rev().collect()
    }
}

/// Each slot's number in its row.
fn ranks(rows: &Rows, slots: usize) -> Vec<usize> {
    let mut ranks = vec![0; slots];
    for row in rows {
        for (rank, slot) in row.iter().enumerate() {
            ranks[*slot] = rank;
        }
    }
    ranks
}

/// Slots that stand as near to each other as they may.
struct Block {
    /// Where the row would begin, so that they stand at the mean of what they want.
    at: f64,
    weight: f64,
    slots: usize,
}

impl Block {
    fn with(&self, other: Block) -> Block {
        let weight = self.weight + other.weight;
        let at = (self.at * self.weight + other.at * other.weight) / weight;
        Block { at, weight, slots: self.slots + other.slots }
    }
}
