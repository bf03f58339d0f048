//! Three books of the largest size, made the same each time.

struct Draws(u32);

impl Draws {
    /// The next number of a small generator, below `end`.
    fn below(&mut self, end: u32) -> u32 {
        self.0 = self.0.wrapping_mul(1_664_525).wrapping_add(1_013_904_223);
        (self.0 >> 8) % end
    }
}

fn field(book: &mut Vec<u8>, tag: u8, value: &[u8]) {
    book.push(tag);
    book.extend_from_slice(&(value.len() as u16).to_be_bytes());
    book.extend_from_slice(value);
}

fn heading(players: u8, states: usize) -> Vec<u8> {
    let mut book = Vec::new();
    field(&mut book, 1, &[players, (states - 1) as u8, 0]);
    book
}

fn state(book: &mut Vec<u8>, labels: u16, counts: &[u8], nexts: &[u8]) {
    let mut value = labels.to_be_bytes().to_vec();
    value.extend_from_slice(counts);
    value.extend_from_slice(nexts);
    field(book, 2, &value);
}

/// 32 rules: two labels, what is not them, and strategic rules of every kind for groups from nobody to everybody.
fn rules(book: &mut Vec<u8>) {
    for rule in [[0, 0, 0, 0], [0, 0, 1, 0], [1, 0, 0, 0], [2, 0, 0, 2]] {
        field(book, 3, &rule);
    }
    let groups = [0, 1, 7, 42, 63];
    let kinds = [[3, 0, 0], [4, 3, 0], [5, 2, 1], [6, 0, 0], [7, 3, 0], [8, 2, 1]];
    for number in 0..28 {
        let [kind, r, s] = kinds[number % kinds.len()];
        field(book, 3, &[kind, groups[number % groups.len()], r, s]);
    }
}

/// Six players with two moves each: 64 vectors at each of 256 states, leading anywhere.
fn broad() -> Vec<u8> {
    let mut draws = Draws(1);
    let mut book = heading(6, 256);
    for q in 0..256 {
        let nexts: Vec<u8> = (0..64).map(|_| draws.below(256) as u8).collect();
        state(&mut book, u16::from(q % 16 == 0), &[2; 6], &nexts);
    }
    rules(&mut book);
    book
}

/// The same, each vector of a state leading to the state before it: 256 rounds mark one state each.
fn chain() -> Vec<u8> {
    let mut book = heading(6, 256);
    for q in 0..256usize {
        state(&mut book, u16::from(q == 0), &[2; 6], &[q.saturating_sub(1) as u8; 64]);
    }
    rules(&mut book);
    book
}

/// Six players with four moves each: 4,096 vectors at each of 15 states.
fn dense() -> Vec<u8> {
    let mut draws = Draws(3);
    let mut book = heading(6, 15);
    for q in 0..15 {
        // Mostly to the states below, so that searches go on for long.
        let nexts: Vec<u8> = (0..4096).map(|_| draws.below(q + 1).max(draws.below(q + 1)) as u8).collect();
        state(&mut book, u16::from(q == 0), &[4; 6], &nexts);
    }
    rules(&mut book);
    book
}

pub fn all() -> [(&'static str, Vec<u8>); 3] {
    [("broad", broad()), ("chain", chain()), ("dense", dense())]
}
