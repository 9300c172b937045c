//! Random sheets: valid ones of many shapes, damaged ones, and ones near each limit.

pub struct Random(pub u64);

impl Random {
    pub fn next(&mut self) -> u64 {
        self.0 = self.0.wrapping_add(0x9e37_79b9_7f4a_7c15);
        let mut z = self.0;
        z = (z ^ (z >> 30)).wrapping_mul(0xbf58_476d_1ce4_e5b9);
        z = (z ^ (z >> 27)).wrapping_mul(0x94d0_49bb_1331_11eb);
        z ^ (z >> 31)
    }

    pub fn below(&mut self, n: u64) -> u64 {
        self.next() % n
    }

    pub fn between(&mut self, low: i64, high: i64) -> i64 {
        low + self.below((high - low + 1) as u64) as i64
    }

    pub fn once_in(&mut self, n: u64) -> bool {
        self.below(n) == 0
    }
}

const M: i64 = 1_073_741_823;

/// How the numbers and the shape of one sheet are drawn.
struct Style {
    variables: u64,
    numbers: u64,
    width: u64,
    sparse: u64,
    longest: usize,
}

fn number(r: &mut Random, style: &Style) -> i64 {
    match style.numbers {
        0 => r.between(-2, 2),
        1 => r.between(-9, 9),
        2 => r.between(-1000, 1000),
        3 => r.between(-M, M),
        4 => *[M, -M, M - 1, 1 - M, 1, -1, 0, M / 2, 536_870_912].get(r.below(9) as usize).unwrap(),
        _ => r.between(-40000, 40000),
    }
}

fn record(out: &mut Vec<u8>, kind: u16, fields: &[u8]) {
    out.extend_from_slice(&(4 + fields.len() as u16).to_le_bytes());
    out.extend_from_slice(&kind.to_le_bytes());
    out.extend_from_slice(fields);
}

pub fn atom(out: &mut Vec<u8>, kind: u16, numbers: [i64; 9]) {
    let fields: Vec<u8> = numbers.iter().flat_map(|&n| (n as i32).to_le_bytes()).collect();
    record(out, kind, &fields);
}

fn leaf(r: &mut Random, style: &Style, out: &mut Vec<u8>) {
    if r.once_in(5) {
        let mut fields = (r.below(style.variables) as u16).to_le_bytes().to_vec();
        let low = number(r, style);
        let high = if r.once_in(3) { number(r, style) } else { (low + r.between(0, 50)).min(M) };
        fields.extend_from_slice(&(low as i32).to_le_bytes());
        fields.extend_from_slice(&(high as i32).to_le_bytes());
        record(out, 9, &fields);
    } else {
        let mut numbers = [0; 9];
        for v in 0..style.variables as usize {
            if !r.once_in(style.sparse) {
                numbers[v] = number(r, style);
            }
        }
        numbers[8] = number(r, style);
        atom(out, 1 + r.below(3) as u16, numbers);
    }
}

fn formula(r: &mut Random, style: &Style, levels: u64, quantifiers: &mut u64, out: &mut Vec<u8>) {
    if levels <= 1 || out.len() > style.longest {
        return leaf(r, style, out);
    }
    if *quantifiers > 0 && r.once_in(2) {
        *quantifiers -= 1;
        record(out, 7 + r.below(2) as u16, &(r.below(style.variables) as u16).to_le_bytes());
        return formula(r, style, levels - 1, quantifiers, out);
    }
    match r.below(8) {
        0 => {
            record(out, 4, &[]);
            formula(r, style, levels - 1, quantifiers, out);
        }
        1..=4 => {
            let count = r.below(style.width + 1);
            record(out, 5 + r.below(2) as u16, &(count as u16).to_le_bytes());
            for _ in 0..count {
                formula(r, style, levels - 1, quantifiers, out);
            }
        }
        _ => leaf(r, style, out),
    }
}

fn valid(r: &mut Random) -> Vec<u8> {
    let style = Style { variables: 1 + r.below(8), numbers: r.below(6), width: 1 + r.below(6), sparse: 2 + r.below(3), longest: 3500 };
    let mut quantifiers = r.below(5);
    let levels = 1 + r.below(24);
    let mut out = Vec::new();
    if quantifiers > 0 && r.once_in(2) {
        quantifiers -= 1;
        record(&mut out, 7 + r.below(2) as u16, &(r.below(style.variables) as u16).to_le_bytes());
        formula(r, &style, levels.saturating_sub(1).max(1), &mut quantifiers, &mut out);
    } else {
        formula(r, &style, levels, &mut quantifiers, &mut out);
    }
    out
}

fn damaged(r: &mut Random) -> Vec<u8> {
    let mut out = valid(r);
    for _ in 0..1 + r.below(2) {
        match r.below(5) {
            0 => out.truncate(r.below(out.len() as u64 + 1) as usize),
            1 => out.extend((0..1 + r.below(8)).map(|_| r.next() as u8).collect::<Vec<u8>>()),
            2 if !out.is_empty() => {
                let at = r.below(out.len() as u64) as usize;
                out[at] = r.next() as u8;
            }
            3 if out.len() > 4 => {
                let at = (r.below(out.len() as u64 / 2) * 2) as usize;
                out[at] = r.below(12) as u8;
            }
            _ => {
                let mut deeper = Vec::new();
                for _ in 0..r.below(28) {
                    record(&mut deeper, 4, &[]);
                }
                deeper.extend_from_slice(&out);
                out = deeper;
            }
        }
    }
    out
}

/// NOTs over an atom, around the deepest nesting.
fn deep(r: &mut Random) -> Vec<u8> {
    let mut out = Vec::new();
    for _ in 0..if r.once_in(4) { 13 } else { 21 } + r.below(6) {
        if r.once_in(3) {
            record(&mut out, 5 + r.below(2) as u16, &1u16.to_le_bytes());
        } else if r.once_in(6) {
            record(&mut out, 7 + r.below(2) as u16, &(r.below(2) as u16).to_le_bytes());
        } else {
            record(&mut out, 4, &[]);
        }
    }
    leaf(r, &Style { variables: 2, numbers: 1, width: 1, sparse: 4, longest: 3500 }, &mut out);
    out
}

/// One quantifier over a list of simple atoms: around 64 terms, and results around 65,536 bytes.
fn wide(r: &mut Random) -> Vec<u8> {
    let mut out = Vec::new();
    record(&mut out, 7 + r.below(2) as u16, &0u16.to_le_bytes());
    let count = match r.below(4) {
        0 => 62 + r.below(5),
        1 => 14 + r.below(3),
        2 => 6 + r.below(26),
        _ => r.below(100),
    };
    record(&mut out, 5 + r.below(2) as u16, &(count as u16).to_le_bytes());
    let other = r.below(4);
    for i in 0..count {
        let mut numbers = [0; 9];
        numbers[0] = r.between(-1, 1) * (1 + r.below(2) as i64);
        if other > 0 {
            numbers[1 + r.below(other) as usize] = r.between(-1, 1);
        }
        numbers[8] = if r.once_in(10) { r.between(-3, 3) } else { i as i64 };
        atom(&mut out, 1 + r.below(3) as u16, numbers);
    }
    out
}

/// Numbers at the limits, some in lists that fall away.
fn extreme(r: &mut Random) -> Vec<u8> {
    let mut out = Vec::new();
    let style = Style { variables: 2 + r.below(2), numbers: 4, width: 3, sparse: 3, longest: 3500 };
    for _ in 0..1 + r.below(2) {
        record(&mut out, 7 + r.below(2) as u16, &(r.below(style.variables) as u16).to_le_bytes());
    }
    record(&mut out, 5 + r.below(2) as u16, &3u16.to_le_bytes());
    for _ in 0..2 {
        record(&mut out, 5 + r.below(2) as u16, &2u16.to_le_bytes());
        leaf(r, &style, &mut out);
        if r.once_in(2) {
            record(&mut out, 5 + r.below(2) as u16, &0u16.to_le_bytes());
        } else {
            leaf(r, &style, &mut out);
        }
    }
    leaf(r, &style, &mut out);
    out
}

/// A flat list that fills a sheet or a result to the byte.
fn full(r: &mut Random) -> Vec<u8> {
    let target = *[16_384usize, 16_385, 16_383, 4096, 65_536, 65_537, 65_530].get(r.below(7) as usize).unwrap();
    let (mut body, mut count) = (Vec::new(), 0u16);
    while body.len() + 6 + 40 <= target {
        let mut numbers = [0; 9];
        numbers[r.below(3) as usize] = r.between(-3, 3);
        numbers[8] = r.between(-9, 9);
        atom(&mut body, 1 + r.below(3) as u16, numbers);
        count += 1;
    }
    while body.len() + 6 + 6 <= target {
        record(&mut body, 5 + r.below(2) as u16, &0u16.to_le_bytes());
        count += 1;
    }
    let mut out = Vec::new();
    record(&mut out, 5 + r.below(2) as u16, &count.to_le_bytes());
    out.extend_from_slice(&body);
    out.resize(target.max(out.len()), 0);
    if r.once_in(2) {
        out.truncate(6 + body.len());
    }
    out
}

/// A sheet of some thousand bytes: a list of parts, with quantifiers over small parts and, at times, over the whole.
fn long(r: &mut Random) -> Vec<u8> {
    let style = Style { variables: 2 + r.below(6), numbers: r.below(3), width: 2 + r.below(4), sparse: 2 + r.below(3), longest: usize::MAX };
    let target = 4_097 + r.below(12_200) as usize;
    let (mut body, mut count) = (Vec::new(), 0u16);
    while body.len() < target {
        let mut part = Vec::new();
        if r.once_in(8) {
            record(&mut part, 7 + r.below(2) as u16, &(r.below(style.variables) as u16).to_le_bytes());
        }
        let levels = 1 + r.below(5);
        formula(r, &style, levels, &mut 0, &mut part);
        if part.len() < 700 {
            body.extend_from_slice(&part);
            count += 1;
        }
    }
    let mut out = Vec::new();
    if r.once_in(2) {
        record(&mut out, 7 + r.below(2) as u16, &7u16.to_le_bytes());
    }
    record(&mut out, 5 + r.below(2) as u16, &count.to_le_bytes());
    out.extend_from_slice(&body);
    out
}

/// Bytes of no sense.
fn noise(r: &mut Random) -> Vec<u8> {
    (0..r.below(120)).map(|_| if r.once_in(2) { r.below(10) as u8 } else { r.next() as u8 }).collect()
}

/// Bytes of no sense, or a small sheet with a byte changed here and there.
pub fn bytes(r: &mut Random) -> Vec<u8> {
    if r.once_in(2) {
        return noise(r);
    }
    let mut out = deep(r);
    for _ in 0..r.below(3) {
        let at = r.below(out.len() as u64) as usize;
        out[at] = r.next() as u8;
    }
    out
}

pub fn sheet(r: &mut Random) -> Vec<u8> {
    match r.below(40) {
        0..=21 => valid(r),
        22..=27 => damaged(r),
        28..=29 => deep(r),
        30..=33 => wide(r),
        34..=37 => extreme(r),
        38 => match r.below(4) {
            0 => full(r),
            1 => long(r),
            _ => valid(r),
        },
        _ => noise(r),
    }
}
