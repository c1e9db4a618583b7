//! The field and the codes in plain Rust, for plain.rs and store.rs: tables and rows of weights,
//! nothing proved.

// ---- the field, by a table of all products

const fn product(a: u8, b: u8) -> u8 {
    let (mut a, mut b, mut sum) = (a, b, 0);
    while b != 0 {
        if b & 1 == 1 {
            sum ^= a;
        }
        a = (a << 1) ^ if a & 0x80 == 0 { 0 } else { 0x1d };
        b >>= 1;
    }
    sum
}

const fn products() -> [[u8; 256]; 256] {
    let mut table = [[0; 256]; 256];
    let mut a = 0;
    while a < 256 {
        let mut b = 0;
        while b < 256 {
            table[a][b] = product(a as u8, b as u8);
            b += 1;
        }
        a += 1;
    }
    table
}

pub static PRODUCTS: [[u8; 256]; 256] = products();

fn inverse(a: u8) -> u8 {
    (1..=255)
        .find(|&b| PRODUCTS[a as usize][b as usize] == 1)
        .unwrap()
}

pub fn add_scaled(target: &mut [u8], scale: u8, source: &[u8]) {
    match scale {
        0 => {}
        1 => target
            .iter_mut()
            .zip(source)
            .for_each(|(to, from)| *to ^= from),
        _ => {
            let row = &PRODUCTS[scale as usize];
            target
                .iter_mut()
                .zip(source)
                .for_each(|(to, from)| *to ^= row[*from as usize]);
        }
    }
}

// ---- the codes

#[derive(Clone, Copy, PartialEq)]
#[allow(dead_code)]
pub enum Code {
    Wide,
    Small,
}

impl Code {
    pub fn data(self) -> usize {
        if self == Code::Wide {
            12
        } else {
            6
        }
    }

    pub fn fragments(self) -> usize {
        self.data() + 4
    }

    /// What a fragment weighs in the four sums.
    pub fn weights(self, fragment: usize) -> [u8; 4] {
        let data = self.data();
        if fragment >= data {
            return std::array::from_fn(|sum| u8::from(sum == fragment - data));
        }
        let half = data / 2;
        let third = if fragment < half {
            fragment as u8 + 1
        } else {
            (fragment - half + 1) as u8 * 16
        };
        let first = u8::from(fragment < half);
        [first, 1 - first, third, product(third, third)]
    }

    /// What each fragment that is left is multiplied by, for the sum to be the lost one; None where
    /// it can't be told.
    pub fn recipe(
        self,
        is_lost: impl Fn(usize) -> bool,
        wanted: usize,
    ) -> Option<Vec<(usize, u8)>> {
        let unknown: Vec<usize> = (0..self.fragments())
            .filter(|&f| f != wanted && is_lost(f))
            .collect();
        let mut rows: Vec<Vec<u8>> = (0..4)
            .map(|sum| {
                (0..self.fragments())
                    .map(|f| self.weights(f)[sum])
                    .collect()
            })
            .collect();
        for f in unknown {
            let Some(at) = rows.iter().position(|row| row[f] != 0) else {
                continue;
            };
            let pivot = rows.swap_remove(at);
            for row in &mut rows {
                let scale = PRODUCTS[row[f] as usize][inverse(pivot[f]) as usize];
                add_scaled(row, scale, &pivot);
            }
        }
        let row = rows.into_iter().find(|row| row[wanted] != 0)?;
        let scale = inverse(row[wanted]) as usize;
        let terms = row
            .iter()
            .enumerate()
            .filter(|&(f, &weight)| f != wanted && weight != 0);
        Some(
            terms
                .map(|(f, &weight)| (f, PRODUCTS[weight as usize][scale]))
                .collect(),
        )
    }
}
