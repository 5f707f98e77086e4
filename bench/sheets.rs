//! Sheets that the bench makes by itself.

const BLOCK: usize = 512;
const SUMMED: usize = 508;
const REGION: usize = 1000;

/// Sixty nodes without labels and arrows.
pub fn blank() -> Vec<u8> {
    stored(60, u64::MAX, |_| 0)
}

/// Sixty nodes with all labels and all arrows.
pub fn full() -> Vec<u8> {
    stored(60, u64::MAX, |_| u64::MAX)
}

/// A thousand sheets of 1 to 60 nodes, each of their blocks without a bit, with some or with all; one sheet in ten is
/// blank, and one in four has closed nodes. Every fiftieth has a byte changed, and one is cut short. The same ones in
/// each run.
pub fn region() -> Vec<Vec<u8>> {
    let mut random = Random { state: 5 };
    let mut sheets: Vec<_> = (0..REGION).map(|_| some_sheet(&mut random)).collect();
    for sheet in sheets.iter_mut().skip(49).step_by(50) {
        let at = random.below(sheet.len());
        sheet[at] ^= 1 + random.below(255) as u8;
    }
    sheets[REGION / 2].truncate(16 * BLOCK);
    sheets
}

fn some_sheet(random: &mut Random) -> Vec<u8> {
    let n = 1 + random.below(60);
    let blank = random.below(10) == 0;
    let densities = [(); 17].map(|_| if blank { 0 } else { random.below(5) });
    let used = if random.below(4) == 0 { 1 | random.word() } else { u64::MAX };
    stored(n, used, |block| random.bits(densities[block]))
}

/// The sheet of n nodes with these in use, cut to n bits, whose labels and rows `word` gives, each by the block it is for, cut
/// to the nodes in use.
fn stored(n: usize, used: u64, mut word: impl FnMut(usize) -> u64) -> Vec<u8> {
    let mut sheet = vec![0; 17 * BLOCK];
    let used = used & ((1 << n) - 1);
    for (number, block) in sheet.chunks_mut(BLOCK).enumerate() {
        let (head, rows) = if number == 0 { ([1, 0, n as u8], 48) } else { ([2, number as u8, 0], n) };
        block[..3].copy_from_slice(&head);
        for (i, row) in block[16..].chunks_mut(8).take(rows).enumerate() {
            let bits = if number == 0 || used >> i & 1 == 1 { word(number) & used } else { 0 };
            row.copy_from_slice(&bits.to_le_bytes());
        }
        if number == 0 {
            block[400..408].copy_from_slice(&used.to_le_bytes());
        }
        seal(block);
    }
    sheet
}

fn seal(block: &mut [u8]) {
    let (mut s, mut t) = (0, 0);
    for byte in &block[..SUMMED] {
        s += u32::from(*byte);
        t += s;
    }
    block[SUMMED..].copy_from_slice(&(s % 257 | t % 257 << 16).to_le_bytes());
}

/// Random numbers (splitmix64).
struct Random {
    state: u64,
}

impl Random {
    fn word(&mut self) -> u64 {
        self.state = self.state.wrapping_add(0x9E37_79B9_7F4A_7C15);
        let mut z = self.state;
        z = (z ^ (z >> 30)).wrapping_mul(0xBF58_476D_1CE4_E5B9);
        z = (z ^ (z >> 27)).wrapping_mul(0x94D0_49BB_1331_11EB);
        z ^ (z >> 31)
    }

    /// A number from 0 to just below `limit`.
    fn below(&mut self, limit: usize) -> usize {
        ((u128::from(self.word()) * limit as u128) >> 64) as usize
    }

    /// No bit, about one in eight, one in two, seven in eight, or all.
    fn bits(&mut self, density: usize) -> u64 {
        match density {
            0 => 0,
            1 => self.word() & self.word() & self.word(),
            2 => self.word(),
            3 => self.word() | self.word() | self.word(),
            _ => u64::MAX,
        }
    }
}
