//! Document 01 in plain Rust, written from its words and not from the original: number, place, mapping, image and
//! buffer of each call. It judges where the original has no answer of its own: numbers, places, and answers 8 to 10.

pub const BLOCK: usize = 0x1000;
pub const SECTOR: usize = 0x200;
pub const SLOT: usize = 0x20;

/// A row of "The three chips".
#[derive(Debug, PartialEq, Eq)]
pub struct Chip {
    pub name: &'static str,
    pub len: usize,
    pub p: usize,
    pub v: usize,
    pub map: usize,
    pub item: usize,
    pub journal: usize,
    pub slots: usize,
    pub save: usize,
    pub large: bool,
}

pub static CHIPS: [Chip; 3] = [
    Chip {
        name: "128 KiB",
        len: 0x20000,
        p: 32,
        v: 31,
        map: 0x13E,
        item: 10,
        journal: 0x140,
        slots: 118,
        save: 122_880,
        large: false,
    },
    Chip {
        name: "512 KiB",
        len: 0x80000,
        p: 128,
        v: 127,
        map: 0x4FE,
        item: 10,
        journal: 0x500,
        slots: 88,
        save: 516_096,
        large: false,
    },
    Chip {
        name: "1 MiB",
        len: 0x10_0000,
        p: 256,
        v: 255,
        map: 0x3FE,
        item: 2,
        journal: 0x400,
        slots: 96,
        save: 1_040_384,
        large: true,
    },
];

pub fn chip_of(len: usize) -> Option<&'static Chip> {
    CHIPS.iter().find(|chip| chip.len == len)
}

pub const FREE: u8 = 0;
pub const CLEAN: u8 = 1;
pub const CHANGED: u8 = 2;

#[derive(Clone, Copy, Debug, PartialEq, Eq)]
pub struct Block {
    pub physical: u8,
    pub count: u8,
    /// FREE, CLEAN or CHANGED; through the boundary to C any byte can come.
    pub condition: u8,
}

#[derive(Clone, Debug, PartialEq, Eq)]
pub struct Mapping {
    pub len: usize,
    pub blocks: [Block; 256],
    pub tickets: [u8; 2048],
}

pub const BLANK: Mapping =
    Mapping { len: 0, blocks: [Block { physical: 0, count: 0, condition: FREE }; 256], tickets: [0; 2048] };

impl Mapping {
    pub fn tickets_of(&mut self, block: usize) -> &mut [u8] {
        &mut self.tickets[8 * block..8 * block + 8]
    }
}

/// A row of "Numbers handed back".
#[derive(Clone, Copy, Debug, PartialEq, Eq)]
pub struct Answer {
    pub number: u8,
    pub place: usize,
}

pub const OK: Answer = Answer { number: 0, place: 0 };

fn refusal<T>(number: u8, place: usize) -> Result<T, Answer> {
    Err(Answer { number, place })
}

pub fn sum(bytes: &[u8]) -> u16 {
    let mut x = 0xFFFF;
    for byte in bytes {
        x ^= u16::from(*byte);
        for _ in 0..8 {
            let fell_out = x & 1;
            x >>= 1;
            if fell_out == 1 {
                x ^= 0xA001;
            }
        }
    }
    x
}

pub fn ticket(sector: &[u8]) -> u8 {
    let [low, high] = sum(sector).to_le_bytes();
    low ^ high
}

/// The eight tickets that fit a physical block's bytes.
pub fn tickets_that_fit(image: &[u8], physical: usize) -> [u8; 8] {
    let block = &image[physical * BLOCK..(physical + 1) * BLOCK];
    std::array::from_fn(|s| ticket(&block[s * SECTOR..(s + 1) * SECTOR]))
}

/// Opening: the answer and the mapping.
pub fn open(image: &[u8]) -> (Answer, Mapping) {
    match steps_1_to_6(image, image.len()).and_then(|mapping| step_7(image, mapping)) {
        Ok(mapping) => (OK, mapping),
        Err(answer) => (answer, BLANK),
    }
}

/// Needs block zero alone, and the image's length.
pub fn steps_1_to_6(zero: &[u8], len: usize) -> Result<Mapping, Answer> {
    // 1
    let Some(chip) = chip_of(len) else { return refusal(1, 0) };
    // 2
    if sum(&zero[..chip.map]).to_le_bytes() != zero[chip.map..chip.map + 2] {
        return refusal(2, 0);
    }
    // 3
    let mut m = BLANK;
    m.len = len;
    for i in 0..chip.v {
        let item = &zero[8 + i * chip.item..8 + (i + 1) * chip.item];
        let (physical, count) = if chip.large { (item[1], item[0] & 0x7F) } else { (item[0] & 0x7F, item[1]) };
        let before = &m.blocks[..i];
        if physical == 0 || usize::from(physical) >= chip.p || before.iter().any(|b| b.physical == physical) {
            return refusal(3, i);
        }
        let condition = if item[0] & 0x80 != 0 { CLEAN } else { FREE };
        m.blocks[i] = Block { physical, count, condition };
        if condition == CLEAN && !chip.large {
            m.tickets_of(i).copy_from_slice(&item[2..]);
        }
    }
    // 4 and 5, slot by slot
    for (s, slot) in zero[chip.journal..BLOCK].chunks_exact(SLOT).enumerate() {
        if slot[..14] != slot[14..28] {
            return refusal(4, s);
        }
        if slot[0] == 0xFF {
            break;
        }
        if !entry_holds(chip, &m, slot) {
            return refusal(5, s);
        }
        let [v, w, p, q, c, d] = slot[..6] else { unreachable!() };
        let (v, w) = (usize::from(v), usize::from(w));
        m.blocks[w] = Block { physical: q, count: d, condition: FREE };
        m.tickets_of(w).fill(0);
        m.blocks[v] = Block { physical: p, count: c, condition: CLEAN };
        if !chip.large {
            m.tickets_of(v).copy_from_slice(&slot[6..14]);
        }
    }
    // 6
    if m.blocks[chip.v - 1].condition != FREE {
        return refusal(6, chip.v - 1);
    }
    Ok(m)
}

fn entry_holds(chip: &Chip, m: &Mapping, slot: &[u8]) -> bool {
    let (v, w) = (usize::from(slot[0]), usize::from(slot[1]));
    let (p, q, c, d) = (slot[2], slot[3], slot[4], slot[5]);
    v < chip.v
        && w < chip.v
        && (1..chip.p).contains(&usize::from(p))
        && (1..chip.p).contains(&usize::from(q))
        && m.blocks[v].physical == q
        && m.blocks[w].physical == p
        && m.blocks[w].condition == FREE
        && m.blocks[v].count == d
        && c >= 1
        && m.blocks[w].count == c - 1
}

fn step_7(image: &[u8], m: Mapping) -> Result<Mapping, Answer> {
    let Some(chip) = chip_of(image.len()) else { return refusal(1, 0) };
    for i in 0..chip.v {
        let block = m.blocks[i];
        if chip.large || block.condition == FREE {
            continue;
        }
        for s in 0..8 {
            let at = usize::from(block.physical) * BLOCK + s * SECTOR;
            if ticket(&image[at..at + SECTOR]) != m.tickets[8 * i + s] {
                return refusal(7, 8 * i + s);
            }
        }
    }
    Ok(m)
}

/// The domain of the comparison leaves these out: an entry that step 5 looks at has c = 0. It is the slot of a 5.
pub fn has_zero_count_entry(image: &[u8], answer: Answer) -> bool {
    match chip_of(image.len()) {
        Some(chip) if answer.number == 5 => image[chip.journal + answer.place * SLOT + 4] == 0,
        _ => false,
    }
}

pub fn len(m: &Mapping) -> usize {
    chip_of(m.len).map_or(0, |chip| chip.save)
}

/// Answer 8, and the mapping's chip where it fits.
pub fn fits(image_len: usize, m: &Mapping) -> Result<&'static Chip, Answer> {
    let Some(chip) = chip_of(m.len) else { return refusal(8, 0) };
    let mut seen = [0; 256];
    for block in &m.blocks[..chip.v] {
        seen[usize::from(block.physical)] += 1;
    }
    let each_once = seen[1..chip.p].iter().all(|times| *times == 1);
    let reserved_free = m.blocks[chip.v - 1].condition == FREE;
    let known = m.blocks.iter().all(|block| block.condition <= CHANGED);
    if m.len == image_len && each_once && reserved_free && known {
        Ok(chip)
    } else {
        refusal(8, 0)
    }
}

/// Answers 8 and 9, in this order.
fn in_save(image_len: usize, m: &Mapping, place: usize, length: usize) -> Result<(), Answer> {
    let chip = fits(image_len, m)?;
    if place <= chip.save && length <= chip.save - place {
        Ok(())
    } else {
        refusal(9, 0)
    }
}

pub fn read(image: &[u8], m: &Mapping, place: usize, buf: &mut [u8]) -> Answer {
    if let Err(answer) = in_save(image.len(), m, place, buf.len()) {
        return answer;
    }
    for (j, byte) in buf.iter_mut().enumerate() {
        let at = place + j;
        let block = m.blocks[at / BLOCK];
        *byte = if block.condition == FREE { 0xFF } else { image[usize::from(block.physical) * BLOCK + at % BLOCK] };
    }
    OK
}

pub fn write(image: &mut [u8], m: &mut Mapping, place: usize, bytes: &[u8]) -> Answer {
    if let Err(answer) = in_save(image.len(), m, place, bytes.len()) {
        return answer;
    }
    for sector in place / SECTOR..(place + bytes.len()).div_ceil(SECTOR) {
        let block = &mut m.blocks[sector / 8];
        if block.condition == FREE {
            block.count = block.count.max(1);
            let at = usize::from(block.physical) * BLOCK;
            image[at..at + BLOCK].fill(0xFF);
        }
        block.condition = CHANGED;
    }
    for (j, byte) in bytes.iter().enumerate() {
        let at = place + j;
        image[usize::from(m.blocks[at / BLOCK].physical) * BLOCK + at % BLOCK] = *byte;
    }
    OK
}

pub fn commit(image: &mut [u8], m: &mut Mapping) -> Answer {
    let chip = match fits(image.len(), m) {
        Ok(chip) => chip,
        Err(answer) => return answer,
    };
    if let (true, Some(place)) = (chip.large, m.blocks[..chip.v].iter().position(|block| block.count > 0x7F)) {
        return Answer { number: 10, place };
    }
    for i in 0..chip.v {
        let block = m.blocks[i];
        if block.condition == CHANGED {
            if !chip.large {
                let tickets = tickets_that_fit(image, usize::from(block.physical));
                m.tickets_of(i).copy_from_slice(&tickets);
            }
            m.blocks[i].condition = CLEAN;
        }
        put_item(image, chip, i, m.blocks[i], m.tickets_of(i));
    }
    sign(image, chip);
    image[chip.journal..BLOCK].fill(0xFF);
    OK
}

pub fn format(image: &mut [u8]) -> Answer {
    let Some(chip) = chip_of(image.len()) else { return Answer { number: 1, place: 0 } };
    image[..chip.map].fill(0);
    for i in 0..chip.v {
        put_item(image, chip, i, Block { physical: (i + 1) as u8, count: 0, condition: FREE }, &[0; 8]);
    }
    sign(image, chip);
    image[chip.journal..BLOCK].fill(0xFF);
    OK
}

/// One item of the map. On a large chip tickets are not stored.
pub fn put_item(image: &mut [u8], chip: &Chip, i: usize, block: Block, tickets: &[u8]) {
    let in_use = if block.condition == FREE { 0 } else { 0x80 };
    let at = 8 + i * chip.item;
    if chip.large {
        image[at] = in_use | block.count;
        image[at + 1] = block.physical;
    } else {
        image[at] = in_use | block.physical;
        image[at + 1] = block.count;
        image[at + 2..at + 10].copy_from_slice(tickets);
    }
}

/// Stores the map's sum.
pub fn sign(image: &mut [u8], chip: &Chip) {
    let sum = sum(&image[..chip.map]).to_le_bytes();
    image[chip.map..chip.map + 2].copy_from_slice(&sum);
}
