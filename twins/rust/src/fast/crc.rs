//! Table-driven CRC: a byte at a time, and eight bytes at a time.

/// `TABLES[0][b]` is the CRC of the byte b; `TABLES[k][b]` is that of b
/// followed by k zero bytes.
static TABLES: [[u16; 256]; 8] = tables();

const fn tables() -> [[u16; 256]; 8] {
    let mut tables = [[0u16; 256]; 8];
    let mut b = 0;
    while b < 256 {
        let mut register = (b as u16) << 8;
        let mut bit = 0;
        while bit < 8 {
            register = if register & 0x8000 != 0 {
                register << 1 ^ 0x1021
            } else {
                register << 1
            };
            bit += 1;
        }
        tables[0][b] = register;
        b += 1;
    }
    let mut k = 1;
    while k < 8 {
        let mut b = 0;
        while b < 256 {
            let before = tables[k - 1][b];
            tables[k][b] = before << 8 ^ tables[0][(before >> 8) as usize];
            b += 1;
        }
        k += 1;
    }
    tables
}

#[inline]
fn run(mut register: u16, bytes: &[u8]) -> u16 {
    for &byte in bytes {
        register = register << 8 ^ TABLES[0][((register >> 8) as u8 ^ byte) as usize];
    }
    register
}

/// One table look-up for each byte. Instead of the register it carries the
/// index of the next look-up, and what is mixed into the one after: one
/// exclusive or waits between two look-ups.
#[inline]
pub fn crc_table(start: u16, bytes: &[u8]) -> u16 {
    let &[first, second, ref rest @ ..] = bytes else {
        return run(start, bytes);
    };
    let [high, low] = start.to_be_bytes();
    // Both stay below 256. Kept wide they need no cutting on the way.
    let (mut index, mut after) = (usize::from(first ^ high), usize::from(second ^ low));
    for &byte in rest {
        let entry = TABLES[0][index];
        index = after ^ usize::from(entry >> 8);
        after = usize::from(entry as u8 ^ byte);
    }
    let entry = TABLES[0][index];
    entry << 8 ^ TABLES[0][after ^ usize::from(entry >> 8)]
}

/// Slicing by eight: the eight look-ups of a block do not wait on each other.
#[inline]
pub fn crc_sliced(start: u16, bytes: &[u8]) -> u16 {
    let mut register = start;
    let (blocks, rest) = bytes.as_chunks::<8>();
    for &[b0, b1, b2, b3, b4, b5, b6, b7] in blocks {
        register = TABLES[7][((register >> 8) as u8 ^ b0) as usize]
            ^ TABLES[6][(register as u8 ^ b1) as usize]
            ^ TABLES[5][b2 as usize]
            ^ TABLES[4][b3 as usize]
            ^ TABLES[3][b4 as usize]
            ^ TABLES[2][b5 as usize]
            ^ TABLES[1][b6 as usize]
            ^ TABLES[0][b7 as usize];
    }
    run(register, rest)
}
