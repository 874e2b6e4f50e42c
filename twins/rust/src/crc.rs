//! CCITT CRC as XMODEM uses it: x^16 + x^12 + x^5 + 1, highest bit first,
//! no final change; a frame's begins at 0. One bit at a time, because that is
//! the rule itself; the table-driven form lives in `fast`.

/// x^12 + x^5 + 1; the x^16 is the bit shifted out.
const POLYNOMIAL: u16 = 0x1021;

/// The CRC of all of `bytes`, begun at `start`: 0, or the CRC of what comes
/// before them.
pub fn crc(start: u16, bytes: &[u8]) -> u16 {
    let mut register = start;
    for &byte in bytes {
        for bit in (0..8).rev() {
            let incoming = (byte >> bit) & 1 == 1;
            let outgoing = register & 0x8000 != 0;
            register <<= 1;
            if incoming != outgoing {
                register ^= POLYNOMIAL;
            }
        }
    }
    register
}

/// The CRC of a frame whose header and payload lie in two buffers. The header's
/// first byte, the preamble, is left out.
pub fn frame_crc(header: &[u8], payload: &[u8]) -> u16 {
    let behind_preamble = header.get(1..).unwrap_or_default();
    crc(crc(0, behind_preamble), payload)
}
