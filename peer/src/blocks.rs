//! Sealed blocks, a second time: plain Rust, written from docs/BLOCKS.md alone, with no table and no cleverness.

/// CRC-32C, bit by bit.
pub fn crc32c(bytes: &[u8]) -> u32 {
    let mut register: u32 = 0xFFFF_FFFF;
    for byte in bytes {
        register ^= u32::from(*byte);
        for _ in 0..8 {
            let fell_out = register & 1;
            register >>= 1;
            if fell_out == 1 {
                register ^= 0x82F6_3B78;
            }
        }
    }
    !register
}

/// The checksum as a block stores it.
fn masked(checksum: u32) -> u32 {
    (checksum >> 15 | checksum << 17).wrapping_add(0xA282_EAD8)
}

/// The sealed block of a payload of 1 to 505 bytes.
pub fn seal(payload: &[u8]) -> Option<[u8; 512]> {
    if !(1..=505).contains(&payload.len()) {
        return None;
    }
    let mut covered = vec![1];
    covered.extend_from_slice(payload);
    let mut bytes = Vec::new();
    bytes.extend_from_slice(&masked(crc32c(&covered)).to_le_bytes());
    bytes.extend_from_slice(&(payload.len() as u16).to_le_bytes());
    bytes.extend_from_slice(&covered);
    bytes.resize(512, 0);
    bytes.try_into().ok()
}

/// The payload of a sealed block.
pub fn part(block: &[u8; 512]) -> Option<&[u8]> {
    let stored = u32::from_le_bytes(block[0..4].try_into().ok()?);
    let length = usize::from(u16::from_le_bytes(block[4..6].try_into().ok()?));
    let sound = block[6] == 1
        && (1..=505).contains(&length)
        && stored == masked(crc32c(&block[6..7 + length]))
        && block[7 + length..].iter().all(|byte| *byte == 0);
    sound.then(|| &block[7..7 + length])
}

#[cfg(test)]
mod tests {
    use super::*;

    #[test]
    fn check_value() {
        assert_eq!(crc32c(b"123456789"), 0xE306_9283);
    }

    #[test]
    fn the_example() {
        let payload = b"\x01\0\0\0\0\0\0\0\x01\0\0\0\x01\x01a\x01b";
        let block = seal(payload).expect("17 bytes");
        assert_eq!(block[0..7], *b"\xD3\x1C\x3E\xC7\x11\0\x01");
        assert_eq!(part(&block), Some(&payload[..]));
        for place in 0..512 {
            let mut other = block;
            other[place] ^= 1;
            assert_eq!(part(&other), None, "byte {place}");
        }
    }

    #[test]
    fn lengths() {
        let bytes = [7; 506];
        for length in 0..=506 {
            let sealed = seal(&bytes[..length]);
            assert_eq!(sealed.is_some(), (1..=505).contains(&length));
            if let Some(block) = sealed {
                assert_eq!(part(&block), Some(&bytes[..length]));
            }
        }
    }
}
