//! Packets of the bus: data packets, with a table of 256 for their CRC.

pub const MOST_DATA: usize = 1024;
const DATA0: u8 = 0xc3;

const fn table() -> [u16; 256] {
    let (mut table, mut byte) = ([0; 256], 0);
    while byte < 256 {
        let (mut crc, mut bit) = (byte as u16, 0);
        while bit < 8 {
            crc = if crc % 2 == 1 { crc >> 1 ^ 0xa001 } else { crc >> 1 };
            bit += 1;
        }
        table[byte] = crc;
        byte += 1;
    }
    table
}

static TABLE: [u16; 256] = table();

pub fn crc16(data: &[u8]) -> u16 {
    !data.iter().fold(u16::MAX, |crc, byte| crc >> 8 ^ TABLE[usize::from(crc as u8 ^ byte)])
}

/// The length of the packet, where the data and the buffer allow it.
pub fn write(data: &[u8], out: &mut [u8]) -> Option<usize> {
    let end = data.len() + 1;
    if data.len() > MOST_DATA || out.len() < end + 2 {
        return None;
    }
    out[0] = DATA0;
    out[1..end].copy_from_slice(data);
    out[end..end + 2].copy_from_slice(&crc16(data).to_le_bytes());
    Some(end + 2)
}

/// The data of a data packet.
pub fn parse(bytes: &[u8]) -> Option<&[u8]> {
    let (head, body) = bytes.split_first()?;
    if head & 15 != 15 - (head >> 4) || head & 3 != 3 || !(2..=MOST_DATA + 2).contains(&body.len()) {
        return None;
    }
    let (data, crc) = body.split_at(body.len() - 2);
    (crc16(data).to_le_bytes() == crc).then_some(data)
}
