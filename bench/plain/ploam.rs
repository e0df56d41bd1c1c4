//! The messages that are sent in what is measured, to octets and back.

pub type Serial = [u8; 8];

#[derive(Clone, Copy, Debug, PartialEq, Eq)]
pub enum Down {
    UpstreamOverhead { burst: [u8; 10] },
    AssignOnu { onu: u8, serial: Serial },
    RangingTime { onu: u8, eqd: u32 },
    Deactivate { onu: u8 },
}

#[derive(Clone, Copy, Debug, PartialEq, Eq)]
pub enum Up {
    SerialNumber { onu: u8, serial: Serial, random: u16, flags: u8 },
    DyingGasp { onu: u8 },
    NoMessage { onu: u8 },
    Acknowledge { onu: u8, id: u8, copy: [u8; 9] },
    Other { id: u8, octet1: u8, body: [u8; 10] },
}

impl Up {
    pub fn octet1(&self) -> u8 {
        match *self {
            Up::SerialNumber { onu, .. }
            | Up::DyingGasp { onu }
            | Up::NoMessage { onu }
            | Up::Acknowledge { onu, .. } => onu,
            Up::Other { octet1, .. } => octet1,
        }
    }
}

/// The remainders of division by x^8 + x^2 + x + 1.
pub const fn table() -> [u8; 256] {
    let mut table = [0; 256];
    let mut i = 0;
    while i < 256 {
        let mut rest = i as u8;
        let mut bit = 0;
        while bit < 8 {
            rest = if rest & 0x80 != 0 { rest << 1 ^ 0x07 } else { rest << 1 };
            bit += 1;
        }
        table[i] = rest;
        i += 1;
    }
    table
}
pub static TABLE: [u8; 256] = table();

pub fn crc(octets: &[u8]) -> u8 {
    octets.iter().fold(0, |rest, octet| TABLE[usize::from(rest ^ octet)])
}

pub fn sealed(mut code: [u8; 13], mask: u8) -> [u8; 13] {
    code[12] = crc(&code[..12]) ^ mask;
    code
}

pub fn encode_down(message: &Down, mask: u8) -> [u8; 13] {
    let mut code = [0; 13];
    match *message {
        Down::UpstreamOverhead { burst } => {
            code[0] = 255;
            code[1] = 1;
            code[2..12].copy_from_slice(&burst);
        }
        Down::AssignOnu { onu, serial } => {
            code[0] = 255;
            code[1] = 3;
            code[2] = onu;
            code[3..11].copy_from_slice(&serial);
        }
        Down::RangingTime { onu, eqd } => {
            code[0] = onu;
            code[1] = 4;
            code[3..7].copy_from_slice(&eqd.to_be_bytes());
        }
        Down::Deactivate { onu } => {
            code[0] = onu;
            code[1] = 5;
        }
    }
    sealed(code, mask)
}

pub fn encode_up(message: &Up, mask: u8) -> [u8; 13] {
    let mut code = [0; 13];
    match *message {
        Up::SerialNumber { onu, serial, random, flags } => {
            code[0] = onu;
            code[1] = 1;
            code[2..10].copy_from_slice(&serial);
            code[10] = (random >> 4) as u8;
            code[11] = (random as u8) << 4 | flags;
        }
        Up::NoMessage { onu } => {
            code[0] = onu;
            code[1] = 4;
        }
        _ => unimplemented!(),
    }
    sealed(code, mask)
}

pub fn decode_up(code: &[u8], mask: u8) -> Option<Up> {
    let code: &[u8; 13] = code.try_into().ok()?;
    if crc(&code[..12]) ^ mask != code[12] {
        return None;
    }
    let onu = code[0];
    Some(match code[1] {
        1 => Up::SerialNumber {
            onu,
            serial: code[2..10].try_into().unwrap(),
            random: u16::from(code[10]) << 4 | u16::from(code[11] >> 4),
            flags: code[11] & 15,
        },
        3 => Up::DyingGasp { onu },
        4 => Up::NoMessage { onu },
        9 => Up::Acknowledge { onu, id: code[2], copy: code[3..12].try_into().unwrap() },
        id => Up::Other { id, octet1: onu, body: code[2..12].try_into().unwrap() },
    })
}
