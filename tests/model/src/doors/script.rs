//! The script that `replay` reads: B and T (16 bits each), D and the placing (a
//! byte each), L (32 bits) and L bytes of volume, then for each call: function, parameter, F and F bytes, K
//! (16 bits) and K bytes. Numbers are little-endian.

use super::reader::Reader;
use crate::paper::calls::is_served;
use crate::paper::geometry::Geometry;

/// The most bytes that a script's volume may have: `replay` keeps it on its stack
/// twice, as it was and as it is.
pub const LARGEST_VOLUME: usize = 3 * 1024 * 1024;

/// "Something else touches the volume."
pub const TOUCH: u8 = 0;

#[derive(Clone, PartialEq, Eq, Debug)]
pub struct Call {
    pub function: u8,
    pub parameter: u8,
    pub control: Vec<u8>,
    pub buffer: Vec<u8>,
}

/// A script as far as it could be read.
#[derive(Clone, PartialEq, Eq, Debug)]
pub struct Script {
    pub geometry: Geometry,
    pub volume: Vec<u8>,
    pub calls: Vec<Call>,
    /// Cut off, overlong, or going on with a number that is not served.
    pub bad: bool,
}

impl Call {
    /// A touch of the volume: a 24-bit offset and the bytes to lay there.
    pub fn touch(offset: usize, bytes: &[u8]) -> Call {
        let mut control = vec![offset as u8, (offset >> 8) as u8, (offset >> 16) as u8];
        control.extend(bytes);
        Call { function: TOUCH, parameter: 0, control, buffer: Vec::new() }
    }

    /// Offset and bytes if this is a touch that lays any.
    pub fn touched(&self) -> Option<(usize, &[u8])> {
        if self.function != TOUCH || self.control.len() < 3 {
            return None;
        }
        let (offset, bytes) = self.control.split_at(3);
        Some((offset[0] as usize + 256 * offset[1] as usize + 65536 * offset[2] as usize, bytes))
    }
}

/// Lays bytes into a volume; what lies beyond its end is ignored.
pub fn lay(volume: &mut [u8], offset: usize, bytes: &[u8]) {
    for (to, byte) in volume.iter_mut().skip(offset).zip(bytes) {
        *to = *byte;
    }
}

impl Script {
    /// Whether something else touches the volume.
    pub fn has_touch(&self) -> bool {
        self.calls.iter().any(|call| call.function == TOUCH)
    }

    pub fn encode(&self) -> Vec<u8> {
        let mut bytes = Vec::new();
        let Geometry { block_bytes, blocks, directory_blocks, placing } = self.geometry;
        for number in [block_bytes, blocks] {
            bytes.extend((number as u16).to_le_bytes());
        }
        bytes.extend([directory_blocks as u8, placing as u8]);
        bytes.extend((self.volume.len() as u32).to_le_bytes());
        bytes.extend(&self.volume);
        for call in &self.calls {
            encode_call(call, &mut bytes);
        }
        bytes
    }

    pub fn decode(bytes: &[u8]) -> Script {
        let mut reader = Reader { rest: bytes };
        let Some((geometry, volume)) = decode_head(&mut reader) else {
            let geometry = Geometry::new(0, 0, 0);
            return Script { geometry, volume: Vec::new(), calls: Vec::new(), bad: true };
        };
        let mut script = Script { geometry, volume, calls: Vec::new(), bad: false };
        while !script.bad && !reader.rest.is_empty() {
            match decode_call(&mut reader) {
                Some(call) => script.calls.push(call),
                None => script.bad = true,
            }
        }
        script
    }
}

pub fn encode_call(call: &Call, bytes: &mut Vec<u8>) {
    assert!(call.control.len() <= 255 && call.buffer.len() <= 65535);
    bytes.extend([call.function, call.parameter, call.control.len() as u8]);
    bytes.extend(&call.control);
    bytes.extend((call.buffer.len() as u16).to_le_bytes());
    bytes.extend(&call.buffer);
}

/// `None` where the head is cut off or the volume is overlong.
fn decode_head(reader: &mut Reader) -> Option<(Geometry, Vec<u8>)> {
    let straight = Geometry::new(reader.number(2)?, reader.number(2)?, reader.number(1)?);
    let geometry = Geometry { placing: reader.number(1)?, ..straight };
    let length = reader.number(4)? as usize;
    if length > LARGEST_VOLUME {
        return None;
    }
    Some((geometry, reader.take(length)?.to_vec()))
}

/// `None` where the call is cut off or its number is not served.
fn decode_call(reader: &mut Reader) -> Option<Call> {
    let function = reader.byte()?;
    if function != TOUCH && !is_served(function) {
        return None;
    }
    let parameter = reader.byte()?;
    let control = reader.run(1)?;
    let buffer = reader.run(2)?;
    Some(Call { function, parameter, control, buffer })
}
