//! The format of the fuzzer's inputs, which `harness.c` describes.

/// Bytes before the image.
const HEAD: usize = 4;

/// Two bits of the mode say how the value gives the length of the area.
pub const EXACT: u8 = 0;
pub const SHORT: u8 = 1;
pub const LARGEST: u8 = 2;
pub const ANY: u8 = 3;
/// With this value and [`EXACT`] the area is just long enough.
pub const JUST: u8 = 128;
/// What has the length 0 is handed in as NULL.
pub const NULL: u8 = 64;

/// An input in its parts.
#[derive(Clone, Debug, PartialEq, Eq)]
pub struct Input {
    pub mode: u8,
    pub value: u8,
    pub image: Vec<u8>,
    pub line: Vec<u8>,
}

impl Input {
    /// Any bytes are an input: what is missing in the head is 0, and an image
    /// that is too short takes all.
    pub fn read(data: &[u8]) -> Input {
        let byte = |at: usize| data.get(at).copied().unwrap_or(0);
        let rest = data.get(HEAD..).unwrap_or_default();
        let length = usize::from(u16::from_be_bytes([byte(2), byte(3)]));
        let (image, line) = rest.split_at(length.min(rest.len()));
        Input { mode: byte(0), value: byte(1), image: image.to_vec(), line: line.to_vec() }
    }

    /// The bytes of the input. An image too long for its two bytes is cut.
    pub fn write(&self) -> Vec<u8> {
        let length = self.image.len().min(usize::from(u16::MAX));
        let mut data = vec![self.mode, self.value];
        data.extend((length as u16).to_be_bytes());
        data.extend(&self.image[..length]);
        data.extend(&self.line);
        data
    }
}
