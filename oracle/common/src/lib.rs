//! A stand-in for the few items of tantivy-common that the Rust leans on, written from document 01: little-endian numbers, the row
//! count in groups of seven bits, and bytes that are owned.
use std::io::{self, Read, Write};
use std::ops::Deref;

pub trait BinarySerializable: Sized {
    fn serialize<W: Write + ?Sized>(&self, writer: &mut W) -> io::Result<()>;
    fn deserialize<R: Read>(reader: &mut R) -> io::Result<Self>;
}

macro_rules! little_endian {
    ($($number:ty),*) => {$(
        impl BinarySerializable for $number {
            #[inline]
            fn serialize<W: Write + ?Sized>(&self, writer: &mut W) -> io::Result<()> {
                writer.write_all(&self.to_le_bytes())
            }
            #[inline]
            fn deserialize<R: Read>(reader: &mut R) -> io::Result<Self> {
                let mut bytes = [0; size_of::<$number>()];
                reader.read_exact(&mut bytes)?;
                Ok(<$number>::from_le_bytes(bytes))
            }
        }
    )*};
}
little_endian!(u16, u32, u64);

/// A number in groups of seven bits, lowest first; the last byte has 128 added.
pub struct VInt(pub u64);

impl VInt {
    pub fn serialize<W: Write + ?Sized>(&self, writer: &mut W) -> io::Result<()> {
        let mut left = self.0;
        while left >= 128 {
            writer.write_all(&[(left % 128) as u8])?;
            left /= 128;
        }
        writer.write_all(&[(left + 128) as u8])
    }

    pub fn deserialize_u64<R: Read>(reader: &mut R) -> io::Result<u64> {
        let mut value = 0u64;
        for group in 0..10 {
            let mut byte = [0u8; 1];
            reader.read_exact(&mut byte)?;
            value |= u64::from(byte[0] % 128) << (7 * group);
            if byte[0] >= 128 {
                return Ok(value);
            }
        }
        Err(io::ErrorKind::InvalidData.into())
    }
}

/// Bytes that are kept for good, held as a slice, so that reading them costs what reading a slice costs.
#[derive(Clone, Copy)]
pub struct OwnedBytes(&'static [u8]);

impl OwnedBytes {
    /// Leaks what it is given: a judge makes few files.
    pub fn new(bytes: Vec<u8>) -> OwnedBytes {
        OwnedBytes(Vec::leak(bytes))
    }

    pub fn over(bytes: &'static [u8]) -> OwnedBytes {
        OwnedBytes(bytes)
    }

    #[inline]
    pub fn as_slice(&self) -> &[u8] {
        self.0
    }

    /// All but the last bytes, and these.
    pub fn rsplit(self, last: usize) -> (OwnedBytes, OwnedBytes) {
        let (front, back) = self.0.split_at(self.0.len() - last);
        (OwnedBytes(front), OwnedBytes(back))
    }
}

impl Deref for OwnedBytes {
    type Target = [u8];
    fn deref(&self) -> &[u8] {
        self.0
    }
}

impl Read for OwnedBytes {
    fn read(&mut self, into: &mut [u8]) -> io::Result<usize> {
        self.0.read(into)
    }
}
