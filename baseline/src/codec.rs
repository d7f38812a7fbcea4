//! BCS: every value has exactly one encoding, and other bytes are refused at their first fault.

/// What is wrong with an item; the numbers are those of the rules.
#[derive(Clone, Copy, PartialEq, Eq, Debug)]
pub enum Why {
    /// The input ends inside the item.
    Short = 1,
    /// A bool is neither 0 nor 1.
    BadBool = 2,
    /// A ULEB128 has more bytes than it needs.
    LongUleb = 3,
    /// A ULEB128 has more than 32 bits.
    UlebRange = 4,
    /// A length is above 2^31 - 1.
    LenRange = 5,
    /// A variant's number is one that none has.
    BadTag = 6,
    /// The value is whole, and bytes are left.
    Left = 7,
}

/// The first fault of bytes that are no spelling: the place of its item, and what is wrong.
#[derive(Clone, Copy, PartialEq, Eq, Debug)]
pub struct Fault {
    /// The place of the item's first byte.
    pub at: usize,
    /// What is wrong with it.
    pub why: Why,
}

const MAX_LENGTH: u32 = 0x7fff_ffff;

/// A value that can be encoded.
pub trait Spell {
    /// Appends the spelling.
    fn spell(&self, out: &mut Vec<u8>);

    /// The spelling alone.
    fn spelled(&self) -> Vec<u8> {
        let mut out = Vec::with_capacity(256);
        self.spell(&mut out);
        out
    }
}

/// A value that can be read from the front of what a reader has left.
pub trait Read<'a>: Sized {
    /// Reads one value.
    fn read(from: &mut Reader<'a>) -> Result<Self, Fault>;

    /// Reads bytes that are exactly one value.
    fn decode(bytes: &'a [u8]) -> Result<Self, Fault> {
        let mut reader = Reader::new(bytes);
        let value = Self::read(&mut reader)?;
        reader.finish()?;
        Ok(value)
    }
}

/// Appends a number as ULEB128: a length, or the number of a variant.
pub fn put_uleb(mut value: u32, out: &mut Vec<u8>) {
    while value >= 0x80 {
        out.push(value as u8 | 0x80);
        value >>= 7;
    }
    out.push(value as u8);
}

/// Appends a length.
pub fn put_len(length: usize, out: &mut Vec<u8>) {
    put_uleb(length as u32, out);
}

/// Appends bytes with their length.
pub fn put_bytes(bytes: &[u8], out: &mut Vec<u8>) {
    put_len(bytes.len(), out);
    out.extend_from_slice(bytes);
}

/// A position in bytes that are read.
pub struct Reader<'a> {
    bytes: &'a [u8],
    at: usize,
}

impl<'a> Reader<'a> {
    /// Begins at the front of the bytes.
    pub fn new(bytes: &'a [u8]) -> Self {
        Self { bytes, at: 0 }
    }

    fn fault<T>(&self, at: usize, why: Why) -> Result<T, Fault> {
        Err(Fault { at, why })
    }

    fn take(&mut self, count: usize) -> Result<&'a [u8], Fault> {
        match self.bytes[self.at..].get(..count) {
            Some(taken) => {
                self.at += count;
                Ok(taken)
            }
            None => self.fault(self.at, Why::Short),
        }
    }

    /// The next bytes, as many as the array has.
    pub fn array<const N: usize>(&mut self) -> Result<[u8; N], Fault> {
        let taken = self.take(N)?;
        Ok(taken.try_into().expect("as many bytes as were taken"))
    }

    fn uleb(&mut self) -> Result<u32, Fault> {
        let mut value = 0;
        for place in 0..5 {
            let Some(&byte) = self.bytes.get(self.at + place) else {
                return self.fault(self.at, Why::Short);
            };
            if place == 4 && byte > 0x0f {
                return self.fault(self.at, Why::UlebRange);
            }
            value |= u32::from(byte & 0x7f) << (7 * place);
            if byte & 0x80 == 0 {
                if place > 0 && byte == 0 {
                    return self.fault(self.at, Why::LongUleb);
                }
                self.at += place + 1;
                return Ok(value);
            }
        }
        unreachable!("a fifth byte either ends the number or is out of range")
    }

    /// A length.
    pub fn length(&mut self) -> Result<usize, Fault> {
        let start = self.at;
        let length = self.uleb()?;
        if length > MAX_LENGTH {
            return self.fault(start, Why::LenRange);
        }
        Ok(length as usize)
    }

    /// The number of a variant, one for which `known` holds.
    pub fn tag(&mut self, known: impl Fn(u32) -> bool) -> Result<u32, Fault> {
        let start = self.at;
        let tag = self.uleb()?;
        if !known(tag) {
            return self.fault(start, Why::BadTag);
        }
        Ok(tag)
    }

    /// Bytes with their length, which are one item.
    pub fn bytes(&mut self) -> Result<&'a [u8], Fault> {
        let start = self.at;
        let length = self.length()?;
        self.take(length).map_err(|fault| Fault { at: start, ..fault })
    }

    /// Answers whether all bytes were read.
    pub fn finish(&self) -> Result<(), Fault> {
        if self.at < self.bytes.len() {
            return self.fault(self.at, Why::Left);
        }
        Ok(())
    }
}

/// A value together with the bytes from which it was read.
#[derive(Clone, Debug)]
pub struct Spelled<'a, T> {
    /// The value.
    pub value: T,
    /// Its spelling.
    pub bytes: &'a [u8],
}

impl<'a, T: Read<'a>> Read<'a> for Spelled<'a, T> {
    fn read(from: &mut Reader<'a>) -> Result<Self, Fault> {
        let start = from.at;
        let value = T::read(from)?;
        Ok(Self { value, bytes: &from.bytes[start..from.at] })
    }
}

macro_rules! integers {
    ($($int:ty),*) => {$(
        impl Spell for $int {
            fn spell(&self, out: &mut Vec<u8>) {
                out.extend_from_slice(&self.to_le_bytes());
            }
        }
        impl Read<'_> for $int {
            fn read(from: &mut Reader) -> Result<Self, Fault> {
                Ok(<$int>::from_le_bytes(from.array()?))
            }
        }
    )*};
}

integers!(u8, u16, u32, u64);

/// Bytes with their length, which are one item.
#[derive(Clone, PartialEq, Eq, Debug)]
pub struct Bytes(pub Vec<u8>);

impl Spell for Bytes {
    fn spell(&self, out: &mut Vec<u8>) {
        put_bytes(&self.0, out);
    }
}

impl Read<'_> for Bytes {
    fn read(from: &mut Reader) -> Result<Self, Fault> {
        Ok(Bytes(from.bytes()?.to_vec()))
    }
}

impl Spell for bool {
    fn spell(&self, out: &mut Vec<u8>) {
        out.push(u8::from(*self));
    }
}

impl Read<'_> for bool {
    fn read(from: &mut Reader) -> Result<Self, Fault> {
        match from.array()? {
            [0] => Ok(false),
            [1] => Ok(true),
            _ => from.fault(from.at - 1, Why::BadBool),
        }
    }
}

impl<T: Spell> Spell for Option<T> {
    fn spell(&self, out: &mut Vec<u8>) {
        self.is_some().spell(out);
        if let Some(value) = self {
            value.spell(out);
        }
    }
}

impl<'a, T: Read<'a>> Read<'a> for Option<T> {
    fn read(from: &mut Reader<'a>) -> Result<Self, Fault> {
        bool::read(from)?.then(|| T::read(from)).transpose()
    }
}

impl<T: Spell> Spell for [T] {
    fn spell(&self, out: &mut Vec<u8>) {
        put_len(self.len(), out);
        self.iter().for_each(|item| item.spell(out));
    }
}

impl<T: Spell> Spell for Vec<T> {
    fn spell(&self, out: &mut Vec<u8>) {
        self.as_slice().spell(out);
    }
}

impl<'a, T: Read<'a>> Read<'a> for Vec<T> {
    fn read(from: &mut Reader<'a>) -> Result<Self, Fault> {
        let length = from.length()?;
        // Each item takes a byte at least, so a great length is no reason for a great allocation.
        let mut items = Vec::with_capacity(length.min((from.bytes.len() - from.at).min(64)));
        for _ in 0..length {
            items.push(T::read(from)?);
        }
        Ok(items)
    }
}

/// Spells and reads a struct as its fields in order.
macro_rules! struct_codec {
    ($name:ident { $($field:ident),* }) => {
        impl $crate::codec::Spell for $name {
            fn spell(&self, out: &mut Vec<u8>) {
                $($crate::codec::Spell::spell(&self.$field, out);)*
            }
        }
        impl $crate::codec::Read<'_> for $name {
            fn read(from: &mut $crate::codec::Reader) -> Result<Self, $crate::codec::Fault> {
                Ok(Self { $($field: $crate::codec::Read::read(from)?),* })
            }
        }
    };
}
/// Spells and reads an enum as the number of its variant and the fields.
macro_rules! enum_codec {
    ($name:ident { $($tag:literal $variant:ident $(($item:ident))? $({ $($field:ident),+ })?;)+ }) => {
        impl $crate::codec::Spell for $name {
            fn spell(&self, out: &mut Vec<u8>) {
                match self {
                    $(Self::$variant $(($item))? $({ $($field),+ })? => {
                        $crate::codec::put_uleb($tag, out);
                        $($crate::codec::Spell::spell($item, out);)?
                        $($($crate::codec::Spell::spell($field, out);)+)?
                    })+
                }
            }
        }
        impl $crate::codec::Read<'_> for $name {
            fn read(from: &mut $crate::codec::Reader) -> Result<Self, $crate::codec::Fault> {
                Ok(match from.tag(|tag| [$($tag),+].contains(&tag))? {
                    $($tag => Self::$variant
                        $(({ let $item = $crate::codec::Read::read(from)?; $item }))?
                        $({ $($field: $crate::codec::Read::read(from)?),+ })?,)+
                    _ => unreachable!("no such variant"),
                })
            }
        }
    };
}
pub(crate) use {enum_codec, struct_codec};

#[cfg(test)]
mod tests {
    use super::*;

    fn fault<T>(at: usize, why: Why) -> Result<T, Fault> {
        Err(Fault { at, why })
    }

    #[test]
    fn lengths() {
        for (length, spelling) in [(9487, vec![0x8f, 0x4a]), (128, vec![0x80, 0x01]), (0, vec![0])] {
            let mut out = Vec::new();
            put_len(length, &mut out);
            assert_eq!(out, spelling);
            assert_eq!(Reader::new(&out).length(), Ok(length));
        }
    }

    #[test]
    fn faults_of_items() {
        assert_eq!(Reader::new(&[0x80, 0]).length(), fault(0, Why::LongUleb));
        assert_eq!(bool::decode(&[2]), fault(0, Why::BadBool));
        assert_eq!(bool::decode(&[1, 255]), fault(1, Why::Left));
        assert_eq!(u32::decode(&[1, 2]), fault(0, Why::Short));
        assert_eq!(Reader::new(&[255, 255, 255, 255, 16]).length(), fault(0, Why::UlebRange));
        assert_eq!(Reader::new(&[128, 128, 128, 128, 8]).length(), fault(0, Why::LenRange));
        assert_eq!(Reader::new(&[128, 128, 128, 128, 0]).length(), fault(0, Why::LongUleb));
        assert_eq!(Reader::new(&[128, 128]).length(), fault(0, Why::Short));
        assert_eq!(Reader::new(&[6]).tag(|tag| tag < 6), fault(0, Why::BadTag));
    }

    #[test]
    fn a_byte_string_is_one_item_and_a_sequence_is_not() {
        assert_eq!(Reader::new(&[2, 1]).bytes(), fault(0, Why::Short));
        assert_eq!(Vec::<u16>::decode(&[2, 1, 0, 1]), fault(3, Why::Short));
    }

    #[test]
    fn values_come_back() {
        let value = vec![None, Some(7u64), Some(u64::MAX)];
        assert_eq!(Vec::<Option<u64>>::decode(&value.spelled()), Ok(value));
    }
}
