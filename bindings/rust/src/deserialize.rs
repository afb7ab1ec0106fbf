//! Parts of values as any type that serde can deserialize.

use crate::part::{Fields, List, Pairs, Part, Shown};
use serde::de::value::{BorrowedBytesDeserializer, BorrowedStrDeserializer, SeqDeserializer};
use serde::de::{
    self, Deserialize, DeserializeSeed, Deserializer, EnumAccess, MapAccess, SeqAccess, Unexpected, VariantAccess,
    Visitor,
};
use std::{fmt, str};

/// Why a value is none of the type that is wanted.
#[derive(Clone, Debug, PartialEq, Eq)]
pub struct Mismatch(String);

impl fmt::Display for Mismatch {
    fn fmt(&self, out: &mut fmt::Formatter<'_>) -> fmt::Result {
        out.write_str(&self.0)
    }
}

impl std::error::Error for Mismatch {}

impl de::Error for Mismatch {
    fn custom<T: fmt::Display>(text: T) -> Mismatch {
        Mismatch(text.to_string())
    }
}

impl<'a> Part<'a> {
    /// The value as one of this type. A struct is read by the names of its fields, of which Go leaves out those that
    /// are zero: `#[serde(default)]` puts them back. An interface is what it holds, or nothing; a complex is a pair;
    /// what a type that encodes itself wrote is bytes. Texts and bytes can be borrowed.
    pub fn to<T: Deserialize<'a>>(&self) -> Result<T, Mismatch> {
        T::deserialize(*self)
    }
}

impl<'de> Deserializer<'de> for Part<'de> {
    type Error = Mismatch;

    fn deserialize_any<V: Visitor<'de>>(self, visitor: V) -> Result<V::Value, Mismatch> {
        match self.shown() {
            Shown::Bool(is) => visitor.visit_bool(is),
            Shown::Int(number) => visitor.visit_i64(number),
            Shown::Uint(number) => visitor.visit_u64(number),
            Shown::Float(number) => visitor.visit_f64(number),
            Shown::Complex(real, imaginary) => visitor.visit_seq(SeqDeserializer::new([real, imaginary].into_iter())),
            Shown::Bytes(bytes) | Shown::Opaque(bytes) => visitor.visit_borrowed_bytes(bytes),
            Shown::Text(text) => visit_text(text, visitor),
            Shown::Nil => visitor.visit_unit(),
            Shown::Held(held) => held.part.deserialize_any(visitor),
            Shown::List(list) => visitor.visit_seq(Elements(list)),
            Shown::Map(pairs) => visitor.visit_map(Entries { pairs, elem: None }),
            Shown::Struct(fields) => visitor.visit_map(Members { fields, part: None }),
        }
    }

    fn deserialize_option<V: Visitor<'de>>(self, visitor: V) -> Result<V::Value, Mismatch> {
        match self.shown() {
            Shown::Nil => visitor.visit_none(),
            _ => visitor.visit_some(self),
        }
    }

    fn deserialize_newtype_struct<V: Visitor<'de>>(self, _: &'static str, visitor: V) -> Result<V::Value, Mismatch> {
        visitor.visit_newtype_struct(self)
    }

    /// A list of bytes, as `Vec<u8>` is one, may be wanted where bytes are.
    fn deserialize_seq<V: Visitor<'de>>(self, visitor: V) -> Result<V::Value, Mismatch> {
        match self.shown() {
            Shown::Bytes(bytes) | Shown::Opaque(bytes) => {
                visitor.visit_seq(SeqDeserializer::new(bytes.iter().copied()))
            }
            _ => self.deserialize_any(visitor),
        }
    }

    /// A text names the variant; an interface that holds something, that of the name of its type.
    fn deserialize_enum<V: Visitor<'de>>(
        self,
        _: &'static str,
        _: &'static [&'static str],
        visitor: V,
    ) -> Result<V::Value, Mismatch> {
        match self.shown() {
            Shown::Text(name) => visitor.visit_enum(Variant { name, part: None }),
            Shown::Held(held) => visitor.visit_enum(Variant { name: held.name, part: Some(held.part) }),
            _ => self.deserialize_any(visitor),
        }
    }

    fn deserialize_ignored_any<V: Visitor<'de>>(self, visitor: V) -> Result<V::Value, Mismatch> {
        visitor.visit_unit()
    }

    serde::forward_to_deserialize_any! {
        bool i8 i16 i32 i64 i128 u8 u16 u32 u64 u128 f32 f64 char str string bytes byte_buf unit unit_struct tuple
        tuple_struct map struct identifier
    }
}

fn visit_text<'de, V: Visitor<'de>>(text: &'de [u8], visitor: V) -> Result<V::Value, Mismatch> {
    match str::from_utf8(text) {
        Ok(text) => visitor.visit_borrowed_str(text),
        Err(_) => visitor.visit_borrowed_bytes(text),
    }
}

/// Gives a name to what asks for it.
fn named<'de, S: DeserializeSeed<'de>>(name: &'de [u8], seed: S) -> Result<S::Value, Mismatch> {
    match str::from_utf8(name) {
        Ok(name) => seed.deserialize(BorrowedStrDeserializer::new(name)),
        Err(_) => seed.deserialize(BorrowedBytesDeserializer::new(name)),
    }
}

struct Elements<'a>(List<'a>);

impl<'de> SeqAccess<'de> for Elements<'de> {
    type Error = Mismatch;

    fn next_element_seed<S: DeserializeSeed<'de>>(&mut self, seed: S) -> Result<Option<S::Value>, Mismatch> {
        self.0.next().map(|part| seed.deserialize(part)).transpose()
    }
}

struct Entries<'a> {
    pairs: Pairs<'a>,
    elem: Option<Part<'a>>,
}

impl<'de> MapAccess<'de> for Entries<'de> {
    type Error = Mismatch;

    fn next_key_seed<S: DeserializeSeed<'de>>(&mut self, seed: S) -> Result<Option<S::Value>, Mismatch> {
        match self.pairs.next() {
            Some((key, elem)) => {
                self.elem = Some(elem);
                seed.deserialize(key).map(Some)
            }
            None => Ok(None),
        }
    }

    fn next_value_seed<S: DeserializeSeed<'de>>(&mut self, seed: S) -> Result<S::Value, Mismatch> {
        value_of(self.elem.take(), seed)
    }
}

struct Members<'a> {
    fields: Fields<'a>,
    part: Option<Part<'a>>,
}

impl<'de> MapAccess<'de> for Members<'de> {
    type Error = Mismatch;

    fn next_key_seed<S: DeserializeSeed<'de>>(&mut self, seed: S) -> Result<Option<S::Value>, Mismatch> {
        match self.fields.next() {
            Some((field, part)) => {
                self.part = Some(part);
                named(&field.name, seed).map(Some)
            }
            None => Ok(None),
        }
    }

    fn next_value_seed<S: DeserializeSeed<'de>>(&mut self, seed: S) -> Result<S::Value, Mismatch> {
        value_of(self.part.take(), seed)
    }
}

fn value_of<'de, S: DeserializeSeed<'de>>(part: Option<Part<'de>>, seed: S) -> Result<S::Value, Mismatch> {
    seed.deserialize(part.ok_or_else(|| de::Error::custom("a value was asked for before its key"))?)
}

struct Variant<'a> {
    name: &'a [u8],
    part: Option<Part<'a>>,
}

impl<'a> Variant<'a> {
    fn held(self) -> Result<Part<'a>, Mismatch> {
        self.part.ok_or_else(|| de::Error::invalid_type(Unexpected::UnitVariant, &"a variant with a value"))
    }
}

impl<'de> EnumAccess<'de> for Variant<'de> {
    type Error = Mismatch;
    type Variant = Variant<'de>;

    fn variant_seed<S: DeserializeSeed<'de>>(self, seed: S) -> Result<(S::Value, Variant<'de>), Mismatch> {
        Ok((named(self.name, seed)?, self))
    }
}

impl<'de> VariantAccess<'de> for Variant<'de> {
    type Error = Mismatch;

    fn unit_variant(self) -> Result<(), Mismatch> {
        Ok(())
    }

    fn newtype_variant_seed<S: DeserializeSeed<'de>>(self, seed: S) -> Result<S::Value, Mismatch> {
        seed.deserialize(self.held()?)
    }

    fn tuple_variant<V: Visitor<'de>>(self, _: usize, visitor: V) -> Result<V::Value, Mismatch> {
        self.held()?.deserialize_any(visitor)
    }

    fn struct_variant<V: Visitor<'de>>(self, _: &'static [&'static str], visitor: V) -> Result<V::Value, Mismatch> {
        self.held()?.deserialize_any(visitor)
    }
}
