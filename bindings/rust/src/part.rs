//! Parts of values, where they stand.

use crate::raw::{self, Node};
use crate::types::{raw_bytes, Field, Type, Types};
use crate::value::Value;
use std::{fmt, str};

/// A part of a value, with all that is in it. It is looked at where it stands: to copy it costs nothing.
#[derive(Clone, Copy)]
pub struct Part<'a> {
    nodes: &'a [Node],
    bytes: &'a [u8],
    types: &'a Types,
    at: usize,
    id: u32,
}

/// What a part is.
#[derive(Clone, Debug)]
pub enum Shown<'a> {
    Bool(bool),
    Int(i64),
    Uint(u64),
    Float(f64),
    /// The real and the imaginary part.
    Complex(f64, f64),
    Bytes(&'a [u8]),
    /// A string, which need not be UTF-8.
    Text(&'a [u8]),
    /// What a type that encodes itself wrote.
    Opaque(&'a [u8]),
    /// An interface that holds nothing.
    Nil,
    Held(Held<'a>),
    /// A slice or an array.
    List(List<'a>),
    Map(Pairs<'a>),
    Struct(Fields<'a>),
}

/// What an interface holds, and the name under which its type was registered.
#[derive(Clone, Copy, Debug)]
pub struct Held<'a> {
    pub name: &'a [u8],
    pub part: Part<'a>,
}

impl<'a> Part<'a> {
    pub(crate) fn new(nodes: &'a [Node], bytes: &'a [u8], types: &'a Types, id: u32) -> Part<'a> {
        Part { nodes, bytes, types, at: 0, id }
    }

    fn node(&self) -> &'a Node {
        &self.nodes[self.at]
    }

    fn part(&self, at: usize, id: u32) -> Part<'a> {
        Part { at, id, ..*self }
    }

    /// The place behind this part and all that is in it.
    fn after(&self) -> usize {
        let node = self.node();
        self.at + if (raw::LIST..=raw::STRUCT).contains(&node.kind) { node.second as usize } else { 1 }
    }

    fn raw(&self) -> &'a [u8] {
        raw_bytes(self.node(), self.bytes)
    }

    /// The id of its type.
    pub fn id(&self) -> u32 {
        self.id
    }

    /// Its type; none of those with the ids 1 to 8, which are Go's basic ones.
    pub fn type_of(&self) -> Option<&'a Type> {
        self.types.get(self.id)
    }

    /// What it is.
    pub fn shown(&self) -> Shown<'a> {
        let node = self.node();
        match node.kind {
            raw::BOOL => Shown::Bool(node.first == 1),
            raw::INT => Shown::Int((node.first >> 1) as i64 ^ -((node.first & 1) as i64)),
            raw::UINT => Shown::Uint(node.first),
            raw::FLOAT => Shown::Float(f64::from_bits(node.first)),
            raw::COMPLEX => Shown::Complex(f64::from_bits(node.first), f64::from_bits(node.second)),
            raw::BYTES => Shown::Bytes(self.raw()),
            raw::STRING => Shown::Text(self.raw()),
            raw::OPAQUE => Shown::Opaque(self.raw()),
            raw::HELD => Shown::Held(self.held()),
            raw::LIST => Shown::List(self.list()),
            raw::MAP => Shown::Map(self.pairs()),
            raw::STRUCT => Shown::Struct(self.fields()),
            _ => Shown::Nil,
        }
    }

    fn held(&self) -> Held<'a> {
        let (place, id) = (self.at + self.node().first as usize, self.node().second as u32);
        Held { name: self.part(place, raw::STRING.into()).raw(), part: self.part(place + 1, id) }
    }

    fn parts(&self) -> Parts<'a> {
        Parts { whole: *self, next: self.at + 1, end: self.after() }
    }

    fn list(&self) -> List<'a> {
        List { parts: self.parts(), elem: self.types.elem_of(self.id).unwrap_or(0) }
    }

    fn pairs(&self) -> Pairs<'a> {
        let key = self.types.key_of(self.id).unwrap_or(0);
        Pairs { parts: self.parts(), key, elem: self.types.elem_of(self.id).unwrap_or(0) }
    }

    fn fields(&self) -> Fields<'a> {
        Fields { parts: self.parts(), fields: self.types.fields_of(self.id) }
    }

    /// The field of this name in a struct. None where it is absent, as a field that is zero is, and where this is no
    /// struct or its type has no such field.
    pub fn field(&self, name: &str) -> Option<Part<'a>> {
        match self.shown() {
            Shown::Struct(mut fields) => fields.find(|(field, _)| field.name == name.as_bytes()).map(|(_, part)| part),
            _ => None,
        }
    }

    /// What a bool is; none of any other part.
    pub fn as_bool(&self) -> Option<bool> {
        match self.shown() {
            Shown::Bool(is) => Some(is),
            _ => None,
        }
    }

    /// The number of an int, and of a uint that is none above `i64::MAX`; none of any other part.
    pub fn as_int(&self) -> Option<i64> {
        match self.shown() {
            Shown::Int(number) => Some(number),
            Shown::Uint(number) => number.try_into().ok(),
            _ => None,
        }
    }

    /// The number of a float; none of any other part.
    pub fn as_float(&self) -> Option<f64> {
        match self.shown() {
            Shown::Float(number) => Some(number),
            _ => None,
        }
    }

    /// The text of a string that is UTF-8; none of any other part.
    pub fn as_str(&self) -> Option<&'a str> {
        match self.shown() {
            Shown::Text(text) => str::from_utf8(text).ok(),
            _ => None,
        }
    }

    /// The value, as a tree of its own.
    pub fn to_value(&self) -> Value {
        Value::of(self)
    }
}

impl fmt::Debug for Part<'_> {
    fn fmt(&self, out: &mut fmt::Formatter<'_>) -> fmt::Result {
        self.to_value().fmt(out)
    }
}

/// The parts of a part that are to come.
#[derive(Clone)]
struct Parts<'a> {
    whole: Part<'a>,
    next: usize,
    end: usize,
}

impl<'a> Parts<'a> {
    /// The next part, whose type `id_of` tells by its node.
    fn take(&mut self, id_of: impl FnOnce(&Node) -> u32) -> Option<Part<'a>> {
        if self.next == self.end {
            return None;
        }
        let part = self.whole.part(self.next, id_of(&self.whole.nodes[self.next]));
        self.next = part.after();
        Some(part)
    }
}

/// The elements of a slice or an array.
#[derive(Clone)]
pub struct List<'a> {
    parts: Parts<'a>,
    elem: u32,
}

impl<'a> Iterator for List<'a> {
    type Item = Part<'a>;

    fn next(&mut self) -> Option<Part<'a>> {
        self.parts.take(|_| self.elem)
    }
}

/// The keys and elements of a map, in the order of the stream. A key may be there twice.
#[derive(Clone)]
pub struct Pairs<'a> {
    parts: Parts<'a>,
    key: u32,
    elem: u32,
}

impl<'a> Iterator for Pairs<'a> {
    type Item = (Part<'a>, Part<'a>);

    fn next(&mut self) -> Option<(Part<'a>, Part<'a>)> {
        Some((self.parts.take(|_| self.key)?, self.parts.take(|_| self.elem)?))
    }
}

/// The fields of a struct that are present, in order, each with its name and type.
#[derive(Clone)]
pub struct Fields<'a> {
    parts: Parts<'a>,
    fields: &'a [Field],
}

impl<'a> Iterator for Fields<'a> {
    type Item = (&'a Field, Part<'a>);

    fn next(&mut self) -> Option<(&'a Field, Part<'a>)> {
        let fields = self.fields;
        let number = self.parts.whole.nodes.get(self.parts.next)?.number as usize;
        let part = self.parts.take(|_| fields[number].id)?;
        Some((&fields[number], part))
    }
}

impl fmt::Debug for List<'_> {
    fn fmt(&self, out: &mut fmt::Formatter<'_>) -> fmt::Result {
        out.debug_list().entries(self.clone()).finish()
    }
}

impl fmt::Debug for Pairs<'_> {
    fn fmt(&self, out: &mut fmt::Formatter<'_>) -> fmt::Result {
        out.debug_map().entries(self.clone()).finish()
    }
}

impl fmt::Debug for Fields<'_> {
    fn fmt(&self, out: &mut fmt::Formatter<'_>) -> fmt::Result {
        out.debug_map().entries(self.clone()).finish()
    }
}
