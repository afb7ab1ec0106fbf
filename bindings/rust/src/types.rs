//! The types of a stream.

use crate::raw;
use std::collections::HashMap;

/// What a type is. It names others by their ids, of which 1 to 8 are bool, int, uint, float, bytes, string, complex and
/// interface.
#[derive(Clone, Debug, PartialEq, Eq)]
pub struct Type {
    pub id: u32,
    /// As Go names it, without the package. It need not be UTF-8.
    pub name: Vec<u8>,
    pub kind: Kind,
}

#[derive(Clone, Debug, PartialEq, Eq)]
pub enum Kind {
    Slice { elem: u32 },
    Array { elem: u32, len: u64 },
    Map { key: u32, elem: u32 },
    Struct { fields: Vec<Field> },
    /// One that encodes itself: only the Go type explains the bytes.
    Opaque { marshal: Marshal },
}

/// A field of a struct, and the id of its type.
#[derive(Clone, Debug, PartialEq, Eq)]
pub struct Field {
    pub name: Vec<u8>,
    pub id: u32,
}

/// How a type encodes itself.
#[derive(Clone, Copy, Debug, PartialEq, Eq)]
pub enum Marshal {
    GobEncode,
    MarshalBinary,
    MarshalText,
}

/// The types that a stream has defined so far, by their ids, and those of which descriptions are made.
#[derive(Clone, Debug, Default)]
pub struct Types(HashMap<u32, Type>);

impl Types {
    /// The type of an id; none where it isn't defined, and of the ids 1 to 8.
    pub fn get(&self, id: u32) -> Option<&Type> {
        self.0.get(&id)
    }

    /// All of them, in no order.
    pub fn iter(&self) -> impl Iterator<Item = &Type> {
        self.0.values()
    }

    pub(crate) fn define(&mut self, id: u32, nodes: &[raw::Node], bytes: &[u8]) {
        self.0.insert(id, type_of(id, nodes, bytes));
    }

    /// What the elements of a slice, an array or a map are; the keys of a map.
    pub(crate) fn elem_of(&self, id: u32) -> Option<u32> {
        match self.get(id)?.kind {
            Kind::Slice { elem } | Kind::Array { elem, .. } | Kind::Map { elem, .. } => Some(elem),
            _ => None,
        }
    }

    pub(crate) fn key_of(&self, id: u32) -> Option<u32> {
        match self.get(id)?.kind {
            Kind::Map { key, .. } => Some(key),
            _ => None,
        }
    }

    pub(crate) fn fields_of(&self, id: u32) -> &[Field] {
        match self.get(id).map(|it| &it.kind) {
            Some(Kind::Struct { fields }) => fields,
            _ => &[],
        }
    }
}

fn type_of(id: u32, nodes: &[raw::Node], bytes: &[u8]) -> Type {
    let (own, named) = (&nodes[0], &nodes[1..]);
    let kind = match own.kind {
        raw::LIST => Kind::Slice { elem: id_of(&named[0]) },
        raw::ARRAY => Kind::Array { elem: id_of(&named[0]), len: named[0].first },
        raw::MAP => Kind::Map { key: id_of(&named[0]), elem: id_of(&named[1]) },
        raw::STRUCT => Kind::Struct { fields: named.iter().map(|node| field_of(node, bytes)).collect() },
        _ => Kind::Opaque { marshal: marshal_of(own.number) },
    };
    Type { id, name: raw_bytes(own, bytes).to_vec(), kind }
}

fn id_of(node: &raw::Node) -> u32 {
    node.number
}

fn field_of(node: &raw::Node, bytes: &[u8]) -> Field {
    Field { name: raw_bytes(node, bytes).to_vec(), id: id_of(node) }
}

fn marshal_of(number: u32) -> Marshal {
    match number {
        1 => Marshal::GobEncode,
        2 => Marshal::MarshalBinary,
        _ => Marshal::MarshalText,
    }
}

/// The bytes that a node names.
pub(crate) fn raw_bytes<'a>(node: &raw::Node, bytes: &'a [u8]) -> &'a [u8] {
    &bytes[node.first as usize..][..node.second as usize]
}
