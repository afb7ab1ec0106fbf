//! Values as trees of their own.

use crate::part::{Held, Part, Shown};
use std::fmt;

/// A value. Texts and names need not be UTF-8, so they are bytes.
#[derive(Clone, Debug, PartialEq)]
pub enum Value {
    Bool(bool),
    Int(i64),
    Uint(u64),
    Float(f64),
    /// The real and the imaginary part.
    Complex(f64, f64),
    Bytes(Vec<u8>),
    Text(Vec<u8>),
    /// What a type that encodes itself wrote: only the Go type explains it.
    Opaque(Vec<u8>),
    /// An interface that holds nothing.
    Nil,
    /// What an interface holds, behind the name under which its type was registered.
    Held(Vec<u8>, Box<Value>),
    /// The elements of a slice or an array.
    List(Vec<Value>),
    /// The keys and elements of a map, in the order of the stream. A key may be there twice.
    Map(Vec<(Value, Value)>),
    /// The fields of a struct that are present, by their names. Go leaves out those that are zero.
    Struct(Vec<(Vec<u8>, Value)>),
}

impl Value {
    pub(crate) fn of(part: &Part<'_>) -> Value {
        match part.shown() {
            Shown::Bool(is) => Value::Bool(is),
            Shown::Int(number) => Value::Int(number),
            Shown::Uint(number) => Value::Uint(number),
            Shown::Float(number) => Value::Float(number),
            Shown::Complex(real, imaginary) => Value::Complex(real, imaginary),
            Shown::Bytes(bytes) => Value::Bytes(bytes.to_vec()),
            Shown::Text(text) => Value::Text(text.to_vec()),
            Shown::Opaque(bytes) => Value::Opaque(bytes.to_vec()),
            Shown::Nil => Value::Nil,
            Shown::Held(Held { name, part }) => Value::Held(name.to_vec(), Box::new(part.to_value())),
            Shown::List(list) => Value::List(list.map(|part| part.to_value()).collect()),
            Shown::Map(pairs) => Value::Map(pairs.map(|(key, elem)| (key.to_value(), elem.to_value())).collect()),
            Shown::Struct(fields) => {
                Value::Struct(fields.map(|(field, part)| (field.name.clone(), part.to_value())).collect())
            }
        }
    }

    /// The field of this name in a struct.
    pub fn field(&self, name: &str) -> Option<&Value> {
        match self {
            Value::Struct(fields) => fields.iter().find(|(field, _)| field == name.as_bytes()).map(|(_, value)| value),
            _ => None,
        }
    }
}

/// For people, without a byte that a terminal would obey: `{X: 22, Y: 33}`.
impl fmt::Display for Value {
    fn fmt(&self, out: &mut fmt::Formatter<'_>) -> fmt::Result {
        match self {
            Value::Bool(is) => write!(out, "{is}"),
            Value::Int(number) => write!(out, "{number}"),
            Value::Uint(number) => write!(out, "{number}"),
            Value::Float(number) => write!(out, "{number}"),
            Value::Complex(real, imaginary) => write!(out, "({real}, {imaginary})"),
            Value::Bytes(bytes) | Value::Opaque(bytes) => hex(out, bytes),
            Value::Text(text) => write!(out, "{:?}", String::from_utf8_lossy(text)),
            Value::Nil => out.write_str("nil"),
            Value::Held(name, value) => write!(out, "{}({value})", plain(name)),
            Value::List(elements) => parts(out, "[", elements, |out, element| write!(out, "{element}"), "]"),
            Value::Map(pairs) => parts(out, "map[", pairs, |out, (key, elem)| write!(out, "{key}: {elem}"), "]"),
            Value::Struct(fields) => {
                parts(out, "{", fields, |out, (name, value)| write!(out, "{}: {value}", plain(name)), "}")
            }
        }
    }
}

fn plain(name: &[u8]) -> String {
    String::from_utf8_lossy(name).escape_debug().to_string()
}

fn hex(out: &mut fmt::Formatter<'_>, bytes: &[u8]) -> fmt::Result {
    out.write_str("0x")?;
    bytes.iter().try_for_each(|byte| write!(out, "{byte:02x}"))
}

type Put<T> = fn(&mut fmt::Formatter<'_>, &T) -> fmt::Result;

fn parts<T>(out: &mut fmt::Formatter<'_>, open: &str, all: &[T], put: Put<T>, close: &str) -> fmt::Result {
    out.write_str(open)?;
    for (place, part) in all.iter().enumerate() {
        if place > 0 {
            out.write_str(", ")?;
        }
        put(out, part)?;
    }
    out.write_str(close)
}
