//! What the tests share.

#![allow(dead_code)] // each test has its own part of it

use gob::{Error, Field, Kind, Marshal, Options, Part, Shown, Stream, Type};
use std::fmt::Write;
use std::str;

pub fn bytes_of(hex: &str) -> Vec<u8> {
    let digits: Vec<u8> = hex.bytes().filter(u8::is_ascii_hexdigit).collect();
    digits.chunks(2).map(|pair| u8::from_str_radix(str::from_utf8(pair).unwrap(), 16).unwrap()).collect()
}

fn hex_of(bytes: &[u8]) -> String {
    bytes.iter().map(|byte| format!("{byte:02x}")).collect()
}

/// What `gob show` prints of a stream in pieces of a size: the lines of its values, and that of its fault.
pub fn shown(bytes: &[u8], size: usize, options: Options) -> String {
    let mut stream = Stream::new(options).unwrap();
    let mut text = String::new();
    let mut fed = Ok(());
    for piece in bytes.chunks(size) {
        fed = stream.feed(piece);
        while let Some(part) = stream.next_value().unwrap() {
            writeln!(text, r#"{{"type":{},"value":{}}}"#, part.id(), json(part)).unwrap();
        }
        if fed.is_err() {
            break;
        }
    }
    if let Err(fault) = fed.and_then(|()| stream.finish()) {
        assert!(matches!(fault, Error::Refused(_)), "{fault}");
        writeln!(text, "gob: {fault}").unwrap();
    }
    text
}

/// The lines that define types, from what is known of them at the end of a whole stream.
pub fn definitions(bytes: &[u8]) -> String {
    let mut stream = Stream::new(Options::default()).unwrap();
    stream.feed(bytes).unwrap();
    while stream.next_value().unwrap().is_some() {}
    let mut types: Vec<&Type> = stream.types().iter().filter(|it| it.id >= 64).collect();
    types.sort_by_key(|it| it.id);
    types.into_iter().map(|it| definition(it) + "\n").collect()
}

fn definition(it: &Type) -> String {
    let (front, kind, back) = match &it.kind {
        Kind::Slice { elem } => (format!(",\"elem\":{elem}"), "slice", String::new()),
        Kind::Array { elem, len } => (format!(",\"elem\":{elem}"), "array", format!(",\"len\":{len}")),
        Kind::Map { key, elem } => (format!(",\"elem\":{elem},\"key\":{key}"), "map", String::new()),
        Kind::Struct { fields } => {
            (format!(",\"fields\":[{}]", joined(fields.iter().map(field))), "struct", String::new())
        }
        Kind::Opaque { marshal: Marshal::GobEncode } => (String::new(), "gob", String::new()),
        Kind::Opaque { marshal: Marshal::MarshalBinary } => (String::new(), "binary", String::new()),
        Kind::Opaque { marshal: Marshal::MarshalText } => (String::new(), "text", String::new()),
    };
    format!(r#"{{"define":{}{front},"kind":"{kind}"{back},"name":{}}}"#, it.id, quoted(&it.name))
}

fn field(it: &Field) -> String {
    format!("[{},{}]", quoted(&it.name), it.id)
}

fn joined(texts: impl Iterator<Item = String>) -> String {
    texts.collect::<Vec<_>>().join(",")
}

fn json(part: Part<'_>) -> String {
    let bits = |number: f64| format!("\"{:016x}\"", number.to_bits());
    match part.shown() {
        Shown::Bool(is) => is.to_string(),
        Shown::Int(number) => number.to_string(),
        Shown::Uint(number) => number.to_string(),
        Shown::Float(number) => bits(number),
        Shown::Complex(real, imaginary) => format!("[{},{}]", bits(real), bits(imaginary)),
        Shown::Bytes(bytes) => format!("\"{}\"", hex_of(bytes)),
        Shown::Text(text) => quoted(text),
        Shown::Opaque(bytes) => format!(r#"{{"opaque":"{}"}}"#, hex_of(bytes)),
        Shown::Nil => "null".to_string(),
        Shown::Held(held) => {
            let (name, id) = (quoted(held.name), held.part.id());
            format!(r#"{{"interface":{{"name":{name},"type":{id},"value":{}}}}}"#, json(held.part))
        }
        Shown::List(list) => format!("[{}]", joined(list.map(json))),
        Shown::Map(pairs) => {
            format!("[{}]", joined(pairs.map(|(key, elem)| format!("[{},{}]", json(key), json(elem)))))
        }
        Shown::Struct(fields) => format!("[{}]", joined(fields.map(|(field, value)| member(part, field, value)))),
    }
}

fn member(of: Part<'_>, field: &Field, value: Part<'_>) -> String {
    let fields = match &of.type_of().unwrap().kind {
        Kind::Struct { fields } => fields,
        other => panic!("{other:?} has no fields"),
    };
    let number = fields.iter().position(|other| std::ptr::eq(other, field)).unwrap();
    format!("[{number},{},{}]", quoted(&field.name), json(value))
}

fn quoted(text: &[u8]) -> String {
    let text = match str::from_utf8(text) {
        Ok(text) => text,
        Err(_) => return format!(r#"{{"hex":"{}"}}"#, hex_of(text)),
    };
    let mut out = String::from('"');
    for character in text.chars() {
        match character {
            '"' | '\\' => out.extend(['\\', character]),
            '\u{8}' => out.push_str("\\b"),
            '\t' => out.push_str("\\t"),
            '\n' => out.push_str("\\n"),
            '\u{c}' => out.push_str("\\f"),
            '\r' => out.push_str("\\r"),
            '\0'..='\u{1f}' => write!(out, "\\u{:04x}", character as u32).unwrap(),
            _ => out.push(character),
        }
    }
    out + "\""
}
