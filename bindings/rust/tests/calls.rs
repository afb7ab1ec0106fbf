//! The calls of the crate, over streams that were worked out by hand.

mod common;

use common::bytes_of;
use gob::{Error, Kind, Limits, Marshal, Options, Reader, Stream, Value};
use std::io::{self, Read};

const POINT: &str = "1f ff 81 03 01 01 05 50 6f 69 6e 74 01 ff 82 00 01 02 01 01 58 01 04 00 01 01 59 01 04 00 00 00";
const ARRAY: &str = "0e ff 81 01 01 02 ff 82 00 01 04 01 04 00 00";
const TEXTS: &str = "0e ff 81 04 01 02 ff 82 00 01 0c 01 04 00 00";
const TIME: &str = "10 ff 81 05 01 01 04 54 69 6d 65 01 ff 82 00 00 00";

fn points() -> Vec<u8> {
    bytes_of(&format!("{POINT} 07 ff 82 01 2c 01 42 00 05 ff 82 02 42 00"))
}

fn values(hex: &str) -> Vec<Value> {
    Reader::new(&bytes_of(hex)[..]).unwrap().map(Result::unwrap).collect()
}

fn text(text: &str) -> Value {
    Value::Text(text.as_bytes().to_vec())
}

#[test]
fn each_kind_of_value() {
    let rows = [
        ("03 02 00 01", Value::Bool(true)),
        ("03 04 00 05", Value::Int(-3)),
        ("0b 04 00 f8 ff ff ff ff ff ff ff ff", Value::Int(i64::MIN)),
        ("0b 06 00 f8 ff ff ff ff ff ff ff ff", Value::Uint(u64::MAX)),
        ("05 08 00 fe 31 40", Value::Float(17.0)),
        ("06 0e 00 fe 31 40 00", Value::Complex(17.0, 0.0)),
        ("05 0a 00 02 00 ff", Value::Bytes(vec![0, 255])),
        ("05 0c 00 02 c3 a9", text("\u{e9}")),
        ("04 0c 00 01 ff", Value::Text(vec![255])),
        ("03 10 00 00", Value::Nil),
        ("0a 10 00 03 69 6e 74 04 02 00 0a", Value::Held(b"int".to_vec(), Box::new(Value::Int(5)))),
        (&format!("{ARRAY} 06 ff 82 00 02 02 04"), Value::List(vec![Value::Int(1), Value::Int(2)])),
        (
            &format!("{TEXTS} 0a ff 82 00 02 01 61 02 01 61 04"),
            Value::Map(vec![(text("a"), Value::Int(1)), (text("a"), Value::Int(2))]),
        ),
        (&format!("{TIME} 06 ff 82 00 02 0a 0b"), Value::Opaque(vec![10, 11])),
    ];
    for (hex, due) in rows {
        assert_eq!(values(hex), [due], "{hex}");
    }
}

#[test]
fn fields_and_types() {
    let bytes = points();
    let mut reader = Reader::new(&bytes[..]).unwrap();
    let point = reader.next_value().unwrap().unwrap();
    assert_eq!((point.field("X").unwrap().as_int(), point.field("Y").unwrap().as_int()), (Some(22), Some(33)));
    assert!(point.field("Z").is_none() && point.as_int().is_none());
    assert_eq!(point.type_of().unwrap().name, b"Point");
    let other = reader.next_value().unwrap().unwrap();
    assert!(other.field("X").is_none());
    assert_eq!(other.to_value().field("Y"), Some(&Value::Int(33)));
    assert!(reader.next_value().unwrap().is_none());
    assert!(reader.next_value().unwrap().is_none());
    match &reader.types().get(65).unwrap().kind {
        Kind::Struct { fields } => assert_eq!((&fields[1].name[..], fields[1].id), (&b"Y"[..], 2)),
        other => panic!("{other:?}"),
    }
    assert!(reader.types().get(66).is_none());
}

#[test]
fn types_of_each_kind() {
    let kind_of = |hex: &str| {
        let bytes = bytes_of(hex);
        let mut reader = Reader::new(&bytes[..]).unwrap();
        assert!(reader.next_value().unwrap().is_none());
        reader.types().get(65).unwrap().kind.clone()
    };
    assert_eq!(kind_of(ARRAY), Kind::Array { elem: 2, len: 2 });
    assert_eq!(kind_of(TEXTS), Kind::Map { key: 6, elem: 2 });
    assert_eq!(kind_of("0c ff 81 02 01 02 ff 82 00 01 10 00 00"), Kind::Slice { elem: 8 });
    assert_eq!(kind_of(TIME), Kind::Opaque { marshal: Marshal::GobEncode });
}

#[test]
fn a_refusal_comes_behind_the_values() {
    let bytes = points();
    let mut reader = Reader::new(&bytes[..45]).unwrap();
    assert!(reader.next_value().unwrap().is_some());
    let error = reader.next_value().unwrap_err();
    assert_eq!(error.to_string(), "refused 22 Ended at 45 seen 45");
    let refused = match error {
        Error::Refused(refused) => refused,
        other => panic!("{other:?}"),
    };
    assert_eq!((refused.reason.name(), refused.id, refused.begin), ("Ended", None, 40));
    assert!(refused.reason.what().ends_with('.'));
    assert!(matches!(reader.next_value(), Err(Error::Failed)));
    assert!(reader.next().is_none());
    assert_eq!(Reader::new(&bytes[..45]).unwrap().filter(Result::is_err).count(), 1);
    let undefined = Reader::new(&bytes_of("03 ff 86 00")[..]).unwrap().next().unwrap().unwrap_err();
    assert_eq!(undefined.to_string(), "refused 10 UndefinedType(67) at 1 seen 3");
}

#[test]
fn limits_and_the_documented_format_are_heeded() {
    let bytes = points();
    let fails = |limits: Limits, name: &str| {
        let options = Options { limits, ..Options::default() };
        let error = Reader::with(&bytes[..], options).unwrap().find_map(Result::err).unwrap();
        assert!(matches!(&error, Error::Refused(it) if it.reason.name() == name), "{error}");
    };
    let standard = Limits::default();
    fails(Limits { item: 30, ..standard }, "ItemTooLong");
    fails(Limits { types: 0, ..standard }, "TooManyTypes");
    fails(Limits { depth: 1, ..standard }, "TooDeep");
    fails(Limits { stream: 40, ..standard }, "StreamTooLong");
    let none = Options { limits: Limits { depth: 0, ..standard }, ..Options::default() };
    assert!(matches!(Stream::new(none).err(), Some(Error::BadLimits)));
    let held = bytes_of("0a 10 00 03 69 6e 74 04 02 00 0a");
    let exact = Options { exact: true, ..Options::default() };
    let error = Reader::with(&held[..], exact).unwrap().next().unwrap().unwrap_err();
    assert!(matches!(error, Error::Refused(it) if it.reason.name() == "InterfaceValue"));
}

#[test]
fn values_come_as_they_are_whole() {
    let bytes = points();
    let mut stream = Stream::new(Options::default()).unwrap();
    let mut ends = Vec::new();
    for (place, byte) in bytes.iter().enumerate() {
        stream.feed(&[*byte]).unwrap();
        while stream.next_value().unwrap().is_some() {
            ends.push(place + 1);
        }
    }
    stream.finish().unwrap();
    assert_eq!(ends, [40, 46]);
}

struct Broken<'a>(&'a [u8]);

impl Read for Broken<'_> {
    fn read(&mut self, piece: &mut [u8]) -> io::Result<usize> {
        match self.0.read(piece)? {
            0 => Err(io::Error::new(io::ErrorKind::Other, "the wire is cut")),
            count => Ok(count),
        }
    }
}

#[test]
fn an_input_that_cannot_be_read_is_told_behind_the_values() {
    let bytes = points();
    let mut reader = Reader::new(Broken(&bytes)).unwrap();
    assert_eq!(reader.by_ref().take(2).filter(Result::is_ok).count(), 2);
    assert!(matches!(reader.next(), Some(Err(Error::Input(error))) if error.to_string() == "the wire is cut"));
    assert!(reader.next().is_none());
}

#[test]
fn values_are_printed_for_people() {
    let rows = [
        (format!("{POINT} 07 ff 82 01 2c 01 42 00"), "{X: 22, Y: 33}"),
        (format!("{TEXTS} 08 ff 82 00 01 02 1b 5b 04"), r#"map["\u{1b}[": 2]"#),
        ("05 0a 00 02 00 ff".to_string(), "0x00ff"),
        ("0a 10 00 03 69 6e 74 04 02 00 0a".to_string(), "int(5)"),
    ];
    for (hex, due) in rows {
        assert_eq!(values(&hex)[0].to_string(), due);
    }
}
