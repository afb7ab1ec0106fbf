//! Values as types that serde deserializes.
#![cfg(feature = "serde")]

mod common;

use common::bytes_of;
use gob::Reader;
use serde::Deserialize;
use std::collections::BTreeMap;

fn first<T: for<'a> Deserialize<'a>>(hex: &str) -> Result<T, gob::Mismatch> {
    let bytes = bytes_of(hex);
    let mut reader = Reader::new(&bytes[..]).unwrap();
    let result = reader.next_value().unwrap().unwrap().to();
    result
}

const POINT: &str = "1f ff 81 03 01 01 05 50 6f 69 6e 74 01 ff 82 00 01 02 01 01 58 01 04 00 01 01 59 01 04 00 00 00";
const TEXTS: &str = "0e ff 81 04 01 02 ff 82 00 01 0c 01 04 00 00";
const HELD: &str = "0a 10 00 03 69 6e 74 04 02 00 0a";

#[derive(Debug, Default, Deserialize, PartialEq)]
#[serde(default)]
struct Point {
    #[serde(rename = "X")]
    x: i8,
    #[serde(rename = "Y")]
    y: u64,
}

#[derive(Debug, Deserialize, PartialEq)]
#[serde(rename_all = "lowercase")]
enum Any {
    Int(i32),
    Float64(f64),
}

#[test]
fn structs_by_the_names_of_their_fields() {
    assert_eq!(first(&format!("{POINT} 07 ff 82 01 2c 01 42 00")), Ok(Point { x: 22, y: 33 }));
    assert_eq!(first(&format!("{POINT} 05 ff 82 02 42 00")), Ok(Point { x: 0, y: 33 }));
    let named: Result<BTreeMap<String, i64>, _> = first(&format!("{POINT} 05 ff 82 02 42 00"));
    assert_eq!(named, Ok(BTreeMap::from([("Y".to_string(), 33)])));
    // 200 is no i8, and -1 no u64
    assert!(first::<Point>(&format!("{POINT} 07 ff 82 01 fe 01 90 00")).is_err());
    assert!(first::<Point>(&format!("{POINT} 05 ff 82 02 01 00")).is_err());
}

#[test]
fn other_values() {
    let due = BTreeMap::from([("a".to_string(), 1), ("b".to_string(), 2)]);
    assert_eq!(first(&format!("{TEXTS} 0a ff 82 00 02 01 61 02 01 62 04")), Ok(due));
    assert_eq!(first("05 0c 00 02 c3 a9"), Ok("\u{e9}".to_string()));
    assert_eq!(first("05 0a 00 02 00 ff"), Ok(vec![0u8, 255]));
    assert_eq!(first("06 0e 00 fe 31 40 00"), Ok((17.0f64, 0.0f32)));
    assert_eq!(first("03 10 00 00"), Ok(None::<i64>));
    assert!(first::<String>("03 04 00 06").is_err());
    assert!(first::<String>("04 0c 00 01 ff").is_err());
}

#[test]
fn what_an_interface_holds() {
    assert_eq!(first(HELD), Ok(Some(5u8)));
    assert_eq!(first(HELD), Ok(Any::Int(5)));
    assert!(first::<Any>("03 04 00 06").is_err());
}

#[test]
fn texts_are_borrowed() {
    let bytes = bytes_of("05 0c 00 02 c3 a9");
    let mut reader = Reader::new(&bytes[..]).unwrap();
    let part = reader.next_value().unwrap().unwrap();
    assert_eq!(part.to::<&str>(), Ok("\u{e9}"));
}
