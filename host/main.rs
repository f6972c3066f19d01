//! Compares the built-in types of the static library with the list of sqlx-postgres, entry by entry and OID by OID.

mod builtin;

use builtin::Kind;
use std::collections::BTreeMap;

struct Entry {
    name: &'static str,
    kind: Kind,
    component: Option<u32>,
}

fn entry(line: &'static str) -> (u32, Entry) {
    let words: Vec<&str> = line.split(' ').collect();
    let [oid, name, kind, component] = words[..] else {
        panic!("not an entry: {line}");
    };
    let kind = match kind {
        "simple" => Kind::Simple,
        "pseudo" => Kind::Pseudo,
        "array" => Kind::Array,
        "range" => Kind::Range,
        _ => panic!("not a kind: {kind}"),
    };
    let component = component.parse().ok().filter(|oid| *oid != 0);
    (oid.parse().expect("an OID"), Entry { name, kind, component })
}

fn check_absent(oid: u32) {
    assert_eq!((builtin::kind(oid), builtin::component(oid), builtin::name(oid)), (None, None, None), "OID {oid}");
}

fn check_entry(oid: u32, entry: &Entry) {
    let name = entry.name.as_bytes();
    assert_eq!((builtin::kind(oid), builtin::component(oid)), (Some(entry.kind), entry.component), "OID {oid}");
    assert_eq!((builtin::name(oid).as_deref(), builtin::oid(name)), (Some(name), Some(oid)), "OID {oid}");
}

/// A buffer that is too short keeps its bytes; a longer one keeps those behind the name.
fn check_buffers(oid: u32, name: &[u8]) {
    for length in 0..name.len() + 3 {
        let mut buffer = vec![0xAA; length];
        let told = builtin::name_into(oid, &mut buffer);
        let mut expected = vec![0xAA; length];
        if length < name.len() {
            assert_eq!(told, Err(name.len()));
        } else {
            assert_eq!(told, Ok(name.len()));
            expected[..name.len()].copy_from_slice(name);
        }
        assert_eq!(buffer, expected, "OID {oid}, a buffer of {length}");
    }
}

fn main() {
    let list: BTreeMap<u32, Entry> = include_str!("list.txt").lines().map(entry).collect();
    for (oid, entry) in &list {
        check_entry(*oid, entry);
        check_buffers(*oid, entry.name.as_bytes());
    }
    for oid in (0..=5000).chain([70_000, u32::MAX - 1, u32::MAX]) {
        if !list.contains_key(&oid) {
            check_absent(oid);
        }
        let array = list.iter().find(|(_, entry)| entry.kind == Kind::Array && entry.component == Some(oid));
        assert_eq!(builtin::array_of(oid), array.map(|(array, _)| *array), "array of {oid}");
    }
    for name in ["", "_", "BOOL", "boo", "boolx", "int2vector", "_int2vector", "bool "] {
        assert_eq!(builtin::oid(name.as_bytes()), None, "{name}");
    }
    println!("{} entries and every OID from 0 to 5000 agree", list.len());
}
