//! The stand-in for fetching: a catalog in memory that answers the two queries that resolve.rs writes.
//!
//! - The SQL text is checked against the two known frames; the VALUES list is read as PostgreSQL's lexer would.
//! - A type query answers each OID's row once, in the order of asking (with `--by-oid` in the order of OIDs, as the SQL says),
//!   with its first asked name. Which of several asked names DISTINCT ON keeps is not determined by the SQL.
//! - `to_regtype(text)` is the catalog's name table, by exact bytes; where that has nothing and the text ends in `[]`,
//!   the typarray of what the text before it leads to, as PostgreSQL's type parser does. No case folding, no blanks.
//! - A column query answers one row per relation, in order of first asking, with the columns that exist.
//! - The typname is not in a script. It is derived: for a built-in OID the table's own name; else the last part of the
//!   pretty name with its quotes taken off, and `_` before it where the pretty name ends in `[]`.
//! - Values are written in PostgreSQL's text format (array_out, record_out) and decoded by types/array.rs and by the
//!   stand-ins for the scalar types and records.
use crate::error::Error;
use crate::message::{DataRow, Field, RowDescription};
use crate::type_info::PgType;
use crate::types::Oid;
use sqlx_core::bytes::Bytes;
use std::collections::HashMap;

#[derive(Clone, Debug, PartialEq, Eq, Default)]
pub struct RowDef {
    pub oid: u32,
    pub pretty: Vec<u8>,
    pub typtype: u8,
    pub typcategory: u8,
    pub typelem: u32,
    pub typbasetype: u32,
    pub rngsubtype: u32,
    pub typarray: u32,
    pub labels: Vec<Vec<u8>>,
    pub attributes: Vec<(Vec<u8>, u32)>,
}

pub struct Stored {
    pub def: RowDef,
    /// The values of the answer but for original_name, in the order of the query, as text.
    texts: [Option<Vec<u8>>; 11],
}

#[derive(Default)]
pub struct Catalog {
    rows: HashMap<u32, Stored>,
    names: HashMap<Vec<u8>, u32>,
    columns: HashMap<(u32, i16), Vec<u8>>,
    tables: HashMap<u32, Vec<u8>>,
}

#[derive(Default)]
pub struct Server {
    pub rows: Catalog,
    pub shelf: Catalog,
    pub use_shelf: bool,
    pub by_oid: bool,
    pub type_rounds: u32,
    pub column_rounds: u32,
}

pub struct Answer {
    pub description: RowDescription,
    pub rows: Vec<DataRow>,
}

const TYPE_FIELDS: [(&str, u32); 11] = [
    ("oid", 26),
    ("pretty_name", 25),
    ("catalog_name", 19),
    ("original_name", 25),
    ("typtype", 18),
    ("typcategory", 18),
    ("typelem", 26),
    ("typbasetype", 26),
    ("rngsubtype", 26),
    ("enum_labels", 1003),
    ("record_attributes", 2287),
];
const COLUMN_FIELDS: [(&str, u32); 3] = [("table_oid", 26), ("table_name", 25), ("columns", 2287)];

const TYPE_TAIL: &str = ") lookup_inner(original_name, lookup_oid)\n\
    ORDER BY lookup_oid) type_lookup\n\
    INNER JOIN pg_catalog.pg_type ON type_lookup.lookup_oid = pg_type.oid\n\
    LEFT JOIN pg_catalog.pg_range ON pg_type.oid = pg_range.rngtypid";
const COLUMN_TAIL: &str = ") lookup(table_oid, attribute_num)\n\
    INNER JOIN pg_catalog.pg_attribute ON lookup.table_oid = attrelid AND lookup.attribute_num = attnum\n\
    GROUP BY attrelid";

fn refuse<T>(why: impl Into<String>) -> Result<T, Error> {
    Err(Error::Database(why.into()))
}

impl Catalog {
    /// Adds a row and its pretty name; what contradicts something held is refused, as the row table does.
    pub fn add_row(&mut self, def: RowDef) -> Result<(), &'static str> {
        if let Some(held) = self.rows.get(&def.oid) {
            return if held.def == def { Ok(()) } else { Err("another row is held") };
        }
        if self.names.get(&def.pretty).is_some_and(|&oid| oid != def.oid) {
            return Err("the pretty name leads elsewhere");
        }
        self.names.insert(def.pretty.clone(), def.oid);
        let number = |n: u32| Some(n.to_string().into_bytes());
        let absent = |n: u32| if n == 0 { None } else { number(n) };
        let code = |b: u8| Some(if b == 0 { vec![] } else { vec![b] });
        let records: Vec<Vec<u8>> = def
            .attributes
            .iter()
            .map(|(name, oid)| record_out(&[name, oid.to_string().as_bytes()]))
            .collect();
        let texts = [
            number(def.oid),
            Some(def.pretty.clone()),
            Some(typname(def.oid, &def.pretty)),
            None,
            code(def.typtype),
            code(def.typcategory),
            absent(def.typelem),
            absent(def.typbasetype),
            absent(def.rngsubtype),
            Some(array_out(&def.labels)),
            Some(array_out(&records)),
        ];
        self.rows.insert(def.oid, Stored { def, texts });
        Ok(())
    }

    pub fn add_name(&mut self, name: Vec<u8>, oid: u32) -> Result<(), &'static str> {
        if !self.rows.contains_key(&oid) {
            return Err("no row of that OID");
        }
        if self.names.get(&name).is_some_and(|&held| held != oid) {
            return Err("the name leads elsewhere");
        }
        self.names.insert(name, oid);
        Ok(())
    }

    pub fn add_column(
        &mut self,
        relation: u32,
        attribute: i16,
        table: Vec<u8>,
        column: Vec<u8>,
    ) -> Result<(), &'static str> {
        if self.tables.get(&relation).is_some_and(|held| *held != table) {
            return Err("the relation has another name");
        }
        if self.columns.get(&(relation, attribute)).is_some_and(|held| *held != column) {
            return Err("the column has another name");
        }
        self.tables.insert(relation, table);
        self.columns.insert((relation, attribute), column);
        Ok(())
    }

    fn to_regtype(&self, name: &[u8]) -> Option<u32> {
        if let Some(oid) = self.names.get(name) {
            return Some(*oid);
        }
        // any number of dimensions is the one array type
        let mut element = name.strip_suffix(b"[]")?;
        while let Some(rest) = element.strip_suffix(b"[]") {
            element = rest;
        }
        match self.rows.get(self.names.get(element)?)?.def.typarray {
            0 => None,
            array => Some(array),
        }
    }
}

/// The rows of the shelf, worked out from type_info.rs.
pub fn shelf() -> Catalog {
    use crate::type_info::PgTypeKind;
    let mut catalog = Catalog::default();
    let all: Vec<(u32, PgType)> =
        (0..5000).filter_map(|n| Some((n, PgType::try_from_oid(Oid(n))?))).collect();
    for (oid, ty) in &all {
        let mut def = RowDef {
            oid: *oid,
            pretty: ty.name().as_bytes().to_vec(),
            typtype: b'b',
            typcategory: b'U',
            ..RowDef::default()
        };
        match ty.kind() {
            PgTypeKind::Array(e) => {
                def.typcategory = b'A';
                def.typelem = e.0.oid().0;
            }
            PgTypeKind::Range(e) => {
                def.typtype = b'r';
                def.rngsubtype = e.0.oid().0;
            }
            PgTypeKind::Pseudo => def.typtype = b'p',
            _ => {}
        }
        for (array, a) in &all {
            if let PgTypeKind::Array(e) = a.kind() {
                if e.0.oid().0 == *oid {
                    def.typarray = *array;
                }
            }
        }
        catalog.add_row(def).expect("the shelf agrees with itself");
    }
    catalog
}

/// array_out: quotes where empty, NULL, or with a brace, quote, backslash, comma or blank.
fn array_out(elements: &[Vec<u8>]) -> Vec<u8> {
    let mut out = vec![b'{'];
    for (i, e) in elements.iter().enumerate() {
        if i > 0 {
            out.push(b',');
        }
        let special = |b: &u8| b"{}\",\\ \t\n\r\x0b\x0c".contains(b);
        if e.is_empty() || e.eq_ignore_ascii_case(b"NULL") || e.iter().any(special) {
            out.push(b'"');
            for &b in e {
                if b == b'"' || b == b'\\' {
                    out.push(b'\\');
                }
                out.push(b);
            }
            out.push(b'"');
        } else {
            out.extend_from_slice(e);
        }
    }
    out.push(b'}');
    out
}

/// record_out: quotes where empty, or with a parenthesis, quote, backslash, comma or blank; the two are doubled.
fn record_out(fields: &[&[u8]]) -> Vec<u8> {
    let mut out = vec![b'('];
    for (i, e) in fields.iter().enumerate() {
        if i > 0 {
            out.push(b',');
        }
        let special = |b: &u8| b"()\",\\ \t\n\r\x0b\x0c".contains(b);
        if e.is_empty() || e.iter().any(special) {
            out.push(b'"');
            for &b in *e {
                if b == b'"' || b == b'\\' {
                    out.push(b);
                }
                out.push(b);
            }
            out.push(b'"');
        } else {
            out.extend_from_slice(e);
        }
    }
    out.push(b')');
    out
}

/// The typname that a row of this pretty name would have (see the head of this file).
pub fn typname(oid: u32, pretty: &[u8]) -> Vec<u8> {
    if let Some(ty) = PgType::try_from_oid(Oid(oid)) {
        return ty.name().as_bytes().to_vec();
    }
    if let Some(element) = pretty.strip_suffix(b"[]") {
        let mut out = vec![b'_'];
        out.extend(bare(element));
        return out;
    }
    bare(pretty)
}

/// The last part of a qualified name, its quotes taken off; the whole where it is not written as one.
fn bare(pretty: &[u8]) -> Vec<u8> {
    let (mut part, mut quoted, mut i) = (Vec::new(), false, 0);
    while i < pretty.len() {
        match pretty[i] {
            b'"' if quoted && pretty.get(i + 1) == Some(&b'"') => {
                part.push(b'"');
                i += 1;
            }
            b'"' => quoted = !quoted,
            b'.' if !quoted => part.clear(),
            b => part.push(b),
        }
        i += 1;
    }
    if quoted || part.is_empty() {
        return pretty.to_vec();
    }
    part
}

enum OidExpr {
    Number(u32),
    Regtype(Vec<u8>),
}

/// Reads the text between VALUES and the frame's tail.
struct Lexer<'a> {
    text: &'a [u8],
    at: usize,
}

impl<'a> Lexer<'a> {
    fn eat(&mut self, word: &str) -> bool {
        let found = self.text[self.at..].starts_with(word.as_bytes());
        if found {
            self.at += word.len();
        }
        found
    }

    fn expect(&mut self, word: &str) -> Result<(), Error> {
        if self.eat(word) {
            return Ok(());
        }
        let near = String::from_utf8_lossy(&self.text[self.at..]);
        refuse(format!("syntax error at or near {:.20?}, expected {word:?}", near))
    }

    fn number(&mut self) -> Result<i64, Error> {
        let start = self.at;
        if self.at < self.text.len() && self.text[self.at] == b'-' {
            self.at += 1;
        }
        while self.at < self.text.len() && self.text[self.at].is_ascii_digit() {
            self.at += 1;
        }
        match std::str::from_utf8(&self.text[start..self.at]).unwrap().parse() {
            Ok(n) => Ok(n),
            Err(_) => refuse("syntax error: a number is wanted"),
        }
    }

    /// The inside of E'...', after the opening quote, to the byte after the closing one.
    fn escape_string(&mut self) -> Result<Vec<u8>, Error> {
        let mut out = Vec::new();
        let mut high: Option<u32> = None; // first half of a surrogate pair
        let mut verify = false;
        loop {
            let Some(&b) = self.text.get(self.at) else {
                return refuse("unterminated quoted string");
            };
            self.at += 1;
            let is_unicode = b == b'\\' && matches!(self.text.get(self.at), Some(b'u' | b'U'));
            if high.is_some() && !is_unicode {
                return refuse("invalid Unicode surrogate pair");
            }
            match b {
                b'\'' if self.text.get(self.at) == Some(&b'\'') => {
                    self.at += 1;
                    out.push(b'\'');
                }
                b'\'' => break,
                b'\\' => {
                    let Some(&e) = self.text.get(self.at) else {
                        return refuse("unterminated quoted string");
                    };
                    self.at += 1;
                    match e {
                        b'b' => out.push(8),
                        b'f' => out.push(12),
                        b'n' => out.push(10),
                        b'r' => out.push(13),
                        b't' => out.push(9),
                        b'0'..=b'7' => {
                            let mut n = (e - b'0') as u32;
                            for _ in 0..2 {
                                match self.text.get(self.at) {
                                    Some(&d @ b'0'..=b'7') => {
                                        n = n * 8 + (d - b'0') as u32;
                                        self.at += 1;
                                    }
                                    _ => break,
                                }
                            }
                            out.push(n as u8);
                            verify |= n as u8 == 0 || n as u8 >= 128;
                        }
                        b'x' if self.hex_at(self.at).is_some() => {
                            let mut n = 0;
                            for _ in 0..2 {
                                match self.hex_at(self.at) {
                                    Some(d) => {
                                        n = n * 16 + d;
                                        self.at += 1;
                                    }
                                    None => break,
                                }
                            }
                            out.push(n as u8);
                            verify |= n as u8 == 0 || n as u8 >= 128;
                        }
                        b'u' | b'U' => {
                            let mut n = 0u32;
                            for _ in 0..if e == b'u' { 4 } else { 8 } {
                                let Some(d) = self.hex_at(self.at) else {
                                    return refuse("invalid Unicode escape");
                                };
                                n = n.wrapping_mul(16).wrapping_add(d);
                                self.at += 1;
                            }
                            let n = match (high.take(), n) {
                                (Some(h), 0xDC00..=0xDFFF) => {
                                    0x10000 + ((h - 0xD800) << 10) + (n - 0xDC00)
                                }
                                (Some(_), _) | (None, 0xDC00..=0xDFFF) => {
                                    return refuse("invalid Unicode surrogate pair")
                                }
                                (None, 0xD800..=0xDBFF) => {
                                    high = Some(n);
                                    continue;
                                }
                                (None, n) => n,
                            };
                            match char::from_u32(n) {
                                Some(c) if n != 0 => {
                                    out.extend(c.encode_utf8(&mut [0; 4]).as_bytes())
                                }
                                _ => return refuse("invalid Unicode escape value"),
                            }
                        }
                        other => out.push(other),
                    }
                }
                0 => return refuse("invalid byte sequence for encoding: 0x00"),
                other => out.push(other),
            }
        }
        if verify && (out.contains(&0) || std::str::from_utf8(&out).is_err()) {
            return refuse("invalid byte sequence for encoding \"UTF8\"");
        }
        Ok(out)
    }

    fn hex_at(&self, at: usize) -> Option<u32> {
        (*self.text.get(at)? as char).to_digit(16)
    }

    fn type_pair(&mut self) -> Result<(Option<Vec<u8>>, OidExpr), Error> {
        self.expect("(")?;
        let name = if self.eat("NULL") {
            None
        } else {
            self.expect("E'")?;
            Some(self.escape_string()?)
        };
        self.expect(", ")?;
        let expr = if self.eat("to_regtype(E'") {
            let text = self.escape_string()?;
            self.expect(")")?;
            self.eat("::oid");
            OidExpr::Regtype(text)
        } else {
            match u32::try_from(self.number()?) {
                Ok(n) => OidExpr::Number(n),
                Err(_) => return refuse("OID out of range"),
            }
        };
        self.expect(")")?;
        Ok((name, expr))
    }

    fn column_pair(&mut self) -> Result<(u32, i16), Error> {
        self.expect("(")?;
        let relation = self.number()?;
        self.expect(", ")?;
        let attribute = self.number()?;
        self.expect(")")?;
        match (u32::try_from(relation), i16::try_from(attribute)) {
            (Ok(r), Ok(a)) => Ok((r, a)),
            _ => refuse("number out of range"),
        }
    }
}

fn describe(fields: &[(&str, u32)]) -> RowDescription {
    RowDescription {
        fields: fields
            .iter()
            .map(|&(name, ty)| Field {
                name: name.to_owned(),
                relation_id: None,
                relation_attribute_no: None,
                data_type_id: Oid(ty),
                data_type_size: -1,
                type_modifier: -1,
                format: 0,
            })
            .collect(),
    }
}

fn data_row<'v>(values: impl ExactSizeIterator<Item = Option<&'v [u8]>>) -> DataRow {
    let mut storage = Vec::with_capacity(128);
    let mut places = Vec::with_capacity(values.len());
    for value in values {
        places.push(value.map(|v| {
            let start = storage.len() as u32;
            storage.extend_from_slice(v);
            start..storage.len() as u32
        }));
    }
    DataRow { storage: Bytes::from(storage), values: places }
}

impl Server {
    pub fn answer(&mut self, sql: &str) -> Result<Answer, Error> {
        let is_type = sql.starts_with("SELECT pg_type.oid,\n");
        let is_column = sql.starts_with("SELECT\nattrelid table_oid,\n");
        assert!(is_type || is_column, "a query that the stand-in does not know: {sql}");
        // a round is a fetch, whether PostgreSQL then refuses it or not
        if is_type {
            self.type_rounds += 1;
        } else {
            self.column_rounds += 1;
        }
        let at = sql.find("FROM (VALUES ").expect("the VALUES list") + "FROM (VALUES ".len();
        let lexer = Lexer { text: sql.as_bytes(), at };
        if is_type {
            self.answer_types(lexer)
        } else {
            self.answer_columns(lexer)
        }
    }

    fn catalog(&self) -> &Catalog {
        if self.use_shelf {
            &self.shelf
        } else {
            &self.rows
        }
    }

    fn answer_types(&self, mut lexer: Lexer) -> Result<Answer, Error> {
        let catalog = self.catalog();
        let mut asked: Vec<(u32, Option<Vec<u8>>)> = Vec::new();
        let mut seen = std::collections::HashSet::new();
        loop {
            let (name, expr) = lexer.type_pair()?;
            let oid = match expr {
                OidExpr::Number(n) => Some(n),
                OidExpr::Regtype(text) => catalog.to_regtype(&text),
            };
            if let Some(oid) = oid {
                if seen.insert(oid) {
                    asked.push((oid, name));
                }
            }
            if !lexer.eat(", ") {
                break;
            }
        }
        if &lexer.text[lexer.at..] != TYPE_TAIL.as_bytes() {
            return refuse("syntax error after the VALUES list");
        }
        if self.by_oid {
            asked.sort_by_key(|(oid, _)| *oid);
        }
        let rows = asked
            .iter()
            .filter_map(|(oid, name)| {
                let row = catalog.rows.get(oid)?;
                Some(data_row(row.texts.iter().enumerate().map(|(i, text)| {
                    if i == 3 {
                        name.as_deref()
                    } else {
                        text.as_deref()
                    }
                })))
            })
            .collect();
        Ok(Answer { description: describe(&TYPE_FIELDS), rows })
    }

    fn answer_columns(&self, mut lexer: Lexer) -> Result<Answer, Error> {
        let catalog = self.catalog();
        let mut groups: Vec<(u32, Vec<Vec<u8>>)> = Vec::new();
        let mut places: HashMap<u32, usize> = HashMap::new();
        loop {
            let (relation, attribute) = lexer.column_pair()?;
            if let Some(name) = catalog.columns.get(&(relation, attribute)) {
                let at = *places.entry(relation).or_insert_with(|| {
                    groups.push((relation, Vec::new()));
                    groups.len() - 1
                });
                groups[at].1.push(record_out(&[attribute.to_string().as_bytes(), name]));
            }
            if !lexer.eat(", ") {
                break;
            }
        }
        if &lexer.text[lexer.at..] != COLUMN_TAIL.as_bytes() {
            return refuse("syntax error after the VALUES list");
        }
        let rows = groups
            .iter()
            .map(|(relation, records)| {
                let (oid, columns) = (relation.to_string().into_bytes(), array_out(records));
                let values = [oid.as_slice(), &catalog.tables[relation], &columns];
                data_row(values.into_iter().map(Some))
            })
            .collect();
        Ok(Answer { description: describe(&COLUMN_FIELDS), rows })
    }
}
