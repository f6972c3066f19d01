//! Reads a script and carries it out on the original files.
//!
//! Answers are printed as `typebook` prints them, but without allowance (the Rust has none), and an error as
//! `VERB: refused KIND rounds R`, KIND being Protocol, TypeNotFound NAME, or other. What the Rust cannot be asked
//! (a name that is not UTF-8, a span outside the host text) is answered `VERB: not expressible: WHY`.
use super::block_on;
use super::server::{shelf, RowDef, Server};
use crate::column::ColumnIndex;
use crate::error::Error;
use crate::message::{BackendMessage, Field, ParameterDescription, RowDescription};
use crate::statement::PgStatementMetadata;
use crate::type_info::{PgArrayOf, PgType, PgTypeKind};
use crate::types::Oid;
use crate::ext::ustr::UStr;
use crate::{PgConnection, PgStatement, PgTypeInfo};
use sqlx_core::bytes::Bytes;
use sqlx_core::column::ColumnOrigin;
use sqlx_core::sql_str::SqlStr;
use std::collections::HashSet;
use std::fmt::Write as _;
use std::io::Write as _;
use std::sync::{Arc, Mutex};

type Understood<T> = Result<T, String>;

struct Session {
    server: Arc<Mutex<Server>>,
    connection: PgConnection,
    bound: Option<(PgStatement, Vec<u8>)>,
    refused: usize,
}

/// A name of a line: its bytes, or a span of the line's host text.
enum Name {
    Bytes(Vec<u8>),
    Span(u64, u64),
}

fn number<T: std::str::FromStr>(word: &[u8]) -> Understood<T> {
    let digits = word.strip_prefix(b"-").unwrap_or(word);
    if digits.is_empty() || !digits.iter().all(u8::is_ascii_digit) {
        return Err("a number is wanted".into());
    }
    let text = std::str::from_utf8(word).unwrap();
    text.parse().map_err(|_| "a number is out of range".into())
}

fn name_bytes(word: &[u8]) -> Understood<Vec<u8>> {
    if word == b"%-" {
        return Ok(Vec::new());
    }
    let mut out = Vec::new();
    let mut i = 0;
    while i < word.len() {
        if word[i] == b'%' {
            let hex = word.get(i + 1..i + 3).and_then(|h| std::str::from_utf8(h).ok());
            let hex = hex.filter(|h| h.bytes().all(|b| b.is_ascii_hexdigit()));
            out.push(u8::from_str_radix(hex.ok_or("a bad escape")?, 16).unwrap());
            i += 3;
        } else if (0x21..=0x7e).contains(&word[i]) {
            out.push(word[i]);
            i += 1;
        } else {
            return Err("a byte that must be escaped".into());
        }
    }
    Ok(out)
}

fn name(word: &[u8]) -> Understood<Name> {
    if let Some(span) = word.strip_prefix(b"@") {
        let plus = span.iter().position(|&b| b == b'+').ok_or("a span is @START+LENGTH")?;
        return Ok(Name::Span(number(&span[..plus])?, number(&span[plus + 1..])?));
    }
    name_bytes(word).map(Name::Bytes)
}

/// The names of a line laid into its host text, and each one's bytes; nothing where a span lies outside.
fn lay(names: Vec<Name>) -> (Vec<u8>, Vec<Option<Vec<u8>>>) {
    let mut host = Vec::new();
    for name in &names {
        if let Name::Bytes(bytes) = name {
            host.extend_from_slice(bytes);
        }
    }
    let all = names
        .into_iter()
        .map(|name| match name {
            Name::Bytes(bytes) => Some(bytes),
            Name::Span(start, length) => {
                let end = start.checked_add(length)?;
                host.get(usize::try_from(start).ok()?..usize::try_from(end).ok()?).map(<[u8]>::to_vec)
            }
        })
        .collect();
    (host, all)
}

pub fn shown(bytes: &[u8]) -> String {
    if bytes.is_empty() {
        return "%-".into();
    }
    let mut out = String::new();
    for (i, &b) in bytes.iter().enumerate() {
        if b == b'%' || !(0x21..=0x7e).contains(&b) || (i == 0 && b == b'@') {
            write!(out, "%{b:02X}").unwrap();
        } else {
            out.push(b as char);
        }
    }
    out
}

fn head(ty: &PgTypeInfo) -> String {
    let (oid, name) = (ty.0.oid().0, shown(ty.0.name().as_bytes()));
    match ty.kind() {
        PgTypeKind::Simple => format!("{oid} {name} simple"),
        PgTypeKind::Pseudo => format!("{oid} {name} pseudo"),
        PgTypeKind::Domain(of) => format!("{oid} {name} domain of {}", of.0.oid().0),
        PgTypeKind::Array(of) => format!("{oid} {name} array of {}", of.0.oid().0),
        PgTypeKind::Range(of) => format!("{oid} {name} range of {}", of.0.oid().0),
        PgTypeKind::Enum(_) => format!("{oid} {name} enum"),
        PgTypeKind::Composite(_) => format!("{oid} {name} composite"),
    }
}

fn tree(ty: &PgTypeInfo, depth: usize, seen: &mut HashSet<u32>, out: &mut String) {
    let indent = "  ".repeat(depth);
    if depth > 0 {
        out.push_str(&indent);
    }
    out.push_str(&head(ty));
    let PgType::Custom(custom) = &ty.0 else {
        out.push('\n');
        return;
    };
    let has_parts = !matches!(custom.kind, PgTypeKind::Simple | PgTypeKind::Pseudo);
    if has_parts && !seen.insert(custom.oid.0) {
        out.push_str(" (above)\n");
        return;
    }
    out.push('\n');
    match &custom.kind {
        PgTypeKind::Simple | PgTypeKind::Pseudo => {}
        PgTypeKind::Domain(of) | PgTypeKind::Array(of) | PgTypeKind::Range(of) => {
            tree(of, depth + 1, seen, out)
        }
        PgTypeKind::Enum(labels) => {
            for label in labels.iter() {
                writeln!(out, "{indent}  label {}", shown(label.as_bytes())).unwrap();
            }
        }
        PgTypeKind::Composite(attributes) => {
            for (name, ty) in attributes.iter() {
                writeln!(out, "{indent}  attribute {}", shown(name.as_bytes())).unwrap();
                tree(ty, depth + 2, seen, out);
            }
        }
    }
}

fn typed(ty: &PgTypeInfo) -> String {
    match &ty.0 {
        PgType::DeclareWithOid(oid) => format!("declared {}", oid.0),
        settled => format!("settled {} {}", settled.oid().0, shown(settled.name().as_bytes())),
    }
}

fn refusal(error: &Error) -> String {
    match error {
        Error::Protocol(_) => "Protocol".into(),
        Error::TypeNotFound { type_name } => {
            format!("TypeNotFound {}", shown(type_name.as_bytes()))
        }
        _ => "other".into(),
    }
}

enum Entry {
    Oid(u32),
    Name(Name),
    Array(Name),
}

fn entry(word: &[u8]) -> Understood<Entry> {
    if let Some(n) = word.strip_prefix(b"oid:") {
        return Ok(Entry::Oid(number(n)?));
    }
    if let Some(n) = word.strip_prefix(b"name:") {
        return Ok(Entry::Name(name(n)?));
    }
    if let Some(n) = word.strip_prefix(b"array:") {
        return Ok(Entry::Array(name(n)?));
    }
    Err("an entry is oid:N, name:NAME or array:NAME".into())
}

/// A declared type as its constructors make it (`with_name`, `array_of` and `with_oid` want static text).
fn declared(entry: &Entry, text: Option<String>) -> PgTypeInfo {
    PgTypeInfo(match entry {
        Entry::Oid(oid) => PgType::DeclareWithOid(Oid(*oid)),
        Entry::Name(_) => PgType::DeclareWithName(UStr::from(text.unwrap())),
        Entry::Array(_) => {
            let elem = text.unwrap();
            PgType::DeclareArrayOf(Arc::new(PgArrayOf {
                name: format!("{elem}[]").into(),
                elem_name: UStr::from(elem),
            }))
        }
    })
}

fn entry_name(entry: &Entry) -> Name {
    match entry {
        Entry::Oid(_) => Name::Bytes(Vec::new()),
        Entry::Name(Name::Span(a, b)) | Entry::Array(Name::Span(a, b)) => Name::Span(*a, *b),
        Entry::Name(Name::Bytes(b)) | Entry::Array(Name::Bytes(b)) => Name::Bytes(b.clone()),
    }
}

fn exactly(words: &[&[u8]], n: usize) -> Understood<()> {
    if words.len() == n {
        Ok(())
    } else {
        Err("too few or too many words".into())
    }
}

impl Session {
    fn new(by_oid: bool) -> Self {
        let server = Arc::new(Mutex::new(Server { by_oid, shelf: shelf(), ..Server::default() }));
        let connection = PgConnection::over(server.clone());
        Session { server, connection, bound: None, refused: 0 }
    }

    fn rounds(&mut self) -> (u32, u32) {
        let mut server = self.server.lock().unwrap();
        (std::mem::take(&mut server.type_rounds), std::mem::take(&mut server.column_rounds))
    }

    fn refuse(&mut self, verb: &str, error: &Error) -> String {
        self.refused += 1;
        let (types, columns) = self.rounds();
        format!("{verb}: refused {} rounds {}\n", refusal(error), types + columns)
    }

    fn known(&mut self, oid: u32) -> Option<PgTypeInfo> {
        block_on(self.connection.known(Oid(oid))).expect("no query is made")
    }

    fn line(&mut self, verb: &str, words: &[&[u8]]) -> Understood<String> {
        match verb {
            "book" => {
                self.connection = PgConnection::over(self.server.clone());
                self.bound = None;
                Ok("book: new connection\n".into())
            }
            "use" => {
                exactly(words, 1)?;
                self.server.lock().unwrap().use_shelf = match words[0] {
                    b"rows" => false,
                    b"shelf" => true,
                    _ => return Err("rows or shelf".into()),
                };
                Ok(format!("use: {}\n", shown(words[0])))
            }
            "allowance" => Ok("allowance: ignored\n".into()),
            "row" => self.row(words),
            "name" => {
                exactly(words, 2)?;
                let (_, names) = lay(vec![name(words[0])?]);
                let oid = number(words[1])?;
                let mut server = self.server.lock().unwrap();
                Ok(match names.into_iter().next().unwrap() {
                    None => "name: not expressible: a span outside the host text\n".into(),
                    Some(n) => match server.rows.add_name(n, oid) {
                        Ok(()) => "name: ok\n".into(),
                        Err(why) => format!("name: refused ({why})\n"),
                    },
                })
            }
            "column" => {
                exactly(words, 4)?;
                let (relation, attribute) = (number(words[0])?, number(words[1])?);
                let (_, names) = lay(vec![name(words[2])?, name(words[3])?]);
                let mut server = self.server.lock().unwrap();
                let mut names = names.into_iter();
                Ok(match (names.next().unwrap(), names.next().unwrap()) {
                    (Some(table), Some(column)) => {
                        match server.rows.add_column(relation, attribute, table, column) {
                            Ok(()) => "column: ok\n".into(),
                            Err(why) => format!("column: refused ({why})\n"),
                        }
                    }
                    _ => "column: not expressible: a span outside the host text\n".into(),
                })
            }
            "fill" => {
                let oids: Vec<u32> = words.iter().map(|w| number(w)).collect::<Result<_, _>>()?;
                let parameters = ParameterDescription { types: oids.into_iter().map(Oid).collect() };
                match block_on(self.connection.bind(true, Some(parameters), None, false)) {
                    Ok(_) => Ok(format!("fill: ok rounds {}\n", self.rounds().0)),
                    Err(e) => Ok(self.refuse("fill", &e)),
                }
            }
            "resolve" => self.resolve(words),
            "bind" => self.bind(words),
            "describe" => {
                exactly(words, 1)?;
                Ok(match self.known(number(words[0])?) {
                    None => "describe: nothing\n".into(),
                    Some(ty) => {
                        let mut out = String::from("describe: ");
                        tree(&ty, 0, &mut HashSet::new(), &mut out);
                        out
                    }
                })
            }
            "ordinal" => {
                exactly(words, 1)?;
                let wanted = name(words[0])?;
                let found = self.bound.as_ref().and_then(|(statement, host)| {
                    let bytes = match wanted {
                        Name::Bytes(b) => b,
                        Name::Span(start, length) => {
                            let end = usize::try_from(start.checked_add(length)?).ok()?;
                            host.get(usize::try_from(start).ok()?..end)?.to_vec()
                        }
                    };
                    std::str::from_utf8(&bytes).ok()?.index(statement).ok()
                });
                Ok(match found {
                    Some(n) => format!("ordinal: {n}\n"),
                    None => "ordinal: nothing\n".into(),
                })
            }
            "element" => {
                exactly(words, 1)?;
                let entry = entry(words[0])?;
                if matches!(&entry, Entry::Name(Name::Span(..)) | Entry::Array(Name::Span(..))) {
                    return Err("no span here".into());
                }
                let (_, names) = lay(vec![entry_name(&entry)]);
                let Ok(text) = String::from_utf8(names.into_iter().next().unwrap().unwrap()) else {
                    return Ok("element: not expressible: not UTF-8\n".into());
                };
                let ty = declared(&entry, Some(text));
                let element = ty.0.try_array_element();
                Ok(match element {
                    None => "element: nothing\n".into(),
                    Some(e) => format!("element: name {}\n", shown(e.0.name().as_bytes())),
                })
            }
            "element-of" => {
                exactly(words, 1)?;
                let ty = self.known(number(words[0])?);
                let element = ty.as_ref().and_then(|ty| ty.0.try_array_element());
                Ok(match element {
                    None => "element-of: nothing\n".into(),
                    Some(e) => format!("element-of: {}\n", head(&e)),
                })
            }
            "builtin" => {
                exactly(words, 1)?;
                Ok(match PgTypeInfo::try_from_oid(Oid(number(words[0])?)) {
                    None => "builtin: nothing\n".into(),
                    Some(ty) => format!("builtin: {}\n", head(&ty)),
                })
            }
            "builtin-name" => {
                exactly(words, 1)?;
                let wanted = name_bytes(words[0])?;
                let found = (0..5000)
                    .filter_map(|n| PgTypeInfo::try_from_oid(Oid(n)))
                    .find(|ty| ty.0.name().as_bytes() == wanted);
                Ok(match found {
                    None => "builtin: nothing\n".into(),
                    Some(ty) => format!("builtin: {}\n", head(&ty)),
                })
            }
            _ => Err("no such line".into()),
        }
    }

    fn row(&mut self, words: &[&[u8]]) -> Understood<String> {
        if words.len() < 8 {
            return Err("too few or too many words".into());
        }
        let oid = number(words[0])?;
        let mut names = vec![name(words[1])?];
        let code = |word: &[u8]| match name_bytes(word)?.as_slice() {
            [b] => Ok(*b),
            _ => Err("a code is one byte".to_string()),
        };
        let (typtype, typcategory) = (code(words[2])?, code(words[3])?);
        let links: Vec<u32> = words[4..8].iter().map(|w| number(w)).collect::<Result<_, _>>()?;
        let mut rest = &words[8..];
        let mut labels = 0;
        if rest.first() == Some(&&b"labels"[..]) {
            rest = &rest[1..];
            while let Some(word) = rest.first().filter(|w| **w != b"attributes") {
                names.push(name(word)?);
                labels += 1;
                rest = &rest[1..];
            }
        }
        let mut types: Vec<u32> = Vec::new();
        if rest.first() == Some(&&b"attributes"[..]) {
            rest = &rest[1..];
            while !rest.is_empty() {
                if rest.len() < 2 {
                    return Err("an attribute is NAME OID".into());
                }
                names.push(name(rest[0])?);
                types.push(number(rest[1])?);
                rest = &rest[2..];
            }
        }
        if !rest.is_empty() {
            return Err("too few or too many words".into());
        }
        let (_, names) = lay(names);
        let Some(names) = names.into_iter().collect::<Option<Vec<_>>>() else {
            return Ok("row: not expressible: a span outside the host text\n".into());
        };
        let mut names = names.into_iter();
        let pretty = names.next().unwrap();
        let labels = names.by_ref().take(labels).collect();
        let def = RowDef {
            oid,
            pretty,
            typtype,
            typcategory,
            typelem: links[0],
            typbasetype: links[1],
            rngsubtype: links[2],
            typarray: links[3],
            labels,
            attributes: names.zip(types).collect(),
        };
        Ok(match self.server.lock().unwrap().rows.add_row(def) {
            Ok(()) => "row: ok\n".into(),
            Err(why) => format!("row: refused ({why})\n"),
        })
    }

    fn resolve(&mut self, words: &[&[u8]]) -> Understood<String> {
        let words = match words.first().and_then(|w| w.strip_prefix(b"out=")) {
            Some(n) => {
                number::<u32>(n)?;
                &words[1..]
            }
            None => words,
        };
        let entries: Vec<Entry> = words.iter().map(|w| entry(w)).collect::<Result<_, _>>()?;
        let (_, names) = lay(entries.iter().map(entry_name).collect());
        let mut types = Vec::new();
        for (entry, name) in entries.iter().zip(names) {
            let Some(bytes) = name else {
                return Ok("resolve: not expressible: a span outside the host text\n".into());
            };
            let Ok(text) = String::from_utf8(bytes) else {
                return Ok("resolve: not expressible: a name is not UTF-8\n".into());
            };
            types.push(declared(entry, Some(text)));
        }
        match block_on(self.connection.resolve_types(&types)) {
            Ok(oids) => {
                let mut out = format!("resolve: ok rounds {} oids", self.rounds().0);
                for oid in oids {
                    write!(out, " {}", oid.0).unwrap();
                }
                out.push('\n');
                Ok(out)
            }
            Err(e) => Ok(self.refuse("resolve", &e)),
        }
    }

    fn bind(&mut self, words: &[&[u8]]) -> Understood<String> {
        let mut rest = words;
        let mut next = |options: &[&str]| -> Understood<bool> {
            let word = *rest.first().ok_or("too few words")?;
            rest = &rest[1..];
            match options.iter().position(|o| o.as_bytes() == word) {
                Some(i) => Ok(i == 0),
                None => Err(format!("{} is wanted", options.join(" or "))),
            }
        };
        let queries = next(&["queries=yes", "queries=no"])?;
        let origins = next(&["origins=yes", "origins=no"])?;
        for option in [&b"parameters="[..], b"columns="] {
            if let Some(n) = rest.first().and_then(|w| w.strip_prefix(option)) {
                number::<u32>(n)?;
                rest = &rest[1..];
            }
        }
        if rest.first() != Some(&&b"parameters"[..]) {
            return Err("parameters is wanted".into());
        }
        let fields = rest
            .iter()
            .position(|w| *w == b"fields")
            .ok_or("fields is wanted")?;
        let parameters: Vec<u32> =
            rest[1..fields].iter().map(|w| number(w)).collect::<Result<_, _>>()?;
        let words = &rest[fields + 1..];
        if words.len() % 4 != 0 {
            return Err("a field is NAME TYPE RELATION ATTRIBUTE".into());
        }
        let mut names = Vec::new();
        let mut numbers: Vec<(u32, u32, i16)> = Vec::new();
        for field in words.chunks(4) {
            names.push(name(field[0])?);
            numbers.push((number(field[1])?, number(field[2])?, number(field[3])?));
        }
        let (host, names) = lay(names);
        let mut texts = Vec::new();
        for name in names {
            let Some(bytes) = name else {
                return Ok("bind: not expressible: a span outside the host text\n".into());
            };
            let Ok(text) = String::from_utf8(bytes) else {
                return Ok("bind: not expressible: a name is not UTF-8\n".into());
            };
            texts.push(text);
        }
        if parameters.len() > 65535 || texts.len() > 65535 {
            return Ok("bind: not expressible: more entries than a message holds\n".into());
        }
        // as the two messages that PostgreSQL sends, through the originals' decoders
        let mut body = (parameters.len() as u16).to_be_bytes().to_vec();
        parameters.iter().for_each(|oid| body.extend(oid.to_be_bytes()));
        let parameters = ParameterDescription::decode_body(Bytes::from(body)).expect("well formed");
        let rows = if texts.iter().any(|t| t.contains('\0')) {
            // no such message; the description itself can still be made
            RowDescription {
                fields: texts
                    .iter()
                    .zip(&numbers)
                    .map(|(text, &(ty, relation, attribute))| Field {
                        name: text.clone(),
                        relation_id: (relation != 0).then_some(Oid(relation)),
                        relation_attribute_no: (attribute != 0).then_some(attribute),
                        data_type_id: Oid(ty),
                        data_type_size: -1,
                        type_modifier: -1,
                        format: 0,
                    })
                    .collect(),
            }
        } else {
            let mut body = (texts.len() as u16).to_be_bytes().to_vec();
            for (text, &(ty, relation, attribute)) in texts.iter().zip(&numbers) {
                body.extend(text.as_bytes());
                body.push(0);
                body.extend(relation.to_be_bytes());
                body.extend(attribute.to_be_bytes());
                body.extend(ty.to_be_bytes());
                body.extend((-1i16).to_be_bytes());
                body.extend((-1i32).to_be_bytes());
                body.extend(0i16.to_be_bytes());
            }
            RowDescription::decode_body(Bytes::from(body)).expect("well formed")
        };
        match block_on(self.connection.bind(queries, Some(parameters), Some(rows), origins)) {
            Ok(metadata) => {
                let (types, columns) = self.rounds();
                let mut out = format!("bind: ok rounds {types} {columns}\n");
                print_bound(&metadata, &mut out);
                let statement = PgStatement { sql: SqlStr(String::new()), metadata };
                self.bound = Some((statement, host));
                Ok(out)
            }
            Err(e) => Ok(self.refuse("bind", &e)),
        }
    }
}

fn print_bound(metadata: &PgStatementMetadata, out: &mut String) {
    for (i, ty) in metadata.parameters.iter().enumerate() {
        writeln!(out, "  parameter {i} {}", typed(ty)).unwrap();
    }
    for column in &metadata.columns {
        let origin = match &column.origin {
            ColumnOrigin::Expression => "expression".to_string(),
            ColumnOrigin::Unknown => "unknown".to_string(),
            ColumnOrigin::Table(t) => {
                format!("table {} {}", shown(t.table.as_bytes()), shown(t.name.as_bytes()))
            }
        };
        writeln!(
            out,
            "  column {} {} {} {origin} relation {} attribute {}",
            column.ordinal,
            shown(column.name.as_bytes()),
            typed(&column.type_info),
            column.relation_id.map_or(0, |r| r.0),
            column.relation_attribute_no.unwrap_or(0),
        )
        .unwrap();
    }
}

pub fn run(text: &[u8], by_oid: bool) -> i32 {
    let mut session = Session::new(by_oid);
    let mut out = std::io::BufWriter::new(std::io::stdout().lock());
    let (mut lines, mut not_understood) = (0, 0);
    let text = text.strip_suffix(b"\n").unwrap_or(text);
    for (i, line) in text.split(|&b| b == b'\n').enumerate() {
        let words: Vec<&[u8]> = line.split(|&b| b == b' ').filter(|w| !w.is_empty()).collect();
        if words.is_empty() || words[0].starts_with(b"#") {
            continue;
        }
        lines += 1;
        out.write_all(b"> ").unwrap();
        out.write_all(line).unwrap();
        out.write_all(b"\n").unwrap();
        let verb = String::from_utf8_lossy(words[0]).into_owned();
        match session.line(&verb, &words[1..]) {
            Ok(answer) => out.write_all(answer.as_bytes()).unwrap(),
            Err(why) => {
                not_understood += 1;
                writeln!(out, "line {}: not understood: {why}", i + 1).unwrap();
            }
        }
    }
    writeln!(out, "{lines} lines, {} refused, {not_understood} not understood", session.refused).unwrap();
    out.flush().unwrap();
    i32::from(not_understood > 0)
}
