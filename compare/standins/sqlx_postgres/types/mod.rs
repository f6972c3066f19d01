//! Stand-in for types/mod.rs and the files str.rs, int.rs and record.rs; oid.rs and array.rs are originals.
//! Everything is decoded in the text format, as a raw query's answer comes.
use crate::decode::Decode;
use crate::error::BoxDynError;
use crate::{PgTypeInfo, PgValueRef, Postgres};
use std::sync::Arc;

mod array;
mod oid;

pub use array::PgHasArrayType;
pub use oid::Oid;
pub(crate) use sqlx_core::types::Type;

impl Type<Postgres> for str {
    fn type_info() -> PgTypeInfo {
        PgTypeInfo::TEXT
    }
    fn compatible(ty: &PgTypeInfo) -> bool {
        [
            PgTypeInfo::TEXT,
            PgTypeInfo::NAME,
            PgTypeInfo::BPCHAR,
            PgTypeInfo::VARCHAR,
            PgTypeInfo::UNKNOWN,
        ]
        .contains(ty)
    }
}
impl Type<Postgres> for String {
    fn type_info() -> PgTypeInfo {
        PgTypeInfo::TEXT
    }
    fn compatible(ty: &PgTypeInfo) -> bool {
        <str as Type<Postgres>>::compatible(ty)
    }
}
impl Type<Postgres> for Arc<str> {
    fn type_info() -> PgTypeInfo {
        PgTypeInfo::TEXT
    }
    fn compatible(ty: &PgTypeInfo) -> bool {
        <str as Type<Postgres>>::compatible(ty)
    }
}
impl PgHasArrayType for String {
    fn array_type_info() -> PgTypeInfo {
        PgTypeInfo::TEXT_ARRAY
    }
    fn array_compatible(ty: &PgTypeInfo) -> bool {
        [
            PgTypeInfo::TEXT_ARRAY,
            PgTypeInfo::NAME_ARRAY,
            PgTypeInfo::BPCHAR_ARRAY,
            PgTypeInfo::VARCHAR_ARRAY,
        ]
        .contains(ty)
    }
}
impl Decode<'_, Postgres> for String {
    fn decode(value: PgValueRef<'_>) -> Result<Self, BoxDynError> {
        Ok(value.as_str()?.to_owned())
    }
}
impl Decode<'_, Postgres> for Arc<str> {
    fn decode(value: PgValueRef<'_>) -> Result<Self, BoxDynError> {
        Ok(value.as_str()?.into())
    }
}

impl Type<Postgres> for i8 {
    fn type_info() -> PgTypeInfo {
        PgTypeInfo::CHAR
    }
}
impl Decode<'_, Postgres> for i8 {
    // in the text format the value 0 is an empty string
    fn decode(value: PgValueRef<'_>) -> Result<Self, BoxDynError> {
        Ok(value.as_bytes()?.first().copied().unwrap_or_default() as i8)
    }
}
impl Type<Postgres> for i16 {
    fn type_info() -> PgTypeInfo {
        PgTypeInfo::INT2
    }
}
impl Decode<'_, Postgres> for i16 {
    fn decode(value: PgValueRef<'_>) -> Result<Self, BoxDynError> {
        Ok(value.as_str()?.parse()?)
    }
}

impl<T1, T2> Type<Postgres> for (T1, T2) {
    fn type_info() -> PgTypeInfo {
        PgTypeInfo::RECORD
    }
}
impl<T1, T2> PgHasArrayType for (T1, T2) {
    fn array_type_info() -> PgTypeInfo {
        PgTypeInfo::RECORD_ARRAY
    }
}
impl<'r, T1, T2> Decode<'r, Postgres> for (T1, T2)
where
    T1: for<'a> Decode<'a, Postgres> + Type<Postgres>,
    T2: for<'a> Decode<'a, Postgres> + Type<Postgres>,
{
    fn decode(value: PgValueRef<'r>) -> Result<Self, BoxDynError> {
        let text = value.as_bytes()?;
        let inner = text
            .strip_prefix(b"(")
            .and_then(|t| t.strip_suffix(b")"))
            .ok_or("a record is not in parentheses")?;
        let mut at = inner;
        let first = record_field(&mut at);
        let second = record_field(&mut at);
        if !at.is_empty() {
            return Err("a record has more than two fields".into());
        }
        Ok((
            T1::decode(text_value(first.as_deref(), T1::type_info()))?,
            T2::decode(text_value(second.as_deref(), T2::type_info()))?,
        ))
    }
}
fn text_value(value: Option<&[u8]>, type_info: PgTypeInfo) -> PgValueRef<'_> {
    PgValueRef {
        value,
        row: None,
        type_info,
        format: crate::PgValueFormat::Text,
    }
}

/// One field of `record_out`'s text: quoted where needed, `""` and `\\` doubled inside; nothing at all is NULL.
fn record_field(at: &mut &[u8]) -> Option<Vec<u8>> {
    let mut out = Vec::new();
    let (mut i, mut quoted, mut any) = (0, false, false);
    while i < at.len() {
        match at[i] {
            b'\\' if i + 1 < at.len() => {
                i += 1;
                out.push(at[i]);
                any = true;
            }
            b'"' if quoted && at.get(i + 1) == Some(&b'"') => {
                i += 1;
                out.push(b'"');
            }
            b'"' => {
                quoted = !quoted;
                any = true;
            }
            b',' if !quoted => {
                *at = &at[i + 1..];
                return any.then_some(out);
            }
            b => {
                out.push(b);
                any = true;
            }
        }
        i += 1;
    }
    *at = &[];
    any.then_some(out)
}
