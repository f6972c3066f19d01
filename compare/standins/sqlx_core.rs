//! Stand-in for the parts of `sqlx-core` 0.9 that the ten original files of sqlx-postgres 0.9.0 name, over std only.
//!
//! Where behaviour matters for an answer (`UStr`, `HashMap`, `Row::try_get`, `Option` decoding, the cases of errors) it is
//! written from memory of the published crate and was not compared with it; all else is there so that the originals compile.

/// What `use sqlx_core::driver_prelude::*` gives a driver crate.
pub mod driver_prelude {
    pub use crate::{common, decode, encode, error, ext, from_row, raw_sql, sql_str, transaction};
    pub use crate::{Either, HashMap};
}

#[macro_export]
macro_rules! err_protocol {
    ($($fmt_args:tt)*) => {
        $crate::error::Error::Protocol(format!(
            "{} (at {}:{})",
            format_args!($($fmt_args)*),
            module_path!(),
            line!(),
        ))
    };
}

/// The query methods of a statement: no statement is run here.
#[macro_export]
macro_rules! impl_statement_query {
    ($A:ty) => {};
}

pub enum Either<L, R> {
    Left(L),
    Right(R),
}

pub use hash_map::HashMap;

/// `hashbrown::HashMap` as far as it is used, over std's map.
pub mod hash_map {
    use std::borrow::Borrow;
    use std::collections::hash_map as std_map;
    use std::hash::Hash;
    use std::ops::{Deref, DerefMut};

    #[derive(Clone)]
    pub struct HashMap<K, V>(std_map::HashMap<K, V>);

    impl<K, V> Default for HashMap<K, V> {
        fn default() -> Self {
            HashMap(std_map::HashMap::new())
        }
    }
    impl<K: std::fmt::Debug, V: std::fmt::Debug> std::fmt::Debug for HashMap<K, V> {
        fn fmt(&self, f: &mut std::fmt::Formatter<'_>) -> std::fmt::Result {
            self.0.fmt(f)
        }
    }
    impl<K, V> Deref for HashMap<K, V> {
        type Target = std_map::HashMap<K, V>;
        #[inline]
        fn deref(&self) -> &Self::Target {
            &self.0
        }
    }
    impl<K, V> DerefMut for HashMap<K, V> {
        #[inline]
        fn deref_mut(&mut self) -> &mut Self::Target {
            &mut self.0
        }
    }

    impl<K: Eq + Hash, V> HashMap<K, V> {
        pub fn new() -> Self {
            Self::default()
        }
        pub fn with_capacity(n: usize) -> Self {
            HashMap(std_map::HashMap::with_capacity(n))
        }
        pub fn entry_ref<'a, 'b, Q: ?Sized>(&'a mut self, key: &'b Q) -> EntryRef<'a, 'b, K, Q, V> {
            EntryRef { map: self, key }
        }
    }

    pub struct EntryRef<'a, 'b, K, Q: ?Sized, V> {
        map: &'a mut HashMap<K, V>,
        key: &'b Q,
    }
    impl<'a, 'b, K, Q: ?Sized, V> EntryRef<'a, 'b, K, Q, V>
    where
        K: Eq + Hash + Borrow<Q> + From<&'b Q>,
        Q: Eq + Hash,
    {
        pub fn or_insert(self, value: V) -> &'a mut V {
            if !self.map.contains_key(self.key) {
                self.map.insert(K::from(self.key), value);
            }
            self.map.get_mut(self.key).unwrap()
        }
    }
}

pub mod ext {
    pub mod ustr {
        use std::borrow::Borrow;
        use std::fmt::{self, Debug, Display, Formatter};
        use std::hash::{Hash, Hasher};
        use std::ops::Deref;
        use std::sync::Arc;

        /// Micro string: a static or a shared one.
        #[derive(Clone, Eq)]
        pub enum UStr {
            Static(&'static str),
            Shared(Arc<str>),
        }

        impl UStr {
            pub fn new(s: &str) -> Self {
                UStr::Shared(Arc::from(s.to_owned()))
            }
            pub fn strip_prefix(this: &Self, prefix: &str) -> Option<Self> {
                match this {
                    UStr::Static(s) => s.strip_prefix(prefix).map(Self::Static),
                    UStr::Shared(s) => s.strip_prefix(prefix).map(|s| Self::Shared(s.into())),
                }
            }
        }
        impl Deref for UStr {
            type Target = str;
            #[inline]
            fn deref(&self) -> &str {
                match self {
                    UStr::Static(s) => s,
                    UStr::Shared(s) => s,
                }
            }
        }
        impl Hash for UStr {
            #[inline]
            fn hash<H: Hasher>(&self, state: &mut H) {
                (**self).hash(state);
            }
        }
        impl Borrow<str> for UStr {
            #[inline]
            fn borrow(&self) -> &str {
                self
            }
        }
        impl PartialEq<UStr> for UStr {
            #[inline]
            fn eq(&self, other: &UStr) -> bool {
                (**self).eq(&**other)
            }
        }
        impl From<&'static str> for UStr {
            fn from(s: &'static str) -> Self {
                UStr::Static(s)
            }
        }
        impl<'a> From<&'a UStr> for UStr {
            fn from(s: &'a UStr) -> Self {
                s.clone()
            }
        }
        impl From<String> for UStr {
            fn from(s: String) -> Self {
                UStr::Shared(s.into())
            }
        }
        impl Debug for UStr {
            fn fmt(&self, f: &mut Formatter<'_>) -> fmt::Result {
                f.pad(self)
            }
        }
        impl Display for UStr {
            fn fmt(&self, f: &mut Formatter<'_>) -> fmt::Result {
                f.pad(self)
            }
        }
    }
}

pub mod error {
    pub type BoxDynError = Box<dyn std::error::Error + 'static + Send + Sync>;

    /// The cases that the originals or the stand-ins make.
    #[derive(Debug)]
    pub enum Error {
        /// What PostgreSQL itself answers as an error (here: the stand-in server).
        Database(String),
        Protocol(String),
        TypeNotFound { type_name: String },
        ColumnNotFound(String),
        ColumnDecode { index: String, source: BoxDynError },
    }
    impl std::fmt::Display for Error {
        fn fmt(&self, f: &mut std::fmt::Formatter<'_>) -> std::fmt::Result {
            match self {
                Error::Database(s) => write!(f, "error returned from database: {s}"),
                Error::Protocol(s) => write!(f, "encountered unexpected or invalid data: {s}"),
                Error::TypeNotFound { type_name } => write!(f, "type named {type_name} not found"),
                Error::ColumnNotFound(s) => write!(f, "no column found for name: {s}"),
                Error::ColumnDecode { index, source } => {
                    write!(f, "error occurred while decoding column {index}: {source}")
                }
            }
        }
    }
    impl std::error::Error for Error {}

    /// `Decode` of a non-`Option` met a NULL.
    #[derive(Debug)]
    pub struct UnexpectedNullError;
    impl std::fmt::Display for UnexpectedNullError {
        fn fmt(&self, f: &mut std::fmt::Formatter<'_>) -> std::fmt::Result {
            f.write_str("unexpected null; try decoding as an `Option`")
        }
    }
    impl std::error::Error for UnexpectedNullError {}
}

pub mod database {
    use crate::column::Column;
    use crate::row::Row;
    use crate::type_info::TypeInfo;
    use crate::value::ValueRef;

    pub trait Database: 'static + Sized + Send + std::fmt::Debug {
        type Connection: crate::connection::Connection<Database = Self>;
        type Row: Row<Database = Self>;
        type Column: Column<Database = Self>;
        type TypeInfo: TypeInfo;
        type ValueRef<'r>: ValueRef<'r, Database = Self>;
        type ArgumentBuffer;
    }
}

pub mod value {
    use crate::database::Database;
    use std::borrow::Cow;

    pub trait ValueRef<'r>: Sized {
        type Database: Database;
        fn type_info(&self) -> Cow<'_, <Self::Database as Database>::TypeInfo>;
        fn is_null(&self) -> bool;
    }
}

pub mod type_info {
    use std::fmt::{Debug, Display};

    pub trait TypeInfo: Debug + Display + Clone + PartialEq<Self> + Send + Sync {
        fn is_null(&self) -> bool;
        fn name(&self) -> &str;
        fn type_compatible(&self, other: &Self) -> bool
        where
            Self: Sized,
        {
            self == other
        }
        fn is_void(&self) -> bool {
            false
        }
    }
}

pub mod types {
    use crate::database::Database;
    use crate::type_info::TypeInfo;

    pub trait Type<DB: Database> {
        fn type_info() -> DB::TypeInfo;
        fn compatible(ty: &DB::TypeInfo) -> bool {
            Self::type_info().type_compatible(ty)
        }
    }
    impl<T: Type<DB>, DB: Database> Type<DB> for Option<T> {
        fn type_info() -> DB::TypeInfo {
            <T as Type<DB>>::type_info()
        }
        fn compatible(ty: &DB::TypeInfo) -> bool {
            <T as Type<DB>>::compatible(ty)
        }
    }
    impl<T: Type<DB> + ?Sized, DB: Database> Type<DB> for &'_ T {
        fn type_info() -> DB::TypeInfo {
            <T as Type<DB>>::type_info()
        }
        fn compatible(ty: &DB::TypeInfo) -> bool {
            <T as Type<DB>>::compatible(ty)
        }
    }

    pub struct Text<T>(pub T);
}

pub mod decode {
    use crate::database::Database;
    use crate::error::BoxDynError;
    use crate::value::ValueRef;

    pub trait Decode<'r, DB: Database>: Sized {
        fn decode(value: <DB as Database>::ValueRef<'r>) -> Result<Self, BoxDynError>;
    }
    impl<'r, DB: Database, T: Decode<'r, DB>> Decode<'r, DB> for Option<T> {
        fn decode(value: <DB as Database>::ValueRef<'r>) -> Result<Self, BoxDynError> {
            if value.is_null() {
                Ok(None)
            } else {
                Ok(Some(T::decode(value)?))
            }
        }
    }
}

pub mod encode {
    use crate::database::Database;
    use crate::error::BoxDynError;

    pub enum IsNull {
        No,
        Yes,
    }
    pub trait Encode<'q, DB: Database> {
        fn encode(self, buf: &mut DB::ArgumentBuffer) -> Result<IsNull, BoxDynError>
        where
            Self: Sized,
        {
            self.encode_by_ref(buf)
        }
        fn encode_by_ref(&self, buf: &mut DB::ArgumentBuffer) -> Result<IsNull, BoxDynError>;
    }
    impl<'q, T: Encode<'q, DB> + ?Sized, DB: Database> Encode<'q, DB> for &T {
        fn encode_by_ref(&self, buf: &mut DB::ArgumentBuffer) -> Result<IsNull, BoxDynError> {
            <T as Encode<DB>>::encode_by_ref(self, buf)
        }
    }
}

pub mod column {
    use crate::database::Database;
    use crate::error::Error;
    use std::sync::Arc;

    pub trait Column: 'static + Send + Sync + std::fmt::Debug {
        type Database: Database<Column = Self>;
        fn ordinal(&self) -> usize;
        fn name(&self) -> &str;
        fn type_info(&self) -> &<Self::Database as Database>::TypeInfo;
        fn origin(&self) -> ColumnOrigin {
            ColumnOrigin::Unknown
        }
    }

    #[derive(Debug, Clone, Default, PartialEq, Eq)]
    pub enum ColumnOrigin {
        Table(TableColumn),
        Expression,
        #[default]
        Unknown,
    }

    #[derive(Debug, Clone, PartialEq, Eq)]
    pub struct TableColumn {
        pub table: Arc<str>,
        pub name: Arc<str>,
    }

    pub trait ColumnIndex<T: ?Sized>: std::fmt::Debug {
        fn index(&self, container: &T) -> Result<usize, Error>;
    }
    impl<T: ?Sized, I: ColumnIndex<T> + ?Sized> ColumnIndex<T> for &'_ I {
        fn index(&self, container: &T) -> Result<usize, Error> {
            (**self).index(container)
        }
    }
}

pub mod row {
    use crate::column::ColumnIndex;
    use crate::database::Database;
    use crate::decode::Decode;
    use crate::error::Error;
    use crate::type_info::TypeInfo;
    use crate::types::Type;
    use crate::value::ValueRef;

    pub trait Row: Unpin + Send + Sync + 'static + Sized {
        type Database: Database<Row = Self>;

        fn columns(&self) -> &[<Self::Database as Database>::Column];

        fn try_get_raw<I>(
            &self,
            index: I,
        ) -> Result<<Self::Database as Database>::ValueRef<'_>, Error>
        where
            I: ColumnIndex<Self>;

        fn try_get<'r, T, I>(&'r self, index: I) -> Result<T, Error>
        where
            I: ColumnIndex<Self>,
            T: Decode<'r, Self::Database> + Type<Self::Database>,
        {
            let value = self.try_get_raw(&index)?;
            let wrong = |source| Error::ColumnDecode {
                index: format!("{index:?}"),
                source,
            };
            if !value.is_null() {
                let ty = value.type_info();
                if !ty.is_null() && !T::compatible(&ty) {
                    return Err(wrong(format!("mismatched types: SQL type `{}`", ty.name()).into()));
                }
            }
            T::decode(value).map_err(wrong)
        }
    }

    pub fn debug_row<R: Row>(_: &R, f: &mut std::fmt::Formatter<'_>) -> std::fmt::Result {
        f.write_str("Row")
    }
}

pub mod from_row {
    use crate::error::Error;
    use crate::row::Row;

    pub trait FromRow<'r, R: Row>: Sized {
        fn from_row(row: &'r R) -> Result<Self, Error>;
    }
}

pub mod sql_str {
    #[derive(Debug, Clone)]
    pub struct SqlStr(pub String);
    impl SqlStr {
        pub fn as_str(&self) -> &str {
            &self.0
        }
    }
    pub trait SqlSafeStr {
        fn into_sql_str(self) -> SqlStr;
    }
    pub struct AssertSqlSafe<T>(pub T);
    impl SqlSafeStr for AssertSqlSafe<String> {
        fn into_sql_str(self) -> SqlStr {
            SqlStr(self.0)
        }
    }
    impl SqlSafeStr for SqlStr {
        fn into_sql_str(self) -> SqlStr {
            self
        }
    }
}

pub mod raw_sql {
    use crate::error::Error;
    use crate::sql_str::{SqlSafeStr, SqlStr};
    use std::future::Future;
    use std::pin::Pin;

    pub struct RawSql(SqlStr);

    pub fn raw_sql(sql: impl SqlSafeStr) -> RawSql {
        RawSql(sql.into_sql_str())
    }

    /// What `fetch_all` needs of a connection; boxed, since the answer's metadata comes from the same code again.
    pub trait FetchRaw {
        type Row;
        fn fetch_raw<'e>(
            &'e mut self,
            sql: SqlStr,
        ) -> Pin<Box<dyn Future<Output = Result<Vec<Self::Row>, Error>> + Send + 'e>>;
    }

    impl RawSql {
        pub async fn fetch_all<C: FetchRaw>(self, conn: &mut C) -> Result<Vec<C::Row>, Error> {
            conn.fetch_raw(self.0).await
        }
    }
}

pub mod statement {
    use crate::database::Database;
    use crate::sql_str::SqlStr;
    use crate::Either;

    pub trait Statement: Send + Sync {
        type Database: Database;
        fn into_sql(self) -> SqlStr;
        fn sql(&self) -> &SqlStr;
        fn parameters(
            &self,
        ) -> Option<Either<&[<Self::Database as Database>::TypeInfo], usize>>;
        fn columns(&self) -> &[<Self::Database as Database>::Column];
    }
}

pub mod transaction {
    use crate::database::Database;
    use crate::error::Error;
    use crate::sql_str::SqlStr;
    use std::future::Future;
    use std::pin::Pin;

    pub struct Transaction<'c, DB: Database> {
        pub connection: &'c mut DB::Connection,
    }
    impl<'c, DB: Database> Transaction<'c, DB> {
        pub fn begin(
            connection: &'c mut DB::Connection,
            _: Option<SqlStr>,
        ) -> Pin<Box<dyn Future<Output = Result<Self, Error>> + Send + 'c>> {
            Box::pin(async move { Ok(Transaction { connection }) })
        }
    }
}

pub mod connection {
    use crate::database::Database;
    use crate::error::Error;
    use crate::sql_str::SqlSafeStr;
    use crate::transaction::Transaction;
    use std::future::Future;

    #[derive(Clone, Debug, Default)]
    pub struct LogSettings;

    pub trait Connection: Send {
        type Database: Database<Connection = Self>;
        type Options;
        fn close(self) -> impl Future<Output = Result<(), Error>> + Send + 'static;
        fn close_hard(self) -> impl Future<Output = Result<(), Error>> + Send + 'static;
        fn ping(&mut self) -> impl Future<Output = Result<(), Error>> + Send + '_;
        fn begin(
            &mut self,
        ) -> impl Future<Output = Result<Transaction<'_, Self::Database>, Error>> + Send + '_;
        fn begin_with(
            &mut self,
            statement: impl SqlSafeStr,
        ) -> impl Future<Output = Result<Transaction<'_, Self::Database>, Error>> + Send + '_
        where
            Self: Sized;
        fn cached_statements_size(&self) -> usize;
        fn clear_cached_statements(
            &mut self,
        ) -> impl Future<Output = Result<(), Error>> + Send + '_;
        fn shrink_buffers(&mut self);
        fn flush(&mut self) -> impl Future<Output = Result<(), Error>> + Send + '_;
        fn should_flush(&self) -> bool;
    }
}

pub mod common {
    /// The statement cache: always empty here.
    pub struct StatementCache<T>(Vec<T>);
    impl<T> StatementCache<T> {
        pub fn new() -> Self {
            StatementCache(Vec::new())
        }
        pub fn len(&self) -> usize {
            self.0.len()
        }
        pub fn remove_lru(&mut self) -> Option<T> {
            self.0.pop()
        }
    }
}

pub mod bytes {
    use std::ops::Deref;
    use std::sync::Arc;

    /// A shared part of a buffer.
    #[derive(Clone, Debug, Default)]
    pub struct Bytes {
        data: Arc<Vec<u8>>,
        at: usize,
    }
    impl Bytes {
        pub fn from_static(b: &'static [u8]) -> Self {
            b.into()
        }
    }
    impl From<Vec<u8>> for Bytes {
        fn from(v: Vec<u8>) -> Self {
            Bytes { data: Arc::new(v), at: 0 }
        }
    }
    impl From<&'static [u8]> for Bytes {
        fn from(v: &'static [u8]) -> Self {
            v.to_vec().into()
        }
    }
    impl Deref for Bytes {
        type Target = [u8];
        fn deref(&self) -> &[u8] {
            &self.data[self.at..]
        }
    }

    /// Network order, as in the published crate; running short panics there too.
    pub trait Buf {
        fn take_bytes<const N: usize>(&mut self) -> [u8; N];
        fn get_u8(&mut self) -> u8 {
            self.take_bytes::<1>()[0]
        }
        fn get_u16(&mut self) -> u16 {
            u16::from_be_bytes(self.take_bytes())
        }
        fn get_i16(&mut self) -> i16 {
            i16::from_be_bytes(self.take_bytes())
        }
        fn get_u32(&mut self) -> u32 {
            u32::from_be_bytes(self.take_bytes())
        }
        fn get_i32(&mut self) -> i32 {
            i32::from_be_bytes(self.take_bytes())
        }
    }
    impl Buf for &'_ [u8] {
        fn take_bytes<const N: usize>(&mut self) -> [u8; N] {
            let (head, rest) = self.split_at(N);
            *self = rest;
            head.try_into().unwrap()
        }
    }
    impl Buf for Bytes {
        fn take_bytes<const N: usize>(&mut self) -> [u8; N] {
            let head = self[..N].try_into().unwrap();
            self.at += N;
            head
        }
    }
    impl Bytes {
        pub fn skip(&mut self, n: usize) {
            assert!(n <= self.len());
            self.at += n;
        }
    }
}
