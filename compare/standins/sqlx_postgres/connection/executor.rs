//! Stand-in for executor.rs: a raw query is answered by the stand-in server, in the text format.
use super::PgConnection;
use crate::error::Error;
use crate::{PgRow, PgValueFormat};
use sqlx_core::raw_sql::FetchRaw;
use sqlx_core::sql_str::SqlStr;
use std::future::Future;
use std::pin::Pin;

impl PgConnection {
    pub(super) fn write_sync(&mut self) {}
    pub(super) async fn wait_for_close_complete(&mut self, _: usize) -> Result<(), Error> {
        Ok(())
    }
}

impl FetchRaw for PgConnection {
    type Row = PgRow;

    fn fetch_raw<'e>(
        &'e mut self,
        sql: SqlStr,
    ) -> Pin<Box<dyn Future<Output = Result<Vec<PgRow>, Error>> + Send + 'e>> {
        Box::pin(async move {
            let answer = self.inner.stream.server.lock().unwrap().answer(sql.as_str())?;
            // the metadata of a row description in a raw query (from memory of the published executor)
            let metadata = self
                .resolve_statement_metadata::<false>(None, Some(answer.description), false)
                .await?;
            Ok(answer
                .rows
                .into_iter()
                .map(|data| PgRow { data, format: PgValueFormat::Text, metadata: metadata.clone() })
                .collect())
        })
    }
}
