//! What a sound file says by an implementation's own calls, put together as
//! the model that the drawn files come with.

use samples::{Content, Datum, Heading, Model};
use vdv::{own_bytes, tables, value_in, Span, Value, CELLS};

use crate::library::{all_rows, table_cells, Library};

/// None if a call refuses what the file's answer promised.
pub fn model_of(library: &dyn Library, file: &[u8]) -> Option<Model> {
    let rows = all_rows(library, file).ok()?.rows;
    let mut contents = Vec::with_capacity(rows.len());
    for (index, row) in rows.into_iter().enumerate() {
        let table = tables::numbered(row.table)?;
        let cells = table_cells(library, file, index + 1, row).ok()?;
        let data = cells.chunks(CELLS).map(|cells| datum(file, cells));
        let data: Vec<Datum> = data.collect::<Option<_>>()?;
        let records = data.chunks(table.columns.len()).map(<[Datum]>::to_vec);
        contents.push(Content {
            table,
            records: records.collect(),
        });
    }
    Some(Model {
        header: heading(library, file)?,
        tables: contents,
    })
}

fn datum(file: &[u8], cells: &[u64]) -> Option<Datum> {
    Some(match value_in(cells)? {
        Value::Number(number) => Datum::Number(number),
        Value::Missing => Datum::Missing,
        Value::Text { span, owner } => Datum::Text(own_bytes(span.of(file)), owner),
    })
}

fn heading(library: &dyn Library, file: &[u8]) -> Option<Heading> {
    let header = library.header(file).ok()?;
    let text = |span: Span| own_bytes(span.of(file));
    Some(Heading {
        source: text(header.source),
        date: header.date,
        time: header.time,
        latin: header.latin,
        ver: text(header.ver),
        ifv: text(header.ifv),
        dve: header.dve.map(text),
        fft: header.fft.map(text),
    })
}
