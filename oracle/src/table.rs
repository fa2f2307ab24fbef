//! Stand-in for parity-db's `table`: the id of a value table.

use crate::column::ColId;

crate::table_id::table_id!(TableId, max_log_tables, column: ColId);

impl TableId {
    /// parity-db packs the column into the number, document 01 keeps it in the directory: so it is
    /// put to the ids of a list that is to be ended.
    pub fn in_column(self, column: ColId) -> TableId {
        TableId { column: Some(column), ..self }
    }

    /// Only `end_record` asks for it.
    pub fn col(&self) -> ColId {
        self.column.expect("an id of a list that is to be ended")
    }
}
