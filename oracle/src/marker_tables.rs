// Included at the end of marker.rs: the per-version tables, empty here, and a table made from a tape's entries.

static V3_1_TABLE: MarkerTable = MarkerTable { entries: &[], index: no_index };
static V3_2_TABLE: MarkerTable = MarkerTable { entries: &[], index: no_index };

// Names are looked up by the parser alone, which is no part of this.
fn no_index(_name: &str) -> Option<u16> {
    None
}

/// One entry of a tape file, its name given as a part of the names.
pub(crate) struct TapeEntry {
    pub name: std::ops::Range<usize>,
    pub category: Category,
    pub usx_element: &'static str,
}

/// A `MarkerTable` made at run time. `MarkerTable` asks for `'static` parts; they are owned here and freed with it,
/// so no `'static` part of the table may be kept beyond it: only `table` hands it out, under its own lifetime.
pub(crate) struct TapeTable {
    table: MarkerTable,
    names: *mut str,
    entries: *mut [MarkerInfo],
}

impl TapeTable {
    pub(crate) fn new(names: &str, entries: &[TapeEntry]) -> TapeTable {
        let names: *mut str = Box::into_raw(Box::from(names));
        // The box lives until `drop`.
        let all: &'static str = unsafe { &*names };
        let infos: Box<[MarkerInfo]> = entries.iter().map(|e| info_of(all, e)).collect();
        let entries = Box::into_raw(infos);
        let table = MarkerTable { entries: unsafe { &*entries }, index: no_index };
        TapeTable { table, names, entries }
    }

    pub(crate) fn table(&self) -> &MarkerTable {
        &self.table
    }
}

impl Drop for TapeTable {
    fn drop(&mut self) {
        self.table.entries = &[];
        // Both came from a box in `new` and are freed once, here.
        unsafe {
            drop(Box::from_raw(self.entries));
            drop(Box::from_raw(self.names));
        }
    }
}

// `text_role`, `closing` and `deprecated` are not read by the serializer.
fn info_of(names: &'static str, e: &TapeEntry) -> MarkerInfo {
    MarkerInfo {
        name: &names[e.name.clone()],
        category: e.category,
        text_role: TextRole::Content,
        closing: Closing::None,
        usx_element: e.usx_element,
        deprecated: None,
    }
}
