//! Also a part of `build.rs` and of `probe.rs`, which ask an archive whether it is the one for these declarations.

/// `LUMINTAYAG_VERSION` of the header: 10000 a + 100 b + c for version a.b.c.
pub const VERSION: u32 = 700;

extern "C" {
    /// The archive's version.
    pub fn lumintayag_version() -> u32;

    /// Reads a document. A pointer may be null where its length, which is in elements, is 0; no slice that is written to overlaps another one.
    pub fn lumintayag_read_v3(
        doc: *const u8,
        doc_len: usize,
        series: *mut u32,
        series_len: usize,
        positions: *mut u32,
        positions_len: usize,
        amounts: *mut i64,
        amounts_len: usize,
        shape: u32,
        note: *mut u8,
        note_len: usize,
        answer: *mut u32,
        answer_len: usize,
    ) -> u32;

    /// Reads a note of either shape back.
    pub fn lumintayag_read_note_v2(note: *const u8, note_len: usize, six: *mut u32, six_len: usize) -> u32;

    /// Writes a note of either shape in the asked one.
    pub fn lumintayag_convert_note(
        note: *const u8,
        note_len: usize,
        shape: u32,
        out: *mut u8,
        out_len: usize,
        answer: *mut u32,
        answer_len: usize,
    ) -> u32;

    /// The place of the first unreadable item, or the document's length.
    pub fn lumintayag_readable_len(doc: *const u8, doc_len: usize) -> usize;

    /// Adds up series: two numbers for each, and two for all of them.
    pub fn lumintayag_totals(
        kind: u32,
        quarters: u32,
        count: usize,
        series: *const u32,
        series_len: usize,
        positions: *const u32,
        positions_len: usize,
        amounts: *const i64,
        amounts_len: usize,
        totals: *mut i64,
        totals_len: usize,
        sum: *mut i64,
        sum_len: usize,
    ) -> u32;

    /// Shows where each attribute value of a document stands, in a table of pairs.
    pub fn lumintayag_views(doc: *const u8, doc_len: usize, table: *mut u32, table_len: usize, answer: *mut u32, answer_len: usize) -> u32;

    /// Writes a document from a text of values, a pair for each of them, and tables.
    pub fn lumintayag_write(
        kind: u32,
        text: *const u8,
        text_len: usize,
        pairs: *const u32,
        pairs_len: usize,
        count: u32,
        series: *const u32,
        series_len: usize,
        positions: *const u32,
        positions_len: usize,
        amounts: *const i64,
        amounts_len: usize,
        out: *mut u8,
        out_len: usize,
        answer: *mut u32,
        answer_len: usize,
    ) -> u32;

    /// Puts what a value of a document says, and answers how many bytes that is.
    pub fn lumintayag_unescape(value: *const u8, value_len: usize, out: *mut u8, out_len: usize) -> usize;
}
