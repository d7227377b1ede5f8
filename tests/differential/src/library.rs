//! The library's calls. A slice crosses as two arguments, its pointer and its length. Each listing takes the link table as its first output,
//! and where it has traced rows, in front of that the most steps that a chain of these may have.

use oracle::letters::LETTERS;

use crate::tables::Tables;

/// A diagnostic as a record.
#[repr(C)]
#[derive(Clone, Copy, Debug, PartialEq, Eq)]
pub struct Diagnostic {
    pub code: u32,
    pub connection: u32,
    pub first: u32,
    pub second: u32,
}

/// Hands a name for the table of each letter, in the order of the letters, to a macro.
macro_rules! with_letters {
    ($to:ident! $($rest:tt)*) => {
        $to! { [n c f x p i t q u e r m] $($rest)* }
    };
}

/// Declares a call: what comes before the tables, the kinds of the byte table and of the others, and what comes behind them.
macro_rules! declare {
    ([$($letter:ident)*] $name:ident(
        $($before:ident: $kind_before:ty,)* [$bytes:ty, $numbers:ty] $(, $argument:ident: $kind:ty)*
    )) => {
        unsafe extern "C" {
            fn $name(
                $($before: $kind_before,)*
                bytes: $bytes,
                bytes_length: usize,
                $($letter: $numbers, _: usize,)*
                $($argument: $kind),*
            );
        }
    };
}

/// Declares a call that takes the tables first, or two with the same arguments.
macro_rules! over_tables {
    ($name:ident($($argument:ident: $kind:ty),*)) => {
        with_letters! { declare! $name([*const u8, *const u32] $(, $argument: $kind)*) }
    };
    ($name:ident, $other:ident $arguments:tt) => {
        over_tables!($name $arguments);
        over_tables!($other $arguments);
    };
}

/// Makes such a call. The caller has seen to it that no slice overlaps another.
macro_rules! call {
    ([$($letter:ident)*] $name:ident, $tables:expr, $($argument:expr),*) => {{
        let [$($letter),*] = &$tables.letters;
        let bytes = &$tables.bytes;
        $name(
            bytes.as_ptr(),
            bytes.len(),
            $($letter.as_ptr(), $letter.len(),)*
            $($argument),*
        )
    }};
    ($($call:tt)*) => {
        with_letters! { call! $($call)* }
    };
}

over_tables!(conlist_check_tables(told: *mut u64));
over_tables!(conlist_expand_feature_group(out: *mut u32, out_length: usize, from: u32, type_name: u32, inverse: bool, told: *mut u64));
over_tables!(conlist_compute_semantic_connections(
    limit: u64,
    links: *mut u32,
    links_length: usize,
    rows: *mut u32,
    rows_length: usize,
    diagnostics: *mut u32,
    diagnostics_length: usize,
    told: *mut u64
));
over_tables!(conlist_expand_feature_group_connections(
    links: *mut u32,
    links_length: usize,
    rows: *mut u32,
    rows_length: usize,
    names: *mut u8,
    names_length: usize,
    diagnostics: *mut u32,
    diagnostics_length: usize,
    told: *mut u64
));
over_tables!(conlist_compute_semantic_connections_with_records(
    limit: u64,
    links: *mut u32,
    links_length: usize,
    rows: *mut u32,
    rows_length: usize,
    numbers: *mut u32,
    numbers_length: usize,
    out: *mut Diagnostic,
    out_length: usize,
    told: *mut u64
));
over_tables!(conlist_expand_feature_group_connections_with_records(
    links: *mut u32,
    links_length: usize,
    rows: *mut u32,
    rows_length: usize,
    names: *mut u8,
    names_length: usize,
    numbers: *mut u32,
    numbers_length: usize,
    out: *mut Diagnostic,
    out_length: usize,
    told: *mut u64
));
over_tables!(conlist_list_connections_with_records, conlist_list_connections_ignoring_case_with_records(
    limit: u64,
    links: *mut u32,
    links_length: usize,
    rows: *mut u32,
    rows_length: usize,
    numbers: *mut u32,
    numbers_length: usize,
    out: *mut Diagnostic,
    out_length: usize,
    group_rows: *mut u32,
    group_rows_length: usize,
    names: *mut u8,
    names_length: usize,
    group_numbers: *mut u32,
    group_numbers_length: usize,
    group_out: *mut Diagnostic,
    group_out_length: usize,
    told: *mut u64
));
over_tables!(conlist_list_connections, conlist_list_connections_ignoring_case(
    limit: u64,
    links: *mut u32,
    links_length: usize,
    rows: *mut u32,
    rows_length: usize,
    diagnostics: *mut u32,
    diagnostics_length: usize,
    group_rows: *mut u32,
    group_rows_length: usize,
    names: *mut u8,
    names_length: usize,
    group_diagnostics: *mut u32,
    group_diagnostics_length: usize,
    told: *mut u64
));

over_tables!(conlist_count_selections(told: *mut u64));
over_tables!(conlist_select_modes(
    rows: *mut u32,
    rows_length: usize,
    name: *mut u8,
    name_length: usize,
    number: u64,
    told: *mut u64
));

/// Zeros, or a refusal's number, place and letter.
pub fn check_tables(tables: &Tables) -> [u64; 3] {
    let mut told = [u64::MAX; 3];
    // SAFETY: every slice crosses as its pointer and length, and none overlaps another.
    unsafe { call!(conlist_check_tables, tables, told.as_mut_ptr()) };
    told
}

/// 0, the features and the visits, or a refusal's number, place and letter.
pub fn expand_feature_group(
    tables: &Tables,
    out: &mut [u32],
    from: u32,
    type_name: u32,
    inverse: bool,
) -> [u64; 3] {
    let mut told = [u64::MAX; 3];
    // SAFETY: as above.
    unsafe {
        call!(
            conlist_expand_feature_group,
            tables,
            out.as_mut_ptr(),
            out.len(),
            from,
            type_name,
            inverse,
            told.as_mut_ptr()
        )
    };
    told
}

/// 0, the rows and the diagnostics, or a refusal's number, place and letter.
pub fn compute_semantic_connections(
    tables: &Tables,
    limit: u64,
    links: &mut [u32],
    rows: &mut [u32],
    diagnostics: &mut [u32],
) -> [u64; 3] {
    let mut told = [u64::MAX; 3];
    // SAFETY: as above.
    unsafe {
        call!(
            conlist_compute_semantic_connections,
            tables,
            limit,
            links.as_mut_ptr(),
            links.len(),
            rows.as_mut_ptr(),
            rows.len(),
            diagnostics.as_mut_ptr(),
            diagnostics.len(),
            told.as_mut_ptr()
        )
    };
    told
}

/// 0, the rows and the diagnostics, or a refusal's number, place and letter.
pub fn expand_feature_group_connections(
    tables: &Tables,
    links: &mut [u32],
    rows: &mut [u32],
    names: &mut [u8],
    diagnostics: &mut [u32],
) -> [u64; 3] {
    let mut told = [u64::MAX; 3];
    // SAFETY: as above.
    unsafe {
        call!(
            conlist_expand_feature_group_connections,
            tables,
            links.as_mut_ptr(),
            links.len(),
            rows.as_mut_ptr(),
            rows.len(),
            names.as_mut_ptr(),
            names.len(),
            diagnostics.as_mut_ptr(),
            diagnostics.len(),
            told.as_mut_ptr()
        )
    };
    told
}

/// The entry that gives both listings.
#[derive(Clone, Copy, Debug, PartialEq, Eq)]
pub enum Entry {
    /// The ported one, which keeps the original's reading.
    Ported,
    /// The second one, to which names that differ in the case of letters alone are one where tracing compares features, and where the first
    /// rule for children compares names.
    IgnoringCase,
}

pub const ENTRIES: [Entry; 2] = [Entry::Ported, Entry::IgnoringCase];

/// The outputs of both listings, but for the link table, which they share.
pub struct Outputs<'a> {
    pub rows: &'a mut [u32],
    pub diagnostics: &'a mut [u32],
    pub group_rows: &'a mut [u32],
    pub names: &'a mut [u8],
    pub group_diagnostics: &'a mut [u32],
}

/// 0 and the rows and diagnostics of the traced and of the group listing, or a refusal's number, place and letter and zeros.
pub fn list_connections(
    entry: Entry,
    tables: &Tables,
    limit: u64,
    links: &mut [u32],
    outputs: Outputs,
) -> [u64; 5] {
    let listed = match entry {
        Entry::Ported => conlist_list_connections,
        Entry::IgnoringCase => conlist_list_connections_ignoring_case,
    };
    let mut told = [u64::MAX; 5];
    // SAFETY: as above.
    unsafe {
        call!(
            listed,
            tables,
            limit,
            links.as_mut_ptr(),
            links.len(),
            outputs.rows.as_mut_ptr(),
            outputs.rows.len(),
            outputs.diagnostics.as_mut_ptr(),
            outputs.diagnostics.len(),
            outputs.group_rows.as_mut_ptr(),
            outputs.group_rows.len(),
            outputs.names.as_mut_ptr(),
            outputs.names.len(),
            outputs.group_diagnostics.as_mut_ptr(),
            outputs.group_diagnostics.len(),
            told.as_mut_ptr()
        )
    };
    told
}

/// As `compute_semantic_connections`, with records.
pub fn compute_semantic_connections_with_records(
    tables: &Tables,
    limit: u64,
    links: &mut [u32],
    rows: &mut [u32],
    numbers: &mut [u32],
    records: &mut [Diagnostic],
) -> [u64; 3] {
    let mut told = [u64::MAX; 3];
    // SAFETY: as above.
    unsafe {
        call!(
            conlist_compute_semantic_connections_with_records,
            tables,
            limit,
            links.as_mut_ptr(),
            links.len(),
            rows.as_mut_ptr(),
            rows.len(),
            numbers.as_mut_ptr(),
            numbers.len(),
            records.as_mut_ptr(),
            records.len(),
            told.as_mut_ptr()
        )
    };
    told
}

/// As `expand_feature_group_connections`, with records.
pub fn expand_feature_group_connections_with_records(
    tables: &Tables,
    links: &mut [u32],
    rows: &mut [u32],
    names: &mut [u8],
    numbers: &mut [u32],
    records: &mut [Diagnostic],
) -> [u64; 3] {
    let mut told = [u64::MAX; 3];
    // SAFETY: as above.
    unsafe {
        call!(
            conlist_expand_feature_group_connections_with_records,
            tables,
            links.as_mut_ptr(),
            links.len(),
            rows.as_mut_ptr(),
            rows.len(),
            names.as_mut_ptr(),
            names.len(),
            numbers.as_mut_ptr(),
            numbers.len(),
            records.as_mut_ptr(),
            records.len(),
            told.as_mut_ptr()
        )
    };
    told
}

/// As `list_connections`, with records for the diagnostics of each listing.
pub fn list_connections_with_records(
    entry: Entry,
    tables: &Tables,
    limit: u64,
    links: &mut [u32],
    outputs: Outputs,
    records: &mut [Diagnostic],
    group_records: &mut [Diagnostic],
) -> [u64; 5] {
    let listed = match entry {
        Entry::Ported => conlist_list_connections_with_records,
        Entry::IgnoringCase => conlist_list_connections_ignoring_case_with_records,
    };
    let mut told = [u64::MAX; 5];
    // SAFETY: as above.
    unsafe {
        call!(
            listed,
            tables,
            limit,
            links.as_mut_ptr(),
            links.len(),
            outputs.rows.as_mut_ptr(),
            outputs.rows.len(),
            outputs.diagnostics.as_mut_ptr(),
            outputs.diagnostics.len(),
            records.as_mut_ptr(),
            records.len(),
            outputs.group_rows.as_mut_ptr(),
            outputs.group_rows.len(),
            outputs.names.as_mut_ptr(),
            outputs.names.len(),
            outputs.group_diagnostics.as_mut_ptr(),
            outputs.group_diagnostics.len(),
            group_records.as_mut_ptr(),
            group_records.len(),
            told.as_mut_ptr()
        )
    };
    told
}

/// 0, the number of selections and 1 where the list was cut, else 0; or a refusal's number, place and letter.
pub fn count_selections(tables: &Tables) -> [u64; 3] {
    let mut told = [u64::MAX; 3];
    // SAFETY: as above.
    unsafe { call!(conlist_count_selections, tables, told.as_mut_ptr()) };
    told
}

/// 0, the rows and the bytes of the name, or a refusal's number, place and letter.
pub fn select_modes(tables: &Tables, rows: &mut [u32], name: &mut [u8], number: u64) -> [u64; 3] {
    let mut told = [u64::MAX; 3];
    // SAFETY: as above.
    unsafe {
        call!(
            conlist_select_modes,
            tables,
            rows.as_mut_ptr(),
            rows.len(),
            name.as_mut_ptr(),
            name.len(),
            number,
            told.as_mut_ptr()
        )
    };
    told
}

unsafe extern "C" {
    fn conlist_list_sheet(
        sheet: *const u8,
        sheet_length: usize,
        limit: u64,
        text: *mut u8,
        text_length: usize,
    ) -> usize;
}

/// How many bytes of text there are.
pub fn list_sheet(sheet: &[u8], limit: u64, text: &mut [u8]) -> usize {
    // SAFETY: as above.
    unsafe {
        conlist_list_sheet(
            sheet.as_ptr(),
            sheet.len(),
            limit,
            text.as_mut_ptr(),
            text.len(),
        )
    }
}

with_letters! { declare! conlist_read_sheet(sheet: *const u8, sheet_length: usize, [*mut u8, *mut u32], told: *mut u64) }

/// Calls the reader with tables to be filled.
macro_rules! read {
    ([$($letter:ident)*] $sheet:expr, $bytes:expr, $letters:expr, $told:expr) => {{
        let [$($letter),*] = $letters;
        conlist_read_sheet(
            $sheet.as_ptr(),
            $sheet.len(),
            $bytes.as_mut_ptr(),
            $bytes.len(),
            $($letter.as_mut_ptr(), $letter.len(),)*
            $told,
        )
    }};
}

/// How many numbers the reader tells.
const READ: usize = 2 + LETTERS.len();

/// 0, the bytes of names and the rows of each letter, or a refusal's number, place and letter and zeros. `letters` has a table
/// for each letter in the order of the letters.
pub fn read_sheet(sheet: &[u8], bytes: &mut [u8], letters: Vec<&mut [u32]>) -> [u64; READ] {
    let mut told = [u64::MAX; READ];
    let letters: [&mut [u32]; LETTERS.len()] = letters.try_into().expect("a table for each letter");
    // SAFETY: as above.
    unsafe {
        with_letters! { read! sheet, bytes, letters, told.as_mut_ptr() }
    };
    told
}
