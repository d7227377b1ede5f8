//! The two lists that a text of conlist prints.

use oracle::listing::{self, Diagnostic, Listing, Row};

/// The columns of a number.
const COLUMNS: usize = 6;

/// The code of every diagnostic of the group listing, and of no other.
const GROUP_CODE: u32 = 5;

/// The traced and the group listing of a text. The text has to be what is printed of them.
pub fn lists(text: &[u8]) -> Result<[Listing; 2], String> {
    let text = std::str::from_utf8(text).map_err(|_| "a text expected")?;
    let found = read(text).filter(|[traced, group]| listing::text(traced, group) == text);
    found.ok_or("the text of two lists expected".to_string())
}

/// Reads line by line.
fn read(text: &str) -> Option<[Listing; 2]> {
    let (mut rows, mut diagnostics) = (Vec::<Row>::new(), Vec::<Diagnostic>::new());
    let mut traced_rows = None;
    for line in text.lines() {
        let (letter, rest) = line.split_at_checked(1)?;
        let words = || rest.strip_prefix(' ').map(str::to_string);
        match letter {
            "S" => rows.push(row(&numbers(rest)?)?),
            "=" => rows.last_mut()?.name = words()?,
            "<" => rows.last_mut()?.source_feature = words()?,
            ">" => rows.last_mut()?.destination_feature = words()?,
            "D" => diagnostics.push(Diagnostic {
                numbers: numbers(rest)?.try_into().ok()?,
                message: String::new(),
                path: Vec::new(),
            }),
            "!" => diagnostics.last_mut()?.message = words()?,
            "@" => diagnostics.last_mut()?.path.push(words()?),
            "Z" => traced_rows = numbers(rest)?.first().copied(),
            _ => return None,
        }
    }
    let traced_rows = traced_rows? as usize;
    let group_rows = (traced_rows <= rows.len()).then(|| rows.split_off(traced_rows))?;
    let (group_diagnostics, diagnostics) = diagnostics
        .into_iter()
        .partition(|own| own.numbers[0] == GROUP_CODE);
    Some([
        Listing { rows, diagnostics },
        Listing {
            rows: group_rows,
            diagnostics: group_diagnostics,
        },
    ])
}

/// A row by the numbers of its `S` line, as yet without names.
fn row(numbers: &[u32]) -> Option<Row> {
    let (&[connection, kind, source, destination, length], path) = numbers.split_first_chunk()?;
    (path.len() == length as usize).then(|| Row {
        connection,
        kind,
        source,
        destination,
        path: path.to_vec(),
        name: String::new(),
        source_feature: String::new(),
        destination_feature: String::new(),
    })
}

fn numbers(columns: &str) -> Option<Vec<u32>> {
    let columns = columns.as_bytes().chunks(COLUMNS);
    let numbers = columns.map(|number| {
        let number = std::str::from_utf8(number).ok()?;
        number.trim_start().parse().ok()
    });
    numbers.collect()
}
