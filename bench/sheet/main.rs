//! How long the reader takes for sheets of 16,384 bytes, the most that it reads.

use std::time::Instant;

// A slice crosses as a pointer and a count.
unsafe extern "C" {
    fn conlist_read_sheet(
        sheet: *const u8, sheet_len: usize,
        bytes: *mut u8, bytes_len: usize,
        n: *mut u32, n_len: usize,
        c: *mut u32, c_len: usize,
        f: *mut u32, f_len: usize,
        x: *mut u32, x_len: usize,
        p: *mut u32, p_len: usize,
        i: *mut u32, i_len: usize,
        t: *mut u32, t_len: usize,
        q: *mut u32, q_len: usize,
        u: *mut u32, u_len: usize,
        e: *mut u32, e_len: usize,
        r: *mut u32, r_len: usize,
        m: *mut u32, m_len: usize,
        told: *mut u64,
    );
}

struct Tables {
    bytes: Vec<u8>,
    numbers: Vec<Vec<u32>>,
}

/// The refusal's number, or 0.
fn read(sheet: &[u8], tables: &mut Tables) -> u64 {
    let mut told = [0u64; 14];
    let bytes = &mut tables.bytes;
    let [n, c, f, x, p, i, t, q, u, e, r, m] = &mut tables.numbers[..] else { unreachable!() };
    // SAFETY: every pointer comes with the length of its own slice, and no two overlap.
    unsafe {
        conlist_read_sheet(
            sheet.as_ptr(), sheet.len(),
            bytes.as_mut_ptr(), bytes.len(),
            n.as_mut_ptr(), n.len(),
            c.as_mut_ptr(), c.len(),
            f.as_mut_ptr(), f.len(),
            x.as_mut_ptr(), x.len(),
            p.as_mut_ptr(), p.len(),
            i.as_mut_ptr(), i.len(),
            t.as_mut_ptr(), t.len(),
            q.as_mut_ptr(), q.len(),
            u.as_mut_ptr(), u.len(),
            e.as_mut_ptr(), e.len(),
            r.as_mut_ptr(), r.len(),
            m.as_mut_ptr(), m.len(),
            told.as_mut_ptr(),
        )
    }
    told[0]
}

/// So many lines of a letter with so many fields, each of six columns, but for the array index of C, which has twenty.
fn row(letter: char, fields: usize, count: usize) -> String {
    let columns = |field: usize| if (letter, field) == ('C', 2) { 20 } else { 6 };
    let line: String = (0..fields).map(|field| format!("{:1$}", 12345, columns(field))).collect();
    format!("{letter}{line}\n").repeat(count)
}

/// A sheet of 16,384 bytes: `text`, then as many names in front as fill it up.
fn filled(text: &str) -> Vec<u8> {
    let mut names = String::new();
    let mut left = 16384 - text.len();
    while left > 0 {
        let line = if left > 80 { 40 } else if left > 66 { left / 2 } else { left };
        names += &format!("N {}\n", "x".repeat(line - 3));
        left -= line;
    }
    (names + text).into_bytes()
}

fn main() {
    let widths = [("C", 7), ("F", 3), ("X", 7), ("P", 1), ("I", 2), ("T", 3), ("Q", 4), ("U", 9), ("E", 8), ("R", 5), ("M", 3)];
    let every: String = widths.iter().map(|(l, w)| row(l.chars().next().unwrap(), *w, 34)).collect();
    let sheets = [
        ("names alone, the shortest", "N x\n".repeat(4096).into_bytes()),
        ("packages alone", row('P', 1, 2048).into_bytes()),
        ("names and connections", filled(&row('X', 7, 300))),
        ("every letter", filled(&every)),
        ("line feeds (refused at once)", "\n".repeat(16384).into_bytes()),
    ];
    let mut tables = Tables { bytes: vec![0; 16384], numbers: vec![vec![0; 8192]; 12] };
    for (name, sheet) in &sheets {
        assert_eq!(sheet.len(), 16384);
        let mut times: Vec<u128> = (0..1000)
            .map(|_| {
                let start = Instant::now();
                std::hint::black_box(read(sheet, &mut tables));
                start.elapsed().as_nanos()
            })
            .collect();
        times.sort_unstable();
        println!("{:7.1} us median, {:7.1} us least, refusal {}: {name}", times[500] as f64 / 1e3, times[0] as f64 / 1e3, read(sheet, &mut tables));
    }
}
