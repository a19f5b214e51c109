//! A plain reader of lines and columns, and a maker of a file to read.
use std::io::Write;
use std::time::Instant;

const D: [[u8; 10]; 10] = [[0,1,2,3,4,5,6,7,8,9],[1,2,3,4,0,6,7,8,9,5],[2,3,4,0,1,7,8,9,5,6],[3,4,0,1,2,8,9,5,6,7],[4,0,1,2,3,9,5,6,7,8],[5,9,8,7,6,0,4,3,2,1],[6,5,9,8,7,1,0,4,3,2],[7,6,5,9,8,2,1,0,4,3],[8,7,6,5,9,3,2,1,0,4],[9,8,7,6,5,4,3,2,1,0]];
const P: [[u8; 10]; 8] = [[0,1,2,3,4,5,6,7,8,9],[1,5,7,6,2,8,3,0,9,4],[5,8,0,3,7,9,6,1,4,2],[8,9,1,6,0,4,3,5,2,7],[9,4,5,3,1,2,6,8,7,0],[4,2,8,6,5,7,3,9,0,1],[2,7,9,3,8,0,6,4,1,5],[7,0,4,6,9,1,3,2,5,8]];

fn check(mut n: u64) -> u8 {
    let (mut c, mut i) = (0u8, 0usize);
    while n > 0 {
        c = D[c as usize][P[i % 8][(n % 10) as usize] as usize];
        n /= 10;
        i += 1;
    }
    c
}

fn sctid(item: u64, partition: u64) -> u64 {
    let body = (item * 100 + partition) * 10;
    (body..body + 10).find(|n| check(*n) == 0).unwrap()
}

fn make(path: &str, lines: u64) {
    let mut out = std::io::BufWriter::new(std::fs::File::create(path).unwrap());
    out.write_all(b"id\teffectiveTime\tactive\tmoduleId\tconceptId\tlanguageCode\ttypeId\tterm\tcaseSignificanceId\r\n").unwrap();
    for i in 0..lines {
        let id = sctid(1_000_000 + i, 1);
        let concept = sctid(2_000_000 + i / 2, 0);
        write!(out, "{id}\t20{:02}0131\t1\t900000000000207008\t{concept}\ten\t900000000000013009\tStructure of the made part number {i} of the example body\t900000000000448009\r\n", 10 + i % 14).unwrap();
    }
}

/// Splits lines and columns, and adds up what it saw.
fn split(bytes: &[u8]) -> (usize, usize, usize) {
    let (mut lines, mut columns, mut sum) = (0, 0, 0);
    for line in bytes.split(|b| *b == b'\n') {
        let line = line.strip_suffix(b"\r").unwrap_or(line);
        lines += 1;
        for column in line.split(|b| *b == b'\t') {
            columns += 1;
            sum += column.len();
        }
    }
    (lines, columns, sum)
}

#[allow(dead_code)]
struct Row { id: u128, time: u32, active: bool, module: u64, concept: u64, language: Vec<u8>, type_id: u64, term: Vec<u8>, case: u64 }

fn id_of(text: &[u8], low: u64) -> Option<u64> {
    if text.len() < 6 || text.len() > 18 || text[0] == b'0' || !text.iter().all(|b| b.is_ascii_digit()) { return None; }
    let n: u64 = std::str::from_utf8(text).ok()?.parse().ok()?;
    let p = n / 10 % 100;
    (check(n) == 0 && (p == low || p == low + 10)).then_some(n)
}

fn row(line: &[u8]) -> Option<Row> {
    if line.len() > 65535 || std::str::from_utf8(line).is_err() { return None; }
    let c: Vec<&[u8]> = line.split(|b| *b == b'\t').collect();
    let [id, time, active, module, concept, language, type_id, term, case] = c[..] else { return None };
    let time: u32 = std::str::from_utf8(time).ok()?.parse().ok()?;
    Some(Row { id: id_of(id, 1)?.into(), time, active: active == b"1", module: id_of(module, 0)?, concept: id_of(concept, 0)?, language: language.to_vec(), type_id: id_of(type_id, 0)?, term: term.to_vec(), case: id_of(case, 0)? })
}

/// Makes the rows too, with their checks.
fn rows(bytes: &[u8]) -> Vec<Row> {
    let mut rows = Vec::new();
    for line in bytes.split(|b| *b == b'\n').skip(1) {
        if line.is_empty() { continue; }
        let line = line.strip_suffix(b"\r").unwrap_or(line);
        rows.push(row(line).unwrap());
    }
    rows
}

fn main() {
    let args: Vec<String> = std::env::args().collect();
    if args[1] == "make" { make(&args[2], args[3].parse().unwrap()); return; }
    let bytes = std::fs::read(&args[1]).unwrap();
    println!("{} bytes", bytes.len());
    for _ in 0..3 {
        let start = Instant::now();
        let seen = split(&bytes);
        println!("split: {seen:?} in {} ms", start.elapsed().as_millis());
    }
    for _ in 0..3 {
        let start = Instant::now();
        let made = rows(&bytes);
        println!("rows: {} in {} ms", made.len(), start.elapsed().as_millis());
    }
}
