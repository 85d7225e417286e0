//! The samples of crates/samples_run, whose lines a third reader worked out (vectors/samples.py), read by the model.

use super::*;
use std::path::Path;

/// The check number of a table: over its cells as numbers below 2^32.
fn check_number(cells: impl Iterator<Item = u32>) -> u32 {
    cells.fold(0, |sum: u32, cell| sum.wrapping_mul(31).wrapping_add(cell))
}

/// `NAME refusal place kind series intervals N notelen NOTEHEX S P A`, as vectors/samples.py has it
fn line(name: &str, doc: &[u8]) -> String {
    let outcome = read(doc, &ROOM);
    let answer: Vec<String> = outcome.answer.iter().map(u32::to_string).collect();
    let note: String = outcome.note[..outcome.answer[6] as usize].iter().map(|b| format!("{b:02X}")).collect();
    let checks = [
        check_number(outcome.series.iter().copied()),
        check_number(outcome.positions.iter().copied()),
        check_number(outcome.amounts.iter().map(|amount| *amount as u32)),
    ];
    format!("{name} {} {note} {} {} {}", answer.join(" "), checks[0], checks[1], checks[2])
}

#[test]
fn samples() {
    let folder = Path::new(env!("CARGO_MANIFEST_DIR")).join("../crates/samples_run");
    let expected = std::fs::read_to_string(folder.join("stdout")).unwrap_or_default();
    assert!(expected.lines().count() > 800);
    for said in expected.lines() {
        let name = said.split(' ').next().unwrap_or("");
        let doc = std::fs::read(folder.join("data").join([name, ".xml"].concat())).unwrap_or_default();
        assert_eq!(line(name, &doc), said);
    }
}

/// The vectors of views (vectors/views.py): three bytes, how many cells the table and the answer have, then the document, on two lines.
#[test]
fn views_of_vectors() {
    let folder = Path::new(env!("CARGO_MANIFEST_DIR")).join("../crates/views_run");
    let input = std::fs::read(folder.join("stdin")).unwrap_or_default();
    let expected = std::fs::read_to_string(folder.join("stdout")).unwrap_or_default();
    let lines: Vec<&[u8]> = input.split(|b| *b == b'\n').collect();
    assert!(lines.len() / 2 == expected.lines().count() && lines.len() > 60);
    for (case, said) in lines.chunks_exact(2).zip(expected.lines()) {
        let head = std::str::from_utf8(case[0]).unwrap_or("");
        let sizes: Vec<usize> = head.split(' ').map(|byte| usize::from_str_radix(byte, 16).unwrap_or(0)).collect();
        let views = view(case[1], 256 * sizes[0] + sizes[1], sizes[2]);
        let cells = |cells: &[u32]| cells.iter().map(|cell| format!(" {cell}")).collect::<String>();
        assert_eq!(format!("{}:{}:{}", views.refusal, cells(&views.answer), cells(&views.table)), said);
    }
}
