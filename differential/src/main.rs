//! Reads and views generated documents with the proved library and with the model, adds up their tables and generated ones, writes them again, and stops at the first difference.
//!
//!     differential [writing] COUNT [SEED [FIRST]]
//!
//! With `writing` no document is read but right ones, which are written again, and drafts are written.
//! All that is lent is full of a pattern, so that a cell which was not cleared shows; cells past the lent ones have to keep it.

use differential::digits::other_digits;
use differential::documents::{document, shape, Document};
use differential::model::{self, Lengths, Outcome};
use differential::random::Random;
use differential::renaming::renamed;
use differential::tables::tables;
use differential::totals::{add_up, Asked, MOST_SERIES};
use differential::views::{lent, view};
use std::process::ExitCode;

mod library;
mod notes;
mod written;

const USAGE: &str = "usage: differential [writing] COUNT [SEED [FIRST]]";

/// How many documents there were of each refusal; 0 is acceptance.
struct Tally {
    refusals: [u64; 11],
    /// Accepted ones by kind.
    kinds: [u64; 4],
    notes: notes::Tally,
    renamed: u64,
    renamed_taken: u64,
    /// Documents with other digits of prices, those accepted, and those accepted that have a reference in a value of Qty.
    digits: [u64; 3],
    /// Accepted documents with a reference, and the references in them.
    referring: [u64; 2],
    bytes: u64,
    /// Tables of accepted documents that were added up, those refused with 17; and of generated tables 0, 17 and 18.
    documents_added: [u64; 2],
    tables: [u64; 3],
    /// Views by refusal, and the values that those of accepted documents show.
    views: [u64; 11],
    shown: u64,
    written: written::Tally,
}

fn main() -> ExitCode {
    let mut words: Vec<String> = std::env::args().skip(1).collect();
    let writing = words.first().is_some_and(|word| word == "writing");
    words.drain(..usize::from(writing));
    let arguments: Vec<u64> = words.iter().map_while(|word| word.parse().ok()).collect();
    if arguments.is_empty() || arguments.len() != words.len() || words.len() > 3 {
        eprintln!("{USAGE}");
        return ExitCode::from(2);
    }
    let seed = arguments.get(1).copied().unwrap_or(1);
    let first = arguments.get(2).copied().unwrap_or(0);
    let numbers = first..first.saturating_add(arguments[0]);
    if writing {
        return if written::all(numbers, seed) { ExitCode::SUCCESS } else { ExitCode::FAILURE };
    }
    let mut tally = Tally {
        refusals: [0; 11],
        kinds: [0; 4],
        notes: notes::Tally::default(),
        renamed: 0,
        renamed_taken: 0,
        digits: [0; 3],
        referring: [0; 2],
        bytes: 0,
        documents_added: [0; 2],
        tables: [0; 3],
        views: [0; 11],
        shown: 0,
        written: written::Tally::default(),
    };
    let Some(edges) = notes::edges() else { return ExitCode::FAILURE };
    for number in numbers {
        let made = document(seed, number);
        if !same_reading(&made, seed, number, &mut tally)
            || !notes::same(seed, number, &mut tally.notes)
            || !same_renamed(&made, seed, number, &mut tally)
            || !same_digits(&made, seed, number, &mut tally)
            || !same_tables(seed, number, &mut tally)
            || !same_views(&made, seed, number, &mut tally)
            || !written::same(&made.bytes, seed, number, &mut tally.written)
        {
            return ExitCode::FAILURE;
        }
    }
    print_tally(arguments[0], edges, &tally);
    ExitCode::SUCCESS
}

fn print_tally(count: u64, edges: usize, tally: &Tally) {
    let [_, one, two, three] = tally.kinds;
    println!("{count} documents, {} bytes: {} accepted, {one} of kind 1, {two} of kind 2, {three} of kind 3", tally.bytes, tally.refusals[0]);
    for (number, many) in tally.refusals.iter().enumerate().skip(1) {
        println!("refusal {number}: {many}");
    }
    println!("{edges} notes at the edges");
    println!("{} notes: {} old, {} new", tally.notes.all, tally.notes.old, tally.notes.new);
    println!("{} documents with other identifications, {} accepted", tally.renamed, tally.renamed_taken);
    println!(
        "{} documents with other digits of prices, {} accepted, {} of them with references in amounts",
        tally.digits[0], tally.digits[1], tally.digits[2]
    );
    println!("{} accepted documents have references, {} in all", tally.referring[0], tally.referring[1]);
    println!("tables of accepted documents: {} added up, refusal 17: {}", tally.documents_added[0], tally.documents_added[1]);
    println!("generated tables: {} added up, refusal 17: {}, 18: {}", tally.tables[0], tally.tables[1], tally.tables[2]);
    let refused: Vec<String> = tally.views.iter().enumerate().skip(1).map(|(number, many)| format!("{number}: {many}")).collect();
    println!("views: {} of accepted documents, {} values; refusal {}", tally.views[0], tally.shown, refused.join(", "));
    tally.written.print();
    println!("no difference");
}

/// A document and what is lent for it, the shape of the note among it.
struct Call<'d> {
    doc: &'d [u8],
    lengths: &'d Lengths,
    shape: u32,
}

impl Call<'_> {
    fn by_model(&self) -> Outcome {
        model::read_in(self.shape, self.doc, self.lengths)
    }

    fn by_library(&self) -> Result<Outcome, &'static str> {
        library::read_in(self.shape, self.doc, self.lengths)
    }

    fn differs(&self, expected: &Outcome) -> bool {
        match self.by_library() {
            Ok(outcome) => outcome != *expected || !read_back(&outcome) || library::readable_len(self.doc) != model::readable_len(self.doc),
            Err(_) => true,
        }
    }

    fn print_both(&self) {
        println!("model:   {:?}, readable up to {}", self.by_model(), model::readable_len(self.doc));
        match self.by_library() {
            Ok(outcome) => println!("library: {outcome:?}, readable up to {}", library::readable_len(self.doc)),
            Err(broken) => println!("library: {broken}"),
        }
    }
}

/// The answer, all cells, the note, the note read back, and how far the document is readable; of an accepted document the totals too.
fn same_reading(made: &Document, seed: u64, number: u64, tally: &mut Tally) -> bool {
    let call = Call { doc: &made.bytes, lengths: &made.lengths, shape: shape(seed, number) };
    let expected = call.by_model();
    tally.bytes += made.bytes.len() as u64;
    tally.refusals[expected.answer[0] as usize] += 1;
    tally.kinds[expected.answer[2] as usize] += u64::from(expected.answer[0] == 0);
    let references = if expected.answer[0] == 0 { model::references(&made.bytes) } else { 0 };
    tally.referring[0] += u64::from(references > 0);
    tally.referring[1] += references as u64;
    if !call.differs(&expected) {
        return expected.answer[0] != 0 || same_totals_of(&expected, seed, number, tally);
    }
    println!("difference: seed {seed}, number {number}, {} bytes, {:?}, shape {}", made.bytes.len(), made.lengths, call.shape);
    call.print_both();
    let smallest = shrunk(call.doc, &|doc| {
        let shorter = Call { doc, ..call };
        shorter.differs(&shorter.by_model())
    });
    println!("smallest document found, {} bytes: {}", smallest.len(), smallest.escape_ascii());
    Call { doc: &smallest, ..call }.print_both();
    false
}

/// The note of a reading says the first five numbers of its answer, also in the other shape; with refusal 10 there is none.
fn read_back(outcome: &Outcome) -> bool {
    let note = &outcome.note[..(outcome.answer[6] as usize).min(outcome.note.len())];
    let (refusal, six) = model::read_note(note);
    let said = outcome.answer[0] == 10 || (refusal == 0 && six[..5] == outcome.answer[..5]);
    said && notes::read_alike(note, 6)
        && notes::converted_alike(note, 0, 24, 2)
        && notes::converted_alike(note, 1, 24, 2)
        && notes::there_and_back(note)
}

/// The tables of an accepted document are refused for nothing but too many series.
fn same_totals_of(outcome: &Outcome, seed: u64, number: u64, tally: &mut Tally) -> bool {
    let [_, _, kind, series, _, n, _] = outcome.answer;
    let (series_table, positions, amounts) = (outcome.series.clone(), outcome.positions.clone(), outcome.amounts.clone());
    let count = series as usize;
    let asked = Asked { kind, n, count, series: series_table, positions, amounts, totals: 2 * count + 1, sum: 2 };
    let many = count > MOST_SERIES;
    tally.documents_added[usize::from(many)] += 1;
    if add_up(&asked).refusal != if many { 17 } else { 0 } {
        println!("difference: seed {seed}, number {number}, an accepted document of {count} series is not added up");
        return false;
    }
    same_totals(&asked, seed, number)
}

fn same_tables(seed: u64, number: u64, tally: &mut Tally) -> bool {
    let asked = tables(seed, number);
    let refusal = add_up(&asked).refusal;
    tally.tables[match refusal {
        0 => 0,
        17 => 1,
        _ => 2,
    }] += 1;
    same_totals(&asked, seed, number)
}

fn same_totals(asked: &Asked, seed: u64, number: u64) -> bool {
    let (expected, answered) = (add_up(asked), library::add_up(asked));
    if answered.as_ref() == Ok(&expected) {
        return true;
    }
    println!("difference: seed {seed}, number {number}, {asked:?}\nmodel:   {expected:?}\nlibrary: {answered:?}");
    false
}

/// How many bytes are read at most to find a smaller document.
const PATIENCE: usize = 2_000_000_000;

/// The document with as many pieces left out as can be, within patience, while the two still differ.
fn shrunk(found: &[u8], differs: &dyn Fn(&[u8]) -> bool) -> Vec<u8> {
    let mut doc = found.to_vec();
    let mut size = doc.len().div_ceil(2);
    let mut patience = PATIENCE;
    while size > 0 && patience > 0 {
        let before = doc.len();
        doc = without_pieces(doc, size, differs, &mut patience);
        if doc.len() == before {
            size /= 2;
        }
    }
    doc
}

fn without_pieces(doc: Vec<u8>, size: usize, differs: &dyn Fn(&[u8]) -> bool, patience: &mut usize) -> Vec<u8> {
    let mut doc = doc;
    let mut at = 0;
    while at < doc.len() && *patience > 0 {
        *patience = patience.saturating_sub(doc.len());
        let mut less = doc.clone();
        less.drain(at..(at + size).min(doc.len()));
        if differs(&less) {
            doc = less;
        } else {
            at += size;
        }
    }
    doc
}

/// The values of a document, in a table that has room for them, and in one of another length.
fn same_views(made: &Document, seed: u64, number: u64, tally: &mut Tally) -> bool {
    for (table, answer) in lent(seed, number, &made.bytes) {
        let expected = view(&made.bytes, table, answer);
        tally.views[expected.refusal as usize] += 1;
        tally.shown += expected.table.chunks(2).filter(|pair| pair[0] != 0).count() as u64;
        let differs = |doc: &[u8]| library::view(doc, table, answer) != Ok(view(doc, table, answer));
        if !differs(&made.bytes) {
            continue;
        }
        println!("difference: seed {seed}, number {number}, viewed in {table} and {answer} cells");
        let smallest = shrunk(&made.bytes, &differs);
        println!("smallest document found, {} bytes: {}", smallest.len(), smallest.escape_ascii());
        println!("model:   {:?}\nlibrary: {:?}", view(&smallest, table, answer), library::view(&smallest, table, answer));
        return false;
    }
    true
}

/// K12: with its identifications replaced by a one-to-one rule, a document is read by the library as it was: "number, place, note and all tables are the same".
fn same_renamed(made: &Document, seed: u64, number: u64, tally: &mut Tally) -> bool {
    let random = &mut Random::new(seed ^ 0x6E61_6D65, number);
    let Some(other) = renamed(random, &made.bytes) else { return true };
    let by_library = |doc: &[u8]| library::read_in(shape(seed, number), doc, &made.lengths);
    let (first, second) = (by_library(&made.bytes), by_library(&other));
    tally.renamed += 1;
    tally.renamed_taken += u64::from(first.as_ref().is_ok_and(|outcome| outcome.answer[0] == 0));
    if first.is_ok() && first == second {
        return true;
    }
    println!("difference: seed {seed}, number {number}, identifications replaced\nbefore: {first:?}\nafter:  {second:?}");
    println!("before: {}\nafter:  {}", made.bytes.escape_ascii(), other.escape_ascii());
    false
}

/// Of how many documents one is read with other digits.
const DIGITS: u64 = 3;

/// Demand 3: with other readable Qty digits the library leaves the same but for amounts, and those are the model's.
fn same_digits(made: &Document, seed: u64, number: u64, tally: &mut Tally) -> bool {
    let random = &mut Random::new(seed ^ 0x6469_6769, number);
    if number % DIGITS != 0 {
        return true;
    }
    let Some(other) = other_digits(random, &made.bytes) else { return true };
    let call = |doc| Call { doc, lengths: &made.lengths, shape: shape(seed, number) };
    let (first, second) = (call(&made.bytes).by_model(), call(&other).by_library());
    tally.digits[0] += 1;
    tally.digits[1] += u64::from(first.answer[0] == 0);
    tally.digits[2] += u64::from(first.answer[0] == 0 && refers_in_amounts(&made.bytes));
    let alike = second.as_ref().is_ok_and(|second| Outcome { amounts: second.amounts.clone(), ..first.clone() } == *second);
    let cells = lent(seed, number, &made.bytes)[0];
    if alike
        && !call(&other).differs(&call(&other).by_model())
        && library::view(&made.bytes, cells.0, cells.1) == library::view(&other, cells.0, cells.1)
    {
        return true;
    }
    println!("difference: seed {seed}, number {number}, other digits\nbefore: {first:?}\nafter:  {second:?}");
    println!("before: {}\nafter:  {}", made.bytes.escape_ascii(), other.escape_ascii());
    false
}

fn refers_in_amounts(doc: &[u8]) -> bool {
    const QTY: &[u8] = b"<Qty";
    let tags = doc.windows(QTY.len()).enumerate().filter(|(_, part)| *part == QTY);
    tags.into_iter().any(|(at, _)| doc[at..].iter().take_while(|b| **b != b'>').any(|b| *b == b'&'))
}
