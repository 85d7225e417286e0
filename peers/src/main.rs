//! Judges documents by the proved library, expat, libxml2 and the XML Schemas of `schema/`, all in memory.
//!
//!     peers SCHEMAS SAMPLES COUNT [SEED]
//!
//! What the library accepts has to be well-formed to both peers and accepted by the schema of its kind. What it refuses though the
//! schema takes it has to fall under a rule of 01 that no schema says, and what it can't read though both peers can, under a cut of 01.
//! The values that views show of what it accepts have to be those that expat tells; so have those of the drafts that it writes.

use differential::documents::document;
use differential::drafts::draft;
use differential::random::Random;
use std::collections::BTreeMap;
use std::process::ExitCode;

mod classes;
mod expat;
mod library;
mod libxml;
mod neighbours;
mod tags;
mod views;
mod written;

use library::Answer;
use libxml::{Schema, Tree};
use tags::{few_zeros, passed_over};

const USAGE: &str = "usage: peers SCHEMAS SAMPLES COUNT [SEED]";
const ROOTS: [&str; 3] = ["Beschaffungsanforderung", "Kostenblatt", "NetworkConstraintDocument"];
/// How many neighbours of each accepted document are looked at.
const NEIGHBOURS: usize = 4;
const LONGEST_WITH_NEIGHBOURS: usize = 100_000;
/// How many faults are shown.
const SHOWN: usize = 20;

/// What the peers say of a document.
struct Verdict {
    expat: bool,
    libxml: bool,
    /// It is so to libxml2 only with its reading of namespaces off.
    odd_names: bool,
    /// The kind whose schema accepts it, else 0.
    schema: u32,
    /// The schema accepts it only with the root's `xmlns`, `xmlns:` and `xsi:` attributes passed over.
    passed_over: bool,
}

#[derive(Default)]
struct Tally {
    documents: u64,
    bytes: u64,
    accepted: u64,
    expat: u64,
    libxml: u64,
    odd_names: u64,
    valid: u64,
    passed_over: u64,
    /// Well-formed to both peers, and the schema refuses.
    only_schema: u64,
    /// Well-formed to one peer alone. expat has the names of XML 1.0's fourth edition and takes any version number; libxml2 takes `UTF8` as
    /// a name of UTF-8, and a byte 0 after the root as the end.
    one_peer: u64,
    /// Refused by the library, taken by the schema: by refusal and class.
    narrower: BTreeMap<(u32, &'static str), u64>,
    /// Values that views show.
    shown: u64,
    /// Values of drafts that were written.
    told: u64,
    /// Unreadable to the library, well-formed to both peers: by cut.
    cuts: BTreeMap<&'static str, u64>,
    faults: u64,
}

struct Judge {
    schemas: [Schema; 3],
}

impl Judge {
    /// The kind whose schema accepts the document, else 0.
    fn kind(&self, tree: &Tree) -> u32 {
        let name = tree.root_name();
        let taken = (0..3).find(|at| name == ROOTS[*at] && self.schemas[*at].accepts(tree));
        taken.map_or(0, |at| at as u32 + 1)
    }

    fn verdict(&self, doc: &[u8]) -> Verdict {
        let short = few_zeros(doc);
        let tree = Tree::of(&short);
        let odd_names = tree.is_none() && libxml::well_formed_by_names_alone(&short);
        let libxml = tree.is_some() || odd_names;
        let mut schema = tree.map_or(0, |tree| self.kind(&tree));
        let plainly = schema != 0;
        if libxml && !plainly {
            schema = Tree::of(&passed_over(&short)).map_or(0, |tree| self.kind(&tree));
        }
        Verdict { expat: expat::well_formed(doc), libxml, odd_names, schema, passed_over: schema != 0 && !plainly }
    }

    /// The library's answer, counted, with the verdict held against it.
    fn judge(&self, doc: &[u8], name: &str, tally: &mut Tally) -> Answer {
        let answer = library::read(doc);
        let verdict = self.verdict(doc);
        count(doc, answer, &verdict, tally);
        if let Some(fault) = fault(doc, answer, &verdict, tally) {
            tally.faults += 1;
            if tally.faults <= SHOWN as u64 {
                println!("FAULT {name}: {fault}; refusal {} at {}; libxml2: {}", answer.refusal, answer.place, libxml::complaint());
                let from = answer.place.min(doc.len()).saturating_sub(40);
                println!("    {}", doc[from..(from + 200).min(doc.len())].escape_ascii());
            }
        }
        answer
    }
}

fn count(doc: &[u8], answer: Answer, verdict: &Verdict, tally: &mut Tally) {
    tally.documents += 1;
    tally.bytes += doc.len() as u64;
    tally.accepted += u64::from(answer.refusal == 0);
    tally.expat += u64::from(verdict.expat);
    tally.libxml += u64::from(verdict.libxml);
    tally.odd_names += u64::from(verdict.odd_names);
    tally.one_peer += u64::from(verdict.expat != verdict.libxml);
    tally.valid += u64::from(verdict.schema != 0);
    tally.passed_over += u64::from(verdict.passed_over);
    tally.only_schema += u64::from(verdict.expat && verdict.libxml && verdict.schema == 0);
}

/// What is wrong between the library and the peers. Classes of what 01 has narrower are counted on the way.
fn fault(doc: &[u8], answer: Answer, verdict: &Verdict, tally: &mut Tally) -> Option<&'static str> {
    let both = verdict.expat && verdict.libxml;
    if answer.refusal == 0 {
        let shown = views::agreed(doc);
        tally.shown += shown.unwrap_or(0);
        return match (verdict.expat, verdict.libxml, verdict.schema == answer.kind) {
            (true, true, true) if shown.is_some() => None,
            (true, true, true) => Some("accepted, and views show other values than expat"),
            (false, _, _) => Some("accepted, and not well-formed to expat"),
            (_, false, _) => Some("accepted, and not well-formed to libxml2"),
            _ => Some("accepted, and refused by the schema"),
        };
    }
    if both && answer.refusal == 2 {
        let Some(cut) = classes::cut(doc, answer.place) else { return Some("unreadable, and well-formed to both under no cut") };
        *tally.cuts.entry(cut).or_default() += 1;
    }
    if verdict.schema != 0 {
        let why = if both { classes::why(doc, answer) } else { Some("not well-formed to expat") };
        let Some(why) = why else { return Some("refused, and taken by the schema for no reason of 01") };
        *tally.narrower.entry((answer.refusal, why)).or_default() += 1;
    }
    None
}

fn print_tally(title: &str, tally: &Tally) {
    println!(
        "{title}: {} documents, {} bytes; {} accepted; well-formed to expat {}, to libxml2 {} ({} only without its namespaces), to one alone {}",
        tally.documents, tally.bytes, tally.accepted, tally.expat, tally.libxml, tally.odd_names, tally.one_peer
    );
    println!(
        "  taken by the schema {}, of them {} with the root's xmlns and xsi attributes passed over; well-formed to both and refused by the schema {}",
        tally.valid, tally.passed_over, tally.only_schema
    );
    for ((refusal, why), many) in &tally.narrower {
        println!("  taken by the schema, refusal {refusal}: {many} ({why})");
    }
    for (cut, many) in &tally.cuts {
        println!("  well-formed to both, unreadable: {many} ({cut})");
    }
    println!("  values shown by views of accepted ones, as expat tells them: {}", tally.shown);
    if tally.told > 0 {
        println!("  values that were given and written, as expat tells them: {}", tally.told);
    }
    println!("  faults: {}", tally.faults);
}

fn judge_samples(judge: &Judge, folder: &str) -> std::io::Result<Tally> {
    let mut tally = Tally::default();
    for entry in std::fs::read_dir(folder)? {
        let path = entry?.path();
        judge.judge(&std::fs::read(&path)?, &path.display().to_string(), &mut tally);
    }
    Ok(tally)
}

/// Generated documents, and neighbours of those that are accepted.
fn judge_generated(judge: &Judge, count: u64, seed: u64) -> (Tally, Tally) {
    let (mut made, mut near) = (Tally::default(), Tally::default());
    for number in 0..count {
        let doc = document(seed, number).bytes;
        let name = format!("seed {seed}, number {number}");
        if judge.judge(&doc, &name, &mut made).refusal == 0 && doc.len() <= LONGEST_WITH_NEIGHBOURS {
            judge_neighbours(judge, &doc, &name, &mut Random::new(seed ^ 0x6E65_6172, number), &mut near);
        }
    }
    (made, near)
}

/// What is written of generated drafts, which has to be accepted by all, with the values that were given.
fn judge_written(judge: &Judge, count: u64, seed: u64) -> Tally {
    let mut tally = Tally::default();
    for number in 0..count {
        let draft = draft(seed, number);
        let Some(doc) = library::write(&draft) else { continue };
        let name = format!("seed {seed}, draft {number}");
        let told = written::agreed(&draft, &doc);
        tally.told += told.unwrap_or(0);
        if judge.judge(&doc, &name, &mut tally).refusal != 0 || told.is_none() {
            tally.faults += 1;
            println!("FAULT {name}: what is written is not accepted, or expat tells another value");
        }
    }
    tally
}

fn judge_neighbours(judge: &Judge, doc: &[u8], name: &str, random: &mut Random, near: &mut Tally) {
    for turn in 0..NEIGHBOURS {
        let other = neighbours::neighbour(random, doc);
        judge.judge(&other, &format!("{name}, neighbour {turn}"), near);
    }
}

fn main() -> ExitCode {
    let words: Vec<String> = std::env::args().skip(1).collect();
    let numbers: Vec<u64> = words.iter().skip(2).map_while(|word| word.parse().ok()).collect();
    if numbers.is_empty() || numbers.len() > 2 || numbers.len() + 2 != words.len() {
        eprintln!("{USAGE}");
        return ExitCode::from(2);
    }
    let schema = |name: &str| Schema::read(&format!("{}/{name}.xsd", words[0]));
    let [Some(first), Some(second), Some(third)] = ["beschaffungsanforderung", "kostenblatt", "networkconstraintdocument"].map(schema) else {
        eprintln!("a schema in {} can't be read", words[0]);
        return ExitCode::from(2);
    };
    libxml::shut();
    let judge = Judge { schemas: [first, second, third] };
    let samples = match judge_samples(&judge, &words[1]) {
        Ok(tally) => tally,
        Err(error) => {
            eprintln!("{}: {error}", words[1]);
            return ExitCode::from(2);
        }
    };
    print_tally("samples", &samples);
    let (made, near) = judge_generated(&judge, numbers[0], numbers.get(1).copied().unwrap_or(1));
    print_tally("generated", &made);
    print_tally("neighbours of accepted ones", &near);
    let written = judge_written(&judge, numbers[0], numbers.get(1).copied().unwrap_or(1));
    print_tally("written", &written);
    if samples.faults + made.faults + near.faults + written.faults == 0 {
        ExitCode::SUCCESS
    } else {
        ExitCode::FAILURE
    }
}
