//! Compares every call of the linked library with the oracle:
//!
//!     compare [seed N] [cases N] [from N] [sweeps no] [with NAME]
//!                 every reply, and every byte of sheet, frame and output
//!     compare faults [seed N] [cases N]
//!                 that each known mistake is found
//!
//! Beside random cases it sweeps over sequences, characters, mappings and the bytes of small sheets;
//! `sweeps no` leaves these out, as for a run under valgrind.
//!
//! NAME is who is tested: `library` (libstation.a, if it was there when this was built), `plain`
//! (the formulas of docs/SHEET.md, without the crate), `pixels` (the crate on a frame that paints pixel by
//! pixel) or a mistake of `faulty.rs`. Exit status 0: no difference; 1: a difference, printed with
//! a small input; 2: a word that is not known.

#[cfg(library)]
mod host;

use oracle::cases::{cases, Cases};
use oracle::comparison::{compare, Buffers, Case, Difference};
use oracle::edits::{batch, entries};
use oracle::faulty::{Fault, Faulty, FAULTS};
use oracle::generate::Scale;
use oracle::marked::marked_lines;
use oracle::operation::{hex, Call, Operation, Reply};
use oracle::reduce::reduce;
use oracle::tally::Tally;
use oracle::{check, crash, sweeps, Calls, Crate, Oracle, Plain, Station};
use std::time::Instant;

const ORACLE: Oracle = Calls(Crate { rows: true });

/// The fresh run's replies in the form of the patched run's: of a batch the one that its entries'
/// form, "except at 22", where the patched run's own stands. None if they are not as many.
fn formed(operations: &[Operation], patched: &[Reply], fresh: &[Reply]) -> Option<Vec<Reply>> {
    let mut fresh = fresh.iter();
    let mut formed = Vec::new();
    for (operation, reply) in operations.iter().zip(patched) {
        formed.push(match operation.call {
            Call::EditList if reply.code() == 22 => *reply,
            Call::EditList => {
                let count = entries(&operation.data)?.len();
                let replies = fresh.by_ref().take(count);
                Reply::Batch(batch(replies.filter_map(|reply| match reply {
                    Reply::Area(area) => Some(*area),
                    _ => None,
                })))
            }
            _ => *fresh.next()?,
        });
    }
    fresh.as_slice().is_empty().then_some(formed)
}

/// A comparison that goes on: who is tested, with what, and what was met.
struct Comparison<'a> {
    tested: &'a dyn Station,
    buffers: Buffers,
    tally: Tally,
}

impl Comparison<'_> {
    fn case(&mut self, case: &Case) -> Result<oracle::comparison::Outcome, Difference> {
        compare(
            case,
            &ORACLE,
            self.tested,
            &mut self.buffers,
            &mut self.tally,
        )
    }

    // Demand 3 of docs/DEMANDS.md: both runs end with the same sheet, the same greys and the same replies.
    fn runs(&mut self, patched: &Case, fresh: &Case) -> Result<(), (Case, Difference)> {
        let first = self
            .case(patched)
            .map_err(|difference| (patched.clone(), difference))?;
        let second = self
            .case(fresh)
            .map_err(|difference| (fresh.clone(), difference))?;
        let edits = patched.operations.len() - 1;
        let (_, replies) = second.replies.split_last().expect("the fresh drawing's");
        let formed = formed(&patched.operations[1..], &first.replies[1..], replies);
        let alike = first.sheet == second.sheet
            && first.frame == second.frame
            && formed.as_deref() == Some(&first.replies[1..]);
        self.tally.count("lists of edits, patched and fresh alike");
        if alike {
            return Ok(());
        }
        let difference = Difference {
            operation: edits,
            what: "the oracle's own patched and fresh run differ".into(),
        };
        Err((patched.clone(), difference))
    }

    fn number(&mut self, seed: u64, number: u64) -> Result<(), (Case, Difference)> {
        crash::note_number(number);
        let (model, cases) = cases(seed, number, Scale::Full);
        match cases {
            Cases::Runs { patched, fresh } => {
                self.tally.sheet(&model);
                self.runs(&patched, &fresh)
            }
            Cases::Calls(case) => {
                if check::check(&case.sheet) == 0 {
                    self.tally
                        .sheet(&oracle::model::SheetModel::decode(&case.sheet));
                } else {
                    self.tally.count("refused sheets");
                }
                match self.case(&case) {
                    Ok(_) => Ok(()),
                    Err(difference) => Err((case, difference)),
                }
            }
        }
    }

    fn sweeps(&mut self) -> Result<(), (Case, Difference)> {
        for case in sweeps::all_cases() {
            if let Err(difference) = self.case(&case) {
                return Err((case, difference));
            }
        }
        Ok(())
    }

    fn print(&mut self, case: &Case, difference: &Difference) {
        println!("DIFFERENCE: {}", difference.what);
        let mut shown = case.clone();
        shown.operations.truncate(difference.operation + 1);
        let mut buffers = Buffers::default();
        let mut tally = Tally::default();
        let mut differs =
            |case: &Case| compare(case, &ORACLE, self.tested, &mut buffers, &mut tally).is_err();
        if differs(&shown) {
            shown = reduce(&shown, &mut differs);
        }
        if let Err(smallest) = self.case(&shown) {
            println!("  smallest found: {}", smallest.what);
        }
        println!(
            "  frame of {} greys, output of {}",
            shown.frame.len(),
            shown.output.len()
        );
        for operation in &shown.operations {
            println!("  call {operation}");
        }
        println!(
            "  sheet of {} bytes: {}",
            shown.sheet.len(),
            hex(&shown.sheet)
        );
    }
}

/// The words of the command line: names, each with its value.
struct Words {
    faults: bool,
    pairs: Vec<(String, String)>,
}

impl Words {
    /// The words as given, or what is wrong with them.
    fn read(given: &[String]) -> Result<Self, String> {
        let faults = given.first().is_some_and(|word| word == "faults");
        let known: &[&str] = if faults {
            &["seed", "cases"]
        } else {
            &["seed", "cases", "from", "sweeps", "with"]
        };
        let mut pairs: Vec<(String, String)> = Vec::new();
        for pair in given[usize::from(faults)..].chunks(2) {
            let name = pair[0].as_str();
            if !known.contains(&name) {
                return Err(format!("'{name}' is not known; the words are {known:?}"));
            }
            if pairs.iter().any(|(other, _)| other == name) {
                return Err(format!("'{name}' is there twice"));
            }
            let Some(value) = pair.get(1) else {
                return Err(format!("'{name}' needs a value"));
            };
            match name {
                "sweeps" if value != "no" => return Err("'sweeps' can be 'no' only".into()),
                "with" if tested(value).is_none() => {
                    return Err(format!(
                        "'{value}' is not known, or was not there when this was built"
                    ))
                }
                "seed" | "cases" | "from" if value.parse::<u64>().is_err() => {
                    return Err(format!("'{name}' needs a number, and not '{value}'"))
                }
                _ => pairs.push((name.into(), value.clone())),
            }
        }
        Ok(Self { faults, pairs })
    }

    fn after(&self, name: &str) -> Option<&str> {
        let pair = self.pairs.iter().find(|(word, _)| word == name)?;
        Some(pair.1.as_str())
    }

    fn number(&self, name: &str, otherwise: u64) -> u64 {
        self.after(name)
            .map_or(otherwise, |word| word.parse().expect("a number"))
    }
}

fn marked(tested: &dyn Station) -> bool {
    let marked = marked_lines(tested);
    let missed: Vec<_> = marked.iter().filter(|(_, met)| !met).collect();
    println!(
        "marked lines of docs/SHEET.md: {} met",
        marked.len() - missed.len()
    );
    for (line, _) in &missed {
        println!("  not met: {line}");
    }
    missed.is_empty()
}

fn walks(tested: &dyn Station) -> bool {
    match (sweeps::walks(&ORACLE, tested), sweeps::characters(tested)) {
        (Ok(steps), Ok(characters)) => {
            println!("walker: {steps} sequences and all {characters} characters alike");
            true
        }
        (walked, known) => {
            println!("DIFFERENCE in the walker: {walked:02X?} {known:?}");
            false
        }
    }
}

fn compare_all(words: &Words, name: &str, tested: &dyn Station) -> bool {
    let seed = words.number("seed", 1);
    let (from, count) = (words.number("from", 0), words.number("cases", 50_000));
    println!("compare seed {seed} from {from} cases {count} with {name}");
    let start = Instant::now();
    let sweeps = words.after("sweeps") != Some("no");
    let mut good = marked(tested);
    if sweeps {
        good &= walks(tested);
    }
    let mut comparison = Comparison {
        tested,
        buffers: Buffers::default(),
        tally: Tally::default(),
    };
    let mut differences = 0;
    if sweeps {
        if let Err((case, difference)) = comparison.sweeps() {
            println!("in the sweeps:");
            comparison.print(&case, &difference);
            differences += 1;
        }
        let answers = comparison.tally.answers;
        println!("sweeps over bytes of small sheets, mappings and extremes: {answers} answers");
    }
    for number in from..from + count {
        if let Err((case, difference)) = comparison.number(seed, number) {
            println!("in case {number}:");
            comparison.print(&case, &difference);
            differences += 1;
        }
        if differences == 5 {
            println!("stopped after {differences} differences");
            break;
        }
    }
    good &= differences == 0;
    print!("{}", comparison.tally);
    println!(
        "{} answers compared with {name}, {differences} differences, seed {seed}, {:.1} s",
        comparison.tally.answers,
        start.elapsed().as_secs_f64()
    );
    good
}

fn find_faults(words: &Words) -> bool {
    let seed = words.number("seed", 1);
    let count = words.number("cases", 20_000);
    let mut good = true;
    for &fault in FAULTS {
        let tested = Faulty(fault);
        let mut comparison = Comparison {
            tested: &tested,
            buffers: Buffers::default(),
            tally: Tally::default(),
        };
        let found = (0..count).find(|number| comparison.number(seed, *number).is_err());
        match found {
            None if fault == Fault::None => println!("no fault: nothing found in {count} cases"),
            Some(number) if fault == Fault::None => {
                println!("no fault: a difference in case {number}");
                good = false;
            }
            Some(number) => println!(
                "{fault:?}: found in case {number}, after {} answers",
                comparison.tally.answers
            ),
            None => {
                println!("{fault:?}: NOT FOUND in {count} cases");
                good = false;
            }
        }
    }
    good
}

/// Who is tested by this name, if it is known.
fn tested(name: &str) -> Option<Box<dyn Station>> {
    Some(match name {
        "plain" => Box::new(Calls(Plain)),
        "pixels" => Box::new(Calls(Crate { rows: false })),
        #[cfg(library)]
        "library" => Box::new(host::Library),
        _ => {
            let fault = FAULTS.iter().find(|fault| format!("{fault:?}") == name)?;
            Box::new(Faulty(*fault))
        }
    })
}

fn main() {
    let given: Vec<String> = std::env::args().skip(1).collect();
    let words = Words::read(&given).unwrap_or_else(|wrong| {
        eprintln!("compare: {wrong}");
        std::process::exit(2);
    });
    crash::report_signals();
    let good = if words.faults {
        find_faults(&words)
    } else {
        let otherwise = if cfg!(library) { "library" } else { "plain" };
        let name = words.after("with").unwrap_or(otherwise);
        compare_all(&words, name, &*tested(name).expect("a known name"))
    };
    std::process::exit(i32::from(!good));
}
