//! The judge: the published Rust of google/pdl, made to answer records of document 01.

#[allow(dead_code)]
mod analyzer;
#[allow(dead_code)]
mod ast;
mod backends {
    pub mod common;
    #[allow(dead_code)]
    pub mod cxx;
    #[allow(dead_code)]
    pub mod cxx_padded;
}

mod answer;
mod cases;
#[cfg(port)]
mod compare;
mod damage;
mod divided;
mod divides;
mod families;
mod features;
mod files;
mod generate;
mod growth;
mod histogram;
mod keywords;
mod later;
mod lean;
mod marked;
mod marked_bits;
mod marked_divides;
mod marked_raws;
mod marked_sections;
mod marked_trailing;
mod names;
mod numbered;
mod panics;
#[cfg(port)]
mod port;
mod published;
mod random;
mod raws;
mod record;
mod refusals;
mod sections;
mod sizes;
mod sketch;
mod speed;
mod stated;
mod timing;
mod timing_all;
mod trailing;

use answer::{answer, Answer, BUFFER};
use cases::Case;
use generate::{Flavour, FLAVOURS};
use histogram::Histogram;
use sections::sections;
use std::error::Error;
use std::io::{self, BufWriter, Read, Write};
use std::process::ExitCode;

const USAGE: &str = "\
judge answer < RECORD                the lines, or refused=N
judge all < RECORD                   the sections of all targets, or refused=N
judge sizes < RECORD                 the tables of sizes, or refused=N
judge published < RECORD             the same without refusal 16: names that are keywords are printed
judge record SHORTHAND > RECORD      a record, as in 'little Lamp lite; packet Lamp -: scalar amps 16'
judge words                          the keywords of refusal 16, one a line
judge marked > CASES                 the marked cases of document 01, its faults and its limits
judge keywords > CASES               the marked cases of refusal 16, each of its words among them
judge bits > CASES                   the marked cases of refusal 17: sizes, order, form and length
judge trailing > CASES               the marked cases of the line `trailing`: what counts, order, form and length
judge raws > CASES                   the marked cases of the line `raw`: the numbers, names, order, form and length
judge divides > CASES                the marked cases of the line `products`: the checks, order, form and length
judge sections > CASES               the marked cases of all targets at once: order, lengths and refusals
judge generate SEED COUNT FLAVOUR > CASES
                                     cases by chance: small, mixed, damaged, sizes, names, stated,
                                     trailing, raws, divides or files
judge wholes < CASES > CASES         the same records with the answers for all their targets
judge select EACH < CASES > CASES    those with a feature that fewer than EACH of document 01's
                                     marked cases and those chosen before show
judge replay < CASES                 whether the stored answers are the judge's
judge digest < CASES                 one number for the size tables of all cases past refusal 9
judge histogram < CASES              what the cases show
judge survey SEED COUNT              the same for COUNT generated cases of each flavour
judge bench SEED COUNT               nanoseconds for accepted records: COUNT mixed ones, and families
judge bench-all                      nanoseconds for all targets at once and one by one, as they grow in number
judge speed < LOAD                   nanoseconds for the accepted records of a load (docs/LOAD.md), all and by their size
judge growth < LOAD                  nanoseconds as records grow in one thing, a point a line (see oracle/speed)
judge compare SEED COUNT             the port against the judge, for one target and for all: all marked cases, and
                                     COUNT generated ones of each flavour (see oracle/compare)
";

type Outcome = Result<ExitCode, Box<dyn Error>>;

fn main() -> Outcome {
    panics::install_quiet_hook();
    let arguments: Vec<String> = std::env::args().skip(1).collect();
    let words: Vec<&str> = arguments.iter().map(String::as_str).collect();
    match words[..] {
        ["answer"] => print_answer(answer),
        ["all"] => print_answer(|record| sections::whole(&sections(record))),
        ["published"] => print_answer(answer::with_any_name),
        ["record", shorthand] => print_record(shorthand),
        ["words"] => print_words(),
        ["sizes"] => print_sizes(),
        ["marked"] => write_cases(marked::records()),
        ["keywords"] => write_cases(marked::keyword_records()),
        ["bits"] => write_cases(marked_bits::records()),
        ["trailing"] => write_cases(marked_trailing::records()),
        ["raws"] => write_cases(marked_raws::records()),
        ["divides"] => write_cases(marked_divides::records()),
        ["sections"] => write_cases(marked_sections::records()),
        ["generate", seed, count, flavour] => {
            write_cases(generate::records(named(flavour)?, seed.parse()?, count.parse()?))
        }
        ["select", each] => write_selected(each.parse()?),
        ["wholes"] => write_wholes(),
        ["replay"] => replay(),
        ["digest"] => print_digest(),
        ["histogram"] => print_histogram(),
        ["survey", seed, count] => survey(seed.parse()?, count.parse()?),
        ["bench", seed, count] => bench(seed.parse()?, count.parse()?),
        ["bench-all"] => bench_all(),
        ["speed"] => speed(speed::print),
        ["growth"] => speed(speed::print_growth),
        #[cfg(port)]
        ["compare", seed, count] => compare_port(seed.parse()?, count.parse()?),
        _ => {
            eprint!("{USAGE}");
            Ok(ExitCode::from(2))
        }
    }
}

fn named(flavour: &str) -> Result<Flavour, String> {
    let found = FLAVOURS.iter().find(|(name, _)| *name == flavour);
    found.map(|(_, flavour)| *flavour).ok_or(format!("no flavour: {flavour}"))
}

fn read_all() -> io::Result<Vec<u8>> {
    let mut bytes = Vec::new();
    io::stdin().lock().read_to_end(&mut bytes)?;
    Ok(bytes)
}

/// Hands each case of standard input on.
fn for_each_case(mut each: impl FnMut(Case) -> io::Result<()>) -> io::Result<()> {
    let mut input = io::stdin().lock();
    while let Some(case) = Case::read(&mut input)? {
        each(case)?;
    }
    Ok(())
}

fn print_answer(answer: fn(&[u8]) -> Answer) -> Outcome {
    match answer::within(BUFFER, &answer(&read_all()?)) {
        (0, lines) => io::stdout().write_all(lines)?,
        (number, _) => println!("refused={number}"),
    }
    Ok(ExitCode::SUCCESS)
}

fn print_record(shorthand: &str) -> Outcome {
    io::stdout().write_all(&sketch::record(shorthand))?;
    Ok(ExitCode::SUCCESS)
}

fn print_words() -> Outcome {
    keywords::words().iter().for_each(|word| println!("{word}"));
    Ok(ExitCode::SUCCESS)
}

fn print_sizes() -> Outcome {
    match refusals::of_the_text(&read_all()?) {
        Ok(record) => print!("{}", sizes::Tables::new(&record).listing(&record)),
        Err(refusal) => println!("refused={} ({})", refusal.number, refusal.because),
    }
    Ok(ExitCode::SUCCESS)
}

fn write_cases(records: impl IntoIterator<Item = Vec<u8>>) -> Outcome {
    let mut output = BufWriter::new(io::stdout().lock());
    for record in records {
        let answer = answer(&record);
        Case::new(record, &answer).write(&mut output)?;
    }
    output.flush()?;
    Ok(ExitCode::SUCCESS)
}

fn write_selected(each: u64) -> Outcome {
    let mut output = BufWriter::new(io::stdout().lock());
    let mut seen = Histogram::default();
    marked::records().iter().for_each(|record| seen.add(record, &answer(record)));
    for_each_case(|case| {
        let answer = answer(&case.record);
        if seen.shows_fewer_than(each, &case.record, &answer) {
            seen.add(&case.record, &answer);
            case.write(&mut output)?;
        }
        Ok(())
    })?;
    output.flush()?;
    Ok(ExitCode::SUCCESS)
}

fn write_wholes() -> Outcome {
    let mut output = BufWriter::new(io::stdout().lock());
    for_each_case(|case| {
        let whole = sections::whole(&sections(&case.record));
        Case::new(case.record, &whole).write(&mut output)
    })?;
    output.flush()?;
    Ok(ExitCode::SUCCESS)
}

fn replay() -> Outcome {
    let (mut all, mut wrong) = (0, 0);
    for_each_case(|case| {
        let answer = answer(&case.record);
        let equal = (case.number, &case.lines[..]) == answer::within(BUFFER, &answer);
        all += 1;
        wrong += u64::from(!equal);
        Ok(())
    })?;
    println!("{all} cases, {wrong} with another answer");
    Ok(ExitCode::from(u8::from(wrong > 0)))
}

/// `answer` has checked the tables against the published `Schema`.
fn print_digest() -> Outcome {
    let mut digest = 0;
    for_each_case(|case| {
        let answer = answer(&case.record);
        let (number, _) = answer::within(BUFFER, &answer);
        if number == 0 || (10..=14).contains(&number) {
            let record = refusals::of_the_text(&case.record).expect("answered past refusal 9");
            digest = sizes::mixed(digest, sizes::Tables::new(&record).digest());
        }
        Ok(())
    })?;
    println!("sizes={digest}");
    Ok(ExitCode::SUCCESS)
}

fn print_histogram() -> Outcome {
    let mut histogram = Histogram::default();
    for_each_case(|case| {
        histogram.add(&case.record, &answer(&case.record));
        histogram.add_all_targets(&sections(&case.record));
        Ok(())
    })?;
    print!("{histogram}");
    Ok(ExitCode::SUCCESS)
}

fn survey(seed: u64, count: usize) -> Outcome {
    let mut histogram = Histogram::default();
    for (_, flavour) in FLAVOURS {
        for record in generate::records(flavour, seed, count) {
            histogram.add(&record, &answer(&record));
            histogram.add_all_targets(&sections(&record));
        }
    }
    print!("{histogram}");
    Ok(ExitCode::SUCCESS)
}

fn bench(seed: u64, count: usize) -> Outcome {
    timing::print(seed, count);
    Ok(ExitCode::SUCCESS)
}

fn bench_all() -> Outcome {
    timing_all::print();
    Ok(ExitCode::SUCCESS)
}

fn speed(print: fn(&[u8])) -> Outcome {
    print(&read_all()?);
    Ok(ExitCode::SUCCESS)
}

#[cfg(port)]
fn compare_port(seed: u64, count: usize) -> Outcome {
    const SHOWN: usize = 5;
    let mut histogram = Histogram::default();
    let mut comparison = compare::Comparison::new();
    let mut differences = 0;
    let generated = FLAVOURS.iter().flat_map(|(_, flavour)| generate::records(*flavour, seed, count));
    let of_requests = [
        marked::keyword_records(),
        marked_bits::records(),
        marked_trailing::records(),
        marked_raws::records(),
        marked_divides::records(),
        marked_sections::records(),
    ];
    let marked = marked::records().into_iter().chain(of_requests.into_iter().flatten());
    for record in marked.chain(generated) {
        let (answer, sections) = (answer(&record), sections(&record));
        let found =
            [comparison.difference(&record, &answer), comparison.difference_of_all(&record, &sections)];
        for difference in found.into_iter().flatten() {
            differences += 1;
            if differences <= SHOWN {
                println!("{difference}\n{}", String::from_utf8_lossy(&record));
            }
        }
        histogram.add(&record, &answer);
        histogram.add_all_targets(&sections);
    }
    println!("{histogram}{}{differences} differ", comparison.counts);
    Ok(ExitCode::from(u8::from(differences > 0)))
}
