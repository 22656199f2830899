//! The program `oracle`: see [`HELP`].

use std::io::{self, BufReader, BufWriter, Write};
use std::process::ExitCode;

use oracle::format::{Entry, Layout, encode, value_count};
use oracle::generate::{random_admitted, random_record};
use oracle::record::NAMES;
use oracle::rng::Rng;
use oracle::spirv_strips::spirv_strip;
use oracle::{SLOTS, cases, check, print, translate_entries, vectors, works};

const HELP: &str = "\
oracle: the unchanged text of the reference translator, run over recording stand-ins

Usage:
  oracle print [--marks]
      Reads records of 18 bytes from standard input and prints for each its index from 0, a space, and the strip in
      lowercase hex, or `refused N`. Stops after refusal 1 (a cut last record) or 2.
      --marks adds a column: the use marks after the record that are not 0, as slot:mark in decimal joined by commas,
      or `-` if all are 0. The marks start at 0 and are carried from record to record.
  oracle check-run [--narrow]
      Reads a run of strips from standard input in blocks of 65,536 bytes, in constant memory, and prints one line:
      `well-formed, N strips`, or `refused 7 at byte B`, where B counts the bytes before the entry that is refused or
      cut; where the last strip has no end, it is the length of the input.
      --narrow says that the run is in the narrow layout.
  oracle gen SEED COUNT [--admitted]
      Writes COUNT random records to standard output. The same seed gives the same records.
      --admitted writes only records that are not refused.
  oracle vectors
      Writes the stored list of records with their answers to standard output, for a program that replays them.
      For each record: the record (18 bytes); the slot whose use mark it raises, or 255 (1); that mark, or 0 (4);
      the refusal number, or 0 (1); the strip's length, 0 if refused (2); the strip. Numbers are little-endian.
      All marks are 0 before each record.
  oracle cases [--answers]
      Writes the hand-made runs for the program crates/evaluation_cases, one to a line: how many constant words are
      lent and the run, both in hex (`-` for a run of no bytes), and a name.
      --answers writes the lines that the program must write: 0 or the number of the refusal, each cell that is not
      as at the start, the name.
  oracle works [--records]
      Writes the lines that the program crates/works must write for the two works of samples/, by the meanings.
      --records writes its input.
  oracle count COUNT SEED
      Translates COUNT random records and prints for each kind how many were accepted and refused, and the most
      entries, values and bytes in one strip.
  oracle narrow COUNT SEED
      Translates COUNT random admitted records and prints how many bytes their strips have in the wide and in the
      narrow layout, and what the narrow one saves.
  oracle strips COUNT SEED [--narrow]
      Writes the strips of COUNT random admitted records to standard output, as one run in the wide layout.
      --narrow writes it in the narrow layout.
  oracle spirv-strips COUNT SEED
      Writes COUNT random strips that no record gives, for the writer of SPIR-V words: for each its length (2 bytes,
      little-endian) and the strip, in the wide layout.
  oracle help | --help | -h
      Prints this text.

SEED is a number in decimal, or in hex with 0x. Exit status: 0 done, 1 reading or writing failed, 2 wrong usage.
";

/// What can go wrong.
enum Failure {
    Usage(String),
    Io(io::Error),
}

impl From<io::Error> for Failure {
    fn from(error: io::Error) -> Failure {
        Failure::Io(error)
    }
}

fn main() -> ExitCode {
    let args: Vec<String> = std::env::args().skip(1).collect();
    let args: Vec<&str> = args.iter().map(String::as_str).collect();
    match run(&args) {
        Ok(()) => ExitCode::SUCCESS,
        // The reader of the output has gone: nothing is left to do.
        Err(Failure::Io(error)) if error.kind() == io::ErrorKind::BrokenPipe => ExitCode::SUCCESS,
        Err(Failure::Io(error)) => {
            eprintln!("oracle: {error}");
            ExitCode::from(1)
        }
        Err(Failure::Usage(message)) => {
            eprintln!("oracle: {message}\nTry `oracle --help`.");
            ExitCode::from(2)
        }
    }
}

fn run(args: &[&str]) -> Result<(), Failure> {
    let output = BufWriter::new(io::stdout().lock());
    match args {
        ["help" | "--help" | "-h"] => write_all(output, HELP.as_bytes()),
        ["print"] => Ok(print::print(BufReader::new(io::stdin().lock()), output, false)?),
        ["print", "--marks"] => Ok(print::print(BufReader::new(io::stdin().lock()), output, true)?),
        ["check-run"] => Ok(check::check(io::stdin().lock(), output, Layout::Wide)?),
        ["check-run", "--narrow"] => Ok(check::check(io::stdin().lock(), output, Layout::Narrow)?),
        ["gen", seed, count] => generate(output, number(seed)?, number(count)?, false),
        ["gen", seed, count, "--admitted"] | ["gen", "--admitted", seed, count] => {
            generate(output, number(seed)?, number(count)?, true)
        }
        ["vectors"] => write_all(output, &vectors::stored_list()),
        ["cases"] => write_all(output, cases::lines().as_bytes()),
        ["cases", "--answers"] => write_all(output, cases::answers().as_bytes()),
        ["works"] => write_all(output, works::lines().as_bytes()),
        ["works", "--records"] => write_all(output, &works::input()),
        ["count", count, seed] => statistics(output, number(count)?, number(seed)?),
        ["narrow", count, seed] => narrow(output, number(count)?, number(seed)?),
        ["strips", count, seed] => strips(output, number(count)?, number(seed)?, Layout::Wide),
        ["strips", count, seed, "--narrow"] | ["strips", "--narrow", count, seed] => {
            strips(output, number(count)?, number(seed)?, Layout::Narrow)
        }
        ["spirv-strips", count, seed] => spirv_strips(output, number(count)?, number(seed)?),
        [] => Err(Failure::Usage("no command".to_owned())),
        [
            command @ ("print" | "check-run" | "gen" | "vectors" | "cases" | "works" | "count" | "narrow" | "strips"
            | "spirv-strips"),
            ..,
        ] => Err(Failure::Usage(format!("wrong arguments for `{command}`"))),
        [command, ..] => Err(Failure::Usage(format!("no command `{command}`"))),
    }
}

fn number(text: &str) -> Result<u64, Failure> {
    let parsed = match text.strip_prefix("0x") {
        Some(digits) => u64::from_str_radix(digits, 16),
        None => text.parse(),
    };
    parsed.map_err(|error| Failure::Usage(format!("`{text}` is no number: {error}")))
}

fn write_all(mut output: impl Write, bytes: &[u8]) -> Result<(), Failure> {
    output.write_all(bytes)?;
    Ok(output.flush()?)
}

fn generate(mut output: impl Write, seed: u64, count: u64, admitted: bool) -> Result<(), Failure> {
    let mut rng = Rng::new(seed);
    for _ in 0..count {
        let record = if admitted { random_admitted(&mut rng) } else { random_record(&mut rng) };
        output.write_all(&record.to_bytes())?;
    }
    Ok(output.flush()?)
}

#[derive(Clone, Copy, Default)]
struct Row {
    accepted: u64,
    refused: u64,
    entries: usize,
    values: usize,
    bytes: usize,
}

fn statistics(mut output: impl Write, count: u64, seed: u64) -> Result<(), Failure> {
    let mut rng = Rng::new(seed);
    let mut marks = [0; SLOTS];
    // Row 0 is for kinds that do not exist.
    let mut rows = [Row::default(); NAMES.len() + 1];
    let mut refusals = [0u64; 6];
    for _ in 0..count {
        let record = random_record(&mut rng);
        let row = rows.get_mut(usize::from(record.kind)).map_or(0, |_| usize::from(record.kind));
        let row = &mut rows[row];
        match translate_entries(&record.to_bytes(), &mut marks) {
            Ok(entries) => {
                row.accepted += 1;
                row.entries = row.entries.max(entries.len());
                row.values = row.values.max(value_count(&entries));
                row.bytes = row.bytes.max(encode(&entries, Layout::Wide).len());
            }
            Err(number) => {
                row.refused += 1;
                refusals[usize::from(number)] += 1;
            }
        }
    }
    writeln!(
        output,
        "{:<10} {:>10} {:>9} {:>7} {:>6} {:>5}",
        "kind", "accepted", "refused", "entries", "values", "bytes"
    )?;
    let mut total = Row::default();
    for (kind, row) in rows.iter().enumerate() {
        let name = if kind == 0 { "none" } else { NAMES[kind - 1] };
        line(&mut output, &format!("{kind:>2} {name}"), row)?;
        total.accepted += row.accepted;
        total.refused += row.refused;
        total.entries = total.entries.max(row.entries);
        total.values = total.values.max(row.values);
        total.bytes = total.bytes.max(row.bytes);
    }
    line(&mut output, "all", &total)?;
    for (number, times) in refusals.iter().enumerate().skip(2) {
        writeln!(output, "refused {number}: {times}")?;
    }
    Ok(output.flush()?)
}

/// The strips of random admitted records.
fn random_strips(count: u64, seed: u64) -> impl Iterator<Item = Vec<Entry>> {
    let mut rng = Rng::new(seed);
    let mut marks = [0; SLOTS];
    (0..count).map(move |_| {
        let record = random_admitted(&mut rng).to_bytes();
        translate_entries(&record, &mut marks).expect("an admitted record")
    })
}

fn strips(mut output: impl Write, count: u64, seed: u64, layout: Layout) -> Result<(), Failure> {
    for entries in random_strips(count, seed) {
        output.write_all(&encode(&entries, layout))?;
    }
    Ok(output.flush()?)
}

fn spirv_strips(mut output: impl Write, count: u64, seed: u64) -> Result<(), Failure> {
    let mut rng = Rng::new(seed);
    for _ in 0..count {
        let strip = encode(&spirv_strip(&mut rng), Layout::Wide);
        output.write_all(&u16::try_from(strip.len()).expect("strips are short").to_le_bytes())?;
        output.write_all(&strip)?;
    }
    Ok(output.flush()?)
}

fn narrow(mut output: impl Write, count: u64, seed: u64) -> Result<(), Failure> {
    let (mut wide, mut narrow) = (0, 0);
    for entries in random_strips(count, seed) {
        wide += encode(&entries, Layout::Wide).len();
        narrow += encode(&entries, Layout::Narrow).len();
    }
    let saved = 100.0 * (wide - narrow) as f64 / wide.max(1) as f64;
    writeln!(output, "{count} strips: {wide} bytes wide, {narrow} bytes narrow, {saved:.1} % saved")?;
    Ok(output.flush()?)
}

fn line(mut output: impl Write, name: &str, row: &Row) -> io::Result<()> {
    let Row { accepted, refused, entries, values, bytes } = row;
    writeln!(output, "{name:<10} {accepted:>10} {refused:>9} {entries:>7} {values:>6} {bytes:>5}")
}
