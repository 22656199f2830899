//! The program `harness`: see [`HELP`].

mod answers;
mod bench;
mod convert_bench;
mod convert_diff;
mod dead;
mod evaluate_bench;
mod evaluate_diff;
mod ffi;
mod lent;
mod meaning_diff;
mod pair;
mod random_bytes;
mod reach_bench;
mod reach_diff;
mod rooms;
mod runs;
mod shape_bench;
mod shape_blocks;
mod shape_diff;
mod tables;
mod translate_bench;
mod translate_bits;
mod translate_diff;
mod words_bench;
mod words_diff;

use std::process::ExitCode;

const HELP: &str = "\
harness: compares the static library of the port with plain Rust

Usage:
  harness shape-diff COUNT SEED
      Runs both shape tests on COUNT random runs of strips (translated, made at random, near misses, damaged, of the
      other layout, short bytes) and on all byte strings of up to 3 bytes, in both layouts, and with numbers that name
      no layout; each as a whole and in blocks, cut in several ways. Prints the verdicts for each class, what the blocks
      met, and each difference. Some thousand runs are needed for every class to have both verdicts; from 100,000 runs
      on the blocks must have met everything.
  harness evaluate-diff COUNT SEED
      Runs both evaluations on COUNT random runs of strips (translated, made at random, near misses, damaged, mixed, of
      the other layout), in both layouts and with numbers that name none, from random states with random lists of
      constants. Compares the number and the whole state, which a refusal must leave as it was. Prints the answers for
      each class and each difference. Some ten thousand runs are needed for every class to have its answers.
  harness translate-diff COUNT SEED
      Translates COUNT random records (random bytes, known kinds, admitted ones, near misses of the refusals 4 and 5,
      dead words) with both, into rooms that are exactly long enough, longer, shorter or empty, and carries the use
      marks along. Compares the number, the length, the marks and every byte of the room. Some hundred thousand records
      are needed for every class to have its answers.
  harness translate-bits STEP SEED
      The same for every kind, form and telling opcode value with every STEPth setting of the bits 39 to 56 (1: all
      262,144), the other bits random. Steps up to some thousand see every answer. One thread for each processor.
  harness meaning-diff COUNT SEED
      Translates random admitted records of every kind and form, evaluates their strips, alone and several as one run,
      and compares number and state with the meanings of 01 in plain Rust. COUNT is the number of records. Some hundred
      thousand are needed for every kind and form to be seen under every guard and with every telling opcode value.
  harness reach-diff COUNT SEED
      Runs both reaches on COUNT random runs of no to some hundred strips (translated, made at random, near misses,
      damaged, mixed) with random asked cells, few or many, whose bytes are any but 0, and with lists of another length.
      Compares the number and every byte, also beside the list. Prints for each class the answers and in how many runs
      the list gained and lost cells. Some thousand runs are needed for every class to have its answers.
  harness convert-diff COUNT SEED
      Runs both converters on COUNT random runs of strips (translated, made at random, near misses, damaged, of the
      other layout, of no bytes), from each layout and with numbers that name none, into rooms that are exactly long
      enough, longer, shorter or empty. Compares the number, the length and every byte of the room, also beside it. What
      is converted must be well-formed in the other layout, become the same run when it is converted back, and evaluate
      as the run does. Some ten thousand runs are needed for every class to have its answers.
  harness words-diff COUNT SEED
      Runs both writers of SPIR-V words on COUNT random strips (translated, of both signs, made at random, near misses,
      damaged, none, several), with bounds and tables of ids that are right, and wrong in each way, into rooms that are
      exactly long enough, longer, shorter or empty. Compares the number, the three numbers that are handed back and
      every word of the room, also beside it. A translated strip must never get 17. Some ten thousand strips are needed
      for every class to have its answers; from 100,000 on every kind of entry must have been written.
  harness random-bytes COUNT SEED
      Calls each function of the library COUNT times on random bytes, on records and runs with bytes changed, and on
      lists of right and wrong lengths. A number that the function cannot answer, a write beside a lent list, or any
      write where it refuses is wrong; a shape test in blocks must go on refusing. Prints how often each number was
      answered; each must be seen. Some ten thousand calls are needed. One thread for each processor.
  harness bench [shape | evaluation | translation | reach | convert | spirv]
      Measures port and Rust on the same work and prints one table: nanoseconds for each strip by the port and by the
      Rust, and their ratio, port to Rust. Best of many rounds, port and Rust in turn. With a name only these rows. The
      two last ones of spirv have the port's translation in the place of the Rust.
  harness help | --help | -h
      Prints this text.

SEED is a number in decimal, or in hex with 0x.
Exit status: 0 no difference, 1 a difference, a wrong answer or an answer that ought to be seen and is not, 2 wrong
usage.
";

fn main() -> ExitCode {
    let args: Vec<String> = std::env::args().skip(1).collect();
    let args: Vec<&str> = args.iter().map(String::as_str).collect();
    let answer = match args[..] {
        ["help" | "--help" | "-h"] => {
            print!("{HELP}");
            Ok(true)
        }
        ["shape-diff", count, seed] => {
            number(count).and_then(|count| number(seed).map(|seed| shape_diff::run(count, seed)))
        }
        ["evaluate-diff", count, seed] => {
            number(count).and_then(|count| number(seed).map(|seed| evaluate_diff::run(count, seed)))
        }
        ["translate-diff", count, seed] => {
            number(count).and_then(|count| number(seed).map(|seed| translate_diff::run(count, seed)))
        }
        ["translate-bits", step, seed] => number(step).and_then(|step| {
            let seed = number(seed)?;
            translate_bits::run(step, seed).ok_or_else(|| format!("no step of {step}"))
        }),
        ["meaning-diff", count, seed] => {
            number(count).and_then(|count| number(seed).map(|seed| meaning_diff::run(count, seed)))
        }
        ["reach-diff", count, seed] => {
            number(count).and_then(|count| number(seed).map(|seed| reach_diff::run(count, seed)))
        }
        ["convert-diff", count, seed] => {
            number(count).and_then(|count| number(seed).map(|seed| convert_diff::run(count, seed)))
        }
        ["words-diff", count, seed] => {
            number(count).and_then(|count| number(seed).map(|seed| words_diff::run(count, seed)))
        }
        ["bench"] => Ok(bench::run(None).expect("all parts")),
        ["bench", part] => bench::run(Some(part)).ok_or_else(|| format!("no benchmark `{part}`")),
        ["random-bytes", count, seed] => {
            number(count).and_then(|count| number(seed).map(|seed| random_bytes::run(count, seed)))
        }
        [] => Err("no command".to_owned()),
        [
            command @ ("shape-diff" | "evaluate-diff" | "translate-diff" | "translate-bits" | "meaning-diff"
            | "reach-diff" | "convert-diff" | "words-diff" | "random-bytes" | "bench"),
            ..,
        ] => Err(format!("wrong arguments for `{command}`")),
        [command, ..] => Err(format!("no command `{command}`")),
    };
    match answer {
        Ok(true) => ExitCode::SUCCESS,
        Ok(false) => ExitCode::from(1),
        Err(message) => {
            eprintln!("harness: {message}\nTry `harness --help`.");
            ExitCode::from(2)
        }
    }
}

fn number(text: &str) -> Result<u64, String> {
    let parsed = match text.strip_prefix("0x") {
        Some(digits) => u64::from_str_radix(digits, 16),
        None => text.parse(),
    };
    parsed.map_err(|error| format!("`{text}` is no number: {error}"))
}
