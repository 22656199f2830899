//! Takes the reference translator out of `docs/src`, without changing a character of it.
//!
//! The generated file `reference.rs` is a row of pieces. A piece is either a *block*, which is a contiguous run of
//! whole lines of one file of the reference, or a *wrapper*, which is one line written here (an `impl` header, a
//! `mod` header or a closing brace). A second generated file, `pieces.rs`, lists the pieces one by one, so that a
//! test can look for each block in `docs/src` and can name every wrapper.
//!
//! How a block is found:
//! - An item (function, constant, type) starts at the only line that begins with its indentation and its first
//!   words. It ends on that line if the line ends with `;`, else at the next line that is a closing brace with the
//!   same indentation. Attribute lines directly above belong to it.
//! - An arm of the `match` in `op` starts at a line with the indentation of the arms that is no closing brace. It ends
//!   on that line if the line ends with `,`, else at the closing brace with that indentation.
//!
//! Whatever is missing or found twice stops the build.

use std::fmt::Write as _;
use std::path::{Path, PathBuf};
use std::{env, fs};

const SOURCE_DIR: &str = "../docs/src/crates/maxwell/src";

/// The thirty names, in the order of their kinds. `src/record.rs` has the same list; a test compares them.
const NAMES: [&str; 30] = [
    "mov", "mov32i", "sel", "csetp", "isetp", "iset", "psetp", "pset", "iadd", "iadd32i", "iadd3", "iscadd", "xmad",
    "imnmx", "icmp", "lop", "lop32i", "lop3", "shl", "shr", "bfe", "bfi", "vmnmx", "i2i", "flo", "popc", "r2p", "p2r",
    "shf", "lea",
];

/// Methods of `Insn` that the text below calls.
const INSN_METHODS: [&str; 11] = ["bits", "bit", "rd", "ra", "rb", "rc", "guard", "pred", "simm20", "imm32", "cbuf"];

/// Methods of `Translator` before `op`, in the order of the file.
const HELPERS: [&str; 12] =
    ["u", "r", "set", "p", "setp", "b2u", "cbuf_at", "cbuf_imm", "src_b", "src_bc", "guarded", "cc_flag"];

/// Methods of `Translator` for flags and for whole arms, in the order of the file.
const ARM_HELPERS: [&str; 21] = [
    "set_cc",
    "cc_test",
    "video_operand",
    "vmnmx",
    "half_select",
    "add_with_flags",
    "carry_flag",
    "signed_overflow",
    "saturate_add",
    "inot",
    "ineg",
    "bool_op",
    "int_cmp",
    "icompare",
    "shift",
    "lop3",
    "xmad",
    "half16",
    "int_source",
    "i2i",
    "saturate_int",
];

/// GLSL instruction numbers that the text names.
const GLSL: [&str; 7] = ["SABS", "UMIN", "SMIN", "UMAX", "SMAX", "FIND_S_MSB", "FIND_U_MSB"];

/// One file of the reference, cut into lines.
struct Source {
    name: &'static str,
    lines: Vec<String>,
}

/// A row of whole lines, `first..=last`.
#[derive(Clone, Copy)]
struct Span {
    first: usize,
    last: usize,
}

impl Source {
    fn read(dir: &Path, name: &'static str) -> Source {
        let path = dir.join(name);
        println!("cargo:rerun-if-changed={}", path.display());
        let text = fs::read_to_string(&path).unwrap_or_else(|e| panic!("cannot read {}: {e}", path.display()));
        assert!(text.ends_with('\n'), "{name} does not end with a newline");
        Source { name, lines: text.lines().map(str::to_owned).collect() }
    }

    /// The only line that begins with `start`.
    fn only_line(&self, start: &str) -> usize {
        let found: Vec<usize> = (0..self.lines.len()).filter(|&at| self.lines[at].starts_with(start)).collect();
        match found[..] {
            [at] => at,
            [] => panic!("{}: no line begins with {start:?}", self.name),
            _ => panic!("{}: {} lines begin with {start:?}", self.name, found.len()),
        }
    }

    /// The line that closes what `first` opens: the next one with the same indentation, which must be `}`.
    fn closing_line(&self, first: usize, indent: usize) -> usize {
        let close = format!("{:indent$}}}", "");
        for at in first + 1..self.lines.len() {
            let line = &self.lines[at];
            if line.is_empty() || indentation(line) > indent {
                continue;
            }
            assert!(*line == close, "{}: line {} should close line {}", self.name, at + 1, first + 1);
            return at;
        }
        panic!("{}: nothing closes line {}", self.name, first + 1);
    }

    /// The item whose first line begins with `indent` spaces and `start`.
    fn item(&self, indent: usize, start: &str) -> Span {
        let head = self.only_line(&format!("{:indent$}{start}", ""));
        let last = if self.lines[head].ends_with(';') { head } else { self.closing_line(head, indent) };
        let mut first = head;
        while first > 0 && self.lines[first - 1].starts_with(&format!("{:indent$}#[", "")) {
            first -= 1;
        }
        Span { first, last }
    }

    /// `op` in pieces: its head down to the `match` line, the arms, and its end after the last named arm.
    fn op(&self) -> (Span, Vec<Span>, Span) {
        const ARM: usize = 12;
        let whole = self.item(4, "fn op(");
        let inside = whole.first..=whole.last;
        let one = |what: &str| -> usize {
            let found: Vec<usize> = inside.clone().filter(|&at| self.lines[at] == what).collect();
            assert!(found.len() == 1, "{}: {} lines of `op` are {what:?}", self.name, found.len());
            found[0]
        };
        let head = Span { first: whole.first, last: one("        match i.name() {") };
        let tail = Span { first: one("            name => {"), last: whole.last };
        let mut arms = Vec::new();
        let mut at = head.last + 1;
        while at < tail.first {
            assert!(indentation(&self.lines[at]) == ARM, "{}: line {} should start an arm", self.name, at + 1);
            let last = if self.lines[at].ends_with(',') { at } else { self.closing_line(at, ARM) };
            arms.push(Span { first: at, last });
            at = last + 1;
        }
        (head, arms, tail)
    }
}

fn indentation(line: &str) -> usize {
    line.len() - line.trim_start_matches(' ').len()
}

/// The quoted names of an arm's pattern, and whether the pattern has a condition.
fn pattern(line: &str) -> (Vec<&str>, bool) {
    let (pattern, _) = line.split_once("=>").unwrap_or_else(|| panic!("no arm: {line}"));
    let (names, condition) = match pattern.split_once(" if ") {
        Some((names, _)) => (names, true),
        None => (pattern, false),
    };
    let names = names.split('|').map(|n| n.trim().trim_matches('"')).collect();
    (names, condition)
}

/// The pieces in the order of the generated file.
#[derive(Default)]
struct Pieces(Vec<(Option<&'static str>, String)>);

impl Pieces {
    fn wrapper(&mut self, line: &str) {
        self.0.push((None, format!("{line}\n")));
    }

    fn block(&mut self, source: &Source, span: Span) {
        let mut text = source.lines[span.first..=span.last].join("\n");
        text.push('\n');
        self.0.push((Some(source.name), text));
    }

    fn items(&mut self, source: &Source, indent: usize, before: &str, names: &[&str], after: &str) {
        for name in names {
            self.block(source, source.item(indent, &format!("{before}{name}{after}")));
        }
    }
}

/// The arms of the thirty kinds. The mov of a system value is the one arm with a condition; under a guard that may run it
/// is refused with number 4, and under one that never does `guarded` calls no arm.
fn take_arms(pieces: &mut Pieces, source: &Source, arms: &[Span]) {
    let mut taken: Vec<String> = Vec::new();
    for &arm in arms {
        let (names, condition) = pattern(&source.lines[arm.first]);
        let wanted = names.iter().filter(|n| NAMES.contains(n)).count();
        if wanted == 0 {
            continue;
        }
        if condition {
            assert!(names == ["mov"], "{}: line {} has a condition", source.name, arm.first + 1);
            continue;
        }
        assert!(wanted == names.len(), "{}: line {} mixes kinds", source.name, arm.first + 1);
        taken.extend(names.iter().map(|n| n.to_string()));
        pieces.block(source, arm);
    }
    for name in NAMES {
        let times = taken.iter().filter(|t| *t == name).count();
        assert!(times == 1, "{}: {times} arms of `op` for {name}", source.name);
    }
}

fn assemble(decode: &Source, opcodes: &Source, translate: &Source) -> Pieces {
    let mut pieces = Pieces::default();
    pieces.items(decode, 0, "pub const ", &["RZ", "PT"], ":");
    pieces.items(opcodes, 0, "pub enum ", &["Form"], " {");
    pieces.items(translate, 0, "type ", &["R"], "<");

    pieces.wrapper("mod glsl {");
    pieces.items(translate, 4, "pub const ", &GLSL, ":");
    pieces.wrapper("}");

    pieces.wrapper("impl Insn {");
    pieces.items(decode, 4, "pub fn ", &INSN_METHODS, "(");
    pieces.wrapper("}");

    pieces.wrapper("impl<'a> Translator<'a> {");
    pieces.items(translate, 4, "fn ", &HELPERS, "(");
    let (head, arms, tail) = translate.op();
    pieces.block(translate, head);
    take_arms(&mut pieces, translate, &arms);
    pieces.block(translate, tail);
    pieces.items(translate, 4, "fn ", &ARM_HELPERS, "(");
    pieces.wrapper("}");
    pieces
}

/// The rows of the opcode table for the thirty names. Only the record generator reads them: the translator takes
/// value and form from the record.
fn table_rows(opcodes: &Source) -> Vec<String> {
    let rows: Vec<String> = opcodes
        .lines
        .iter()
        .filter(|line| line.starts_with("    Opcode {"))
        .filter(|line| NAMES.iter().any(|name| line.contains(&format!("name: \"{name}\","))))
        .cloned()
        .collect();
    for name in NAMES {
        let some = rows.iter().any(|row| row.contains(&format!("name: \"{name}\",")));
        assert!(some, "{}: no row for {name}", opcodes.name);
    }
    rows
}

fn main() {
    let manifest = PathBuf::from(env::var_os("CARGO_MANIFEST_DIR").expect("set by cargo"));
    let out = PathBuf::from(env::var_os("OUT_DIR").expect("set by cargo"));
    println!("cargo:rerun-if-changed=build.rs");
    let dir = manifest.join(SOURCE_DIR);
    let decode = Source::read(&dir, "decode.rs");
    let opcodes = Source::read(&dir, "opcodes.rs");
    let translate = Source::read(&dir, "translate.rs");

    let pieces = assemble(&decode, &opcodes, &translate);
    let reference: String = pieces.0.iter().map(|(_, text)| text.as_str()).collect();
    let mut list = String::from("pub const PIECES: &[Piece] = &[\n");
    for (source, text) in &pieces.0 {
        writeln!(list, "    Piece {{ source: {source:?}, text: {text:?} }},").expect("to a string");
    }
    list.push_str("];\n");

    let mut table = String::from("pub const OPCODES: &[Opcode] = &[\n");
    for row in table_rows(&opcodes) {
        writeln!(table, "{row}").expect("to a string");
    }
    table.push_str("];\n");

    for (name, text) in [("reference.rs", reference), ("pieces.rs", list), ("opcodes.rs", table)] {
        let path = out.join(name);
        fs::write(&path, text).unwrap_or_else(|e| panic!("cannot write {}: {e}", path.display()));
    }
}
