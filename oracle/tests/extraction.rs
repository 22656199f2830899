//! The compiled text is the reference's own: every taken block stands in `docs/src` as one contiguous piece.

use std::fs;
use std::path::Path;

use oracle::extraction::{COMPILED, OPCODE_ROWS, PIECES, SOURCE_DIR};

fn source(name: &str) -> String {
    let path = Path::new(env!("CARGO_MANIFEST_DIR")).join(SOURCE_DIR).join(name);
    fs::read_to_string(&path).unwrap_or_else(|e| panic!("{}: {e}", path.display()))
}

#[test]
fn the_pieces_are_the_compiled_file() {
    let joined: String = PIECES.iter().map(|piece| piece.text).collect();
    assert_eq!(joined, COMPILED);
}

#[test]
fn every_block_stands_once_and_whole_in_the_reference() {
    for piece in PIECES {
        let Some(name) = piece.source else { continue };
        // A newline before, so that a block matches whole lines only.
        let text = format!("\n{}", source(name));
        let block = format!("\n{}", piece.text);
        assert!(piece.text.ends_with('\n'));
        assert_eq!(text.matches(&block).count(), 1, "{name}:\n{}", piece.text);
    }
}

#[test]
fn the_wrapper_lines_are_few_and_known() {
    let wrappers: Vec<&str> = PIECES.iter().filter(|p| p.source.is_none()).map(|p| p.text).collect();
    let expected = ["mod glsl {\n", "}\n", "impl Insn {\n", "}\n", "impl<'a> Translator<'a> {\n", "}\n"];
    assert_eq!(wrappers, expected);
}

/// Whether some block contains the line.
fn taken(line: &str) -> bool {
    PIECES.iter().any(|p| p.source.is_some() && p.text.lines().any(|l| l == line))
}

#[test]
fn the_heart_of_the_reference_is_taken() {
    for line in [
        "    fn guarded(&mut self, i: &Insn, body: impl FnOnce(&mut Self) -> R) -> R {",
        "    fn op(&mut self, pc: u32, i: &Insn) -> R {",
        "            \"isetp\" | \"iset\" => self.icompare(i),",
        "            \"lea\" => {",
        "    fn cbuf_imm(&mut self, slot: u32, offset: u32) -> R<Word> {",
        "    pub fn simm20(&self) -> i32 {",
    ] {
        assert!(taken(line), "{line}");
    }
}

#[test]
fn what_01_calls_lacking_is_not_taken() {
    for start in ["constant", "btrue", "ext", "cast_i", "cast_u", "cbuf_var", "name", "form"] {
        let found =
            COMPILED.lines().find(|l| l.trim_start().trim_start_matches("pub ").starts_with(&format!("fn {start}(")));
        assert_eq!(found, None);
    }
    assert!(!COMPILED.contains("0xf0c8000000000000"), "the mov of a system value is refused or dead, never run");
}

#[test]
fn an_arm_is_taken_for_each_name() {
    for name in oracle::record::NAMES {
        let arm = format!("\"{name}\"");
        let patterns = COMPILED.lines().filter(|l| l.starts_with("            \"") && l.contains("=>"));
        let hits = patterns.filter(|l| l.split("=>").next().is_some_and(|p| p.contains(&arm))).count();
        assert_eq!(hits, 1, "{name}");
    }
}

#[test]
fn every_opcode_row_stands_in_the_reference() {
    let table = source("opcodes.rs");
    let rows =
        OPCODE_ROWS.strip_prefix("pub const OPCODES: &[Opcode] = &[\n").and_then(|rows| rows.strip_suffix("];\n"));
    let rows = rows.expect("two wrapper lines");
    assert!(rows.lines().count() >= oracle::record::NAMES.len());
    for row in rows.lines() {
        assert_eq!(table.lines().filter(|line| *line == row).count(), 1, "{row}");
    }
}
