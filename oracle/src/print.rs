//! The strip printer of 01: records in, one line for each.

use std::io::{self, Read, Write};

use crate::record::RECORD_LEN;
use crate::{SLOTS, translate};

/// Reads records and prints for each its index, a space, and the strip in lowercase hex or `refused N`. Stops after
/// refusal 1 or 2. The use marks start at 0 and are carried from record to record. With `show_marks` each line ends
/// with a further column: the marks that are not 0 as `slot:mark`, joined by commas, or `-` if there are none.
pub fn print(mut input: impl Read, mut output: impl Write, show_marks: bool) -> io::Result<()> {
    let mut marks = [0; SLOTS];
    for index in 0u64.. {
        let mut record = Vec::with_capacity(RECORD_LEN);
        input.by_ref().take(RECORD_LEN as u64).read_to_end(&mut record)?;
        if record.is_empty() {
            break;
        }
        let answer = translate(&record, &mut marks);
        write!(output, "{index} ")?;
        match &answer {
            Ok(strip) => output.write_all(hex(strip).as_bytes())?,
            Err(number) => write!(output, "refused {number}")?,
        }
        if show_marks {
            write!(output, " {}", marks_column(&marks))?;
        }
        writeln!(output)?;
        if matches!(answer, Err(1 | 2)) {
            break;
        }
    }
    output.flush()
}

/// Bytes in lowercase hex.
pub fn hex(bytes: &[u8]) -> String {
    const DIGITS: &[u8; 16] = b"0123456789abcdef";
    let mut text = String::with_capacity(bytes.len() * 2);
    for byte in bytes {
        text.push(DIGITS[usize::from(byte >> 4)].into());
        text.push(DIGITS[usize::from(byte & 15)].into());
    }
    text
}

fn marks_column(marks: &[u32; SLOTS]) -> String {
    let raised = marks.iter().enumerate().filter(|(_, mark)| **mark != 0);
    let column: Vec<String> = raised.map(|(slot, mark)| format!("{slot}:{mark}")).collect();
    if column.is_empty() { "-".to_owned() } else { column.join(",") }
}
