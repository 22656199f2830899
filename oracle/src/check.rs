//! The run checker: a run in, one line that says whether it is well-formed. The run may be longer than memory.

use std::io::{self, Read, Write};

use crate::format::Layout;
use crate::shape::Blocks;

/// Bytes that are read at once.
const BLOCK: usize = 65_536;

/// Reads a run in the layout block by block and prints `well-formed, N strips`, or `refused 7 at byte B`: B is where the
/// entry starts that is refused or cut, or the length of a run whose last strip has no end. After a refused entry no
/// further block is read.
pub fn check(mut input: impl Read, mut output: impl Write, layout: Layout) -> io::Result<()> {
    let mut blocks = Blocks::new(layout);
    let (mut passed, mut strips) = (0, 0);
    let mut block = vec![0; BLOCK];
    loop {
        let len = match input.read(&mut block) {
            Ok(0) => break,
            Ok(len) => len,
            Err(error) if error.kind() == io::ErrorKind::Interrupted => continue,
            Err(error) => return Err(error),
        };
        let fed = blocks.feed(&block[..len]);
        passed += fed.passed as u64;
        strips += fed.strips as u64;
        if fed.refused {
            break;
        }
    }
    if blocks.ends() {
        writeln!(output, "well-formed, {strips} strips")?;
    } else {
        writeln!(output, "refused 7 at byte {passed}")?;
    }
    output.flush()
}
