//! The run checker, through the code that the program runs.

use std::io::{self, Read};

use oracle::check::check;
use oracle::format::Layout;

#[track_caller]
fn says(input: impl Read, layout: Layout, line: &str) {
    let mut output = Vec::new();
    check(input, &mut output, layout).expect("reading and writing bytes");
    assert_eq!(String::from_utf8(output).expect("text"), format!("{line}\n"));
}

/// True, stored to predicate 0: the reference is 0.
const WIDE: [u8; 6] = [2, 8, 0, 0, 0, 0xff];
const NARROW: [u8; 5] = [2, 8, 0, 0, 0xff];

#[test]
fn a_line_for_each_verdict() {
    let (wide, narrow) = (Layout::Wide, Layout::Narrow);
    says(&[][..], wide, "well-formed, 0 strips");
    says(&WIDE[..], wide, "well-formed, 1 strips");
    says(&NARROW[..], narrow, "well-formed, 1 strips");
    says(&[WIDE, WIDE].concat()[..], wide, "well-formed, 2 strips");
    // Of the other layout: the reference is 0xff00, or a kind is 0.
    says(&NARROW[..], wide, "refused 7 at byte 1");
    says(&WIDE[..], narrow, "refused 7 at byte 4");
    // The last strip has no end; the last entry is cut.
    says(&WIDE[..5], wide, "refused 7 at byte 5");
    says(&WIDE[..4], wide, "refused 7 at byte 1");
    says(&[&WIDE[..], &NARROW[..], &WIDE[..]].concat()[..], wide, "refused 7 at byte 7");
}

/// A reader that hands out a few bytes at a time and is interrupted before each of them.
struct Interrupted<'a> {
    rest: &'a [u8],
    ready: bool,
}

impl Read for Interrupted<'_> {
    fn read(&mut self, buffer: &mut [u8]) -> io::Result<usize> {
        self.ready = !self.ready;
        if !self.ready {
            return Err(io::ErrorKind::Interrupted.into());
        }
        let len = buffer.len().min(7);
        self.rest.read(&mut buffer[..len])
    }
}

#[test]
fn longer_than_a_block() {
    const STRIPS: usize = 50_000;
    for (strip, layout) in [(&WIDE[..], Layout::Wide), (&NARROW[..], Layout::Narrow)] {
        let run = strip.repeat(STRIPS);
        assert!(run.len() > 3 * 65_536);
        says(&run[..], layout, "well-formed, 50000 strips");
        says(Interrupted { rest: &run, ready: true }, layout, "well-formed, 50000 strips");
        let last = run.len() - strip.len();
        says(&run[..run.len() - 2], layout, &format!("refused 7 at byte {}", last + 1));
        // Nothing is read after the block of a refusal.
        let bad = [&run[..], &[0], &run[..65_536]].concat();
        says((&bad[..]).chain(Broken), layout, &format!("refused 7 at byte {}", run.len()));
        assert!(check((&run[..]).chain(Broken), io::sink(), layout).is_err());
    }
}

/// A reader that fails.
struct Broken;

impl Read for Broken {
    fn read(&mut self, _: &mut [u8]) -> io::Result<usize> {
        Err(io::ErrorKind::Other.into())
    }
}
