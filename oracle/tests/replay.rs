//! The files beside the program `crates/replay`: the stored list is what the command writes now, and the program's last
//! line has the list's counts.

use oracle::vectors::stored_list;

/// The program's rooms: for the strip that the list has, and for the one that it translates.
const STRIP: usize = 256;

#[test]
fn the_stored_list_is_what_the_command_writes() {
    assert!(include_bytes!("../../crates/replay/stdin")[..] == stored_list()[..], "see `oracle vectors`");
}

#[test]
fn the_stored_line_has_the_counts_of_the_list() {
    let list = stored_list();
    let (mut accepted, mut refused, mut marked) = (0, 0, 0);
    let mut rest = &list[..];
    while let Some((head, tail)) = rest.split_first_chunk::<26>() {
        let (slot, number) = (head[18], head[23]);
        let length = usize::from(u16::from_le_bytes([head[24], head[25]]));
        assert!(length <= STRIP && (number == 0) == (length > 0));
        assert!(slot == 255 || slot < 32 && head[19..23] != [0; 4]);
        if number == 0 {
            accepted += 1;
        } else {
            refused += 1;
        }
        marked += u32::from(slot != 255);
        rest = &tail[length..];
    }
    assert!(rest.is_empty());
    assert!(refused >= 100 && marked >= 1000, "{refused} {marked}");
    let line = format!("records {}, accepted {accepted}, refused {refused}, differences 0\n", accepted + refused);
    assert_eq!(include_str!("../../crates/replay/stdout"), line);
}
