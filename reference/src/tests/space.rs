//! What is written: all of the result, nothing past it, and nothing at all if refused.

use crate::samples::{credit_loop, fork_into_join};
use crate::{pack, unpack, Refusal};

#[test]
fn one_byte_short_is_refused_and_writes_nothing() {
    let mut table = [0xA5; 143];
    assert_eq!(
        unpack(&credit_loop().to_file(), &mut table),
        Err(Refusal::ResultSpace)
    );
    assert_eq!(table, [0xA5; 143]);
    let mut file = [0xA5; 81];
    assert_eq!(
        pack(1, 6, &credit_loop().to_table(), &mut file),
        Err(Refusal::ResultSpace)
    );
    assert_eq!(file, [0xA5; 81]);
    assert_eq!(
        (Refusal::ResultSpace.number(), Refusal::ResultSpace.place()),
        (23, 0)
    );
}

#[test]
fn bytes_past_the_result_are_kept() {
    let (file, table) = (credit_loop().to_file(), credit_loop().to_table());
    let mut long_table = [0xA5; 150];
    unpack(&file, &mut long_table).unwrap();
    assert_eq!(
        (&long_table[..144], &long_table[144..]),
        (&table[..], &[0xA5; 6][..])
    );
    let mut long_file = [0xA5; 90];
    pack(1, 6, &table, &mut long_file).unwrap();
    assert_eq!(
        (&long_file[..82], &long_file[82..]),
        (&file[..], &[0xA5; 8][..])
    );
}

#[test]
fn a_refused_fabric_writes_nothing() {
    let mut table = [0xA5; 96];
    assert_eq!(
        unpack(&fork_into_join().to_file(), &mut table),
        Err(Refusal::Circle)
    );
    assert_eq!(table, [0xA5; 96]);
}
