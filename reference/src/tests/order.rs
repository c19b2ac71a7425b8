//! With several faults at once the first test in the order decides.

use super::{pack_answer, unpack_answer};
use crate::packed::{repair_check_byte, CHECK_BYTE};
use crate::samples::{credit_loop, fork_into_join};
use crate::{pack, unpack};

#[test]
fn unpack_from_the_last_test_to_the_first() {
    let mut fabric = fork_into_join();
    assert_eq!(unpack(&fabric.to_file(), &mut []).unwrap_err().number(), 8);
    fabric.channels = 5;
    assert_eq!(unpack_answer(&fabric.to_file()), (7, 4));
    fabric.components[3].capacity = 1;
    let mut file = fabric.to_file();
    assert_eq!(unpack_answer(&file), (6, 3));
    file[CHECK_BYTE] ^= 1;
    assert_eq!(unpack_answer(&file), (5, 0));
    file.push(0);
    assert_eq!(unpack_answer(&file), (4, 0));
    file[2] = 0;
    assert_eq!(unpack_answer(&file), (3, 0));
    file[0] ^= 0x01;
    assert_eq!(unpack_answer(&file), (2, 0));
    file[0] ^= 0x31;
    assert_eq!(unpack_answer(&file), (2, 0));
    assert_eq!(unpack_answer(&file[..4]), (2, 0));
    assert_eq!(unpack_answer(&file[..3]), (1, 0));
    assert_eq!(unpack_answer(&[]), (1, 0));
}

#[test]
fn a_record_too_few_or_too_many_is_the_length() {
    let mut file = credit_loop().to_file();
    file.extend([0; 13]);
    assert_eq!(unpack_answer(&file), (4, 0));
    file.truncate(82 - 13);
    assert_eq!(unpack_answer(&file), (4, 0));
    file[1] = 5;
    repair_check_byte(&mut file);
    assert_eq!(unpack_answer(&file), (7, 1));
}

#[test]
fn pack_from_the_last_test_to_the_first() {
    let mut fabric = fork_into_join();
    let space_and_circle = pack(1, 4, &fabric.to_table(), &mut []);
    assert_eq!(space_and_circle.unwrap_err().number(), 8);
    assert_eq!(pack_answer(1, 5, &fabric.to_table()), (7, 4));
    fabric.components[3].capacity = 1;
    let mut table = fabric.to_table();
    assert_eq!(pack_answer(1, 5, &table), (6, 3));
    assert_eq!(pack_answer(0, 5, &table), (3, 0));
    assert_eq!(pack_answer(1, 0, &table), (3, 0));
    table.push(0);
    assert_eq!(pack_answer(0, 0, &table), (4, 0));
    assert_eq!(pack_answer(1, 1, &table[..23]), (4, 0));
}
