//! Reach: the order of its tests, and what it writes.

use crate::component::{Component, Kind};
use crate::packed::{repair_check_byte, CHECK_BYTE};
use crate::reach;
use crate::refusal::number_and_place;
use crate::samples::{
    credit_loop, fork_into_join, forks_into_one_channel, looped_queues, switch_row,
};

/// A refused call writes nothing.
fn answer(file: &[u8], space: usize) -> (u32, u64) {
    let mut sets = vec![0xA5; space];
    let answer = reach(file, &mut sets);
    if answer.is_err() {
        assert_eq!(sets, vec![0xA5; space]);
    }
    number_and_place(&answer)
}

#[test]
fn a_file_is_refused_before_the_space() {
    let file = credit_loop().to_file();
    assert_eq!(answer(&[], 0), (1, 0));
    assert_eq!(answer(&file[..3], 0), (1, 0));
    let changed = |place: usize, byte| {
        let mut file = file.clone();
        file[place] = byte;
        repair_check_byte(&mut file);
        file
    };
    assert_eq!(answer(&changed(0, 0x20), 0), (2, 0));
    assert_eq!(answer(&changed(0, 0x11), 0), (2, 0));
    assert_eq!(answer(&changed(1, 0), 0), (3, 0));
    assert_eq!(answer(&changed(2, 0), 0), (3, 0));
    assert_eq!(answer(&file[..81], 0), (4, 0));
    let mut wrong_sum = file.clone();
    wrong_sum[CHECK_BYTE] ^= 1;
    assert_eq!(answer(&wrong_sum, 0), (5, 0));
    let mut no_capacity = credit_loop();
    no_capacity.components[2].capacity = 0;
    assert_eq!(answer(&no_capacity.to_file(), 0), (6, 2));
    assert_eq!(answer(&forks_into_one_channel().to_file(), 0), (7, 0));
    let mut twice = credit_loop();
    twice.components[4] = Component::new(Kind::Sink, [5, 0, 0]);
    assert_eq!(answer(&twice.to_file(), 0), (7, 4));
    assert_eq!(answer(&fork_into_join().to_file(), 0), (8, 0));
    assert_eq!(answer(&file, 0), (23, 0));
}

/// It is the count of channels that is needed, not that of components.
#[test]
fn just_m_bytes_are_enough() {
    let file = credit_loop().to_file();
    assert_eq!(answer(&file, 6), (0, 0));
    assert_eq!(answer(&file, 5), (23, 0));
    let file = switch_row(63).to_file();
    assert_eq!(answer(&file, 190), (0, 0));
    assert_eq!(answer(&file, 189), (23, 0));
    let file = looped_queues(128).to_file();
    assert_eq!(answer(&file, 128), (0, 0));
    assert_eq!(answer(&file, 127), (23, 0));
}

#[test]
fn bytes_past_m_are_kept() {
    for more in [0, 1, 9, 300] {
        let mut sets = vec![0xA5; 6 + more];
        assert_eq!(reach(&credit_loop().to_file(), &mut sets), Ok(()));
        assert_eq!(sets[..6], [0x80; 6]);
        assert_eq!(sets[6..], vec![0xA5; more]);
    }
}
