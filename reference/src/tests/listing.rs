//! The listing's text.

use crate::listing;
use crate::samples::{credit_loop, credit_terms, looped_queues};
use crate::terms::write_proposal;

#[test]
fn of_the_credit_loop() {
    let file = credit_loop().to_file();
    let proof = write_proposal(&credit_terms());
    assert_eq!(listing(&file, &proof), "Q 2 0 1\nQ 5 0 1\nSUM 2\n");
    assert_eq!(listing(&file, &proof[..16]), "NO 13 24\n");
    assert_eq!(listing(&file, &[]), "NO 14 0\n");
    assert_eq!(listing(&file, &[0, 0, 0, 1]), "NO 12 0\n");
    let unbalanced = [proof, [0x04, 0x1F, 0xFF, 0xFF].repeat(3)].concat();
    assert_eq!(listing(&file, &unbalanced), "NO 13 16\n");
}

#[test]
fn missing_files_are_empty() {
    assert_eq!(listing(&[], &[]), "NO 1 0\n");
    assert_eq!(listing(&credit_loop().to_file(), &[]), "NO 14 0\n");
}

#[test]
fn only_the_first_bytes_are_read() {
    let mut file = looped_queues(128).to_file();
    assert_eq!(file.len(), 1668);
    let mut proof = [0, 0x1F, 0xFF, 0xFF].repeat(4096);
    assert_eq!(listing(&file, &proof), "Q 0 0 -4096\nSUM 0\n");
    proof.push(0);
    assert_eq!(listing(&file, &proof), "NO 11 0\n");
    proof.extend([0; 3]);
    assert_eq!(listing(&file, &proof), "NO 11 0\n");
    file.push(0);
    assert_eq!(listing(&file, &proof), "NO 4 0\n");
    file.extend([0; 13]);
    assert_eq!(listing(&file, &proof), "NO 4 0\n");
}
