//! Cases A to M (document 01, "Each side of each edge").

use crate::support::{key_of_words, CLASSES};
use reference::cipher::*;

const ZERO: Array = [[0; 4]; 4];

/// π in column 0 of a column.
fn pi_in_column_0(column: [u8; 4]) -> [u8; 4] {
    let mut a = ZERO;
    for k in 0..4 {
        a[k][0] = column[k];
    }
    let b = pi(a);
    b.map(|row| row[0])
}

fn words(register: Option<Register>) -> Vec<u16> {
    register.unwrap().words().to_vec()
}

fn key_counting_to(t: u16) -> Vec<u8> {
    key_of_words(&(1..=t).collect::<Vec<u16>>())
}

#[test]
fn case_a_s0_of_7_is_0() {
    assert_eq!(S[0][7], 0);
}

#[test]
fn case_b_s2_of_0_is_7() {
    assert_eq!(S[2][0], 7);
}

#[test]
fn case_c_s_step_on_1234() {
    assert_eq!(s_word(0x1234), 0xf38d);
}

#[test]
fn case_d_pi_in_column_0_of_1000() {
    assert_eq!(pi_in_column_0([1, 0, 0, 0]), [0, 1, 1, 1]);
}

#[test]
fn case_e_pi_in_column_0_of_0111() {
    assert_eq!(pi_in_column_0([0, 1, 1, 1]), [1, 0, 0, 0]);
}

#[test]
fn case_f_zero_key_sealing_key_0() {
    for t in CLASSES {
        let key = vec![0; 2 * t];
        assert_eq!(sealing_key(&key, 0), Some([0x5000, 0x0500, 0x0050, 0x0005]));
    }
}

#[test]
fn case_g_zero_key_sealing_key_12() {
    for t in CLASSES {
        let key = vec![0; 2 * t];
        assert_eq!(
            sealing_key(&key, 12),
            Some([0xb000, 0x0b00, 0x00b0, 0x000b])
        );
    }
}

#[test]
fn case_h_zero_key_opening_key_0() {
    for t in CLASSES {
        let key = vec![0; 2 * t];
        assert_eq!(opening_key(&key, 0), Some([0xa9b3, 0xb3a9, 0xa9b3, 0xb3a9]));
    }
}

#[test]
fn case_i_one_round_of_the_zero_block() {
    assert_eq!(words_of_array(rho([0; 4], ZERO)), [0x58ea; 4]);
}

#[test]
fn case_j_that_round_followed_by_phi() {
    let after = phi(rho([0; 4], ZERO));
    assert_eq!(words_of_array(after), [0x417b, 0x17b4, 0x7b41, 0xb417]);
}

#[test]
fn case_k_four_key_words() {
    let key = key_counting_to(4);
    assert_eq!(
        words(forward_register(&key, 1)),
        [0x0002, 0x0003, 0x0004, 0x0008]
    );
    assert_eq!(
        words(backward_register(&key, 0)),
        [0x0200, 0x0400, 0x0600, 0x0800]
    );
}

#[test]
fn case_l_six_key_words() {
    let key = key_counting_to(6);
    assert_eq!(
        words(forward_register(&key, 1)),
        [0x0006, 0x0008, 0x0002, 0x0003, 0x0400, 0x0005]
    );
    assert_eq!(
        words(backward_register(&key, 0)),
        [0x0040, 0x0080, 0x00c0, 0x0100, 0x0140, 0x0180]
    );
}

#[test]
fn case_m_eight_key_words() {
    let key = key_counting_to(8);
    assert_eq!(
        words(forward_register(&key, 1)),
        [0x0006, 0x0007, 0x0008, 0x0008, 0x0002, 0x0003, 0x0004, 0x0500]
    );
    assert_eq!(
        words(backward_register(&key, 0)),
        [0x0028, 0x8001, 0x0038, 0x0002, 0x4000, 0x0010, 0xc000, 0x0020]
    );
}
