//! The cipher: laws that document 000 states, on random data.

use crate::random::Random;
use crate::support::{decrypt, encrypt, CLASSES};
use reference::cipher::*;

fn random_array(random: &mut Random) -> Array {
    array_of_block(random.block())
}

fn column(a: Array, i: usize) -> [u8; 4] {
    [a[0][i], a[1][i], a[2][i], a[3][i]]
}

/// γ_i of document 000, 2.1, on a vector of four nibbles.
fn gamma_i(i: usize, a: [u8; 4]) -> [u8; 4] {
    std::array::from_fn(|k| S[(i + k) % 4][usize::from(a[k])])
}

/// π_i of document 000, 2.1, on a column, spelt out.
fn pi_i(i: usize, a: [u8; 4]) -> [u8; 4] {
    let m = |k: usize| M[k % 4];
    std::array::from_fn(|j| {
        (m(i + j) & a[0]) ^ (m(i + j + 1) & a[1]) ^ (m(i + j + 2) & a[2]) ^ (m(i + j + 3) & a[3])
    })
}

#[test]
fn s2_inverts_s0_and_s3_inverts_s1() {
    for x in 0..16u8 {
        for i in 0..4 {
            assert_eq!(S[(i + 2) % 4][usize::from(S[i][usize::from(x)])], x);
        }
    }
}

#[test]
fn the_round_constants_are_the_powers_of_x() {
    let mut power = 1;
    for c in C {
        assert_eq!(c, power);
        power <<= 1;
        if power > 15 {
            power ^= 0b10011;
        }
    }
}

#[test]
fn blocks_and_arrays_go_both_ways_high_nibble_first_row_by_row() {
    let block = [0x01, 0x23, 0x45, 0x67, 0x89, 0xab, 0xcd, 0xef];
    let a = array_of_block(block);
    assert_eq!(
        a,
        [[0, 1, 2, 3], [4, 5, 6, 7], [8, 9, 10, 11], [12, 13, 14, 15]]
    );
    assert_eq!(block_of_array(a), block);
    assert_eq!(words_of_array(a), [0x0123, 0x4567, 0x89ab, 0xcdef]);
    assert_eq!(array_of_words([0x0123, 0x4567, 0x89ab, 0xcdef]), a);
}

#[test]
fn gamma_works_on_columns_as_on_rows() {
    let mut random = Random::new(1);
    for _ in 0..200 {
        let a = random_array(&mut random);
        for i in 0..4 {
            assert_eq!(column(gamma(a), i), gamma_i(i, column(a, i)));
            assert_eq!(gamma(a)[i], gamma_i(i, a[i]));
            assert_eq!(column(gamma_inverse(a), i), gamma_i(i + 2, column(a, i)));
        }
        assert_eq!(gamma_inverse(gamma(a)), a);
        assert_eq!(gamma(gamma_inverse(a)), a);
        assert_eq!(tau(gamma(a)), gamma(tau(a)));
        assert_eq!(tau(gamma_inverse(a)), gamma_inverse(tau(a)));
    }
}

#[test]
fn pi_tau_and_phi_are_their_own_inverses() {
    let mut random = Random::new(2);
    for _ in 0..200 {
        let a = random_array(&mut random);
        assert_eq!(pi(pi(a)), a);
        assert_eq!(tau(tau(a)), a);
        assert_eq!(phi(phi(a)), a);
        for i in 0..4 {
            assert_eq!(column(pi(a), i), pi_i(i, column(a, i)));
            assert_eq!(phi(a)[i], pi_i(i, a[i]));
        }
    }
}

#[test]
fn row_i_of_a_round_is_pi_i_of_gamma_i_of_column_i_and_key_word_i() {
    let mut random = Random::new(3);
    for _ in 0..200 {
        let a = random_array(&mut random);
        let k = words_of_array(random_array(&mut random));
        for (i, key_row) in array_of_words(k).iter().enumerate() {
            let sealed = pi_i(i, gamma_i(i, column(a, i)));
            let opened = pi_i(i, gamma_i(i + 2, column(a, i)));
            for j in 0..4 {
                assert_eq!(rho(k, a)[i][j], sealed[j] ^ key_row[j]);
                assert_eq!(rho_prime(k, a)[i][j], opened[j] ^ key_row[j]);
            }
        }
    }
}

/// Key words 1 to t, worked by hand. At round 0 word 0 is 0001, whose S step is
/// 444f, so T is 555e. At round 1 word 0 is 0002 for t = 4, so T is 4443
/// exclusive or 2222, 6661; for t = 6 and 8 it is 0006, so T is 666e.
#[test]
fn round_keys_worked_by_hand() {
    for (t, round_0, round_1) in [
        (
            4,
            [0x5002, 0x0503, 0x0054, 0x000f],
            [0x6003, 0x0604, 0x0068, 0x0003],
        ),
        (
            6,
            [0x5002, 0x0503, 0x0054, 0x000b],
            [0x6008, 0x0602, 0x0063, 0x040e],
        ),
        (
            8,
            [0x5002, 0x0503, 0x0054, 0x000b],
            [0x6007, 0x0608, 0x0068, 0x000c],
        ),
    ] {
        let words: Vec<u16> = (1..=t).collect();
        let key = crate::support::key_of_words(&words);
        assert_eq!(sealing_key(&key, 0), Some(round_0));
        assert_eq!(sealing_key(&key, 1), Some(round_1));
    }
}

#[test]
fn the_opening_keys_are_phi_of_the_sealing_keys_reversed() {
    let mut random = Random::new(4);
    for t in CLASSES {
        for _ in 0..300 {
            let key = random.bytes(2 * t);
            for r in 0..=12 {
                let sealing = sealing_key(&key, 12 - r).unwrap();
                assert_eq!(opening_key(&key, r), Some(phi_of_key(sealing)));
            }
        }
    }
}

#[test]
fn the_backward_registers_are_the_forward_ones_reversed() {
    let mut random = Random::new(5);
    for t in CLASSES {
        for _ in 0..300 {
            let key = random.bytes(2 * t);
            for r in 0..=12 {
                let backward = backward_register(&key, r);
                assert!(backward.is_some());
                assert_eq!(backward, forward_register(&key, 12 - r));
            }
        }
    }
}

#[test]
fn the_backward_step_undoes_the_forward_step() {
    let mut random = Random::new(6);
    for t in CLASSES {
        for _ in 0..300 {
            let u = Register::of_key(&random.bytes(2 * t)).unwrap();
            assert_eq!(u.t(), t);
            assert_eq!(u.forward_step().backward_step(), u);
            assert_eq!(u.backward_step().forward_step(), u);
        }
    }
}

#[test]
fn the_register_at_round_0_is_the_key() {
    let mut random = Random::new(7);
    for t in CLASSES {
        let key = random.bytes(2 * t);
        let words = forward_register(&key, 0).unwrap().words().to_vec();
        assert_eq!(crate::support::key_of_words(&words), key);
    }
}

#[test]
fn the_schedule_gives_none_for_a_wrong_key_or_round() {
    for r in [13, 14, 255, usize::MAX] {
        for t in CLASSES {
            let key = vec![7; 2 * t];
            assert_eq!(sealing_key(&key, r), None);
            assert_eq!(opening_key(&key, r), None);
            assert_eq!(forward_register(&key, r), None);
            assert_eq!(backward_register(&key, r), None);
        }
    }
    for length in (0..40).filter(|length| ![8, 12, 16].contains(length)) {
        let key = vec![7; length];
        assert_eq!(sealing_key(&key, 0), None);
        assert_eq!(opening_key(&key, 0), None);
        assert_eq!(forward_register(&key, 0), None);
        assert_eq!(backward_register(&key, 0), None);
    }
}

#[test]
fn decryption_undoes_encryption_and_the_reverse() {
    let mut random = Random::new(8);
    for t in CLASSES {
        for _ in 0..300 {
            let key = random.bytes(2 * t);
            let block = random.block();
            assert_eq!(decrypt(&key, encrypt(&key, block)), block);
            assert_eq!(encrypt(&key, decrypt(&key, block)), block);
        }
    }
}

/// Decryption as the plain inverse of E_K, by the sealing keys alone:
/// ρ inverse is γ inverse ∘ π ∘ τ ∘ σ (document 000, 2.2).
#[test]
fn decryption_is_the_inverse_of_encryption_step_by_step() {
    let mut random = Random::new(9);
    for t in CLASSES {
        for _ in 0..100 {
            let key = random.bytes(2 * t);
            let block = random.block();
            let k = |r| sealing_key(&key, r).unwrap();
            let mut a = phi(array_of_block(block));
            for r in (1..=12).rev() {
                a = gamma_inverse(pi(tau(sigma(k(r), a))));
            }
            let opened = block_of_array(sigma(k(0), a));
            assert_eq!(decrypt(&key, block), opened);
        }
    }
}
