//! Any list, of any length and content, is answered.

use epm_reference::generator::anything::{any_contents, any_lists, steep};
use epm_reference::generator::draft::Case;
use epm_reference::generator::random::Random;
use epm_reference::generator::shape;
use epm_reference::refusal::{
    DATA_LENGTH, ENTRY, OF_ALL_CALLS, OF_CERTIFY, REFUSAL_COUNT, SHAPE, STORAGE,
};
use epm_reference::rival::evaluate;
use epm_reference::{certify, check, post, Refusal};

const OF_DATA: [u32; 4] = [SHAPE, DATA_LENGTH, ENTRY, STORAGE];

/// Every call on one input: each answer is a refusal of the page's table or is
/// accepted, and the calls agree on what they all test.
fn answer_all(case: &Case) {
    let checked = check(&case.data, case.scale, &case.plan);
    let certified = certify(&case.data, case.scale, &case.plan, &case.multipliers);
    let mut board = case.board.clone();
    let posted = post(
        &case.data, case.scale, &case.plan, case.year, &mut board, case.start,
    );
    match checked {
        Err(refusal) => {
            assert!(OF_ALL_CALLS.contains(&refusal.number));
            assert_eq!(certified, Err(refusal));
            assert_eq!(posted, Err(refusal));
        }
        Ok(cost) => {
            match certified {
                Ok(figures) => assert_eq!(figures.0, cost),
                Err(refusal) => assert!(OF_CERTIFY.contains(&refusal.number)),
            }
            assert!(posted == Ok(cost) || posted == Err(Refusal::at(14, 0)));
        }
    }
    if posted.is_err() {
        assert_eq!(board, case.board);
    }
}

#[test]
fn random_lists_of_all_lengths() {
    let mut random = Random::new(1);
    for length in 0..400 {
        for _ in 0..4 {
            answer_all(&any_lists(&mut random, length));
        }
    }
}

#[test]
fn random_contents_of_the_right_length() {
    let mut random = Random::new(2);
    for _ in 0..600 {
        let case = any_contents(&mut random);
        answer_all(&case);
        // Data in range is never refused as data.
        let refused = check(&case.data, case.scale, &case.plan).err();
        assert!(
            refused.is_none_or(|refusal| !OF_DATA.contains(&refusal.number)),
            "{refused:?}"
        );
    }
}

#[test]
fn largest_coefficients_against_largest_multipliers() {
    let mut random = Random::new(3);
    let mut numbers = [0_u64; 1 + REFUSAL_COUNT];
    for _ in 0..400 {
        let case = steep(&mut random);
        match certify(&case.data, case.scale, &case.plan, &case.multipliers) {
            Ok((cost, _)) => assert_eq!(cost, 0),
            Err(refusal) => numbers[refusal.number as usize] += 1,
        }
    }
    println!("refusals {numbers:?}");
    let met = |number: &u32| numbers[*number as usize] > 0;
    assert!(!OF_ALL_CALLS.iter().any(met));
    assert!(numbers[11] > 0);
    assert!(numbers[13] > 0);
}

#[test]
fn rivals_of_any_entries_are_answered() {
    let mut random = Random::new(4);
    for seed in 0..200 {
        let shape = shape(&mut random);
        let case = epm_reference::generator::sound_case(shape, seed);
        let entries: Vec<u128> = case
            .plan
            .iter()
            .map(|_| u128::from(random.bits()) << random.below(64))
            .collect();
        let scale = 1 + random.bits() / 2;
        let answer = evaluate(&case.data, scale, &entries).expect("sound data");
        assert!(
            answer.first_broken.is_some(),
            "random entries meet no balance"
        );
        assert!(evaluate(&case.data, 0, &entries).is_err());
        assert!(evaluate(&case.data, scale, &entries[1..]).is_err());
    }
}
