//! The random inputs are what they are said to be: sound ones are accepted, damaged ones meet every refusal often.

use second::claim::Claim;
use second::generate::{any_cell, claim_file, damage_claim, damage_file, damage_rates, sound_claim, sound_rates, sound_window, wild_date};
use second::rng::Rng;
use second::run::run_file;

#[test]
fn sound_inputs_are_accepted() {
    let mut rng = Rng::new(201);
    for cells in (1..=65).chain([255, 256, 257, 1_023, 1_024]) {
        let rates = sound_rates(&mut rng, cells);
        let claims: Vec<Claim> = (0..100).map(|i| Claim { cell: (cells - 1 - i % cells) as u16, ..sound_claim(&mut rng) }).collect();
        for claim in &claims {
            let window = sound_window(&mut rng, claim);
            let run = run_file(&claim_file(window, &[*claim], Some(&mut rng)), &rates);
            assert_eq!((run.refused, run.study.claims_taken), (0, 1), "{claim}");
        }
    }
}

#[test]
fn damaged_inputs_meet_every_refusal() {
    let mut rng = Rng::new(202);
    let mut met = [0; 17];
    for i in 0..4_000 {
        let mut rates = sound_rates(&mut rng, 2);
        let mut claims: Vec<Claim> = (0..20).map(|_| Claim { cell: any_cell(&mut rng, 2), ..sound_claim(&mut rng) }).collect();
        let mut window = sound_window(&mut rng, &claims[0]);
        match i % 4 {
            0 => damage_claim(&mut rng, &mut claims[17]),
            1 => damage_rates(&mut rng, &mut rates),
            2 => window.0 = wild_date(&mut rng),
            _ => {}
        }
        let mut file = claim_file(window, &claims, None);
        if i % 4 == 3 {
            damage_file(&mut rng, &mut file);
        }
        met[run_file(&file, &rates).refused as usize] += 1;
    }
    // 9 needs 500,000 claims, 10 a list.
    for number in [0, 1, 2, 3, 4, 5, 6, 7, 8, 11, 16] {
        assert!(met[number] >= 20, "refusal {number}: {met:?}");
    }
}
