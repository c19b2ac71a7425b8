//! Random fabrics there and back.

use super::{fabric_answer, packed};
use crate::component::Kind;
use crate::random::Random;
use crate::random_fabric::{random_fabric, Plan};
use crate::{unpack, Unpacked};

#[test]
fn cut_fabrics_are_accepted_and_come_back() {
    for number in 0..600 {
        let random = &mut Random::new(1, number);
        let size = random.pick(&[1, 2, 5, 40, 128]);
        let plan = Plan {
            size,
            colours: random.between(1, 8),
            circles: false,
        };
        let fabric = random_fabric(random, &plan);
        assert!((size..=128).contains(&fabric.components.len()));
        let mut table = vec![0; 24 * fabric.components.len()];
        let handed_back = Unpacked {
            colours: plan.colours as u64,
            channels: fabric.channels as u64,
        };
        assert_eq!(unpack(&packed(&fabric), &mut table), Ok(handed_back));
        assert_eq!(table, fabric.to_table());
    }
}

#[test]
fn uncut_fabrics_are_accepted_or_hold_a_circle() {
    let mut numbers = [0; 24];
    for number in 0..600 {
        let random = &mut Random::new(2, number);
        let plan = Plan {
            size: random.between(1, 20),
            colours: 3,
            circles: true,
        };
        numbers[fabric_answer(&random_fabric(random, &plan)).0 as usize] += 1;
    }
    assert_eq!(numbers[0] + numbers[8], 600);
    assert!(numbers[0] > 0 && numbers[8] > 0);
}

#[test]
fn large_cut_fabrics_most_often_have_every_kind() {
    let complete = (0..100).filter(|&number| {
        let random = &mut Random::new(3, number);
        let fabric = random_fabric(
            random,
            &Plan {
                size: 128,
                colours: 8,
                circles: false,
            },
        );
        Kind::ALL.iter().all(|kind| {
            fabric
                .components
                .iter()
                .any(|component| component.kind == *kind)
        })
    });
    assert!(complete.count() > 50);
}
