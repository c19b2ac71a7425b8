//! Random choices: most often allowed, else damaged in a byte or in their length.

use reference::random::Random;
use reference::random_state::random_choices;
use reference::Fabric;

pub fn good_or_damaged_choices(random: &mut Random, fabric: &Fabric, steps: usize) -> Vec<u8> {
    let mut choices = random_choices(random, fabric, steps);
    if random.percent(10) && !choices.is_empty() {
        for _ in 0..random.pick(&[1, 1, 3]) {
            let place = random.below(choices.len());
            choices[place] = match random.below(3) {
                0 => random.byte(),
                1 => random.pick(&[1, 2, 3, 8, 9]),
                _ => choices[place] ^ 1,
            };
        }
    }
    let len = choices.len();
    let changed = match random.below(100) {
        0..3 => len + 1,
        3..6 => len.saturating_sub(1),
        6..8 => len + fabric.components.len(),
        8..9 => 0,
        9..11 => random.between(0, 2 * len),
        _ => len,
    };
    let longer = random.pick(&[0, 1, 255]);
    choices.resize(changed, longer);
    choices
}
