use reference::netlist::{Names, Netlist};
use reference::random::Random;
use reference::random_fabric::{random_fabric, Plan};

use crate::opened::Opened;
use crate::step::walk::Walk;

fn opened() -> Opened {
    let plan = Plan {
        size: 40,
        colours: 3,
        circles: false,
    };
    let fabric = random_fabric(&mut Random::new(3, 0), &plan);
    let names = Names::numbered(&fabric);
    Opened {
        file: fabric.to_file(),
        netlist: Netlist { fabric, names },
    }
}

/// Going back gives the very bytes of the state, and what the step before it was.
#[test]
fn back_to_every_step() {
    let opened = opened();
    let mut walk = Walk::from_start(&opened).ok().expect("accepted");
    let mut states = vec![walk.state.clone()];
    let mut moves = Vec::new();
    for seed in 0..200 {
        walk.run(&opened, 1, seed).ok().expect("a step");
        states.push(walk.state.clone());
        moves.push(walk.last.as_ref().expect("a step").moves.clone());
    }
    assert!(states.windows(2).any(|pair| pair[0] != pair[1]));
    let list: Vec<Vec<u8>> = walk.trail.steps().map(<[u8]>::to_vec).collect();
    // One by one, and by jumps.
    let one_by_one = (150..200).rev();
    for steps in one_by_one.chain([128, 127, 100, 64, 63, 1, 0]) {
        walk.back_to(&opened, steps).ok().expect("it was there");
        assert_eq!(walk.state, states[steps]);
        assert_eq!(walk.trail.len(), steps);
        assert_eq!(walk.next.choices, list[steps]);
        assert_eq!(walk.next.after, states[steps + 1]);
        let last = walk.last.as_ref().map(|last| &last.moves);
        assert_eq!(last, steps.checked_sub(1).map(|before| &moves[before]));
    }
}

/// After going back, other steps can be taken, and taken back.
#[test]
fn another_way_from_the_middle() {
    let opened = opened();
    let mut walk = Walk::from_start(&opened).ok().expect("accepted");
    walk.run(&opened, 100, 1).ok().expect("a run");
    walk.back_to(&opened, 70).ok().expect("it was there");
    let state = walk.state.clone();
    assert_eq!(walk.trail.last_run().map(|run| run.after), Some(0));
    walk.run(&opened, 100, 2).ok().expect("a run");
    assert_eq!(walk.trail.len(), 170);
    assert_eq!(walk.trail.last_run().map(|run| run.seed), Some(2));
    walk.back_to(&opened, 70).ok().expect("it was there");
    assert_eq!(walk.state, state);
    assert_eq!(walk.trail.last_run().map(|run| run.seed), Some(1));
}

/// A refused choice leaves all as it was.
#[test]
fn a_refused_choice_changes_nothing() {
    use crate::step::command::Choice;
    let opened = opened();
    let mut walk = Walk::from_start(&opened).ok().expect("accepted");
    walk.run(&opened, 10, 1).ok().expect("a run");
    let (state, choices) = (walk.state.clone(), walk.next.choices.clone());
    let queue = opened
        .netlist
        .fabric
        .components
        .iter()
        .position(|component| component.kind == reference::Kind::Queue)
        .expect("a queue");
    let refused = walk.choose(
        &opened,
        Choice {
            component: queue,
            byte: 1,
        },
    );
    let name = &opened.netlist.names.components[queue];
    let message = format!("queue '{name}' cannot choose 1 (10 at {queue})");
    assert_eq!(refused.expect_err("refused").message(), message);
    assert_eq!((walk.state, walk.next.choices), (state, choices));
    assert_eq!(walk.trail.len(), 10);
}
