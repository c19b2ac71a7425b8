//! The place of a refusal is the lowest there is.

use super::{fabric_answer, function, source_then_sink};
use crate::fabric::Fabric;
use crate::samples::{credit_loop, forks_into_one_channel, sink, source};

#[test]
fn lowest_component_with_a_faulty_field() {
    let mut fabric = credit_loop();
    fabric.components[4].ports[0] = 6;
    assert_eq!(fabric_answer(&fabric), (6, 4));
    fabric.components[2].capacity = 0;
    assert_eq!(fabric_answer(&fabric), (6, 2));
    fabric.components[0].mask = 0;
    assert_eq!(fabric_answer(&fabric), (6, 0));
}

#[test]
fn lowest_channel_counts_outputs_and_inputs_together() {
    let mut fabric = credit_loop();
    fabric.components[4].ports[0] = 5;
    assert_eq!(fabric_answer(&fabric), (7, 4));
    fabric.components[2].ports[1] = 5;
    assert_eq!(fabric_answer(&fabric), (7, 3));
    fabric.components[0].ports[0] = 5;
    assert_eq!(fabric_answer(&fabric), (7, 0));
}

#[test]
fn a_channel_with_two_outputs_or_two_inputs() {
    let mut two_outputs = credit_loop();
    two_outputs.components[5].ports[1] = 0;
    assert_eq!(fabric_answer(&two_outputs), (7, 0));
    let mut two_inputs = credit_loop();
    two_inputs.components[4].ports[0] = 0;
    assert_eq!(fabric_answer(&two_inputs), (7, 0));
}

#[test]
fn a_channel_more_than_the_ports_need() {
    let fabric = Fabric {
        channels: 7,
        ..credit_loop()
    };
    assert_eq!(fabric_answer(&fabric), (7, 6));
}

#[test]
fn a_channel_fewer_is_a_field() {
    let fabric = Fabric {
        channels: 5,
        ..credit_loop()
    };
    assert_eq!(fabric_answer(&fabric), (6, 3));
}

#[test]
fn all_256_outputs_on_one_channel() {
    assert_eq!(fabric_answer(&forks_into_one_channel()), (7, 0));
}

#[test]
fn unused_ports_are_no_ends() {
    assert_eq!(fabric_answer(&source_then_sink(function(0, 1))), (0, 0));
    let fabric = Fabric {
        colours: 1,
        channels: 2,
        components: vec![source(1), sink(1)],
    };
    assert_eq!(fabric_answer(&fabric), (7, 0));
}
