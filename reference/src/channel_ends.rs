//! Each channel is an output port just once and an input port just once.

use crate::component::Component;

/// The lowest channel below `channels` whose ends are not one output port and one input port.
/// Every used port is a byte, so the counts have a place for each.
pub fn lowest_faulty_channel(components: &[Component], channels: usize) -> Option<usize> {
    let mut outputs = [0_u16; 256];
    let mut inputs = [0_u16; 256];
    for component in components {
        for &port in component.outputs() {
            outputs[usize::from(port)] += 1;
        }
        for &port in component.inputs() {
            inputs[usize::from(port)] += 1;
        }
    }
    (0..channels).find(|&channel| outputs[channel] != 1 || inputs[channel] != 1)
}
