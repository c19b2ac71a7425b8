//! Files that the library refuses: why, in words.

mod common;

use common::{Folder, Said};
use reference::packed::{file_length, repair_check_byte};
use reference::samples::{
    credit_loop, fork_into_join, forks_into_one_channel, function_row, looped_queues,
};
use reference::{Component, Fabric, Kind};

fn each(name: &str, rows: &[(Vec<u8>, &str)]) {
    let folder = Folder::new(name);
    for (file, message) in rows {
        folder.write("fabric.bin", file);
        let said = folder.panel(&["show", "fabric.bin"]);
        assert_eq!(said, Said::failed(1, &format!("fabric.bin: {message}")));
    }
}

/// The file of the credit loop, changed as bytes.
fn with_bytes(change: impl Fn(&mut Vec<u8>)) -> Vec<u8> {
    let mut file = credit_loop().to_file();
    change(&mut file);
    file
}

#[test]
fn by_1_for_a_file_under_4_bytes() {
    each(
        "refused-by-1",
        &[
            (vec![], "empty, but the header alone takes 4 bytes (1)"),
            (
                vec![0x10],
                "1 byte long, but the header alone takes 4 bytes (1)",
            ),
            (
                vec![0x10, 1, 1],
                "3 bytes long, but the header alone takes 4 bytes (1)",
            ),
        ],
    );
}

#[test]
fn by_2_for_the_edition() {
    each(
        "refused-by-2",
        &[
            (
                with_bytes(|file| file[0] = 0x20),
                "the first 4 bits say edition 2, but only edition 1 is known (2)",
            ),
            (
                with_bytes(|file| file[0] = 0x11),
                "the last bit of byte 0 is 1, not 0 (2)",
            ),
            (
                b"source  alarms  -> wanted\n".to_vec(),
                "the first 4 bits say edition 7, but only edition 1 is known; \
                 'panel pack' takes netlists as text (2)",
            ),
        ],
    );
}

#[test]
fn by_3_for_the_counts() {
    each(
        "file-refused-by-3",
        &[
            (
                vec![0x10, 0, 1, 0xEF],
                "no component, but a fabric has 1 to 128 (3)",
            ),
            (
                with_bytes(|file| file[1] = 255),
                "255 components, but a fabric has 1 to 128 (3)",
            ),
            (
                with_bytes(|file| file[2] = 0),
                "no channel, but a fabric has 1 to 255 (3)",
            ),
        ],
    );
}

#[test]
fn by_4_for_the_length() {
    each(
        "refused-by-4",
        &[
            (
                with_bytes(|file| file.push(0)),
                "83 bytes long, but 6 components take 4 + 13 * 6 = 82 (4)",
            ),
            (
                vec![0x10, 1, 1, 0],
                "4 bytes long, but 1 component takes 4 + 13 * 1 = 17 (4)",
            ),
        ],
    );
}

#[test]
fn by_5_for_the_check_byte() {
    each(
        "refused-by-5",
        &[
            (
                with_bytes(|file| file[3] = 0x51),
                "the bytes add up to 3 past a multiple of 256: \
                 the check byte, byte 3, is 51, but 4E would be right (5)",
            ),
            (
                with_bytes(|file| file[81] = 0xFF),
                "the bytes add up to 255 past a multiple of 256: \
                 the check byte, byte 3, is 4E, but 4F would be right (5)",
            ),
        ],
    );
}

/// The file of the credit loop with a changed component; so many colours.
fn with_component(colours: usize, place: usize, change: impl Fn(&mut Component)) -> Vec<u8> {
    let mut fabric = credit_loop();
    fabric.colours = colours;
    change(&mut fabric.components[place]);
    fabric.to_file()
}

#[test]
fn by_6_for_a_port() {
    let mut looped = looped_queues(1);
    looped.components[0].ports[0] = 1;
    each(
        "refused-by-6-port",
        &[
            (
                with_component(1, 2, |queue| queue.ports[1] = 9),
                "queue 2: port B is channel 9, but the channels are 0 to 5 (6 at 2)",
            ),
            (
                with_component(1, 1, |join| join.ports[2] = 6),
                "join 1: port C is channel 6, but the channels are 0 to 5 (6 at 1)",
            ),
            (
                looped.to_file(),
                "queue 0: port A is channel 1, but the only channel is 0 (6 at 0)",
            ),
            (
                with_component(1, 4, |sink| sink.ports[1] = 3),
                "sink 4: port B is 3, but a sink has no port B (6 at 4)",
            ),
            (
                with_component(1, 5, |queue| queue.ports[2] = 1),
                "queue 5: port C is 1, but a queue has no port C (6 at 5)",
            ),
        ],
    );
}

#[test]
fn by_6_for_a_map() {
    each(
        "refused-by-6-map",
        &[
            (
                with_component(1, 1, |join| join.first_map[0] = 5),
                "join 1: the first map turns colour 0 into 5, but the only colour is 0 (6 at 1)",
            ),
            (
                with_component(3, 3, |fork| fork.second_map[2] = 3),
                "fork 3: the second map turns colour 2 into 3, but the colours are 0 to 2 \
                 (6 at 3)",
            ),
            (
                with_component(2, 1, |join| join.first_map[4] = 1),
                "join 1: the first map turns colour 4 into 1, but the colours are 0 to 1 (6 at 1)",
            ),
            (
                with_component(1, 2, |queue| queue.first_map[0] = 1),
                "queue 2: the first map turns colour 0 into 1, but a queue has no first map \
                 (6 at 2)",
            ),
            (
                with_component(1, 1, |join| join.second_map[1] = 7),
                "join 1: the second map turns colour 1 into 7, but a join has no second map \
                 (6 at 1)",
            ),
        ],
    );
}

#[test]
fn by_6_for_a_mask() {
    let switch = |switch: &mut Component| {
        *switch = Component {
            mask: 0x90,
            ..Component::new(Kind::Switch, [3, 4, 5])
        }
    };
    each(
        "refused-by-6-mask",
        &[
            (
                with_component(1, 0, |source| source.mask = 0x40),
                "source 0: the mask names colour 1, but the only colour is 0 (6 at 0)",
            ),
            (
                with_component(2, 3, switch),
                "switch 3: the mask names colour 3, but the colours are 0 to 1 (6 at 3)",
            ),
            (
                with_component(1, 0, |source| source.mask = 0),
                "source 0: it emits no colour (6 at 0)",
            ),
            (
                with_component(1, 3, |fork| fork.mask = 0x80),
                "fork 3: the mask is 80, but a fork has no mask (6 at 3)",
            ),
        ],
    );
}

#[test]
fn by_6_for_a_filling() {
    each(
        "refused-by-6-filling",
        &[
            (
                with_component(1, 2, |queue| queue.capacity = 0),
                "queue 2: capacity 0 is not 1 to 63 (6 at 2)",
            ),
            (
                with_component(1, 5, |queue| queue.filling = 3),
                "queue 5: filling 3 is above capacity 2 (6 at 5)",
            ),
            (
                with_component(1, 5, |queue| queue.fill_colour = 1),
                "queue 5: it is filled with colour 1, but the only colour is 0 (6 at 5)",
            ),
            (
                with_component(2, 2, |queue| queue.fill_colour = 1),
                "queue 2: it is filled with colour 1, but the filling is 0 (6 at 2)",
            ),
            (
                with_component(1, 4, |sink| sink.capacity = 1),
                "sink 4: capacity 1, but a sink has no capacity (6 at 4)",
            ),
            (
                with_component(1, 4, |sink| sink.filling = 1),
                "sink 4: filling 1, but a sink has no filling (6 at 4)",
            ),
            (
                with_component(1, 4, |sink| sink.fill_colour = 1),
                "sink 4: it is filled with colour 1, but a sink has no filling (6 at 4)",
            ),
        ],
    );
}

/// The file with these bits at the end of a record, and its check byte right.
fn with_end(mut file: Vec<u8>, place: usize, bits: u8) -> Vec<u8> {
    file[file_length(place + 1) - 1] |= bits;
    repair_check_byte(&mut file);
    file
}

#[test]
fn by_6_for_the_end_of_a_record() {
    let filled = with_component(1, 5, |queue| queue.filling = 3);
    each(
        "refused-by-6-end",
        &[
            (
                with_end(credit_loop().to_file(), 4, 0b000001),
                "sink 4: the six bits at the end of its record are 000001, not 0 (6 at 4)",
            ),
            (
                with_end(credit_loop().to_file(), 0, 0b100000),
                "source 0: the six bits at the end of its record are 100000, not 0 (6 at 0)",
            ),
            (
                with_end(filled, 5, 0b000001),
                "queue 5: filling 3 is above capacity 2 (6 at 5)",
            ),
        ],
    );
}

#[test]
fn by_6_for_the_first_wrong_field_of_the_first_wrong_component() {
    let all_wrong = |queue: &mut Component| {
        queue.ports[0] = 8;
        queue.mask = 0x80;
        queue.filling = 3;
    };
    let mut two = credit_loop();
    two.components[2].capacity = 0;
    all_wrong(&mut two.components[5]);
    each(
        "refused-by-6-first",
        &[
            (
                with_component(1, 5, all_wrong),
                "queue 5: port A is channel 8, but the channels are 0 to 5 (6 at 5)",
            ),
            (two.to_file(), "queue 2: capacity 0 is not 1 to 63 (6 at 2)"),
        ],
    );
}

#[test]
fn by_7_for_the_ends_of_a_channel() {
    let mut more = credit_loop();
    more.channels = 7;
    each(
        "file-refused-by-7",
        &[
            (
                with_component(1, 4, |sink| sink.ports[0] = 5),
                "channel 4 is no input of any component (7 at 4)",
            ),
            (
                with_component(1, 3, |fork| fork.ports[1] = 0),
                "channel 0 is the output of source 0 and of fork 3 (7 at 0)",
            ),
            (
                more.to_file(),
                "channel 6 is no output and no input of any component (7 at 6)",
            ),
            (
                forks_into_one_channel().to_file(),
                "channel 0 is the output of fork 0 twice, of fork 1 twice, of fork 2 twice and of \
                 125 more, and no input of any component (7 at 0)",
            ),
        ],
    );
}

#[test]
fn by_8_for_a_circle() {
    let mut ring: Fabric = function_row(4);
    ring.components = ring.components[1..3].to_vec();
    ring.components[1].ports[1] = 0;
    ring.channels = 2;
    each(
        "file-refused-by-8",
        &[
            (
                fork_into_join().to_file(),
                "the signals wait for each other in a circle: \
                 offer of channel 1, take of channel 2 (8)",
            ),
            (
                ring.to_file(),
                "the signals wait for each other in a circle: \
                 offer of channel 0, offer of channel 1 (8)",
            ),
        ],
    );
}

/// A wrong file is refused whatever names stand beside it.
#[test]
fn with_names_beside_it() {
    let folder = Folder::new("refused-with-names");
    folder.write("fabric.bin", with_bytes(|file| file[3] = 0x4F));
    folder.write("fabric.names", common::CREDIT_LOOP);
    let said = folder.panel(&["show", "fabric.bin"]);
    let message = "fabric.bin: the bytes add up to 1 past a multiple of 256: \
                   the check byte, byte 3, is 4F, but 4E would be right (5)";
    assert_eq!(said, Said::failed(1, message));
}
