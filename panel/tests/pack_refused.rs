//! Netlists that the library refuses: why, with the names, and no file touched.

mod common;

use common::{Folder, Said, CREDIT_LOOP};

fn each(name: &str, rows: &[(&str, &str)]) {
    let folder = Folder::new(name);
    folder.write("fabric.bin", "earlier");
    for (text, message) in rows {
        folder.write("net.txt", text);
        let said = folder.panel(&["pack", "net.txt", "-o", "fabric.bin"]);
        assert_eq!(said, Said::failed(1, &format!("net.txt: {message}")));
        assert_eq!(folder.files(), ["fabric.bin", "net.txt"]);
        assert_eq!(folder.read("fabric.bin"), b"earlier");
    }
}

#[test]
fn by_3_for_the_counts() {
    let many: String = (0..129)
        .map(|place| format!("queue q{place} x{place} -> x{place} capacity 1\n"))
        .collect();
    let names: Vec<String> = (0..256).map(|channel| format!(" x{channel}")).collect();
    let listed = format!("channels{}\nsource s -> x0\nsink t x0", names.concat());
    each(
        "refused-by-3",
        &[
            ("", "no component, but a fabric has 1 to 128 (3)"),
            (&many, "129 components, but a fabric has 1 to 128 (3)"),
            (&listed, "256 channels, but a fabric has 1 to 255 (3)"),
        ],
    );
}

#[test]
fn by_6_for_a_field() {
    let credits_of = |filling| CREDIT_LOOP.replace("filling 2", filling);
    each(
        "refused-by-6",
        &[
            (
                &credits_of("filling 3"),
                "queue 'credits': filling 3 is above capacity 2 (6 at 5)",
            ),
            (
                &CREDIT_LOOP.replace("capacity 2\n", "capacity 0\n"),
                "queue 'messages': capacity 0 is not 1 to 63 (6 at 2)",
            ),
            (
                &CREDIT_LOOP.replace("capacity 2\n", "capacity 64\n"),
                "queue 'messages': capacity 64 is not 1 to 63 (6 at 2)",
            ),
            (
                "colours red blue\nsource s -> a\nqueue q a -> b capacity 2 colour blue\nsink t b",
                "queue 'q': it is filled with colour 'blue', but the filling is 0 (6 at 1)",
            ),
            (
                "colours 2\nsource s -> a\nqueue q a -> b capacity 2 colour 1\nsink t b",
                "queue 'q': it is filled with colour 1, but the filling is 0 (6 at 1)",
            ),
            (
                "source quiet -> a emits none\nsink t a",
                "source 'quiet': it emits no colour (6 at 0)",
            ),
        ],
    );
}

#[test]
fn by_7_for_the_ends_of_a_channel() {
    each(
        "refused-by-7",
        &[
            (
                &CREDIT_LOOP.replace("back -> credit ", "spare -> credit "),
                "channel 'back' is no input of any component (7 at 5)",
            ),
            (
                "sink t a\nsource s -> b",
                "channel 'a' is no output of any component (7 at 0)",
            ),
            (
                "channels a spare\nsource s -> a\nsink t a",
                "channel 'spare' is no output and no input of any component (7 at 1)",
            ),
            (
                "source s -> x\nqueue a x -> y capacity 1\nfork b z -> y w\nsink t y\nsink u w",
                "channel 'y' is the output of queue 'a' and of fork 'b' (7 at 1)",
            ),
            (
                "source s -> x\nsink t x\njoin j y x -> y",
                "channel 'x' is the input of sink 't' and of join 'j' (7 at 0)",
            ),
            (
                "source s -> x\nfork f x -> y y\nsink t y",
                "channel 'y' is the output of fork 'f' twice (7 at 1)",
            ),
            (
                "source s -> x\nfork f y -> x x\nsink t y",
                "channel 'x' is the output of source 's' and of fork 'f' twice, and no input of \
                 any component (7 at 0)",
            ),
            (
                "sink a x\nsink b x\nsink c x\nsink d x\nsink e x\nsource s -> x",
                "channel 'x' is the input of sink 'a', of sink 'b', of sink 'c' and of 2 more \
                 (7 at 0)",
            ),
        ],
    );
}

#[test]
fn by_8_for_a_circle() {
    each(
        "refused-by-8",
        &[
            (
                "source s -> a
fork f a -> b c
switch x b -> d e first all
merge y c g -> h
source t -> g
sink k d
sink l e
sink m h",
                "the signals wait for each other in a circle: \
                 offer of 'b', take of 'c', offer of 'c', take of 'b' (8)",
            ),
            (
                "source s -> in\nfork f in -> up down\njoin j up down -> out\nsink t out",
                "the signals wait for each other in a circle: offer of 'up', take of 'down' (8)",
            ),
            (
                "function f round -> round",
                "a signal waits for itself: offer of 'round' (8)",
            ),
            (
                "function f a -> b\nfunction g b -> c\nfunction h c -> a",
                "the signals wait for each other in a circle: \
                 offer of 'a', offer of 'c', offer of 'b' (8)",
            ),
        ],
    );
}
