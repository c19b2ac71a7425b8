//! Packing what is shown of an accepted file gives the same file.

mod common;

use common::{Folder, Said};
use reference::random::Random;
use reference::random_fabric::{random_fabric, Plan};
use reference::Fabric;

const CASES: u64 = 3000;

fn drawn(number: u64) -> Fabric {
    let random = &mut Random::new(21, number);
    let size = match random.below(10) {
        0 => 128,
        1 | 2 => random.between(30, 128),
        _ => random.between(1, 30),
    };
    let plan = Plan {
        size,
        colours: random.between(1, 8),
        circles: false,
    };
    random_fabric(random, &plan)
}

/// Shows the file and packs what was printed; that is shown with its names, if asked for.
fn there_and_back(folder: &Folder, file: &[u8], and_again: bool) {
    folder.write("in.bin", file);
    let shown = folder.panel(&["show", "in.bin"]);
    assert_eq!((shown.code, shown.err.as_str()), (0, ""));
    folder.write("net.txt", &shown.out);
    let packed = folder.panel(&["pack", "net.txt", "-o", "out.bin"]);
    assert_eq!((packed.code, packed.err.as_str()), (0, ""), "{}", shown.out);
    assert_eq!(folder.read("out.bin"), file, "{}", shown.out);
    assert_eq!(folder.read("out.names"), shown.out.as_bytes());
    if and_again {
        let again = folder.panel(&["show", "out.bin"]);
        assert_eq!(again, Said::printed(&shown.out));
    }
}

#[test]
fn random_fabrics() {
    let fabrics: Vec<Fabric> = (0..CASES).map(drawn).collect();
    let with_size = |size| fabrics.iter().filter(move |f| f.components.len() == size);
    assert!(with_size(1).count() > 10 && with_size(128).count() > 100);
    for colours in 1..=8 {
        let with_colours = fabrics.iter().filter(|fabric| fabric.colours == colours);
        assert!(with_colours.count() > 100);
    }
    let halves = fabrics.chunks(fabrics.len().div_ceil(2)).enumerate();
    std::thread::scope(|scope| {
        for (half, fabrics) in halves {
            scope.spawn(move || {
                let folder = Folder::new(&format!("there-and-back-{half}"));
                for (number, fabric) in fabrics.iter().enumerate() {
                    there_and_back(&folder, &fabric.to_file(), number < 100);
                }
            });
        }
    });
}
