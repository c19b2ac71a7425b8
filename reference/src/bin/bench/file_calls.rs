//! Times unpack and pack.

use std::hint::black_box;

use reference::{pack, unpack, Fabric};

use crate::timing::{time_alternately, Times};
use reference::library::{fabric_pack, fabric_unpack};

pub fn time_unpack(fabric: &Fabric) -> Times {
    let file = fabric.to_file();
    let mut table = fabric.to_table();
    let mut second_table = table.clone();
    time_alternately(
        || unsafe {
            let file = black_box(&file);
            fabric_unpack(file.as_ptr(), file.len(), table.as_mut_ptr(), table.len()) == 0
        },
        || unpack(black_box(&file), &mut second_table).is_ok(),
    )
}

pub fn time_pack(fabric: &Fabric) -> Times {
    let (colours, channels) = (fabric.colours as u64, fabric.channels as u64);
    let table = fabric.to_table();
    let mut file = fabric.to_file();
    let mut second_file = file.clone();
    time_alternately(
        || unsafe {
            let table = black_box(&table);
            let (result, space) = (file.as_mut_ptr(), file.len());
            fabric_pack(
                colours,
                channels,
                table.as_ptr(),
                table.len(),
                result,
                space,
            ) == 0
        },
        || pack(colours, channels, black_box(&table), &mut second_file).is_ok(),
    )
}
