//! Folders of panels, written by the second program.

use std::path::Path;

use reference::netlist;
use reference::samples::credit_terms;
use reference::terms::write_proposal;
use reference::Fabric;

use super::{Folder, CREDIT_LOOP};

/// fabric.bin without names.
pub fn put_fabric(folder: &Folder, fabric: &Fabric) {
    folder.write("fabric.bin", fabric.to_file());
}

/// fabric.bin and fabric.names.
pub fn put_netlist(folder: &Folder, text: &str) {
    let netlist = netlist::read(text).expect("a netlist");
    put_fabric(folder, &netlist.fabric);
    folder.write("fabric.names", text);
}

/// One of panels/.
pub fn put_panel(folder: &Folder, name: &str) {
    let panels = Path::new(env!("CARGO_MANIFEST_DIR")).join("../panels");
    let text = std::fs::read_to_string(panels.join(name).with_extension("txt"));
    put_netlist(folder, &text.expect("a panel"));
}

pub fn of_fabric(name: &str, fabric: &Fabric) -> Folder {
    let folder = Folder::new(name);
    put_fabric(&folder, fabric);
    folder
}

pub fn of_netlist(name: &str, text: &str) -> Folder {
    let folder = Folder::new(name);
    put_netlist(&folder, text);
    folder
}

/// The credit loop with its sum.
pub fn credit_loop(name: &str) -> Folder {
    let folder = of_netlist(name, CREDIT_LOOP);
    folder.write("proof.bin", write_proposal(&credit_terms()));
    folder
}

/// The ring of two colours of docs/FORMAT.md.
pub const RING: &str = "\
colours red blue
channels out up down turned in

queue     ring  in -> out          capacity 3 filling 2 colour blue
switch    part  out -> up down     first blue
function  swap  up -> turned       map red->blue blue->red
merge     back  turned down -> in
";

/// The proposal of the credit loop, by component and index.
pub const CREDIT_PROOF: &str = "02000001 03000001 04000001 07000001 0A000001";
