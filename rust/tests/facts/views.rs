//! What is printed for people to look at.

use kafondiye::{Controller, Disk};

use crate::{everything, fresh};

#[test]
fn debug_texts_show_nothing_of_what_is_on_the_disk() {
    let text = format!("{:?}", Disk::new_formatted());
    assert_eq!(text, "Disk { geometry: (39, 0), room: 1048576, .. }");
    let controller = format!("{:?}", fresh());
    let expected = format!(
        "Controller {{ machine: Rust, motor: false, current_track: 0, disk: Some({text}), transfer_room: 65536, .. }}"
    );
    assert_eq!(controller, expected);
}

#[test]
fn a_default_controller_is_a_new_one() {
    assert!(everything(&Controller::default()) == everything(&Controller::new()));
}
