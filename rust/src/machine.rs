//! The two machines that a controller can be.

/// Which machine a controller is. It is chosen when the controller is made, and is on its sheet.
///
/// They differ in three commands and in nothing else:
///
/// | | `Rust` | `DataSheet` |
/// |---|---|---|
/// | Format | numbers its sectors from 1 on itself, and takes no IDs | takes C, H, R and N of each sector behind the command, with status 0xB0, and lays the track with them |
/// | an invalid command | no effect | replies 0x80 |
/// | Sense Interrupt Status with no seek running | replies 0x80 and the cylinder | replies 0x80 |
#[derive(Clone, Copy, Debug, Default, PartialEq, Eq, Hash)]
#[repr(u8)]
pub enum Machine {
    /// The controller as raze has it.
    #[default]
    Rust = 0,
    /// The controller as the data sheet of the uPD765A has these commands.
    DataSheet = 1,
}

impl Machine {
    /// The setting of a controller of this machine.
    pub(crate) fn setting(self) -> u8 {
        self as u8
    }

    /// The machine of a controller with this setting.
    pub(crate) fn of_setting(setting: u8) -> Machine {
        match setting & 1 {
            0 => Machine::Rust,
            _ => Machine::DataSheet,
        }
    }
}
