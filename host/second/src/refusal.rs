//! Document 01, "Numbered refusals": the numbers by name.

/// Width not 20 or 40.
pub const WIDTH: u32 = 1;
/// MCS over 31.
pub const MCS: u32 = 2;
/// Format over 1.
pub const FORMAT: u32 = 3;
/// Length 0 or over 65,535.
pub const LENGTH: u32 = 4;
/// Seed 0 or over 127.
pub const SEED: u32 = 5;
/// Payload slice shorter than length; signal slice not 6 bytes.
pub const SOURCE: u32 = 6;
/// Symbol, stream or subcarrier not in the frame.
pub const PLACE: u32 = 7;
/// The lent slice for points, signal bytes or payload is too short.
pub const ROOM: u32 = 8;
/// Reader: some point or pilot is not one the rules give.
pub const POINT: u32 = 9;
/// Reader: no data bits give these coded bits after the earlier ones.
pub const CODE: u32 = 10;
/// Reader: service, tail or pad bit wrong, or the seed would be 0.
pub const FRAME: u32 = 11;
/// Reader state finished, ended by 9 to 11, or outside its ranges.
pub const CLOSED: u32 = 12;
/// Signal read: CRC wrong.
pub const SIGCRC: u32 = 13;
/// Signal read: CRC right, other bits not as this build writes them.
pub const SIGFORM: u32 = 14;
