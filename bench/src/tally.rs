/// What was done on a relay: how many operations were begun, and how many rounds of post, land and fetch they took; how many
/// rounds were refused; and a sum of what the operations answered.
#[derive(Clone, Copy, Default, PartialEq, Eq, Debug)]
pub struct Tally {
    pub begun: u64,
    pub rounds: u64,
    pub refused: u64,
    pub sum: u64,
}

impl Tally {
    pub const WIDTH: usize = 32;

    /// Reads the report of crates/bench: the four numbers, eight bytes each, lowest byte first.
    pub fn read(report: &[u8; Self::WIDTH]) -> Tally {
        let number = |i: usize| u64::from_le_bytes(report[8 * i..8 * i + 8].try_into().unwrap());
        Tally { begun: number(0), rounds: number(1), refused: number(2), sum: number(3) }
    }
}
