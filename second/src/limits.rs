//! Every limit of document 01, named once.

/// "Nodes 1 to 64, numbered from 0."
pub const NODES: u32 = 64;

/// "Links 0 to 256, numbered from 0 in the order given."
pub const LINKS: u32 = 256;

/// "At most 256 packets in flight over all lanes."
pub const PACKETS: u32 = 256;

/// "Accepted events 1,000,000 at most; a refused event does not count."
pub const EVENTS: u32 = 1_000_000;

/// "A drill file handed to the program: at most 65,536 bytes."
pub const FILE: usize = 65_536;

/// "Largest value 2,097,151."
pub const NUMBER: u32 = 2_097_151;
