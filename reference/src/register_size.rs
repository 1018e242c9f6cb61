//! The size of a register, 32 or 64 bytes, and what follows it (document 02, request 5).

/// A register's bytes as a run is given them: "Let a run choose 32 or 64"; "absent means 32".
#[derive(Clone, Copy, Debug, PartialEq, Eq)]
pub struct RegisterSize(pub u8);

impl RegisterSize {
    pub const OF_32: RegisterSize = RegisterSize(32);
    pub const OF_64: RegisterSize = RegisterSize(64);

    pub fn bytes(self) -> u64 {
        u64::from(self.0)
    }

    /// "any other size is 13"
    pub fn is_good(self) -> bool {
        self == RegisterSize::OF_32 || self == RegisterSize::OF_64
    }
}

impl Default for RegisterSize {
    fn default() -> RegisterSize {
        RegisterSize::OF_32
    }
}

/// What follows the register size, each place with the size that it goes by. In a run all are the chosen one; the tests'
/// wrong programs leave one behind.
#[derive(Clone, Copy, Debug, PartialEq, Eq)]
pub struct Followers {
    /// "Row offsets"
    pub rows: u64,
    /// "the two-register rule"
    pub two_registers: u64,
    /// "variable placing"
    pub placing: u64,
    /// "RAW_SEND lengths"
    pub raw_send: u64,
    /// "the file's multiple"
    pub file: u64,
    /// "Scatter data of successive channels": where they are read, and how many there must be.
    pub scatter_data: u64,
    pub scatter_need: u64,
    /// "at most 4,096" with either size.
    pub largest_file: u64,
}

impl Followers {
    pub fn of(size: RegisterSize) -> Followers {
        let bytes = size.bytes();
        Followers {
            rows: bytes,
            two_registers: bytes,
            placing: bytes,
            raw_send: bytes,
            file: bytes,
            scatter_data: bytes,
            scatter_need: bytes,
            largest_file: 4096,
        }
    }
}

/// The elements in a row: R·(32/size), the register's bytes in the place of 32.
pub fn elements_in_a_row(register: u64, element_size: u64) -> u64 {
    register / element_size
}

/// "touch at most two adjacent registers, lowest byte to highest"
pub fn in_two_registers(register: u64, lowest_byte: u64, highest_byte: u64) -> bool {
    highest_byte / register - lowest_byte / register <= 1
}

/// A variable starts "at a multiple of 32 if it is 32 bytes or longer, and otherwise crosses no 32-byte line".
pub fn is_well_placed(register: u64, start: u64, bytes: u64) -> bool {
    if bytes >= register {
        start % register == 0
    } else {
        start / register == (start + bytes - 1) / register
    }
}

/// "RAW_SEND needs 32 bytes per register counted"
pub fn bytes_of_registers(register: u64, count: u64) -> u64 {
    register * count
}

/// "Register file: multiple of 32"
pub fn is_whole_registers(register: u64, bytes: u64) -> bool {
    bytes % register == 0
}

/// "Scatter data of successive channels are max(ExecSize, size/4) dwords apart"
pub fn channel_stride(register: u64, exec_size: u64) -> u64 {
    exec_size.max(register / 4)
}

/// "Scatter with k channels needs (k-1)·max(ExecSize, 8)+ExecSize dwords", the stride in the place of the max.
pub fn scatter_dwords(register: u64, exec_size: u64, channels: u64) -> u64 {
    (channels - 1) * channel_stride(register, exec_size) + exec_size
}
