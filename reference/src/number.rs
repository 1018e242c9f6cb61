//! The numbers, one constant for each line of document 01's table "The numbers given back", and those that document
//! 02 adds. A refusal is a number that is not 0.

/// "done"
pub const DONE: u8 = 0;
/// "bytes end inside an instruction"
pub const BYTES_END: u8 = 1;
/// "opcode, or SVM sub-opcode, not above"
pub const OPCODE: u8 = 2;
/// "reserved bit, code or count"
pub const RESERVED: u8 = 3;
/// "class, modifier or type not allowed there"
pub const NOT_ALLOWED: u8 = 4;
/// "variable, predicate or surface not in its table"
pub const NOT_IN_TABLE: u8 = 5;
// 6, "region parameters wrong", is given no more: document 02, request 2, splits it into 20 to 25.
/// "element outside its variable, over two registers, raw offset unaligned, or show past the end"
pub const OUTSIDE: u8 = 7;
/// "offset + ExecSize over 32"
pub const OVER_32: u8 = 8;
/// "RAW_SEND, otherwise good"
pub const RAW_SEND: u8 = 9;
/// "doubtful scatter address"
pub const TAINTED_ADDRESS: u8 = 10;
/// "scatter address not a multiple of 4"
pub const UNALIGNED: u8 = 11;
/// "its four bytes not all in the window"
pub const NOT_IN_WINDOW: u8 = 12;
/// "tables (a type not listed too) or lent lengths break the sizes above, or marks differ in length
/// from their buffer"
pub const SIZES: u8 = 13;
/// "bad bench line"
pub const BAD_LINE: u8 = 14;
/// "encoder's buffer shorter than the encoding"
pub const SHORT_BUFFER: u8 = 15;
/// Document 02, request 1: "text that is no printed line"
pub const NO_LINE: u8 = 16;
/// Request 3: "offset plus ExecSize over the count"
pub const OVER_COUNT: u8 = 17;
/// Request 2, 20 to 24 "in the order just given": "width 0 or 32"
pub const WIDTH_0_OR_32: u8 = 20;
/// "horizontal stride over 4"
pub const STRIDE_OVER_4: u8 = 21;
/// "width over ExecSize"
pub const WIDTH_OVER_EXEC_SIZE: u8 = 22;
/// "destination stride zero"
pub const DESTINATION_STRIDE_0: u8 = 23;
/// "Null where none may stand or not Null where it must"
pub const NULL: u8 = 24;
/// "a scalar's region is judged by 25 alone"
pub const SCALAR_REGION: u8 = 25;
