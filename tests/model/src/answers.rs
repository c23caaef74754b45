//! The numbers that a call answers. The structs lie in memory as C's do.

pub const DONE: u64 = 0;
pub const MALFORMED: u64 = 1;
pub const NO_ROOM: u64 = 2;
pub const UNKNOWN: u64 = 3;
pub const NOT_NOW: u64 = 4;
pub const NOTHING: u64 = 5;
pub const WAITING: u64 = 6;
pub const UNSOUND: u64 = 7;

/// 1, 2, 3, 4 and 7 leave both buffers as they are.
pub fn is_refusal(no: u64) -> bool {
    matches!(no, MALFORMED | NO_ROOM | UNKNOWN | NOT_NOW | UNSOUND)
}

#[repr(C)]
#[derive(Debug, Clone, Copy, PartialEq, Eq, Default)]
pub struct Made {
    pub no: u64,
    pub id: u64,
}

#[repr(C)]
#[derive(Debug, Clone, Copy, PartialEq, Eq, Default)]
pub struct Turn {
    pub no: u64,
    pub id: u64,
    pub reason: u64,
    pub sleep: i64,
}

#[repr(C)]
#[derive(Debug, Clone, Copy, PartialEq, Eq, Default)]
pub struct Received {
    pub no: u64,
    pub sender: u64,
    pub class: u64,
    pub tag: u64,
    pub length: u64,
}

#[repr(C)]
#[derive(Debug, Clone, Copy, PartialEq, Eq, Default)]
pub struct Shown {
    pub no: u64,
    pub offset: u64,
    pub length: u64,
}

#[repr(C)]
#[derive(Debug, Clone, Copy, PartialEq, Eq, Default)]
pub struct Ended {
    pub no: u64,
    pub sent: u64,
    pub lost: u64,
}

#[repr(C)]
#[derive(Debug, Clone, Copy, PartialEq, Eq, Default)]
pub struct Advanced {
    pub no: u64,
    pub fired: u64,
}

#[repr(C)]
#[derive(Debug, Clone, Copy, PartialEq, Eq, Default)]
pub struct Report {
    pub no: u64,
    pub free: [u64; 6],
}

#[repr(C)]
#[derive(Debug, Clone, Copy, PartialEq, Eq, Default)]
pub struct Copied {
    pub no: u64,
    pub length: u64,
}

/// What the record of a tick says, of either edition: its kind says which.
#[repr(C)]
#[derive(Debug, Clone, Copy, PartialEq, Eq, Default)]
pub struct TickRead {
    pub no: u64,
    pub kind: u16,
    pub id: u64,
}

/// The same of an exit notice's.
#[repr(C)]
#[derive(Debug, Clone, Copy, PartialEq, Eq, Default)]
pub struct ExitRead {
    pub no: u64,
    pub kind: u16,
    pub actor: u64,
    pub reason: u16,
    pub monitor: u64,
}

/// What a reader of the old edition makes of the record of a tick.
#[repr(C)]
#[derive(Debug, Clone, Copy, PartialEq, Eq, Default)]
pub struct OldTickRead {
    pub no: u64,
    pub id: u32,
}

/// The same of an exit notice's.
#[repr(C)]
#[derive(Debug, Clone, Copy, PartialEq, Eq, Default)]
pub struct OldExitRead {
    pub no: u64,
    pub actor: u32,
    pub reason: u16,
    pub monitor: u32,
}

/// The letters of a reason's word, as many as `len` says, then zeros.
#[repr(C)]
#[derive(Debug, Clone, Copy, PartialEq, Eq, Default)]
pub struct ReasonWord {
    pub bytes: [u8; 8],
    pub len: usize,
}

/// The numbers of an answer, in the order of its struct; a signed one as two's complement.
pub trait Numbers {
    fn numbers(&self) -> Vec<u64>;
}

impl Numbers for u64 {
    fn numbers(&self) -> Vec<u64> {
        vec![*self]
    }
}

impl Numbers for Made {
    fn numbers(&self) -> Vec<u64> {
        vec![self.no, self.id]
    }
}

impl Numbers for Turn {
    fn numbers(&self) -> Vec<u64> {
        vec![self.no, self.id, self.reason, self.sleep as u64]
    }
}

impl Numbers for Received {
    fn numbers(&self) -> Vec<u64> {
        vec![self.no, self.sender, self.class, self.tag, self.length]
    }
}

impl Numbers for Shown {
    fn numbers(&self) -> Vec<u64> {
        vec![self.no, self.offset, self.length]
    }
}

impl Numbers for Ended {
    fn numbers(&self) -> Vec<u64> {
        vec![self.no, self.sent, self.lost]
    }
}

impl Numbers for Advanced {
    fn numbers(&self) -> Vec<u64> {
        vec![self.no, self.fired]
    }
}

impl Numbers for Report {
    fn numbers(&self) -> Vec<u64> {
        [&[self.no], &self.free[..]].concat()
    }
}

impl Numbers for Copied {
    fn numbers(&self) -> Vec<u64> {
        vec![self.no, self.length]
    }
}
