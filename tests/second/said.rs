//! What a call of the library says.

/// The refusal's number, 0 on success, and the place or the success's value.
#[derive(Clone, Copy, PartialEq, Eq, Debug)]
pub struct Said {
    pub number: u64,
    pub value: u64,
}

/// Stands in the value before each call, so that a call that does not write it is seen.
pub const UNWRITTEN: u64 = 0xDEAD_BEEF_0BAD_F00D;

/// Stands for a call that changed memory beside a slice, or a slice that was lent to be read only;
/// where the call is linked, the guards of lent.rs see that, and elsewhere the far side.
pub const STRAY: Said = Said { number: u64::MAX, value: u64::MAX };
