//! The five wrong models of 01, "Faults that look right".
//!
//! Only tests ask for a fault; every plain call of this library works with [`Fault::None`]. The switch
//! stands beside the right rule in the code, so that one can see what each fault would change.

/// Which rule is broken on purpose.
#[derive(Clone, Copy, Debug, PartialEq, Eq)]
pub enum Fault {
    /// The right model.
    None,
    /// Mute's "audio off" goes although an item is due.
    MuteTakesItemSlot,
    /// C1 to C4 enter the sum as they stand instead of as 0.
    SumTakesCBits,
    /// The odd frame's BAS bits are read as p0 to p7 in that order.
    NaturalCheckOrder,
    /// A command already cuts the block that carries it.
    ActsAtOnce,
    /// The third bad block leaves the mode as the first two changed it.
    KeepsLearnedMode,
}

impl Fault {
    /// The five faults, without [`Fault::None`].
    pub const ALL: [Fault; 5] = [
        Fault::MuteTakesItemSlot,
        Fault::SumTakesCBits,
        Fault::NaturalCheckOrder,
        Fault::ActsAtOnce,
        Fault::KeepsLearnedMode,
    ];
}
