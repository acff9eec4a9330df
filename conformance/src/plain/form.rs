//! The two forms of a table, each named by its record size: "a table of the 864 form, told by its record size, is served as before".

/// Octets of a record in the form of before, and in the one that set up makes.
pub const NARROW: usize = 864;
pub const WIDE: usize = 1080;

/// What the form with records of `R` octets holds.
pub struct Form<const R: usize>;

impl<const R: usize> Form<R> {
    /// Octets of a stored commit, scalar, element, and zeros behind a shorter one, and of each part of the stock.
    pub const COMMIT: usize = match R {
        NARROW => 144,
        WIDE => 198,
        _ => panic!("a form has records of 864 or 1,080 octets"),
    };
    /// Groups that a list can hold.
    pub const GROUPS: usize = if R == NARROW { 2 } else { 3 };
    /// Slots that a table can have.
    pub const SLOTS: usize = if R == NARROW { 64 } else { 60 };
}

/// Octets of the stored commit, groups and slots in the form that holds the most of them.
pub const COMMIT: usize = Form::<WIDE>::COMMIT;
pub const GROUPS: usize = Form::<WIDE>::GROUPS;
pub const SLOTS: usize = Form::<NARROW>::SLOTS;
