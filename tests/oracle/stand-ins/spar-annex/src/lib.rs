//! Stand-in for spar-annex: the one type that the original names.

pub mod emv2 {
    /// An error model of a component. The oracle never has one.
    #[derive(Debug, Clone, PartialEq, Eq, Default)]
    pub struct Emv2Model;
}
