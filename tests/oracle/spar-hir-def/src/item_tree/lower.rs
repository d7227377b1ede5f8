//! Stand-in for the lowering from the syntax tree. The oracle never runs it.
