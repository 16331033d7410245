//! Named by the attached module list; no attached file uses it.
#[derive(Clone, Copy, Debug, PartialEq)]
pub struct CentralityScores;
