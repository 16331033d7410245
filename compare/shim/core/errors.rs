//! The errors that the attached files give.
use crate::{HyperedgeIndex, VertexIndex};

#[derive(Clone, Debug, PartialEq, Eq)]
pub enum HypergraphError<V, HE> {
    VertexIndexNotFound(VertexIndex),
    HyperedgeIndexNotFound(HyperedgeIndex),
    HyperedgeCreationNoVertices(HE),
    HyperedgeUpdateNoVertices(HyperedgeIndex),
    HyperedgeVerticesUnchanged(HyperedgeIndex),
    HyperedgesInvalidIntersections,
    HyperedgesInvalidJoin,
    HypergraphContainsCycle,
    NotEnoughVerticesProvided,
    HyperedgeSplitIndexOutOfBounds {
        index: HyperedgeIndex,
        at: usize,
    },
    HyperedgeInvalidContraction {
        index: HyperedgeIndex,
        target: VertexIndex,
        vertices: Vec<VertexIndex>,
    },
    HyperedgeVerticesIndexesNotFound {
        index: HyperedgeIndex,
        vertices: Vec<VertexIndex>,
    },
    Weight(V),
}
