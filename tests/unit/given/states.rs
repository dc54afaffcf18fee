//! The states of a neighbour.

use ospf_neighbour::NeighbourState;

/// All of them, in their order (RFC 2328, section 10.1).
pub(crate) const STATES: [NeighbourState; 7] = [
    NeighbourState::Down,
    NeighbourState::Init,
    NeighbourState::TwoWay,
    NeighbourState::ExStart,
    NeighbourState::Exchange,
    NeighbourState::Loading,
    NeighbourState::Full,
];
