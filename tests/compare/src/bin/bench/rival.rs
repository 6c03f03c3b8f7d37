//! The rival through its C entry points.

compare::c_entries!(
    rival_fork,
    rival_unfork,
    rival_seal,
    rival_open,
    rival_rounds
);
