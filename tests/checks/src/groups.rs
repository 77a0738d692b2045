//! The engine of commits, over banks in memory: freezes and turns of groups.
mod freezes;
mod pools;
mod turns;
