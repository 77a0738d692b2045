//! Labels over a bank in memory, and uberblocks against bytes from outside.
mod blobs;
mod identities;
mod openings;
mod rounds;
mod setting;
mod uberblocks;
mod wipes;
