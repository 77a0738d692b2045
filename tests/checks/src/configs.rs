//! Whole configurations, also on devices.
mod by_hand;
mod fields;
mod largest;
mod older_records;
mod random;
mod shapes;
