//! Tests by public calls alone: a file for each crate or rule, and many cases in each test.
#![tactic(auto)]

#[cfg(test)]
mod bank;
#[cfg(test)]
mod base;
#[cfg(test)]
mod built;
#[cfg(test)]
mod codec;
#[cfg(test)]
mod configs;
#[cfg(test)]
mod edits;
#[cfg(test)]
mod files;
#[cfg(test)]
mod groups;
#[cfg(test)]
mod labels;
#[cfg(test)]
mod lines;
#[cfg(test)]
mod maps;
#[cfg(test)]
mod mirrors;
#[cfg(test)]
mod pages;
#[cfg(test)]
mod planned_files;
#[cfg(test)]
mod rules;
#[cfg(test)]
mod sets;
#[cfg(test)]
mod trees;
#[cfg(test)]
mod wire;
