//! What the oracle, the comparison and the bench share.
pub mod chance;
pub mod frame;
pub mod frames;
pub mod kinds;
pub mod payloads;
pub mod read;
pub mod refusal;
pub mod scan;

/// The lines of a table, with their numbers, without comments and empty lines.
fn lines(table: &'static str) -> impl Iterator<Item = (usize, &'static str)> {
    (1..).zip(table.lines()).filter(|(_, line)| !line.is_empty() && !line.starts_with('#'))
}
