//! An independent reader of document 01 as 02 changes it, a writer and totals of 02, views, and generators of documents, drafts and tables, to be held against the proved library.

pub mod digits;
pub mod documents;
pub mod drafts;
pub mod model;
pub mod random;
pub mod references;
pub mod renaming;
pub mod respelling;
pub mod rows;
pub mod spelling;
pub mod tables;
pub mod totals;
pub mod values;
pub mod views;
pub mod writing;

#[cfg(test)]
mod tests;
