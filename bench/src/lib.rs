//! How long a judging takes: the proved judge beside a plain one and one tuned by hand, on tables of every sort and size.

pub mod agreement;
pub mod judges;
pub mod native;
pub mod plain;
mod plain_cycle;
mod plain_matrix;
mod plain_relations;
pub mod plan;
mod rows;
pub mod sorts;
pub mod tuned;
mod tuned_conflict;
mod tuned_cycles;
mod tuned_fields;
mod tuned_findings;
mod tuned_reading;
mod tuned_room;
mod tuned_sc;
mod tuned_text;
