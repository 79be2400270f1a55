//! Tests of the reference model, case by case from documents 01 and 02.

mod bench_sheet;
mod common_mistakes;
mod deciders;
mod helpers;
mod order_of_checks;
mod plain_rust;
mod random_runs;
mod refusal_table;
mod rma_and_seeds;
mod rounds;
mod scans;
mod settings;
mod spans;
mod states;
mod steps;
mod views_and_host;
mod whole_operations;
