//! The rows of crates/bench over hashlink in Rust: the same keys, the same calls, the same lines and
//! checksums.
//!
//! usage: hashlink-bench WHAT ROUNDS [N ..]

mod algebra;
mod budgets;
mod caches;
mod command;
mod entries;
mod fill;
mod growth;
mod inserts;
mod keys;
mod lists;
mod lookups;
mod plan;
mod removals;
mod sets;
mod texts;
mod walks;
mod wholes;

use std::process::ExitCode;

fn main() -> ExitCode {
    command::run("hashlink-bench", |plan| {
        lookups::rows(plan);
        inserts::rows(plan);
        entries::rows(plan);
        growth::rows(plan);
        removals::rows(plan);
        walks::rows(plan);
        wholes::rows(plan);
        sets::rows(plan);
        algebra::rows(plan);
        caches::rows(plan);
        budgets::rows(plan);
        texts::rows(plan);
    })
}
