//! A table: a line for each job, fields parted by tabs.

use super::{shown_name, states};
use crate::finding::Finding;

pub const HEAD: &str = "path\tjob\tsheet\tfiling\tnumber\tline\twords\n";

pub fn row(finding: &Finding) -> String {
    let [job, sheet, filing] = states(finding);
    let (number, line) = match finding.answer() {
        Some(answer) => (answer.number.to_string(), answer.line.to_string()),
        None => Default::default(),
    };
    let path = shown_name(&finding.job);
    format!("{path}\t{job}\t{sheet}\t{filing}\t{number}\t{line}\t{}\n", finding.says)
}
