//! The rules of the paper, worked out from it alone, and the cases made with them. See README.md.

pub mod agree;
pub mod apportionment;
pub mod big;
pub mod book;
pub mod calendar;
pub mod call_cases;
pub mod calls;
pub mod compare;
pub mod file;
pub mod file_calls;
pub mod file_cases;
pub mod line;
pub mod lists;
pub mod load_time;
pub mod order_text;
pub mod random;
pub mod random_files;
pub mod rates;
pub mod refusal;
pub mod report_cases;
pub mod statement;
pub mod tally;
pub mod vectors;
