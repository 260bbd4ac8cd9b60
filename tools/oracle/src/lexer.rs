//! `KEYWORDS` and `is_keyword` of src/lexer.rs.

use crate::driver::CRATE_STR;
use crate::version::SIMC_STR;

include!(concat!(env!("OUT_DIR"), "/lexer_items.rs"));
