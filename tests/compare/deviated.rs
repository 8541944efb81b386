//! The record lent to the judge, and the judge's answer as a number.

use crate::record::Record;

lend_to!(strftime_judge);
