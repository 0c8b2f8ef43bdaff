//! Supplier's texts: a draft's rows as elements, printed in many ways.
//!
//! - `elements`: elements before they are text, right or wrong, and the draft that right ones mean
//! - `print`: their text, with any white space, quotes and closings

mod elements;
mod print;

pub use elements::Element;
pub use print::{Gap, Printed, Style};
