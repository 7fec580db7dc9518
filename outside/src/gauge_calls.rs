//! The gauge's reading in its two forms.

use crate::boundary::{ds_by_value_gauge, ds_gauge, Reading, Watch};
use crate::calls::Form;
use crate::tables::Tables;

pub fn make(tables: &mut Tables, watch: Watch, form: Form) -> Reading {
    let w = tables.lent();
    unsafe {
        match form {
            Form::ByValue => ds_by_value_gauge(w.scalars, watch, w.bins, w.leaves, w.nodes, w.nodes_len, w.pile, w.pile_len),
            _ => ds_gauge(w.scalars, watch, w.bins, w.leaves, w.nodes, w.nodes_len, w.pile, w.pile_len),
        }
    }
}
