//! Uses one call of the declarations alone: the others give no warning.

#[path = "../../include/torskavel.rs"]
mod torskavel;

fn main() {
    assert_eq!(torskavel::empty_unit().has_net, 0);
}
