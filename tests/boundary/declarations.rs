//! Prints what torskavel.rs declares, as declarations.c does from the C header.

#[path = "../../include/torskavel.rs"]
mod torskavel;

use std::mem::{offset_of, size_of};
use torskavel::{LivePointAnswer, Placing, PlacingAnswer, PointAnswer, Unit, UnitAnswer};

macro_rules! show {
    ($module:path, $prefix:literal: $($name:ident)*) => {{
        use $module::*;
        $(println!("{}{} {}", $prefix, stringify!($name), $name);)*
    }};
}

macro_rules! show_fields {
    ($name:literal, $type:ty: $($field:ident)*) => {
        println!("{} size {}", $name, size_of::<$type>());
        $(println!("{}.{} at {}", $name, stringify!($field), offset_of!($type, $field));)*
    };
}

fn show_constants() {
    show!(torskavel, "": VERSION_MAJOR VERSION_MINOR VERSION_PATCH MAX_CODE MAX_STACK MAX_STACK_BUILD
        MAX_STACK_LOAD MAX_ORDER MAX_MULTIPLICITY_SUM MAX_DEGREE MAX_PLACES MAX_SIZE MAX_ENTRIES MAX_FILE
        MAX_UNCERTAINTY MAX_DIVISOR MAX_DENOMINATOR MAX_LIVE_DENOMINATOR NEVER_MEASURED
        FACTORY_PLACES);
    show!(torskavel::refused, "REFUSED_": NOT ORDER_LENGTH ORDER_BYTE MULTIPLICITIES NET_LENGTH FILE_HEADER SIZES
        FILE_LENGTH UNCERTAINTY BLOCK_LENGTH DIVISOR DENOMINATOR OUTSIDE UNMEASURED NET_DIFFERS LIVE_DENOMINATOR
        UNCERTAIN_GAP PLACING NO_NET NO_BLOCK SHARES);
}

fn show_layouts() {
    show_fields!("unit", Unit: has_net v1 v2 v3 v4 has_block n1 n2 n3 o1 o2 o3);
    show_fields!("placing", Placing: k1 k2 k3 p r s l0 l1 l2 l3);
    show_fields!("unit_answer", UnitAnswer: number place unit);
    show_fields!("placing_answer", PlacingAnswer: number place placing);
    show_fields!("point_answer", PointAnswer: number place numerator uncertainty denominator);
    show_fields!("live_point_answer", LivePointAnswer: number place numerator uncertainty);
}

fn show_functions() {
    for v1 in 1..=9 {
        for v2 in 1..=9 {
            for v3 in 1..=9 {
                for v4 in (1..=9).take_while(|v4| v1 + v2 + v3 + v4 <= 12) {
                    println!("places {v1} {v2} {v3} {v4}: {}", torskavel::places([v1, v2, v3, v4]));
                }
            }
        }
    }
    for n in [[1, 1, 1], [2, 3, 5], [64, 64, 1], [16, 16, 16], [65535; 3]] {
        let [n1, n2, n3] = n;
        println!("entries {n1} {n2} {n3}: {}, file {}", torskavel::entries(n), torskavel::file_length(n));
    }
}

fn main() {
    show_constants();
    show_layouts();
    show_functions();
}
