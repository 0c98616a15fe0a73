//! Times the proved library against plain Rust written by hand, and its points also against the recurrence of
//! the box spline. All are first seen to give equal answers.

mod builds;
mod factory;
mod hand;
mod inspections;
mod live;
mod loads;
mod points;
mod scene;
mod stages;
mod table;
mod timing;
#[rustfmt::skip]
#[path = "../../include/torskavel.rs"]
mod torskavel;

fn main() {
    table::print_header();
    for order in builds::ORDERS {
        builds::measure(order).print();
    }
    let (factory, build) = factory::measure();
    factory.print();
    for v in inspections::CASES {
        inspections::measure(v).print();
    }
    loads::measure().print();
    let points = points::CASES.map(|(v, divisor, size)| {
        let row = points::measure(v, divisor, size);
        row.print();
        row
    });
    let (live, exact): (Vec<_>, Vec<_>) = live::CASES
        .into_iter()
        .map(|case| {
            let (row, exact) = live::measure(case);
            row.print();
            (row, exact)
        })
        .unzip();
    let (stages, whole): (Vec<_>, Vec<_>) = stages::CASES
        .into_iter()
        .map(|case| {
            let (row, whole) = stages::measure(case);
            row.print();
            (row, whole)
        })
        .unzip();
    table::print_shapes(&hand::SHAPES, points.iter().chain(&live).chain(&stages));
    table::print_live(&live, &exact);
    table::print_stages(&stages, &whole);
    table::print_factory(&factory, build);
}
