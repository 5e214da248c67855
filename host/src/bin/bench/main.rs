//! Times the exported functions in both modes against the original, all in one run on the same inputs.

mod calls;
mod inputs;
mod listing;
mod maps;
mod rounds;
mod table;

fn main() {
    let mut table = table::Table::default();
    for inputs in &inputs::all() {
        calls::time(inputs, &mut table);
        listing::time(inputs, &mut table);
    }
    maps::time_all(&mut table);
    table.print();
}
