//! Prints a table: each call at a quarter, half and full size, the proved library beside the plain one and, for a run and for a check with
//! offered rows, beside one written for speed alone, as the least of many interleaved rounds. Every input is first asked of all, and must
//! get the answer that its row intends. `bench NAME ..` prints the rows of these names alone. `bench --guard` prints nothing but the rows of
//! check and run that are over the guard's limit in each of its passes, and then ends with 1.

mod checks;
mod measure;
mod memories;
mod offers;
mod row;
mod runs;
mod stations;

use row::Row;

fn rows() -> Vec<Row> {
    let mut rows = checks::rows();
    rows.extend(stations::checks());
    rows.extend(offers::rows());
    rows.extend(memories::memories());
    rows.extend(memories::entries());
    rows.extend(runs::rows());
    rows.extend(stations::runs());
    rows
}

fn main() {
    let words: Vec<String> = std::env::args().skip(1).collect();
    if words == ["--guard"] {
        std::process::exit(i32::from(!measure::guard(rows())));
    }
    let mut table = measure::Table::begin();
    for row in rows().iter().filter(|row| words.is_empty() || words.contains(&row.name)) {
        table.print(row);
    }
    table.summary();
}
