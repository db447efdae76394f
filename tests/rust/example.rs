//! A small program in Rust that calls the solver: it solves the table of tables/owed.table with
//! patience 0 and prints the code and the controller's rows. README.md says how it is built.

#[path = "../../include/feshamiru.rs"]
mod feshamiru;

use feshamiru::desk_solve;

const ROOM: usize = 256;

const OWED: [u8; 52] = [
    1, 0, 2, 0, 1, 1, 0, 0, 2, 0, 0, 0, 2, 1, 1, 0, // states
    3, 0, 0, 0, 3, 0, 1, 0, 3, 1, 0, 1, 3, 1, 1, 0, // edges on an output
    4, 0, 0, 0, 4, 0, 1, 0, 4, 0, 1, 1, 4, 1, 0, 1, 4, 1, 1, 1, // edges on an input
];

/// Solves a table that has so many inputs. Gives the code, and after code 0 the controller's rows:
/// state, output, input, next.
fn solve(table: &[u8], inputs: usize, k: u32) -> (u32, Vec<[u8; 4]>) {
    let (mut winners, mut rows) = (vec![0; 8 * ROOM], vec![0; 32 * ROOM]);
    let mut answer = [0; 24];
    // Each buffer is lent with its own length, and none overlaps another: no more is asked.
    let code = unsafe {
        desk_solve(
            table.as_ptr(),
            table.len(),
            k,
            ROOM as u32,
            winners.as_mut_ptr(),
            winners.len(),
            rows.as_mut_ptr(),
            rows.len(),
            answer.as_mut_ptr(),
            answer.len(),
        )
    };
    if code != 0 {
        return (code, Vec::new());
    }
    let winners = usize::from(u16::from_le_bytes([answer[16], answer[17]])); // at most 256
    let rows = rows.chunks_exact(4).take(winners * inputs);
    (code, rows.map(|row| [row[0], row[1], row[2], row[3]]).collect())
}

fn main() {
    let (code, rows) = solve(&OWED, 2, 0);
    println!("code {code}");
    for [state, output, input, next] in rows {
        println!("{state} {output} {input} {next}");
    }
}
