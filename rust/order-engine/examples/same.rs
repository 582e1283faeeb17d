//! Whether two other orders of a site are the same run as the first, and which steps tell that they are
//! not. The table is read from standard input.

use order_engine::same;
use std::io::{self, Read};
use std::process::ExitCode;

fn main() -> io::Result<ExitCode> {
    let first = [0, 0, 1, 1, 2, 2];
    let others = [[2, 1, 0, 0, 1, 2], [1, 1, 0, 0, 2, 2]];
    let mut table = Vec::new();
    io::stdin().read_to_end(&mut table)?;

    for other in others {
        let answer = match same(&table, &first, &other) {
            Ok(answer) => answer,
            Err(refusal) => {
                println!("{refusal}");
                return Ok(ExitCode::FAILURE);
            }
        };
        match answer.opposed {
            _ if answer.is_same() => println!("same"),
            Some([one, other]) => println!("different: {one} and {other} in the other order"),
            None => println!("different: other steps"),
        }
    }
    Ok(ExitCode::SUCCESS)
}
