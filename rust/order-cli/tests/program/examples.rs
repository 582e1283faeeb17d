//! The examples of the help are what the program prints.

use crate::shell::{forecourt, shell};
use order_cli::commands;

#[test]
fn examples_of_the_help() {
    let folder = forecourt("examples");
    for command in commands::ALL {
        let example = command.example;
        let begin = format!("order {} ", command.name);
        assert!(example.line.starts_with(&begin), "{}", example.line);
        let output = shell(&folder, example.line).output().expect("a shell");
        let [words, errors] =
            [output.stdout, output.stderr].map(|words| String::from_utf8(words).expect("a text"));
        assert_eq!(errors, "", "{}", example.line);
        assert_eq!(words, example.output, "{}", example.line);
        assert!(output.status.success());
    }
}
