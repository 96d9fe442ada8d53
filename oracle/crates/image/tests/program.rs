//! The program: there and back, and what it says of a fault.

use std::{
    io::Write,
    process::{Command, Output, Stdio},
};

const DESCRIPTION: &str = "\
SourceFile
  Expr
    ExprArray
      LBrack \"[\"
      Expr
        ExprNumber
          Number \"1\"
      RBrack \"]\"
";

fn image(arguments: &[&str], input: &[u8]) -> Output {
    let mut program = Command::new(env!("CARGO_BIN_EXE_image"))
        .args(arguments)
        .stdin(Stdio::piped())
        .stdout(Stdio::piped())
        .stderr(Stdio::piped())
        .spawn()
        .expect("start the program");
    let mut stdin = program.stdin.take().expect("a pipe");
    stdin.write_all(input).expect("write the input");
    drop(stdin);
    program.wait_with_output().expect("wait for the program")
}

/// What the program wrote, where it was to write something.
fn turned(arguments: &[&str], input: &[u8]) -> Vec<u8> {
    let output = image(arguments, input);
    assert!(output.status.success() && output.stderr.is_empty());
    output.stdout
}

#[test]
fn there_and_back() {
    let bytes = turned(&[], DESCRIPTION.as_bytes());
    assert_eq!(bytes.len(), 8 + 8 * 8 + 3);
    assert_eq!(turned(&["--dump"], &bytes), DESCRIPTION.as_bytes());
}

#[test]
fn faults() {
    let faults: [(&[&str], &[u8], &str); 4] = [
        (&[], b"SourceFile\n  Exprs\n", "line 2: no kind \"Exprs\"\n"),
        (&[], b"\xff", "the description is not UTF-8\n"),
        (&["--dump"], b"SourceFile\n", "refusal 1 at element 0\n"),
        (&["--help"], b"", "usage: image [--dump]\n"),
    ];
    for (arguments, input, message) in faults {
        let output = image(arguments, input);
        assert_eq!(String::from_utf8_lossy(&output.stderr), message);
        assert!(!output.status.success() && output.stdout.is_empty());
    }
}
