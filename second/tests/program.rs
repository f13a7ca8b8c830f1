//! The program at the command line.

mod common;

use common::*;
use std::io::Write;
use std::process::{Command, Output, Stdio};

fn run(arguments: &[&str], input: &[u8]) -> Output {
    let mut child = Command::new(env!("CARGO_BIN_EXE_second"))
        .args(arguments)
        .stdin(Stdio::piped())
        .stdout(Stdio::piped())
        .stderr(Stdio::piped())
        .spawn()
        .expect("the program");
    // The program may stop reading early; what it prints is what counts.
    let _ = child.stdin.take().expect("its input").write_all(input);
    child.wait_with_output().expect("its output")
}

fn printed(output: &Output) -> (i32, String, String) {
    let text = |bytes: &[u8]| String::from_utf8_lossy(bytes).to_string();
    let code = output.status.code().expect("an exit code");
    (code, text(&output.stdout), text(&output.stderr))
}

fn good(text: &str) -> (i32, String, String) {
    (0, text.to_string(), String::new())
}

#[test]
fn check_prints_the_verdict() {
    let a = "unsafe rows 4 steps 3\n0 kept\n1 lost\n2 receive\n";
    assert_eq!(printed(&run(&["check"], &example_a())), good(a));
    assert_eq!(printed(&run(&["check"], &[])), good("refused 1 at 0\n"));
    assert_eq!(
        printed(&run(&["check"], &[0; 36_874])),
        good("refused 2 at 0\n")
    );
    assert_eq!(printed(&run(&["check"], &[0; 36_875])), good("too long\n"));
    assert_eq!(printed(&run(&["check"], &[0; 300_000])), good("too long\n"));
}

#[test]
fn unpack_prints_text_or_the_refusal() {
    let text = "states 2\nchannels 1\nmessages 2\nstart 0\n0 -> 1 send 0 0\n1 -> 0 send 0 1\n";
    assert_eq!(printed(&run(&["unpack"], &example_c())), good(text));
    let (code, out, _) = printed(&run(&["unpack"], &example_c()[..30]));
    assert_eq!((code, out.as_str()), (1, "refused 1 at 22\n"));
}

#[test]
fn pack_writes_the_table_or_says_what_is_wrong() {
    let folder = std::env::temp_dir().join(format!("second-{}", std::process::id()));
    std::fs::create_dir_all(&folder).expect("a folder");
    let file = folder.join("some.text");
    let name = file.to_str().expect("a plain name");
    let text = "states 2\nchannels 1\nmessages 2\nstart 0\n0 -> 1 send 0 0\n1 -> 0 send 0 1\n";
    std::fs::write(&file, text).expect("a file");
    let output = run(&["pack", name], &[]);
    assert_eq!(
        (output.status.code(), output.stdout),
        (Some(0), example_c())
    );
    std::fs::write(&file, text.replace("start 0", "start 2")).expect("a file");
    let (code, out, err) = printed(&run(&["pack", name], &[]));
    let expected = format!("{name}: line 4: there is no state \"2\"\n");
    assert_eq!((code, out, err), (1, String::new(), expected));
    std::fs::remove_dir_all(&folder).expect("the folder");
    let (code, out, err) = printed(&run(&["pack", name], &[]));
    assert_eq!((code, out.as_str()), (1, ""));
    assert!(err.starts_with("second: "), "{err}");
}

#[test]
fn anything_else_prints_the_usage() {
    for arguments in [
        &[][..],
        &["chek"],
        &["check", "x"],
        &["pack"],
        &["pack", "a", "b"],
    ] {
        let (code, out, err) = printed(&run(arguments, &[]));
        assert_eq!((code, out.as_str()), (2, ""), "{arguments:?}");
        assert!(err.starts_with("usage:\n"), "{err}");
    }
}
