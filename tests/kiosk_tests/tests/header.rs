//! The C header over the static library: `tests/c/example.c`, compiled with all
//! warnings, prints what is stored beside it.

#[cfg(all(
    feature = "read",
    feature = "build",
    feature = "check",
    feature = "asks",
    feature = "rides"
))]
#[test]
fn a_c_program_runs_the_example_day() {
    use std::path::Path;
    use std::process::Command;

    let root = Path::new(env!("CARGO_MANIFEST_DIR")).join("../..");
    let program = root.join("target/c_example");
    let built = Command::new("cc")
        .current_dir(&root)
        .args(["-std=c11", "-Wall", "-Wextra", "-Werror", "-Iinclude", "tests/c/example.c"])
        .args(["target/staticlib/libkiosk.a", "-o", "target/c_example"])
        .status()
        .expect("a C compiler");
    assert!(built.success());
    let output = Command::new(program).output().expect("the program runs");
    assert!(output.status.success());
    let wanted = std::fs::read_to_string(root.join("tests/c/example.out")).unwrap();
    assert_eq!(String::from_utf8_lossy(&output.stdout), wanted);
}
