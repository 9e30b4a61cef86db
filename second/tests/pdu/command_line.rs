//! The program itself.

use super::common::second;

#[test]
fn text_to_script_to_lines() {
    let script = second(&["hex-pdu"], b"R 0500 0800 B11D0000 # case 1\nR\n");
    assert!(script.status.success());
    let lines = second(&["pdu"], &script.stdout);
    assert!(lines.status.success());
    assert_eq!(lines.stdout, b"R 0 type=0005 build=7601\nR 2\n");
    let fault = second(&["hex-pdu"], b"R 0\n");
    assert!(!fault.status.success() && fault.stdout.is_empty());
}

#[test]
fn generated_scripts_are_those_of_the_library() {
    let script = second(&["gen-pdu", "5", "40"], b"");
    assert_eq!(script.stdout, second::generate::pdu::script(5, 40));
}

#[test]
fn help_names_every_command() {
    let help = String::from_utf8(second(&["--help"], b"").stdout).expect("a text");
    for name in [
        "second pdu",
        "gen-pdu SEED ITEMS",
        "coverage-pdu FROM TO ITEMS",
    ] {
        assert!(help.contains(name), "{name}");
    }
    for name in [
        "compare-pdu PROGRAM FROM TO ITEMS",
        "fault-pdu PROGRAM FROM TO ITEMS",
        "hex-pdu",
    ] {
        assert!(help.contains(name), "{name}");
    }
}

#[test]
fn unknown_arguments_are_refused() {
    for arguments in [
        &[][..],
        &["pdus"],
        &["gen-pdu", "1"],
        &["gen-pdu", "x", "1"],
        &["pdu", "1"],
    ] {
        let output = second(arguments, b"");
        assert_eq!(output.status.code(), Some(2));
        assert!(output.stdout.is_empty() && !output.stderr.is_empty());
    }
}

#[test]
fn coverage_tells_what_is_missing() {
    let output = second(&["coverage-pdu", "1", "1", "5"], b"");
    let text = String::from_utf8(output.stdout).expect("a text");
    assert_eq!(output.status.code(), Some(1));
    assert!(text.contains("missing: R "), "{text}");
}

#[cfg(unix)]
mod compare {
    use super::super::common::program::program;
    use super::second;

    fn compare(path: &str, from: &str, to: &str) -> (Option<i32>, String) {
        let output = second(&["compare-pdu", path, from, to, "30"], b"");
        let text = String::from_utf8(output.stdout).expect("a text");
        (output.status.code(), text)
    }

    #[test]
    fn a_program_that_agrees() {
        let line = format!("exec '{}' pdu", env!("CARGO_BIN_EXE_second"));
        let path = program("agrees", &line);
        let (code, text) = compare(path.to_str().expect("a path"), "15", "24");
        assert_eq!(text, "compared 10 scripts, 300 items: 0 differences\n");
        assert_eq!(code, Some(0));
    }

    /// Every script differs in its second line.
    #[test]
    fn a_program_that_differs() {
        let line = format!(
            "'{}' pdu | sed '2s/.*/other/'",
            env!("CARGO_BIN_EXE_second")
        );
        let path = program("differs", &line);
        let (code, text) = compare(path.to_str().expect("a path"), "0", "4");
        for seed in 0..5 {
            // The second line is that of item 2, or of a later one after items with no line.
            let told = format!("seed {seed}: item ");
            assert_eq!(text.matches(&told).count(), 1, "{text}");
        }
        assert_eq!(
            text.matches("\n  printed:  other\\n\n").count(),
            5,
            "{text}"
        );
        let last = "\ncompared 5 scripts, 150 items: 5 differences\n";
        assert!(text.ends_with(last), "{text}");
        assert_eq!(code, Some(1));
    }

    #[test]
    fn a_program_that_reads_nothing() {
        let path = program("silent", "exit 0");
        let (code, text) = compare(path.to_str().expect("a path"), "0", "3");
        assert!(
            text.ends_with("compared 4 scripts, 120 items: 4 differences\n"),
            "{text}"
        );
        assert_eq!(code, Some(1));
    }

    #[test]
    fn nothing_to_compare_is_no_success() {
        let path = program("unused", "exit 0");
        let (code, text) = compare(path.to_str().expect("a path"), "3", "2");
        assert_eq!(text, "compared 0 scripts, 0 items: 0 differences\n");
        assert_eq!(code, Some(1));
        let (code, text) = compare("/no/such/program", "0", "3");
        assert_eq!((code, text.as_str()), (Some(2), ""));
    }
}
