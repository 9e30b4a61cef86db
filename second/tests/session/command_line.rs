//! The program itself.

use super::common::second;

#[test]
fn text_to_script_to_lines() {
    let text = b"D 2E0F00 04000011 58000100 0200 4100 # case 4\nM\nT 01 0100\nS\n";
    let script = second(&["hex-session"], text);
    assert!(script.status.success());
    let lines = second(&["session"], &script.stdout);
    assert!(lines.status.success());
    assert_eq!(lines.stdout, b"D 0 1 15\nM 0 0 0\nS 1\n");
    let fault = second(&["hex-session"], b"R 00\n");
    assert!(!fault.status.success() && fault.stdout.is_empty());
}

#[test]
fn a_fault_in_memory() {
    let script = second(&["hex-session"], b"M\nX 00 00000000 01\nM\n");
    let lines = second(&["session"], &script.stdout);
    assert_eq!(lines.stdout, b"M 0 0 0\n");
    assert_eq!(lines.stderr, b"fault\n");
    assert_eq!(lines.status.code(), Some(3));
}

#[test]
fn what_changed_between_two_items() {
    let text = b"D 2E0F00 04000011 58000100 0200 4100\nD 2E0B00 00000011 07000000\n\
        D 2E0F00 04000001 58000100 0200 4200\nD 2E0B00 00000021 07000000\n\
        D 2E0F00 00000012 07000000 03000000\nD 2E0700 02000004\nB 05000000\n";
    let script = second(&["hex-session"], text).stdout;
    let diff = |from: &str, to: &str| second(&["diff", from, to], &script);
    let told = |from: &str, to: &str| String::from_utf8(diff(from, to).stdout).expect("a text");
    assert_eq!(
        told("2", "4"),
        "window 65624: title=\"A\" became \"B\"\nwindow 7 is gone\n"
    );
    let later = told("4", "6");
    assert!(later
        .starts_with("desktop: hooked=0 became 1\nnotification icon 7/3 is new: window=7 icon=3 "));
    assert_eq!(later.lines().count(), 2);
    assert!(told("0", "1").starts_with("window 65624 is new: id=65624 owner=0 "));
    assert_eq!(told("1", "7"), "");
    assert_eq!(told("6", "6"), "");
    assert!(told("6", "7").contains("window 65624: title=\"B\" became \"A\""));
    for (from, to, fault) in [("0", "8", "has 7 items"), ("x", "1", "not a count")] {
        let refused = diff(from, to);
        assert_eq!((refused.status.code(), refused.stdout.len()), (Some(2), 0));
        assert!(String::from_utf8_lossy(&refused.stderr).contains(fault));
    }
    let faulty = second(&["hex-session"], b"X 00 00000000 01\n").stdout;
    assert_eq!(second(&["diff", "0", "1"], &faulty).status.code(), Some(2));
}

#[test]
fn parts_are_an_option() {
    let script = second(&["hex-session"], b"T 09 0500\nM\n").stdout;
    let run = |arguments: &[&str]| second(arguments, &script).stdout;
    assert_eq!(run(&["session"]), b"bad item\n");
    assert_eq!(
        run(&["session", "--parts", "1,1,1,1,1,1,1,1,1,5"]),
        b"M 1\n"
    );
    assert_eq!(
        run(&["session", "--parts", "1,1,1,1,1,1,1,1,1,4"]),
        b"M 1\n"
    );
    // four parts and the five of the store: there is none of the number 9
    assert_eq!(run(&["session", "--parts", "1,1,1,1"]), b"bad item\n");
}

#[test]
fn help_names_every_command() {
    let help = String::from_utf8(second(&["--help"], b"").stdout).expect("a text");
    for name in [
        "second session [--parts",
        "gen-session SEED ITEMS",
        "coverage-session FROM TO ITEMS",
        "compare-session PROGRAM FROM TO ITEMS",
        "fault-session PROGRAM FROM TO ITEMS",
        "hex-session",
    ] {
        assert!(help.contains(name), "{name}");
    }
}

#[test]
fn unknown_arguments_are_refused() {
    for arguments in [
        &["sessions"][..],
        &["session", "1"],
        &["session", "--parts"],
        &["session", "--parts", "0"],
        &["gen-session", "1"],
        &["gen-session", "1", "x"],
        &["fault-session", "p", "1", "1"],
        &["hex-session", "1"],
    ] {
        let output = second(arguments, b"");
        assert_eq!(output.status.code(), Some(2));
        assert!(output.stdout.is_empty() && !output.stderr.is_empty());
    }
}

#[test]
fn coverage_tells_what_is_missing() {
    let output = second(&["coverage-session", "1", "1", "5"], b"");
    let text = String::from_utf8(output.stdout).expect("a text");
    assert_eq!(output.status.code(), Some(1));
    assert!(text.contains("missing: D "), "{text}");
}

#[cfg(unix)]
mod compare {
    use super::super::common::program::program;
    use super::second;

    fn compare(name: &str, line: &str) -> (Option<i32>, String) {
        let path = program(name, &line.replace("SECOND", env!("CARGO_BIN_EXE_second")));
        let path = path.to_str().expect("a path");
        let output = second(&["compare-session", path, "15", "24", "60"], b"");
        let text = String::from_utf8(output.stdout).expect("a text");
        (output.status.code(), text)
    }

    #[test]
    fn a_program_that_agrees() {
        let (code, text) = compare("session-agrees", "exec 'SECOND' session");
        assert_eq!(text, "compared 10 scripts, 600 items: 0 differences\n");
        assert_eq!(code, Some(0));
    }

    #[test]
    fn a_program_that_differs() {
        let line = "'SECOND' session | sed '9s/.*/other/'";
        let (code, text) = compare("session-differs", line);
        assert_eq!(
            text.matches("\n  printed:  other\\n\n").count(),
            10,
            "{text}"
        );
        assert!(text.ends_with("\ncompared 10 scripts, 600 items: 10 differences\n"));
        assert_eq!(code, Some(1));
    }
}
