//! The program from outside: exit statuses, what it prints, and what it writes.

use std::fs;
use std::path::{Path, PathBuf};
use std::process::{Command, Output};

/// A folder of its own for each test.
fn folder(name: &str) -> PathBuf {
    let folder = std::env::temp_dir().join(format!("hairbench-{}-{name}", std::process::id()));
    let _ = fs::remove_dir_all(&folder);
    fs::create_dir_all(&folder).expect("a folder for the test");
    folder
}

fn hairbench(args: &[&str]) -> Output {
    Command::new(env!("CARGO_BIN_EXE_hairbench")).args(args).output().expect("the program starts")
}

/// Runs a script; pictures go into `out` beside it.
fn script(folder: &Path, text: &str, more: &[&str]) -> Output {
    let (path, out) = (folder.join("script.txt"), folder.join("out"));
    fs::write(&path, text).expect("a script");
    let mut args = vec![path.to_str().expect("a path"), "--out", out.to_str().expect("a path")];
    args.extend(more);
    hairbench(&args)
}

fn text(bytes: &[u8]) -> String {
    String::from_utf8_lossy(bytes).into_owned()
}

const GOOD: &str = "load 2 straight vertices=5 length=4\npin 2 0 all\npick 2 4 2 -2 1\nsettle 2 steps=9\ndraw a.svg all\nplay a.html 2\n";

#[test]
fn a_small_script_from_end_to_end() {
    let folder = folder("good");
    let output = script(&folder, GOOD, &["--solo"]);
    let (said, wrong) = (text(&output.stdout), text(&output.stderr));
    assert_eq!((output.status.code(), wrong.as_str()), (Some(0), ""));
    assert!(said.starts_with("line  call"));
    assert!(said.contains("   4  settle, 9 steps"), "{said}");
    assert!(said.contains("solo: seat 2: 14 calls, every answer and the strand the same, bit for bit"), "{said}");
    assert!(said.contains("wrote "));
    let names: Vec<_> =
        fs::read_dir(folder.join("out")).expect("a folder").map(|e| e.expect("a file").file_name()).collect();
    assert_eq!(names.len(), 2, "{names:?}");
    assert!(fs::read_to_string(folder.join("out/a.svg")).expect("a picture").ends_with("</svg>\n"));
    assert!(fs::read_to_string(folder.join("out/a.html")).expect("a page").ends_with("</html>\n"));
    fs::remove_dir_all(folder).expect("the test's folder");
}

#[test]
fn quiet_prints_nothing() {
    let folder = folder("quiet");
    let output = script(&folder, GOOD, &["--quiet"]);
    assert_eq!(
        (output.status.code(), text(&output.stdout), text(&output.stderr)),
        (Some(0), String::new(), String::new())
    );
    assert!(folder.join("out/a.svg").exists());
    fs::remove_dir_all(folder).expect("the test's folder");
}

#[test]
fn a_script_that_the_check_refuses_runs_and_writes_nothing() {
    let folder = folder("unchecked");
    let output = script(&folder, &format!("{GOOD}draw b.svg 7\nhop\n"), &[]);
    let wrong = text(&output.stderr);
    assert_eq!((output.status.code(), text(&output.stdout).as_str()), (Some(1), ""));
    assert!(wrong.contains("script.txt:7: there is no seat 7"), "{wrong}");
    assert!(wrong.contains("script.txt:8: `hop` is no statement"), "{wrong}");
    assert!(!folder.join("out").exists());
    fs::remove_dir_all(folder).expect("the test's folder");
}

#[test]
fn a_script_that_the_bench_refuses_writes_nothing() {
    let folder = folder("refused");
    let output = script(&folder, &format!("{GOOD}pin 2 5 x\ndraw b.svg 2\n"), &[]);
    let wrong = text(&output.stderr);
    assert_eq!(output.status.code(), Some(1));
    assert!(wrong.contains("script.txt:7: refused with 5: The strand has no such vertex"), "{wrong}");
    assert!(text(&output.stdout).contains("refused, 5"));
    assert!(!folder.join("out").exists());
    fs::remove_dir_all(folder).expect("the test's folder");
}

#[test]
fn files_that_were_there_stay_when_a_script_is_refused() {
    let folder = folder("kept");
    fs::create_dir_all(folder.join("out")).expect("a folder");
    fs::write(folder.join("out/a.svg"), "an earlier picture").expect("a file");
    assert_eq!(script(&folder, &format!("{GOOD}unload 0\n"), &[]).status.code(), Some(1));
    assert_eq!(fs::read_to_string(folder.join("out/a.svg")).expect("still there"), "an earlier picture");
    assert_eq!(fs::read_dir(folder.join("out")).expect("a folder").count(), 1);
    fs::remove_dir_all(folder).expect("the test's folder");
}

#[test]
fn strands_come_from_files_beside_the_script() {
    let folder = folder("files");
    fs::write(folder.join("hair.txt"), "0 0 0\n0 -1 0\n0 -2 0.5\n").expect("a file");
    let output = script(&folder, "load 0 from hair.txt\nlook 0 rest-positions\n", &[]);
    assert_eq!(output.status.code(), Some(0));
    let said = text(&output.stdout);
    let last = said.lines().last().expect("a vertex").split_whitespace().collect::<Vec<_>>();
    assert_eq!(last, ["vertex", "2", "0", "-2", "0.5"]);
    fs::remove_dir_all(folder).expect("the test's folder");
}

#[test]
fn usage_and_exit_statuses() {
    assert_eq!(hairbench(&[]).status.code(), Some(2));
    assert_eq!(hairbench(&["--loud"]).status.code(), Some(2));
    assert_eq!(hairbench(&["/no/such/script"]).status.code(), Some(1));
    assert_eq!(hairbench(&["--help"]).status.code(), Some(0));
    assert_eq!(text(&hairbench(&["--version"]).stdout), format!("hairbench {}\n", env!("CARGO_PKG_VERSION")));
}

#[test]
fn the_manual_page_names_what_help_names() {
    let page = Path::new(env!("CARGO_MANIFEST_DIR")).join("../docs/hairbench.1");
    let page =
        fs::read_to_string(page).expect("the manual page").replace("\\-", "-").replace("\\fB", "").replace("\\fR", "");
    let help = text(&hairbench(&["--help"]).stdout);
    let named =
        |word: &str| word.starts_with("--") || word.contains('=') || word.chars().all(|c| c.is_ascii_lowercase());
    let lines = help.lines().filter(|l| l.starts_with("  "));
    let words = lines.filter_map(|l| l.split_whitespace().next()).filter(|w| named(w));
    let mut seen = 0;
    for word in words.map(|w| w.trim_end_matches(',')) {
        assert!(page.contains(word), "{word} is not in the manual page");
        seen += 1;
    }
    for default in
        help.split([' ', '[', ']', ';', '\n']).filter(|w| w.contains('=') && w.contains(|c: char| c.is_ascii_digit()))
    {
        assert!(page.contains(default), "{default} is not in the manual page");
        seen += 1;
    }
    assert!(seen > 20, "only {seen} words");
}

#[test]
fn the_evening() {
    let folder = folder("evening");
    let evening = Path::new(env!("CARGO_MANIFEST_DIR")).join("evening.txt");
    let out = folder.to_str().expect("a path");
    let output = hairbench(&[evening.to_str().expect("a path"), "--solo", "--out", out]);
    let said = text(&output.stdout);
    assert_eq!(output.status.code(), Some(0), "{}", text(&output.stderr));
    assert_eq!(said.matches("bit for bit").count(), 6, "{said}");
    for name in ["strand.svg", "evening.svg", "evening.html", "curl.html"] {
        assert!(folder.join(name).exists(), "{name}");
    }
    fs::remove_dir_all(folder).expect("the test's folder");
}
