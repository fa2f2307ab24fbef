//! The examples of docs/TOOL.md are what the tool prints.

use crate::{running::TOOL, sample::Scratch};
use std::{env, fs, path::Path, process::Command};

/// Runs each line behind `$ ` in a folder of its own with the sample's files, and holds what it prints, standard error
/// too, to the lines behind it. A status other than 0 is a line `[exit status N]`. With HONGSATHEP_WRITE=1 the paper is
/// written anew.
#[test]
fn examples_print_what_they_say() {
    let root = Path::new(env!("CARGO_MANIFEST_DIR")).join("../..");
    let paper = fs::read_to_string(root.join("docs/TOOL.md")).unwrap();
    let scratch = Scratch::new();
    for name in ["directory", "log"] {
        fs::copy(root.join("crates/recover/data").join(name), scratch.path().join(name)).unwrap();
    }
    let mut examples = 0;
    let mut parts = paper.split("```console\n");
    let mut anew = parts.next().unwrap().to_string();
    for part in parts {
        let (block, behind) = part.split_once("```").unwrap();
        anew.push_str("```console\n");
        for line in block.lines().filter_map(|line| line.strip_prefix("$ ")) {
            anew.push_str(&format!("$ {line}\n{}", shown(scratch.path(), line)));
            examples += 1;
        }
        anew.push_str(&format!("```{behind}"));
    }
    if env::var_os("HONGSATHEP_WRITE").is_some() {
        fs::write(root.join("docs/TOOL.md"), &anew).unwrap();
    } else {
        assert!(anew == paper, "docs/TOOL.md would be:\n{anew}");
    }
    println!("{examples} commands of docs/TOOL.md print what it says");
    assert!(examples > 10);
}

fn shown(folder: &Path, line: &str) -> String {
    let tools = Path::new(TOOL).parent().unwrap().display().to_string();
    let script = format!("exec 2>&1; {line}");
    let path = format!("{tools}:{}", env::var("PATH").unwrap_or_default());
    let output = Command::new("sh").current_dir(folder).args(["-c", &script]).env("PATH", path).output().unwrap();
    let mut text = String::from_utf8(output.stdout).unwrap();
    if !output.status.success() {
        text.push_str(&format!("[exit status {}]\n", output.status.code().unwrap_or(-1)));
    }
    text
}
