//! The vectors: lists, and what the player must print for each; lists and
//! texts, and what must come of writing or reading each as lines; lists, and what must
//! come of converting each.

use std::fs;
use std::io::Write;
use std::path::{Path, PathBuf};
use std::process::{Command, Stdio};

use model::{convert, read_lines, write_lines, Output};

/// The repository's vectors, a folder for the base and for each request.
const FOLDER: &str = concat!(env!("CARGO_MANIFEST_DIR"), "/../tests/vectors");
/// The folder of lists that are converted, and not played.
const CONVERTED: &str = "07-convert";

/// How many of each sort there are at the least.
const LEAST: usize = 161;
const LEAST_WRITTEN: usize = 60;
const LEAST_READ: usize = 80;
const LEAST_CONVERTED: usize = 60;

/// A path, an input, and what must come of it.
type Vector = (String, Vec<u8>, Vec<u8>);

/// What a folder holds.
fn entries(folder: &Path) -> impl Iterator<Item = PathBuf> {
    let entries = fs::read_dir(folder).unwrap_or_else(|why| panic!("{}: {why}", folder.display()));
    entries.map(|entry| entry.unwrap().path())
}

/// The inputs among these paths, those with this ending, in order.
fn inputs(paths: impl Iterator<Item = PathBuf>, ending: &str, least: usize) -> Vec<Vector> {
    let mut all: Vec<Vector> = paths
        .filter(|path| path.extension().is_some_and(|found| found == ending))
        .map(|path| {
            let input = fs::read(&path).unwrap();
            let wanted = fs::read(path.with_extension("out")).unwrap();
            (path.display().to_string(), input, wanted)
        })
        .collect();
    all.sort();
    assert!(all.len() >= least, "only {} vectors", all.len());
    all
}

/// Every list that is played: those that stand in a request's folder itself, but for
/// those that are converted.
fn vectors() -> Vec<Vector> {
    let folders = entries(Path::new(FOLDER)).filter(|folder| !folder.ends_with(CONVERTED));
    inputs(folders.flat_map(|folder| entries(&folder)), "bin", LEAST)
}

/// The vectors of one of the two calls on lines.
fn line_vectors(call: &str, ending: &str, least: usize) -> Vec<Vector> {
    let folder = Path::new(FOLDER).join("03-lines").join(call);
    inputs(entries(&folder), ending, least)
}

/// The lists that are converted.
fn converted_vectors() -> Vec<Vector> {
    let folder = Path::new(FOLDER).join(CONVERTED);
    inputs(entries(&folder), "bin", LEAST_CONVERTED)
}

/// The output of a call on lines or of the converter, or the line that says its
/// refusal. The buffer has the room that is wanted and no more.
fn output_or_refusal(
    call: impl Fn(&[u8], &mut [u8]) -> Output,
    input: &[u8],
    room: usize,
) -> Vec<u8> {
    let mut buffer = vec![0; room];
    let answer = call(input, &mut buffer);
    match answer.number {
        0 => buffer[..answer.length].to_vec(),
        number => format!("refused {number} at {}\n", answer.place).into(),
    }
}

/// What the player itself prints.
fn run_player(list: &[u8]) -> Vec<u8> {
    let mut player = Command::new(env!("CARGO_BIN_EXE_model_player"))
        .stdin(Stdio::piped())
        .stdout(Stdio::piped())
        .spawn()
        .unwrap();
    player.stdin.take().unwrap().write_all(list).unwrap();
    let output = player.wait_with_output().unwrap();
    assert!(output.status.success());
    output.stdout
}

#[test]
fn the_model_prints_every_vector() {
    for (name, list, wanted) in vectors() {
        let text = model::printed(&list);
        assert_eq!(text, String::from_utf8_lossy(&wanted), "vector {name}");
    }
}

#[test]
fn the_player_prints_every_vector() {
    for (name, list, wanted) in vectors() {
        assert!(run_player(&list) == wanted, "vector {name}");
    }
}

#[test]
fn the_model_writes_every_vector() {
    for (name, list, wanted) in line_vectors("write", "bin", LEAST_WRITTEN) {
        let text = output_or_refusal(write_lines, &list, wanted.len());
        assert!(text == wanted, "vector {name}");
        if !text.starts_with(b"refused") {
            assert!(output_or_refusal(read_lines, &text, list.len()) == list);
        }
    }
}

#[test]
fn the_model_reads_every_vector() {
    for (name, text, wanted) in line_vectors("read", "txt", LEAST_READ) {
        let list = output_or_refusal(read_lines, &text, wanted.len());
        assert!(list == wanted, "vector {name}");
        if !list.starts_with(b"refused") {
            assert!(output_or_refusal(write_lines, &list, text.len()) == text);
        }
    }
}

#[test]
fn the_model_converts_every_vector() {
    let mut back = 0;
    for (name, list, wanted) in converted_vectors() {
        let made = output_or_refusal(convert, &list, wanted.len());
        assert!(made == wanted, "vector {name}");
        if !made.starts_with(b"refused") {
            assert!(output_or_refusal(convert, &made, list.len()) == list);
            back += 1;
        }
    }
    println!("{back} vectors also back");
    assert!(back >= LEAST_CONVERTED / 2);
}

#[test]
fn the_player_notices_a_list_that_is_too_long() {
    let mut list = model::generate::duel(5, 1, 32_768);
    assert_eq!(list.len(), 32_768);
    let text = String::from_utf8(run_player(&list)).unwrap();
    assert!(text.ends_with("\nend 32768\n"));
    list.push(1);
    assert_eq!(run_player(&list), b"refused 1 at 0\n");
}
