//! Compiles the contestant in C and links it, where the feature `contestants` asks for it. Where `DELAMPUK_BEFORE` names a
//! folder, the earlier archive in it is linked beside today's, by other names.

use std::env;
use std::fs;
use std::path::{Path, PathBuf};
use std::process::Command;

const FLAGS: [&str; 7] = ["-O3", "-std=c11", "-Wall", "-Wextra", "-Werror", "-pedantic", "-fPIC"];

/// The calls that are timed, as they stand in a header's declarations.
const CALLS: [&str; 4] = [" delampuk_send (", " delampuk_read (", " delampuk_search (", " delampuk_list ("];

/// What was declared of them while states were handed over by value, before version 0.2.0.
const BY_VALUE: &str = include_str!("src/contestants/by_value.h");

/// What has to be as it was, for such an archive to be called with today's structs.
const OF_BY_VALUE: [&str; 3] = [" delampuk_send (", "struct delampuk_reader {", "struct delampuk_read_answer {"];

fn main() {
    println!("cargo:rerun-if-changed=build.rs");
    println!("cargo:rerun-if-env-changed=DELAMPUK_BEFORE");
    println!("cargo:rustc-check-cfg=cfg(before, before_by_value)");
    let root = PathBuf::from(env::var_os("CARGO_MANIFEST_DIR").expect("cargo names the package")).join("../..");
    let out = PathBuf::from(env::var_os("OUT_DIR").expect("cargo names a folder to write to"));
    if env::var_os("CARGO_FEATURE_CONTESTANTS").is_some() {
        link_contestants(&root, &out);
    }
    if let Some(folder) = env::var_os("DELAMPUK_BEFORE").filter(|folder| !folder.is_empty()) {
        match link_before(&root, Path::new(&folder), &out) {
            Ok(cfgs) => cfgs.iter().for_each(|cfg| println!("cargo:rustc-cfg={cfg}")),
            Err(reason) => println!("cargo:rustc-env=DELAMPUK_NO_BEFORE={reason}"),
        }
    }
}

fn link_contestants(root: &Path, out: &Path) {
    let (sources, headers) = (root.join("bench"), root.join("include"));
    println!("cargo:rerun-if-changed={}", sources.display());
    println!("cargo:rerun-if-changed={}", headers.display());
    let objects = files_in_c(&sources).into_iter().map(|source| {
        let object = out.join(source.file_name().expect("a file has a name")).with_extension("o");
        run(Command::new("cc").args(FLAGS).arg("-I").arg(&headers).arg("-c").arg(source).arg("-o").arg(&object));
        object
    });
    let archive = out.join("libcontestants.a");
    // ar would keep what a source of an earlier build has left in it
    let _ = fs::remove_file(&archive);
    run(Command::new("ar").arg("crs").arg(archive).args(objects));
    println!("cargo:rustc-link-search=native={}", out.display());
    println!("cargo:rustc-link-lib=static=contestants");
}

/// Links the earlier archive, unless its calls take structs that cannot be given; answers by which form it is called.
fn link_before(root: &Path, folder: &Path, out: &Path) -> Result<&'static [&'static str], String> {
    let (archive, header) = (folder.join("libdelampuk.a"), folder.join("delampuk.h"));
    println!("cargo:rerun-if-changed={}", archive.display());
    println!("cargo:rerun-if-changed={}", header.display());
    let no_header = "there is no delampuk.h beside the archive, so that its structs cannot be compared with today's";
    let before = fs::read_to_string(&header).map_err(|_| no_header)?;
    let now = fs::read_to_string(root.join("include/delampuk.h")).expect("the library has a header");
    let cfgs = form(&before, &now)?;
    let (names, renamed) = (out.join("names"), out.join("libbefore.a"));
    fs::write(&names, new_names(&archive)?).map_err(|error| error.to_string())?;
    let _ = fs::remove_file(&renamed);
    output_of("objcopy", &[Path::new("--redefine-syms"), &names, &archive, &renamed])?;
    println!("cargo:rustc-link-search=native={}", out.display());
    println!("cargo:rustc-link-lib=static=before");
    Ok(cfgs)
}

/// The form of an earlier header's calls: today's, or by value.
fn form(before: &str, now: &str) -> Result<&'static [&'static str], String> {
    let differs = match same(before, now, &CALLS) {
        Ok(()) => return Ok(&["before"]),
        Err(differs) => differs,
    };
    same(before, BY_VALUE, &CALLS).and_then(|()| same(BY_VALUE, now, &OF_BY_VALUE)).map_err(|_| differs)?;
    Ok(&["before", "before_by_value"])
}

/// Whether two headers declare the same of all that is named; the error says of what they do not.
fn same(one: &str, other: &str, names: &[&str]) -> Result<(), String> {
    for name in names {
        if declared(one, name)? != declared(other, name)? {
            let name = name.trim_matches([' ', '(', '{'].as_ref());
            return Err(format!("{name}, or a struct of it, is declared otherwise in the earlier header"));
        }
    }
    Ok(())
}

/// A line for each name that an archive gives to others: the name, and the same with a prefix.
fn new_names(archive: &Path) -> Result<String, String> {
    let listed = output_of("nm", &[Path::new("-g"), Path::new("--defined-only"), archive])?;
    let names = listed.lines().filter_map(|line| line.split_whitespace().nth(2));
    Ok(names.map(|name| format!("{name} before_{name}\n")).collect())
}

/// What a program of binutils prints, or llvm's of that name where it is missing.
fn output_of(program: &str, arguments: &[&Path]) -> Result<String, String> {
    let run = |program: &str| Command::new(program).args(arguments).output();
    let output =
        run(program).or_else(|_| run(&format!("llvm-{program}"))).map_err(|error| format!("{program}: {error}"))?;
    match output.status.success() {
        true => Ok(String::from_utf8_lossy(&output.stdout).into_owned()),
        false => Err(format!("{program}: {}", String::from_utf8_lossy(&output.stderr).trim().replace('\n', "; "))),
    }
}

/// The declaration in which some words stand, and those of the structs that it names, and that these name.
fn declared(header: &str, words: &str) -> Result<Vec<String>, String> {
    let declarations = declarations(header);
    let find = |words: &str| {
        let named = declarations.iter().find(|declaration| declaration.contains(words));
        named
            .cloned()
            .ok_or_else(|| format!("one of the headers has no {}", words.trim_matches([' ', '(', '{'].as_ref())))
    };
    let mut found = vec![find(words)?];
    let mut next = 0;
    while next < found.len() {
        let words: Vec<String> = found[next].split(' ').map(str::to_string).collect();
        for pair in words.windows(2).filter(|pair| pair[0] == "struct") {
            let definition = find(&format!("struct {} {{", pair[1]))?;
            if !found.contains(&definition) {
                found.push(definition);
            }
        }
        next += 1;
    }
    Ok(found)
}

/// The declarations of a header, without comments, their words and signs parted by one space each.
fn declarations(header: &str) -> Vec<String> {
    let code: String = header
        .split("/*")
        .enumerate()
        .map(|(index, part)| match index {
            0 => part,
            _ => part.split_once("*/").map_or("", |(_, code)| code),
        })
        .collect();
    // the bracket around all declarations is for C++, and closes after the last of them
    let around = |line: &&str| line.starts_with('#') || line.starts_with("extern \"C\"");
    let lines = code.lines().map(str::trim_start).filter(|line| !around(line));
    let signs: String = lines
        .flat_map(|line| line.chars().chain([' ']))
        .map(|sign| match sign {
            '{' | '}' | '(' | ')' | '*' | ',' | ';' => format!(" {sign} "),
            _ => sign.to_string(),
        })
        .collect();
    let (mut declarations, mut open) = (vec![String::new()], 0_i32);
    for word in signs.split_whitespace() {
        open += i32::from(word == "{") - i32::from(word == "}");
        match (word, open) {
            (";", 0) => declarations.push(String::new()),
            _ => declarations.last_mut().expect("there is one").push_str(&format!(" {word}")),
        }
    }
    declarations
}

fn files_in_c(folder: &Path) -> Vec<PathBuf> {
    let entries = folder.read_dir().expect("the sources in C are there");
    let mut files: Vec<_> = entries.map(|entry| entry.expect("a folder can be listed").path()).collect();
    files.retain(|file| file.extension().is_some_and(|extension| extension == "c"));
    files.sort();
    files
}

fn run(command: &mut Command) {
    let status = command.status().unwrap_or_else(|error| panic!("{command:?}: {error}"));
    assert!(status.success(), "{command:?}: {status}");
}
