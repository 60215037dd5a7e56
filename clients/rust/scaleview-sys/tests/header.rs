//! The declarations are those of the header, and the library's version is the header's.

use scaleview_sys as sys;
use std::path::Path;

fn read(path: &str) -> String {
    std::fs::read_to_string(Path::new(env!("CARGO_MANIFEST_DIR")).join(path))
        .expect("a file of the repository")
}

/// Returns the words of a text, without its comments.
fn words_of(text: &str) -> Vec<String> {
    let mut code = String::new();
    let mut rest = text;
    while let Some((before, after)) = rest.split_once("/*") {
        code.push_str(before);
        rest = after.split_once("*/").map_or("", |(_, after)| after);
    }
    code.push_str(rest);
    let words = code.split(|c: char| !c.is_alphanumeric() && c != '_' && c != '=');
    words
        .filter(|word| !word.is_empty())
        .map(str::to_string)
        .collect()
}

#[test]
fn each_constant_and_call_is_declared() {
    let (header, declared) = (words_of(&read("../../c/scaleview.h")), read("src/lib.rs"));
    let (mut constants, mut calls) = (0, 0);
    for words in header.windows(3) {
        if words[1] == "=" {
            assert!(
                declared.contains(&format!("pub const {}: u32 = {};", words[0], words[2])),
                "{}",
                words[0]
            );
            constants += 1;
        }
        if words[0] == "uint32_t" && words[1].starts_with("scaleview_") {
            assert!(
                declared.contains(&format!("fn {}(", words[1])),
                "{}",
                words[1]
            );
            calls += 1;
        }
    }
    assert_eq!((constants, calls), (92, 28));
}

#[test]
fn the_version_is_the_libraries() {
    assert_eq!(sys::scaleview_version(), sys::SCALEVIEW_VERSION);
    let defined = format!("#define SCALEVIEW_VERSION {}\n", sys::SCALEVIEW_VERSION);
    assert!(read("../../c/scaleview.h").contains(&defined));
    let parts: Vec<u32> = env!("CARGO_PKG_VERSION")
        .split('.')
        .map(|part| part.parse().expect("a number"))
        .collect();
    assert_eq!(
        parts.iter().fold(0, |whole, part| 100 * whole + part),
        sys::SCALEVIEW_VERSION
    );
}

#[test]
fn codes_have_their_names() {
    let (mut out, mut answer) = ([0; 18], sys::scaleview_answer::default());
    // SAFETY: both places are this call's.
    let code = unsafe {
        sys::scaleview_reason(
            sys::SCALEVIEW_VALUE_BAD_UTF8,
            out.as_mut_ptr(),
            out.len(),
            &mut answer,
        )
    };
    assert_eq!((code, answer.length), (sys::SCALEVIEW_OK, 7));
    assert_eq!(&out[..7], b"BadUtf8");
}
