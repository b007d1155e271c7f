//! The Rust declarations are the C header's.

use compare::layout::{Field, LISTED};
use compare::product::header::{numbers, prototypes, structs, version};
use std::collections::BTreeSet;
use std::path::{Path, PathBuf};
use std::process::Command;

/// The folder of the header.
fn include() -> PathBuf {
    Path::new(env!("CARGO_MANIFEST_DIR")).join("../include")
}

/// The header.
fn header() -> String {
    std::fs::read_to_string(include().join("orizhgum.h")).expect("the header")
}

/// C's assertions that a struct has these texts, one behind the other.
fn texts(owner: &str, fields: &[Field]) -> String {
    let (mut lines, mut offset) = (String::new(), 0);
    for field in fields.iter().filter(|field| field.meaning.is_text()) {
        let (width, text) = (field.meaning.width(), field.name.replace(' ', "_"));
        let start = format!("offsetof({owner}, texts) + {offset}");
        lines +=
            &format!("_Static_assert(offsetof({owner}, texts.{text}) == {start}, \"{text}\");\n");
        lines += &format!(
            "_Static_assert(sizeof((({owner} *)0)->texts.{text}) == {width}, \"{text}\");\n"
        );
        offset += width;
    }
    lines
}

/// All that is declared here, as C.
fn declared() -> String {
    let mut all = format!(
        "#include \"orizhgum.h\"\n{}{}{}",
        structs(),
        prototypes(),
        numbers()
    );
    for layout in LISTED.iter().filter(|layout| layout.texts() > 0) {
        let owner = format!("struct orizhgum_{}_answer", layout.name.replace(' ', "_"));
        all += &texts(&owner, layout.fields);
    }
    for layout in LISTED.iter().filter(|layout| !layout.has_entries()) {
        all += &texts("struct orizhgum_group_answer", layout.group);
    }
    all
}

/// What C says of a text beside the header; nothing where it accepts it.
fn said(name: &str, text: &str) -> String {
    let file = Path::new(env!("CARGO_TARGET_TMPDIR")).join(name);
    std::fs::write(&file, text).expect("a file for C");
    let mut gcc = Command::new("gcc");
    gcc.args(["-std=c11", "-Wall", "-Wextra", "-Werror", "-fsyntax-only"]);
    let ran = gcc.arg("-I").arg(include()).arg(&file).output();
    let ran = ran.expect("gcc runs");
    let said = String::from_utf8_lossy(&ran.stderr).into_owned();
    assert_eq!(ran.status.success(), said.is_empty(), "{said}");
    said
}

/// The words of a text that begin so.
fn words<'a>(text: &'a str, start: &str) -> BTreeSet<&'a str> {
    text.split(|c: char| !c.is_alphanumeric() && c != '_')
        .filter(|word| word.starts_with(start))
        .collect()
}

#[test]
fn declarations_are_the_headers() {
    assert_eq!(said("declared.c", &declared()), "");
}

#[test]
fn the_version_is_one() {
    let version = version();
    let line = format!("#define ORIZHGUM_VERSION \"{version}\"\n");
    assert!(header().contains(&line), "{line}");
    let changes = std::fs::read_to_string(include().join("../CHANGELOG.md"));
    let changes = changes.expect("the changes");
    let newest = changes.lines().find(|line| line.starts_with("## "));
    assert_eq!(newest, Some(format!("## {version}").as_str()));
}

#[test]
fn nothing_of_the_header_is_left_out() {
    let (header, declared) = (header(), declared());
    assert_eq!(words(&header, "orizhgum_"), words(&declared, "orizhgum_"));
    let mut names = words(&header, "ORIZHGUM_");
    assert!(names.remove("ORIZHGUM_H"));
    assert_eq!(names, words(&declared, "ORIZHGUM_"));
}

#[test]
fn other_declarations_are_refused() {
    let all = declared();
    for (place, (old, new)) in [
        ("ORIZHGUM_LATE == 103", "ORIZHGUM_LATE == 104"),
        (
            "ORIZHGUM_BEFORE_START == 108",
            "ORIZHGUM_BEFORE_START == 107",
        ),
        (
            "ORIZHGUM_SET_UPS_DIFFER == 11",
            "ORIZHGUM_SET_UPS_DIFFER == 12",
        ),
        ("ORIZHGUM_IN_BUFFER == 2", "ORIZHGUM_IN_BUFFER == 1"),
        (
            "struct orizhgum_stream orizhgum_stream_new(void);",
            "struct orizhgum_stream orizhgum_stream_new(size_t);",
        ),
        (
            "orizhgum_stream_end(struct orizhgum_stream, const uint8_t *, size_t);",
            "orizhgum_stream_end(struct orizhgum_stream, uint8_t *, size_t);",
        ),
        (
            "offsetof(struct orizhgum_stream_answer, took) == 40",
            "offsetof(struct orizhgum_stream_answer, took) == 32",
        ),
        (
            "offsetof(struct orizhgum_stream_answer, missing) == 32",
            "offsetof(struct orizhgum_stream_answer, missing) == 40",
        ),
        (
            "offsetof(struct orizhgum_frame_answer, missing) == 24",
            "offsetof(struct orizhgum_frame_answer, missing) == 16",
        ),
        (
            "orizhgum_frame(const uint8_t *, size_t);",
            "orizhgum_frame(const uint8_t *, uint32_t);",
        ),
        (
            "struct orizhgum_cursor orizhgum_cursor(",
            "struct orizhgum_entry orizhgum_cursor(",
        ),
        (
            "orizhgum_set_up(const uint16_t *, size_t, const int64_t *, size_t);",
            "orizhgum_set_up(const uint16_t *, size_t, const uint64_t *, size_t);",
        ),
        (
            "orizhgum_tick_in(size_t, const uint16_t *, const uint64_t *, uint64_t *,",
            "orizhgum_tick_in(size_t, const uint16_t *, uint64_t *, uint64_t *,",
        ),
        (
            "orizhgum_join_in(size_t, const uint16_t *, const uint64_t *, uint64_t *,",
            "orizhgum_join_in(size_t, const uint16_t *, const uint64_t *, const uint64_t *,",
        ),
        (
            "const size_t *, const uint64_t *, const uint64_t *);",
            "size_t *, const uint64_t *, const uint64_t *);",
        ),
        (
            "orizhgum_join(struct orizhgum_tracker *, const struct orizhgum_tracker *);",
            "orizhgum_join(struct orizhgum_tracker *, struct orizhgum_tracker *);",
        ),
        (
            "offsetof(struct orizhgum_tracker, from) == 24",
            "offsetof(struct orizhgum_tracker, from) == 88",
        ),
        ("->from[0], uint64_t *: 1", "->from[0], int64_t *: 1"),
        ("struct orizhgum_common *: 1", "struct orizhgum_order *: 1"),
        ("->ended[0], uint8_t *: 1", "->ended[0], _Bool *: 1"),
        (
            "texts.security) == offsetof(struct orizhgum_trade_answer, texts) + 3",
            "texts.security) == offsetof(struct orizhgum_trade_answer, texts) + 4",
        ),
    ]
    .into_iter()
    .enumerate()
    {
        assert!(all.contains(old), "{old}");
        let name = format!("other{place}.c");
        let told = said(&name, &all.replacen(old, new, 1));
        assert_eq!(told.matches("error:").count(), 1, "{new}: {told}");
    }
}
