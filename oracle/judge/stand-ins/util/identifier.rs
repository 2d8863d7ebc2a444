//! Stands in for `util/identifier.rs`: characters of names.
//!
//! Document 01, "Classes": a name starts with a letter, `$` or `_` and goes on
//! with those, digits and (in tags) `-`. A tag that looks at another character
//! than an ASCII one answers 5, which is outside the domain, so what is said
//! of those here never decides a compared run.

/// Whether a name can start with this.
pub fn id_start(char: char) -> bool {
    char.is_ascii_alphabetic() || matches!(char, '$' | '_')
}

/// Whether a name can go on with this.
pub fn id_cont(char: char, jsx: bool) -> bool {
    id_start(char) || char.is_ascii_digit() || (jsx && char == '-')
}
