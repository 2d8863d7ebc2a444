//! Wrong readings of the crate, one rule changed in each: `variants.txt`.
//!
//! A judge built with one of them must be told from the product by the cases
//! that are generated; else the comparison could not fail.

/// A change in one function or method of a file.
pub struct Edit {
    pub file: String,
    function: String,
    from: String,
    to: String,
}

/// The edits that the list has under a name.
pub fn edits(list: &str, name: &str) -> Vec<Edit> {
    let mut edits = vec![];
    let mut here = false;
    let (mut file, mut function, mut from) = ("", "", "");
    for line in list.lines() {
        let Some((field, value)) = line.split_once(": ") else {
            continue;
        };
        match field {
            "name" => here = value == name,
            "file" => file = value,
            "function" => function = value,
            "from" => from = value,
            "to" if here => edits.push(Edit {
                file: file.into(),
                function: function.into(),
                from: from.into(),
                to: value.into(),
            }),
            _ => {}
        }
    }
    assert!(!edits.is_empty(), "variants.txt has no variant `{name}`");
    edits
}

impl Edit {
    /// The source with the change. The function must be there once, and so
    /// must the text in it; a space stands for white space of any length.
    pub fn apply(&self, source: &str) -> String {
        let Edit {
            function, from, to, ..
        } = self;
        let head = format!("fn {function}(");
        assert_eq!(source.matches(&head).count(), 1, "functions `{function}`");
        let start = source.find(&head).expect("the function");
        let body = &source[start..function_end(source, start)];

        let places: Vec<(usize, usize)> = (0..body.len())
            .filter(|at| body.is_char_boundary(*at))
            .filter_map(|at| Some((start + at, match_length(&body[at..], from)?)))
            .collect();
        let [(at, len)] = places.as_slice() else {
            panic!("`{from}` is {} times in `{function}`", places.len());
        };
        [&source[..*at], to, &source[at + len..]].concat()
    }
}

/// Where the function ends that has its head here: at the first brace that
/// closes as far in as the line of the head begins. A method is further in than
/// a function, and all that is inside either is further in still.
fn function_end(source: &str, head: usize) -> usize {
    let line = source[..head].rfind('\n').map_or(0, |at| at + 1);
    let before = &source[line..head];
    let indent = &before[..before.len() - before.trim_start().len()];
    let end = format!("\n{indent}}}\n");
    head + source[head..].find(&end).expect("the function's end")
}

/// How much of the text's beginning the fragment stands for.
fn match_length(text: &str, fragment: &str) -> Option<usize> {
    let mut rest = text;
    for (index, word) in fragment.split(' ').enumerate() {
        if index > 0 {
            let after = rest.trim_start();
            if after.len() == rest.len() {
                return None;
            }
            rest = after;
        }
        rest = rest.strip_prefix(word)?;
    }
    Some(text.len() - rest.len())
}
