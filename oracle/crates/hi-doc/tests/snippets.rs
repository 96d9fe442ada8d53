use hi_doc::{Formatting, SnippetBuilder, Text};

/// A builder as `format` of the formatter makes it, with an annotation for each
/// error.
fn report(source: &str, errors: &[(&str, usize, usize)]) -> Result<String, SnippetBuilder> {
    let mut builder = SnippetBuilder::new(source.to_owned());
    for (message, start, end) in errors {
        let text = Text::fragment(format!("{message:?}"), Formatting::default());
        let () = builder.error(text).range(*start..=*end).build();
    }
    if errors.is_empty() {
        return Ok(source.to_owned());
    }
    Err(builder)
}

#[test]
fn annotations_are_built_one_after_another() {
    assert_eq!(report("x ", &[]).ok().as_deref(), Some("x "));
    assert!(report("x ", &[("a", 0, 0)]).is_err());
    // Places outside the source and empty ones are taken too.
    assert!(report("", &[("a", 0, 0), ("b", 7, 9), ("", 2, 1)]).is_err());
}

#[test]
fn nothing_is_kept() {
    assert_eq!(size_of::<SnippetBuilder>(), 0);
    assert_eq!(size_of::<Text>(), 0);
    assert_eq!(size_of::<Formatting>(), 0);
}
