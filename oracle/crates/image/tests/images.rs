//! Images and descriptions as the library reads and writes them.

use image::{Element, Fault, describe, kinds, read, write};

fn element(kind: u16, level: u16, text: &str) -> Element {
    Element {
        kind,
        level,
        text: text.to_owned(),
    }
}

/// A file with a child of every other kind.
fn every_kind() -> Vec<Element> {
    let nodes = (2..=56).map(|kind| element(kind, 1, ""));
    let tokens = (64..=107).map(|kind| element(kind, 1, "a \"\\'\t\r\n\0\u{7f}\u{85}é日\u{1f4a7}"));
    let file = [element(kinds::SOURCE_FILE_KIND, 0, "")];
    file.into_iter().chain(nodes).chain(tokens).collect()
}

#[test]
fn there_and_back() {
    let elements = every_kind();
    assert_eq!(read(&write(&elements)).as_ref(), Ok(&elements));
    let description = describe::write(&elements);
    assert_eq!(describe::read(&description), Ok(elements));
}

#[test]
fn the_bytes_of_an_image() {
    let elements = [element(1, 0, ""), element(68, 1, "# k")];
    let expected = [
        [2, 0, 0, 0].as_slice(),
        &[1, 0, 0, 0, 0, 0, 0, 0],
        &[68, 0, 1, 0, 3, 0, 0, 0],
        &[3, 0, 0, 0],
        b"# k",
    ];
    assert_eq!(write(&elements), expected.concat());
}

#[test]
fn a_description_may_be_written_in_many_ways() {
    let description = "; a file\nSourceFile\r\n\n\t2\n    ExprNumber\n\t  \tNumber \
                       \"\\x31\\u{e9}\\'\\\"\" \n  Comma\n";
    let elements = vec![
        element(1, 0, ""),
        element(2, 1, ""),
        element(8, 2, ""),
        element(87, 3, "1é'\""),
        element(94, 1, ","),
    ];
    assert_eq!(describe::read(description), Ok(elements));
}

#[test]
fn faults_of_a_description() {
    let faults = [
        (" Expr", "odd number of spaces"),
        ("  Exprs", "no kind \"Exprs\""),
        ("  65536", "no kind \"65536\""),
        ("  Ident x", "no text in quotes: x"),
        ("  Ident \"", "no text in quotes: \""),
        ("  Ident \"x\"y\"", "quote in \"x\"y\""),
        ("  Ident \"\\q\"", "escape in \"\\q\""),
        ("  Ident \"\\x4\"", "escape in \"\\x4\""),
        ("  Ident \"\\x80\"", "escape in \"\\x80\""),
        ("  Ident \"\\u{d800}\"", "escape in \"\\u{d800}\""),
        ("  Ident \"\\u{41\"", "escape in \"\\u{41\""),
    ];
    for (line, fault) in faults {
        let description = format!("SourceFile\n{line}\n");
        assert_eq!(
            describe::read(&description),
            Err(format!("line 2: {fault}"))
        );
    }
}

/// Refusals 1 to 6 with the first element that they apply to.
#[test]
fn faults_of_an_image() {
    let refused = |image: &[u8], number, element| {
        assert_eq!(read(image), Err(Fault { number, element }));
    };
    let with = |last: Element| write(&[element(1, 0, ""), element(90, 1, "x"), last]);
    let image = with(element(90, 1, "y"));
    refused(&[], 1, 0);
    refused(&image[..image.len() - 1], 1, 0);
    refused(&[0xff; 8], 1, 0);
    refused(&write(&[]), 2, 0);
    refused(&write(&vec![element(1, 0, ""); 4_097]), 2, 0);
    refused(&with(element(90, 1, &"y".repeat(32_000))), 2, 0);
    refused(&with(element(57, 1, "")), 3, 2);
    refused(&with(element(1, 1, "")), 4, 2);
    refused(&with(element(2, 0, "")), 4, 2);
    refused(&with(element(2, 2, "")), 4, 2);
    refused(&write(&[element(2, 0, "")]), 4, 0);
    refused(&with(element(2, 1, "y")), 5, 2);
    let (mut longer, mut not_utf8) = (image.clone(), image.clone());
    longer[4 + 8 + 4] += 1;
    refused(&longer, 5, 3);
    *not_utf8.last_mut().expect("a byte") = 0xff;
    refused(&not_utf8, 6, 2);
}

/// Level 200 is the deepest.
#[test]
fn the_deepest_level() {
    let chain = |deepest| {
        let node = |level| element(if level == 0 { 1 } else { 2 }, level, "");
        read(&write(&(0..=deepest).map(node).collect::<Vec<_>>()))
    };
    assert!(chain(200).is_ok());
    let fault = Fault {
        number: 4,
        element: 201,
    };
    assert_eq!(chain(201), Err(fault));
}
