use jrsonnet_lexer::{CollectStrBlock, StringBlockError, collect_lexed_str_block};

#[test]
fn no_block_is_read() {
    for text in ["", "\n\n|||", "-\n a\n|||", "no block"] {
        let message = std::panic::catch_unwind(|| collect_lexed_str_block(text).is_ok())
            .expect_err("nothing is answered");
        let message = message.downcast_ref::<&str>();
        assert_eq!(message, Some(&"string blocks are not read by the oracle"));
    }
}

/// What the formatter does with a block: the lines are taken as given, the last
/// one off if it is empty and the block truncates.
#[test]
fn a_block_can_be_changed() {
    let read: Result<_, StringBlockError> = Ok(CollectStrBlock {
        truncate: true,
        lines: vec!["a", "", " b", ""],
    });
    let mut block = read.expect("made above");
    assert!(block.truncate && block.lines.ends_with(&[""]));
    block.truncate = false;
    assert_eq!(block.lines.pop(), Some(""));
    assert!(!block.truncate);
    assert_eq!(block.lines, ["a", "", " b"]);
}
