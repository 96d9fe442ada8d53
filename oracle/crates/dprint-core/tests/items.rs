use std::rc::Rc;

use dprint_core::formatting::{
    ConditionResolverContext, LineNumber, PrintItem, PrintItems, Signal,
    condition_helpers::is_multiple_lines,
    condition_resolvers::true_resolver,
    conditions::{if_true, if_true_or},
    ir_helpers::{new_line_group, with_indent},
    restart,
};

fn text(text: &str) -> PrintItems {
    let mut items = PrintItems::new();
    items.push_string(text.to_owned());
    items
}

/// A short form of items, paths written out.
fn show(items: &PrintItems) -> String {
    let one = |item: &PrintItem| match item {
        PrintItem::String(text) => format!("{text:?}"),
        PrintItem::Signal(signal) => format!("{signal:?}"),
        PrintItem::LineNumber(line) => format!("line {}", line.unique_id()),
        PrintItem::Condition(c) => match &c.false_path {
            Some(no) => format!("if({})({})", show(&c.true_path), show(no)),
            None => format!("if({})", show(&c.true_path)),
        },
        PrintItem::RcPath(path) => format!("path {}({})", path.number(), show(&path.items())),
    };
    items.iter().map(one).collect::<Vec<_>>().join(" ")
}

#[test]
fn items_keep_their_order() {
    restart();
    let mut items = text("a");
    items.push_signal(Signal::NewLine);
    items.push_info(LineNumber::new("start"));
    items.extend(text("b"));
    items.extend(PrintItems::new());
    items.push_info(LineNumber::new("end"));
    assert_eq!(show(&items), r#""a" NewLine line 0 "b" line 1"#);
}

#[test]
fn pairs_stand_around_the_items_in_every_case() {
    for (inner, shown) in [(text("a"), " \"a\" "), (PrintItems::new(), " ")] {
        let group = new_line_group(inner.clone());
        let expected = format!("StartNewLineGroup{shown}FinishNewLineGroup");
        assert_eq!(show(&group), expected);
        assert_eq!(
            show(&with_indent(inner)),
            format!("StartBlock{shown}FinishBlock")
        );
    }
}

#[test]
fn a_path_is_shared() {
    restart();
    assert!(PrintItems::new().into_rc_path().is_none());
    assert_eq!(show(&None.into()), "");
    let path = text("a").into_rc_path();
    let other = text("a").into_rc_path();
    assert_ne!(path, other, "equal items, another path");
    let mut items: PrintItems = path.into();
    items.extend(path.into());
    items.extend(other.into());
    assert_eq!(show(&items), r#"path 0("a") path 0("a") path 1("a")"#);
}

#[test]
fn conditions_hold_their_paths() {
    let mut items = PrintItems::new();
    items.push_condition(if_true("name", true_resolver(), text("a")));
    items.push_condition(if_true_or(
        "name",
        true_resolver(),
        text("a"),
        PrintItems::new(),
    ));
    assert_eq!(show(&items), r#"if("a") if("a")()"#);
}

#[test]
fn a_resolver_shows_what_it_asks() {
    let ask = |resolver: dprint_core::formatting::ConditionResolver| {
        let mut context = ConditionResolverContext::default();
        (resolver(&mut context), context.asked)
    };
    assert_eq!(ask(true_resolver()), (Some(true), vec![]));
    let (start, end) = (LineNumber::new("start"), LineNumber::new("end"));
    let lines = Rc::new(move |c: &mut ConditionResolverContext| is_multiple_lines(c, start, end));
    assert_eq!(ask(lines), (None, vec![(start, end)]));
}
