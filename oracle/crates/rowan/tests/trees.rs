use rowan::{
    Language, NodeOrToken, SyntaxElement, SyntaxKind, SyntaxNode, trace,
    tree::{Entry, Tree},
};

#[derive(Debug, Clone, Copy, PartialEq, Eq, PartialOrd, Ord, Hash)]
enum Numbers {}
impl Language for Numbers {
    type Kind = u16;
    fn kind_from_raw(raw: SyntaxKind) -> u16 {
        raw.0
    }
    fn kind_to_raw(kind: u16) -> SyntaxKind {
        SyntaxKind(kind)
    }
}

type Given = (u16, usize, Option<&'static str>);

fn tree(elements: &[Given]) -> Option<Tree> {
    Tree::from_preorder(elements.iter().map(|&(kind, level, text)| Entry {
        kind: SyntaxKind(kind),
        level,
        text,
    }))
}

/// 1[ "a" 2[ 3[] "bc" ] 4[ 5[ "" ] ] "d" ]
const ELEMENTS: [Given; 9] = [
    (1, 0, None),
    (10, 1, Some("a")),
    (2, 1, None),
    (3, 2, None),
    (11, 2, Some("bc")),
    (4, 1, None),
    (5, 2, None),
    (12, 3, Some("")),
    (13, 1, Some("d")),
];

fn root() -> SyntaxNode<Numbers> {
    SyntaxNode::root_of(tree(&ELEMENTS).expect("a tree"))
}

#[test]
fn children_are_direct_and_in_order() {
    let kinds: Vec<u16> = root().children_with_tokens().map(|e| e.kind()).collect();
    assert_eq!(kinds, [10, 2, 4, 13]);
    let nodes: Vec<_> = root().children().collect();
    assert_eq!(
        nodes.iter().map(SyntaxNode::kind).collect::<Vec<_>>(),
        [2, 4]
    );
    let under: Vec<u16> = nodes[0].children_with_tokens().map(|e| e.kind()).collect();
    assert_eq!(under, [3, 11]);
    let three = nodes[0].children().next().expect("a node");
    assert_eq!(three.children_with_tokens().count(), 0);
}

#[test]
fn an_element_is_displayed_as_its_joined_text() {
    assert_eq!(root().to_string(), "abcd");
    let parts: Vec<String> = root()
        .children_with_tokens()
        .map(|e| e.to_string())
        .collect();
    assert_eq!(parts, ["a", "bc", "", "d"]);
    let first = root().children_with_tokens().next().expect("an element");
    assert_eq!(first.into_token().expect("a token").text(), "a");
}

#[test]
fn elements_are_equal_by_identity() {
    let file = root();
    let of = |n: usize| file.children_with_tokens().nth(n).expect("an element");
    assert_eq!(of(1), of(1));
    assert_ne!(of(1), of(2));
    assert_eq!(
        of(1),
        SyntaxElement::from(file.children().next().expect("a node"))
    );
    assert_ne!(file, root(), "another tree");
    // Equal empty siblings: rowan takes them for one element.
    let twins = [(1, 0, None), (2, 1, None), (2, 1, None)];
    let twins = SyntaxNode::<Numbers>::root_of(tree(&twins).expect("a tree"));
    let all: Vec<_> = twins.children().collect();
    assert_ne!(all[0], all[1]);
}

#[test]
fn trees_that_are_none() {
    let node = (1, 0, None);
    for bad in [
        &[] as &[Given],
        &[(1, 1, None)],
        &[(1, 0, Some("a"))],
        &[node, (2, 0, None)],
        &[node, (2, 2, None)],
        &[node, (2, 1, Some("a")), (3, 2, None)],
    ] {
        assert!(tree(bad).is_none());
    }
    assert!(tree(&[node]).is_some());
}

#[test]
fn what_was_read_last_is_known() {
    let file = root();
    let mut children = file.children_with_tokens();
    for number in [1, 2, 5, 8] {
        let element = children.next().expect("an element");
        assert_eq!(trace::last_read(), number);
        // Other questions about an element read nothing.
        let _ = (
            element.kind(),
            element.to_string(),
            element == element.clone(),
        );
        if let NodeOrToken::Node(node) = &element {
            let _ = node.children().next();
            assert_eq!(trace::last_parent(), number);
        }
        assert_eq!(trace::last_read(), number);
    }
    assert!(children.next().is_none());
    assert_eq!(trace::last_read(), 8);
}
