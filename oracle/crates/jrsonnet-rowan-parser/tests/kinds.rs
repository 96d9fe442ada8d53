use jrsonnet_rowan_parser::{
    AstNode, AstToken, JsonnetLanguage,
    SyntaxKind::{self, *},
    SyntaxKindSet, SyntaxNode, T, TS,
    nodes::{ExprBase, SourceFile, Trivia, TriviaKind},
    parse,
    rowan::{
        self, Language,
        tree::{Entry, Tree},
    },
};

/// All kinds in their order.
fn kinds() -> impl Iterator<Item = SyntaxKind> {
    (0..=VISIBILITY.into_raw()).map(SyntaxKind::from_raw)
}

#[test]
fn kinds_and_numbers_are_one_to_one() {
    assert_eq!(EOF.into_raw(), 0);
    for (number, kind) in kinds().enumerate() {
        assert_eq!(usize::from(kind.into_raw()), number);
        let raw = JsonnetLanguage::kind_to_raw(kind);
        assert_eq!(raw, rowan::SyntaxKind(kind.into_raw()));
        assert_eq!(JsonnetLanguage::kind_from_raw(raw), kind);
    }
}

#[test]
#[should_panic(expected = "out of bounds")]
fn numbers_behind_the_last_are_no_kinds() {
    SyntaxKind::from_raw(VISIBILITY.into_raw() + 1);
}

#[test]
fn tokens_come_before_nodes() {
    assert_eq!(SOURCE_FILE.into_raw(), LAST_TOKEN.into_raw() + 1);
    assert!(LAST_TOKEN.into_raw() < 127);
    for kind in kinds().filter(|k| *k < SOURCE_FILE) {
        assert!(!SourceFile::can_cast(kind) && !ExprBase::can_cast(kind));
    }
    for kind in kinds().filter(|k| *k > LAST_TOKEN) {
        assert!(!Trivia::can_cast(kind));
    }
}

#[test]
fn short_names_are_those_of_the_tokens() {
    let brackets = [T!['['], T![']'], T!['('], T![')'], T!['{'], T!['}']];
    assert_eq!(
        brackets,
        [L_BRACK, R_BRACK, L_PAREN, R_PAREN, L_BRACE, R_BRACE]
    );
    let signs = [T![+], T![,], T![;], T![:], T![=], T![?], T![.], T![...]];
    assert_eq!(
        signs,
        [
            PLUS,
            COMMA,
            SEMI,
            COLON,
            ASSIGN,
            QUESTION_MARK,
            DOT,
            DOTDOTDOT
        ]
    );
    let words = [
        (T![assert], "ASSERT_KW"),
        (T![else], "ELSE_KW"),
        (T![error], "ERROR_KW"),
        (T![for], "FOR_KW"),
        (T![function], "FUNCTION_KW"),
        (T![if], "IF_KW"),
        (T![import], "IMPORT_KW"),
        (T![importbin], "IMPORTBIN_KW"),
        (T![importstr], "IMPORTSTR_KW"),
        (T![in], "IN_KW"),
        (T![local], "LOCAL_KW"),
        (T![tailstrict], "TAILSTRICT_KW"),
        (T![then], "THEN_KW"),
    ];
    for (kind, name) in words {
        assert_eq!(format!("{kind:?}"), name);
    }
}

#[test]
fn a_set_holds_its_tokens() {
    let set = TS![, ;].with(L_BRACK);
    let held: Vec<_> = kinds()
        .filter(|k| *k <= LAST_TOKEN && set.contains(*k))
        .collect();
    assert_eq!(held, [L_BRACK, SEMI, COMMA]);
    assert!(kinds().all(|k| !SyntaxKindSet::EMPTY.contains(k)));
    assert_eq!(set.to_string(), "L_BRACK, SEMI or COMMA");
}

/// The original's accessors over a tree: the file `[1] `.
#[test]
fn accessors_find_their_kinds() {
    let elements = [
        (SOURCE_FILE, 0, None),
        (EXPR, 1, None),
        (EXPR_ARRAY, 2, None),
        (L_BRACK, 3, Some("[")),
        (EXPR, 3, None),
        (EXPR_NUMBER, 4, None),
        (FLOAT, 5, Some("1")),
        (R_BRACK, 3, Some("]")),
        (WHITESPACE, 1, Some(" ")),
    ];
    let tree = Tree::from_preorder(elements.map(|(kind, level, text)| Entry {
        kind: JsonnetLanguage::kind_to_raw(kind),
        level,
        text,
    }));
    let root = SyntaxNode::root_of(tree.expect("a tree"));
    let file = SourceFile::cast(root.clone()).expect("a file");
    let expr = file.expr().expect("an expression");
    let Some(ExprBase::ExprArray(array)) = expr.expr_base() else {
        panic!("an array");
    };
    assert_eq!(array.l_brack_token().expect("a token").text(), "[");
    assert_eq!(array.r_brack_token().expect("a token").text(), "]");
    let inside: Vec<_> = array.exprs().map(|e| e.syntax().to_string()).collect();
    assert_eq!(inside, ["1"]);
    let last = root.children_with_tokens().last().expect("an element");
    let last = Trivia::cast(last.into_token().expect("a token")).expect("a trivia");
    assert_eq!((last.kind(), last.text()), (TriviaKind::Whitespace, " "));
    assert!(SourceFile::cast(expr.syntax().clone()).is_none());
}

#[test]
#[should_panic(expected = "the parser is not part of the oracle")]
fn nothing_is_parsed() {
    parse("1");
}
