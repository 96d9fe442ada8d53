//! The kinds of document 01: numbers, names and usual texts.

pub const SOURCE_FILE_KIND: u16 = 1;
pub const MEMBER_FIELD_NORMAL_KIND: u16 = 30;
pub const NAME_KIND: u16 = 43;
pub const MULTI_LINE_KIND: u16 = 65;
pub const HASH_KIND: u16 = 68;
pub const SLASH_KIND: u16 = 69;
pub const STRING_BLOCK_KIND: u16 = 82;
pub const IDENT_KIND: u16 = 90;

/// Nodes, from number 1.
pub static NODES: [&str; 56] = [
    "SourceFile",
    "Expr",
    "ExprBinary",
    "ExprUnary",
    "ExprObjExtend",
    "ExprParened",
    "ExprString",
    "ExprNumber",
    "ExprLiteral",
    "ExprArray",
    "ExprObject",
    "ExprArrayComp",
    "ExprImport",
    "ExprVar",
    "ExprIfThenElse",
    "ExprFunction",
    "ExprError",
    "SuffixIndex",
    "SuffixIndexExpr",
    "SuffixSlice",
    "SuffixApply",
    "StmtLocal",
    "StmtAssert",
    "BindDestruct",
    "BindFunction",
    "ObjBodyComp",
    "ObjBodyMemberList",
    "MemberBindStmt",
    "MemberAssertStmt",
    "MemberFieldNormal",
    "MemberFieldMethod",
    "ForSpec",
    "ForObjSpec",
    "IfSpec",
    "DestructFull",
    "DestructSkip",
    "DestructArray",
    "DestructObject",
    "DestructArrayElement",
    "DestructRest",
    "FieldNameFixed",
    "FieldNameDynamic",
    "Name",
    "SliceDesc",
    "SliceDescEnd",
    "SliceDescStep",
    "ArgsDesc",
    "Arg",
    "ParamsDesc",
    "Param",
    "ObjLocal",
    "Assertion",
    "TrueExpr",
    "FalseExpr",
    "DestructObjectField",
    "Visibility",
];

/// Tokens, from number 64: name, and text where a description gives none.
pub static TOKENS: [(&str, &str); 44] = [
    ("Whitespace", " "),
    ("MultiLineComment", "/**/"),
    ("ErrorCommentTooShort", "/*/"),
    ("ErrorCommentUnterminated", "/*"),
    ("SingleLineHashComment", "#"),
    ("SingleLineSlashComment", "//"),
    ("ErrorMissingToken", ""),
    ("ErrorUnexpectedToken", ""),
    ("ErrorCustom", ""),
    ("StringDouble", "\"\""),
    ("ErrorStringDoubleUnterminated", "\""),
    ("StringSingle", "''"),
    ("ErrorStringSingleUnterminated", "'"),
    ("StringDoubleVerbatim", "@\"\""),
    ("ErrorStringDoubleVerbatimUnterminated", "@\""),
    ("StringSingleVerbatim", "@''"),
    ("ErrorStringSingleVerbatimUnterminated", "@'"),
    ("ErrorStringVerbatimMissingQuotes", "@"),
    ("StringBlock", "|||\n\n|||"),
    ("ErrorStringBlockUnexpectedEnd", "|||"),
    ("ErrorStringBlockMissingNewLine", "|||"),
    ("ErrorStringBlockMissingTermination", "|||\n"),
    ("ErrorStringBlockMissingIndent", "|||\nx"),
    ("Number", "1"),
    ("Literal", "null"),
    ("ImportKind", "import"),
    ("Ident", "x"),
    ("BinaryOnly", "*"),
    ("UnaryOnly", "!"),
    ("EitherOperator", "-"),
    ("Comma", ","),
    ("Semi", ";"),
    ("LParen", "("),
    ("RParen", ")"),
    ("LBrack", "["),
    ("RBrack", "]"),
    ("LBrace", "{"),
    ("RBrace", "}"),
    ("Colon", ":"),
    ("QuestionMark", "?"),
    ("Assign", "="),
    ("Local", "local"),
    ("Else", "else"),
    ("Other", "."),
];

pub fn is_node(kind: u16) -> bool {
    (1..=56).contains(&kind)
}
pub fn is_token(kind: u16) -> bool {
    (64..=107).contains(&kind)
}

pub fn name(kind: u16) -> &'static str {
    if is_node(kind) {
        NODES[kind as usize - 1]
    } else {
        TOKENS[kind as usize - 64].0
    }
}

/// The kind of a name, or of a number in decimal.
pub fn by_name(word: &str) -> Option<u16> {
    if let Ok(number) = word.parse::<u16>() {
        return Some(number);
    }
    if let Some(place) = NODES.iter().position(|n| *n == word) {
        return Some(place as u16 + 1);
    }
    let place = TOKENS.iter().position(|t| t.0 == word)?;
    Some(place as u16 + 64)
}
