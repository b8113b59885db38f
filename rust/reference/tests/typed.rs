//! Typed rules: the cases of the paper and the edges, each worked out by hand.

use reference::calls::{rule_from_text, text_from_rule};
use reference::rule::{read_rule, Node, Rule, AND, BEFORE, HAS_LABEL, INCLUDES, NOT, OVERLAPS, SAME, SOME};
use reference::typed::{rule_file, rule_text};

/// The rule that the text says.
fn rule(text: &str) -> Rule {
    read_rule(&rule_file(text.as_bytes()).unwrap_or_else(|number| panic!("{text:?} is refused with {number}"))).unwrap()
}

fn nodes(text: &str) -> Vec<[u8; 3]> {
    rule(text).nodes.iter().map(|node| [node.kind, node.a, node.b]).collect()
}

fn labels(text: &str) -> Vec<String> {
    rule(text).labels.into_iter().map(|label| String::from_utf8(label).unwrap()).collect()
}

/// The refusal of the text, 0 for none.
fn refusal(text: impl AsRef<[u8]>) -> u8 {
    rule_file(text.as_ref()).err().unwrap_or(0)
}

fn file(labels: &[&str], nodes: &[[u8; 3]]) -> Vec<u8> {
    let labels = labels.iter().map(|label| label.as_bytes().to_vec()).collect();
    let nodes = nodes.iter().map(|&[kind, a, b]| Node { kind, a, b }).collect();
    Rule { labels, nodes }.to_bytes()
}

/// The text of the file.
fn text(labels: &[&str], nodes: &[[u8; 3]]) -> String {
    String::from_utf8(rule_text(&file(labels, nodes)).unwrap()).unwrap()
}

const P1: &str = "!exist A, B . A('EVENING') & B('TEST') & A i B";

/// The paper's 44 bytes: mark and version, two labels, eight nodes.
const P1_FILE: &[u8] = b"RUL\x01\x00\
    \x02\x07EVENING\x04TEST\
    \x08\x04\x00\x00\x04\x01\x01\x01\x00\x01\x07\x00\x01\x01\x02\x03\x03\x01\x04\x03\x00\x05\x02\x06\x00";

#[test]
fn p1_typed_is_the_file_of_the_paper() {
    assert_eq!(P1_FILE.len(), 44);
    for text in [
        P1,
        "!exist A,B.A('EVENING')&B('TEST')&A i B",
        "!existA,B.A('EVENING')&B('TEST')&A iB",
        "\n ! exist\nA ,\n B\n.\n A ( 'EVENING' )\n& B\n(\n'TEST'\n)\n&\nA\ni\nB \n",
        "!exist A . exist B . A('EVENING') & B('TEST') & A i B",
        "!(exist Evening, Test1 . (Evening('EVENING') & Test1('TEST')) & (Evening i Test1))",
        "(!(exist A.(exist B.((A('EVENING')&B('TEST'))&A i B))))",
    ] {
        assert_eq!(rule_file(text.as_bytes()), Ok(P1_FILE.to_vec()), "{text:?}");
    }
}

#[test]
fn p1_written_out() {
    let text = b"!(exist A.(exist B.((A('EVENING')&B('TEST'))&A i B)))";
    assert_eq!(rule_text(P1_FILE), Ok(text.to_vec()));
    assert_eq!(rule_file(text), Ok(P1_FILE.to_vec()));
}

/// 000, figure 1; the signs that its print lost are those of 001, figure 5.
const FIGURE_1: [&str; 4] = [
    "!exist B1, B2, D .
      B1('BOOT') & B2('BOOT') & D('DL_IMAGE') &
      B1 < B2 &
      (B1 i D |
       B2 i D |
       (B1 < D & D < B2) |
       (B1 o D & !D i B2) |
       (D o B2 & !D i B1)
      )",
    "!exist D, F .
      (D('DL_MOBPRM') | D('DL_ARMPRM')) &
      F('DL_FAIL') &
      D i F",
    "!exist O, F, R .
      O('INS_ON') & F('INS_FAIL') & R('INS_RECOVER') &
      O < F & F < R &
      !exist X . (X('INS_ON') | X('INS_RECOVER')) & O < X & X < R",
    "!exist D, G, S .
      D('DL_IMAGE') & G('GET_CAMDATA') & S('STARVE') &
      D i S & G i S",
];

#[test]
fn property_1_of_figure_1() {
    assert_eq!(labels(FIGURE_1[0]), ["BOOT", "DL_IMAGE"]);
    // B1 is variable 0, B2 is 1, D is 2.
    let expected = [
        [HAS_LABEL, 0, 0],
        [HAS_LABEL, 1, 0],
        [AND, 0, 1],
        [HAS_LABEL, 2, 1],
        [AND, 2, 3],
        [BEFORE, 0, 1],
        [AND, 4, 5],
        // 7: B1 i D, and its not for the or.
        [INCLUDES, 0, 2],
        [NOT, 7, 0],
        [INCLUDES, 1, 2],
        [NOT, 9, 0],
        [AND, 8, 10],
        [NOT, 11, 0],
        // 13: the not of the first or; then the third way.
        [NOT, 12, 0],
        [BEFORE, 0, 2],
        [BEFORE, 2, 1],
        [AND, 14, 15],
        [NOT, 16, 0],
        [AND, 13, 17],
        [NOT, 18, 0],
        // 20: the not of the second or; then the fourth way.
        [NOT, 19, 0],
        [OVERLAPS, 0, 2],
        [INCLUDES, 2, 1],
        [NOT, 22, 0],
        [AND, 21, 23],
        [NOT, 24, 0],
        [AND, 20, 25],
        [NOT, 26, 0],
        // 28: the not of the third or; then the fifth way.
        [NOT, 27, 0],
        [OVERLAPS, 2, 1],
        [INCLUDES, 2, 0],
        [NOT, 30, 0],
        [AND, 29, 31],
        [NOT, 32, 0],
        [AND, 28, 33],
        [NOT, 34, 0],
        // 36: all before the bracket, and the bracket.
        [AND, 6, 35],
        [SOME, 2, 36],
        [SOME, 1, 37],
        [SOME, 0, 38],
        [NOT, 39, 0],
    ];
    assert_eq!(nodes(FIGURE_1[0]), expected);
}

#[test]
fn property_2_of_figure_1() {
    assert_eq!(labels(FIGURE_1[1]), ["DL_MOBPRM", "DL_ARMPRM", "DL_FAIL"]);
    let expected = [
        [HAS_LABEL, 0, 0],
        [NOT, 0, 0],
        [HAS_LABEL, 0, 1],
        [NOT, 2, 0],
        [AND, 1, 3],
        [NOT, 4, 0],
        [HAS_LABEL, 1, 2],
        [AND, 5, 6],
        [INCLUDES, 0, 1],
        [AND, 7, 8],
        [SOME, 1, 9],
        [SOME, 0, 10],
        [NOT, 11, 0],
    ];
    assert_eq!(nodes(FIGURE_1[1]), expected);
}

#[test]
fn property_3_of_figure_1() {
    assert_eq!(labels(FIGURE_1[2]), ["INS_ON", "INS_FAIL", "INS_RECOVER"]);
    // O is variable 0, F is 1, R is 2, X is 3.
    let expected = [
        [HAS_LABEL, 0, 0],
        [HAS_LABEL, 1, 1],
        [AND, 0, 1],
        [HAS_LABEL, 2, 2],
        [AND, 2, 3],
        [BEFORE, 0, 1],
        [AND, 4, 5],
        [BEFORE, 1, 2],
        [AND, 6, 7],
        // 9: of X, all that follows, to the end.
        [HAS_LABEL, 3, 0],
        [NOT, 9, 0],
        [HAS_LABEL, 3, 2],
        [NOT, 11, 0],
        [AND, 10, 12],
        [NOT, 13, 0],
        [BEFORE, 0, 3],
        [AND, 14, 15],
        [BEFORE, 3, 2],
        [AND, 16, 17],
        [SOME, 3, 18],
        [NOT, 19, 0],
        [AND, 8, 20],
        [SOME, 2, 21],
        [SOME, 1, 22],
        [SOME, 0, 23],
        [NOT, 24, 0],
    ];
    assert_eq!(nodes(FIGURE_1[2]), expected);
}

#[test]
fn property_4_of_figure_1() {
    assert_eq!(labels(FIGURE_1[3]), ["DL_IMAGE", "GET_CAMDATA", "STARVE"]);
    let expected = [
        [HAS_LABEL, 0, 0],
        [HAS_LABEL, 1, 1],
        [AND, 0, 1],
        [HAS_LABEL, 2, 2],
        [AND, 2, 3],
        [INCLUDES, 0, 2],
        [AND, 4, 5],
        [INCLUDES, 1, 2],
        [AND, 6, 7],
        [SOME, 2, 8],
        [SOME, 1, 9],
        [SOME, 0, 10],
        [NOT, 11, 0],
    ];
    assert_eq!(nodes(FIGURE_1[3]), expected);
}

#[test]
fn signs_bind_as_closely_as_stated() {
    let same = |one: &str, other: &str| {
        let in_a = |body: &str| rule(&format!("exist A . {body}"));
        assert_eq!(in_a(one), in_a(other), "{one:?} and {other:?}");
    };
    let differ = |one: &str, other: &str| {
        assert_ne!(rule(&format!("exist A . {one}")), rule(&format!("exist A . {other}")), "{one:?} and {other:?}");
    };
    same("!A<A & A o A", "(!A<A) & A o A");
    differ("!A<A & A o A", "!(A<A & A o A)");
    same("A<A | A o A & A i A", "A<A | (A o A & A i A)");
    same("A<A & A o A | A i A", "(A<A & A o A) | A i A");
    differ("A<A & A o A | A i A", "A<A & (A o A | A i A)");
    same("A<A & A o A & A i A", "(A<A & A o A) & A i A");
    differ("A<A & A o A & A i A", "A<A & (A o A & A i A)");
    same("A<A | A o A | A i A", "(A<A | A o A) | A i A");
    differ("A<A | A o A | A i A", "A<A | (A o A | A i A)");
    same("!!A<A | A o A", "(!(!A<A)) | A o A");
    same("(((A<A)))", "A<A");
}

#[test]
fn exist_reaches_as_far_right_as_it_can() {
    let same = |one: &str, other: &str| assert_eq!(rule(one), rule(other), "{one:?} and {other:?}");
    same("exist A . A<A & A o A | A i A", "exist A . (A<A & A o A | A i A)");
    same("exist P . P<P & exist A . A<A | A o A", "exist P . P<P & (exist A . (A<A | A o A))");
    same("!exist A . A<A & A o A", "!(exist A . (A<A & A o A))");
    same("exist P . P<P | !exist A . A<A & P i A", "exist P . (P<P | !(exist A . (A<A & P i A)))");
    // To the closing bracket and no further.
    same("exist P . (exist A . A<A | A i P) & P o P", "exist P . ((exist A . (A<A | A i P)) & P o P)");
    // Outside its "exist" a name is not bound.
    assert_eq!(refusal("(exist A . A<A) & A o A"), 9);
    assert_eq!(refusal("exist A . A<A & A o A"), 0);
    assert_eq!(refusal("!exist A . A<A & A o A"), 0);
}

#[test]
fn an_or_is_the_not_of_the_and_of_the_nots() {
    assert_eq!(
        nodes("exist A . A<A | A o A"),
        [[BEFORE, 0, 0], [NOT, 0, 0], [OVERLAPS, 0, 0], [NOT, 2, 0], [AND, 1, 3], [NOT, 4, 0], [SOME, 0, 5]]
    );
    // A chain: the first or gets a not of its own, and nothing is left out.
    assert_eq!(
        nodes("exist A . A<A | A o A | same(A,A)"),
        [
            [BEFORE, 0, 0],
            [NOT, 0, 0],
            [OVERLAPS, 0, 0],
            [NOT, 2, 0],
            [AND, 1, 3],
            [NOT, 4, 0],
            [NOT, 5, 0],
            [SAME, 0, 0],
            [NOT, 7, 0],
            [AND, 6, 8],
            [NOT, 9, 0],
            [SOME, 0, 10],
        ]
    );
    // Of two "exist".
    assert_eq!(
        nodes("(exist A . A<A) | exist B . B i B"),
        [
            [BEFORE, 0, 0],
            [SOME, 0, 0],
            [NOT, 1, 0],
            [INCLUDES, 0, 0],
            [SOME, 0, 3],
            [NOT, 4, 0],
            [AND, 2, 5],
            [NOT, 6, 0],
        ]
    );
}

#[test]
fn a_name_is_the_variable_of_its_level() {
    assert_eq!(nodes("exist A, B . B < A"), [[BEFORE, 1, 0], [SOME, 1, 0], [SOME, 0, 1]]);
    // Side by side they have the same level.
    assert_eq!(
        nodes("(exist X . X<X) & (exist Y . Y o Y)"),
        [[BEFORE, 0, 0], [SOME, 0, 0], [OVERLAPS, 0, 0], [SOME, 0, 2], [AND, 1, 3]]
    );
    // The innermost binding counts, and after it the outer one again.
    assert_eq!(
        nodes("exist A . (exist A . A<A) & A o A"),
        [[BEFORE, 1, 1], [SOME, 1, 0], [OVERLAPS, 0, 0], [AND, 1, 2], [SOME, 0, 3]]
    );
    assert_eq!(nodes("exist A, B, A . A < B"), [[BEFORE, 2, 1], [SOME, 2, 0], [SOME, 1, 1], [SOME, 0, 2]]);
    // Names that differ in a later byte, or in the case of a letter.
    assert_eq!(nodes("exist Ab, AB . Ab < AB"), [[BEFORE, 0, 1], [SOME, 1, 0], [SOME, 0, 1]]);
    assert_eq!(nodes("exist A1, A . A1 < A"), [[BEFORE, 0, 1], [SOME, 1, 0], [SOME, 0, 1]]);
}

#[test]
fn labels_are_numbered_as_they_appear_first() {
    let text = "exist A . A('B') & A('A') & A('B') & A('C') & A('A')";
    assert_eq!(labels(text), ["B", "A", "C"]);
    let has: Vec<u8> = nodes(text).iter().filter(|node| node[0] == HAS_LABEL).map(|node| node[2]).collect();
    assert_eq!(has, [0, 1, 0, 2, 1]);
}

#[test]
fn signs_need_no_space_where_the_bytes_divide() {
    let before = [[BEFORE, 0, 0], [SOME, 0, 0]];
    for text in ["existA.A<A", "exist A.A<A", "exist\nA\n.\nA\n<\nA\n", "(exist A.A<A)"] {
        assert_eq!(nodes(text), before, "{text:?}");
    }
    let overlaps = [[OVERLAPS, 0, 1], [SOME, 1, 0], [SOME, 0, 1]];
    for text in ["exist A,B.A oB", "exist A,B.A o B", "exist A,B.A\noB", "exist A,B.A\n\no \nB"] {
        assert_eq!(nodes(text), overlaps, "{text:?}");
    }
    assert_eq!(nodes("exist A,B.A iB"), [[INCLUDES, 0, 1], [SOME, 1, 0], [SOME, 0, 1]]);
    // A name takes all letters and digits that follow.
    for text in ["exist A,B.AoB", "exist A,B.Ao B", "exist A,B.AiB", "exist A.A o", "exist A,B.Ao\nB"] {
        assert_eq!(refusal(text), 25, "{text:?}");
    }
    assert_eq!(refusal("exist A,AoB.AoB<A"), 0);
    // No space stands inside a sign.
    for text in ["ex ist A.A<A", "exist A.sa me(A,A)", "exist A B.A<A", "exist A.A < < A", "exist A 1.A<A"] {
        assert_eq!(refusal(text), 25, "{text:?}");
    }
    assert_eq!(nodes("existA.same(A,A)"), [[SAME, 0, 0], [SOME, 0, 0]]);
    assert_eq!(nodes(" exist A . same ( A , A ) "), [[SAME, 0, 0], [SOME, 0, 0]]);
}

#[test]
fn texts_outside_the_grammar() {
    for text in [
        "",
        " ",
        "\n\n  \n",
        "()",
        "( )",
        "exist A.()",
        "exist A.A<A\t",
        "exist A.A<A\r\n",
        "exist\tA.A<A",
        "exist A.A<A\0",
        "exist A.A<A;",
        "\u{feff}exist A.A<A",
        // A missing or a further bracket.
        "(exist A.A<A",
        "exist A.A<A)",
        "exist A.(A<A))",
        "((exist A.A<A)",
        ")",
        "(",
        ")exist A.A<A(",
        "exist A.)A<A(",
        "exist A.(A<A)(A<A)",
        // A missing operand or sign.
        "!",
        "exist A.!",
        "exist A.A<A&",
        "exist A.A<A|",
        "exist A.&A<A",
        "exist A.|A<A",
        "exist A.A<A&&A<A",
        "exist A.A<A||A<A",
        "exist A.A<A|&A<A",
        "exist A.A<A !A<A",
        "exist A.A<A A<A",
        "exist A.A<A!&A<A",
        "exist A.A",
        "exist A.A<",
        "exist A.<A",
        "exist A.A>A",
        "exist A.A<A<A",
        "exist A.A=A",
        "exist A.A m A",
        "exist A.A O A",
        "exist A.A<(A)",
        "exist A.(A)<A",
        // After "exist".
        "exist",
        "exist .A<A",
        "exist A",
        "exist A A<A",
        "exist A,.A<A",
        "exist ,A.A<A",
        "exist A,,B.A<B",
        "exist A..A<A",
        "exist A.",
        "exist A.exist",
        "exist A.exist B",
        "exist A.exist B.",
        "exist(A).A<A",
        "exist a.a<a",
        "exist 1.1<1",
        "exist _A._A<_A",
        "exist A_.A_<A_",
        "Exist A.A<A",
        "exists A.A<A",
        "some A.A<A",
        // "same" and labels.
        "exist A.same",
        "exist A.same(A)",
        "exist A.same(A,A",
        "exist A.same(A A)",
        "exist A.same(A,A,A)",
        "exist A.same((A),A)",
        "exist A.same A,A",
        "exist A.Same(A,A)",
        "exist A.A()",
        "exist A.A(TEST)",
        "exist A.A('TEST'",
        "exist A.A'TEST'",
        "exist A.A(\"TEST\")",
        "exist A.A('TEST')'",
        "exist A.A('TE'ST')",
        "exist A.A('TEST' 'TEST')",
        "exist A.('TEST')",
        "exist A.'TEST'",
        // A quote missing.
        "exist A.A('TEST)",
        "exist A.A(TEST')",
        "exist A.A('",
        "'",
        "''",
        // Two rules.
        "exist A.A<A exist A.A<A",
        "(exist A.A<A)exist A.A<A",
        "exist A.A<A\nexist B.B<B",
    ] {
        assert_eq!(refusal(text), 25, "{text:?}");
    }
}

#[test]
fn one_byte_more_at_either_end() {
    for byte in 0..=255 {
        // In front, a "!" is a sign of the rule.
        let front = [&[byte], b"exist A.A<A".as_slice()].concat();
        let expected = if matches!(byte, b' ' | b'\n' | b'!') { 0 } else { 25 };
        assert_eq!(refusal(&front), expected, "{byte}");
        // Behind, a letter or digit makes another name, which is not bound.
        let behind = [b"exist A.A<A".as_slice(), &[byte]].concat();
        let expected = match byte {
            b' ' | b'\n' => 0,
            b'A'..=b'Z' | b'a'..=b'z' | b'0'..=b'9' => 9,
            _ => 25,
        };
        assert_eq!(refusal(&behind), expected, "{byte}");
    }
}

#[test]
fn every_beginning_of_a_rule_in_brackets_is_outside_the_grammar() {
    let text = format!("({P1})");
    assert_eq!(refusal(&text), 0);
    for length in 0..text.len() {
        assert_eq!(refusal(&text[..length]), 25, "{:?}", &text[..length]);
    }
}

#[test]
fn names_of_eight_and_nine_bytes() {
    for (name, expected) in
        [("A", 0), ("Ab345678", 0), ("ABCDEFGH", 0), ("Ab3456789", 25), ("ABCDEFGHI", 25), ("A12345678", 25)]
    {
        assert_eq!(refusal(format!("exist {name} . {name} < {name}")), expected, "{name}");
    }
    // With a relation's letter at its end, and without.
    assert_eq!(refusal("exist ABCDEFGH . ABCDEFGHo ABCDEFGH"), 25);
    assert_eq!(refusal("exist ABCDEFGH . ABCDEFGH oABCDEFGH"), 0);
}

#[test]
fn labels_between_quotes() {
    let has = |label: &str| refusal(format!("exist A . A('{label}')"));
    assert_eq!(has(""), 5);
    assert_eq!(has("A"), 0);
    assert_eq!(has(&"A".repeat(24)), 0);
    assert_eq!(has(&"A".repeat(25)), 5);
    assert_eq!(has(&"A".repeat(300)), 5);
    for label in [
        "te-st", "A B", " A", "A ", "A\nB", "\n", "A\tB", "A-B", "\"", "A(", "(", ")", "!", "exist B . B<B", "Ä", "ä",
    ] {
        assert_eq!(has(label), 5, "{label:?}");
    }
    for label in ["AZ_09", "az_09", "test", "Test", "exist", "o", &"z".repeat(24)] {
        assert_eq!(has(label), 0, "{label:?}");
    }
    assert_eq!(has(&"z".repeat(25)), 5);
    // A byte that is no letter, digit or underscore is a bad label; a quote ends it.
    for byte in 0..=255 {
        let text = [b"exist A . A('".as_slice(), &[byte], b"')"].concat();
        let expected = match byte {
            b'A'..=b'Z' | b'a'..=b'z' | b'0'..=b'9' | b'_' => 0,
            b'\'' => 25,
            _ => 5,
        };
        assert_eq!(refusal(&text), expected, "{byte}");
    }
}

/// "in a typed rule those are one label", and "all rules written out keep the capital form".
#[test]
fn labels_in_either_case_are_one_and_are_written_in_capitals() {
    let expected = file(&["TEST"], &[[HAS_LABEL, 0, 0], [HAS_LABEL, 0, 0], [AND, 0, 1], [SOME, 0, 2]]);
    for (one, other) in [("TEST", "TEST"), ("Test", "TEST"), ("TEST", "test"), ("tEsT", "TeSt")] {
        let text = format!("exist A . A('{one}') & A('{other}')");
        assert_eq!(rule_file(text.as_bytes()), Ok(expected.clone()), "{text}");
    }
    assert_eq!(labels("exist A . A('b') & A('Ab') & A('B') & A('a_1') & A('aB')"), ["B", "AB", "A_1"]);
    // The text of a rule file has capitals, and the file that it is read from keeps its own.
    let nodes = [[HAS_LABEL, 0, 1], [HAS_LABEL, 0, 0], [AND, 0, 1], [SOME, 0, 2]];
    for listed in [["TEST", "A_Z"], ["test", "a_z"], ["Test", "A_z"]] {
        assert_eq!(text(&listed, &nodes), "(exist A.(A('A_Z')&A('TEST')))");
    }
    assert_eq!(rule_text(&file(&["A", "a"], &nodes)), Err(5));
    // P1 in any case.
    for text in [P1.replace("EVENING", "evening"), P1.replace("TEST", "tesT"), P1.replace("EVENING", "EvEnInG")] {
        assert_eq!(rule_file(text.as_bytes()), Ok(P1_FILE.to_vec()), "{text}");
    }
}

/// The words, the relations' letters and the names of a typed rule stay as they are.
#[test]
fn nothing_but_a_label_is_read_in_either_case() {
    for text in ["EXIST A.A<A", "Exist A.A<A", "exist a.a<a", "exist A.SAME(A,A)", "exist A.A O A", "exist A.A I A"] {
        assert_eq!(refusal(text), 25, "{text}");
    }
    assert_eq!(refusal("exist Ab . AB('X')"), 9);
    assert_eq!(nodes("exist Ab, AB . Ab < AB")[0], [BEFORE, 0, 1]);
}

/// "exist A ." and a chain of so many atoms: 2 nodes for each, 1 atom less and 1 "some" more.
fn chain(atoms: usize) -> String {
    format!("exist A . {}", vec!["A<A"; atoms].join("&"))
}

#[test]
fn sixty_four_nodes_are_taken_and_sixty_five_are_not() {
    assert_eq!(nodes(&chain(32)).len(), 64);
    assert_eq!(refusal(format!("!{}", chain(32))), 4);
    assert_eq!(refusal(chain(33)), 4);
    // 62 nots, an atom and a "some".
    assert_eq!(nodes(&format!("{}exist A.A<A", "!".repeat(62))).len(), 64);
    assert_eq!(refusal(format!("{}exist A.A<A", "!".repeat(63))), 4);
    // An or of n atoms has n + 4 (n - 1) nodes: 61 of 13, and 66 of 14.
    let ors = |atoms: usize| format!("exist A.{}", vec!["A<A"; atoms].join("|"));
    assert_eq!(nodes(&ors(13)).len(), 62);
    assert_eq!(nodes(&format!("!!{}", ors(13))).len(), 64);
    assert_eq!(refusal(format!("!!!{}", ors(13))), 4);
    assert_eq!(refusal(ors(14)), 4);
    // Brackets are no nodes.
    let brackets = format!("{}{}{}", "(".repeat(900), chain(32), ")".repeat(900));
    assert_eq!(nodes(&brackets).len(), 64);
}

/// "exist A ." and one "has label" for each of so many labels, and more for the first.
fn with_labels(count: usize, more: usize) -> String {
    let label = |number: usize| format!("A('L{number}')");
    let listed = (0..count).map(label).chain((0..more).map(|_| label(0)));
    format!("exist A . {}", listed.collect::<Vec<String>>().join(" & "))
}

#[test]
fn sixteen_labels_are_taken_and_seventeen_are_not() {
    assert_eq!(labels(&with_labels(16, 0)).len(), 16);
    assert_eq!(labels(&with_labels(16, 16)).len(), 16);
    assert_eq!(refusal(with_labels(17, 0)), 4);
    // Labels with a wrong byte count too, and 4 comes before 5.
    assert_eq!(refusal(with_labels(16, 0).replace("L3'", "l-'")), 5);
    assert_eq!(refusal(with_labels(17, 0).replace("L3'", "l-'")), 4);
    // Small letters make no other label, and no bad one.
    assert_eq!(labels(&with_labels(16, 0).replace("L3'", "l3'")), labels(&with_labels(16, 0)));
    assert_eq!(refusal(with_labels(17, 0).replace("L3'", "l3'")), 4);
    assert_eq!(labels(&with_labels(17, 0).replace("L16'", "l3'")), labels(&with_labels(16, 0)));
    assert_eq!(refusal(with_labels(18, 0).replace("L16'", "l3'")), 4);
    // Two that are bad and differ only in case are one too.
    assert_eq!(refusal(with_labels(17, 0).replace("L16'", "x-'").replace("L3'", "X-'")), 5);
    assert_eq!(refusal(with_labels(17, 0).replace("L", "")), 4);
    assert_eq!(refusal(with_labels(17, 0).replace("L16'", "'")), 4);
}

#[test]
fn four_nested_names_are_taken_and_five_are_not() {
    assert_eq!(
        nodes("exist A,B,C,D . D < A"),
        [[BEFORE, 3, 0], [SOME, 3, 0], [SOME, 2, 1], [SOME, 1, 2], [SOME, 0, 3]]
    );
    for text in [
        "exist A,B,C,D,E . A<A",
        "exist A,A,A,A,A . A<A",
        "exist A . exist B . exist C . exist D . exist E . A<A",
        "exist A,B . A<B & !exist C . C<C & (exist D,E . D<E)",
        "(exist A . A<A) & (exist A,B,C,D,E . A<A)",
    ] {
        assert_eq!(refusal(text), 10, "{text:?}");
    }
    assert_eq!(refusal("(exist A,B,C,D . A<A) & (exist A,B,C,D . A<A)"), 0);
    assert_eq!(refusal("exist A,B . (exist C,D . C<D) & (exist C,D . D<C)"), 0);
    // 70 names are 71 nodes.
    assert_eq!(refusal(format!("exist {} . A<A", vec!["A"; 70].join(","))), 4);
    assert_eq!(refusal(format!("exist {} . A<A", vec!["A"; 63].join(","))), 10);
}

#[test]
fn a_name_outside_every_binding_of_it() {
    for text in [
        "A<A",
        "A('TEST')",
        "same(A,A)",
        "exist A . A<B",
        "exist A . B<A",
        "exist A . same(A,B)",
        "exist A . same(B,A)",
        "exist A . B('TEST')",
        "exist A . A<A & AA<A",
        "A<A & exist A . A<A",
        "(exist A . A<A) | A<A",
        "exist B . (exist A . A<A) & A<B",
        "exist A2 . A1<A2",
    ] {
        assert_eq!(refusal(text), 9, "{text:?}");
    }
}

#[test]
fn texts_of_4096_and_4097_bytes() {
    let padded = |text: &str, length: usize| format!("{text}{}", " ".repeat(length - text.len()));
    assert_eq!(refusal(padded("exist A.A<A", 4096)), 0);
    assert_eq!(refusal(padded("exist A.A<A", 4097)), 25);
    assert_eq!(refusal(padded("exist A.A<A", 100_000)), 25);
    assert_eq!(refusal(padded("A<A", 4096)), 9);
    assert_eq!(refusal(padded("A<A", 4097)), 25);
}

#[test]
fn deep_texts_end_with_their_answer() {
    let deep = |opening: &str, middle: &str, closing: &str| {
        let times = (4096 - middle.len()) / (opening.len() + closing.len());
        let text = [opening.repeat(times), middle.into(), closing.repeat(times)].concat();
        refusal(text)
    };
    assert_eq!(refusal("(".repeat(4096)), 25);
    assert_eq!(refusal("!".repeat(4096)), 25);
    assert_eq!(refusal(")".repeat(4096)), 25);
    assert_eq!(refusal("(!".repeat(2048)), 25);
    assert_eq!(refusal("exist A.".repeat(512)), 25);
    assert_eq!(deep("(", "exist A.A<A", ")"), 0);
    assert_eq!(deep("!", "exist A.A<A", ""), 4);
    assert_eq!(deep("!(", "exist A.A<A", ")"), 4);
    assert_eq!(deep("exist A.", "A<A", ""), 4);
    assert_eq!(deep("exist A.(", "A<A", ")"), 4);
    assert_eq!(deep("exist A.A<A&(", "exist A.A<A", ")"), 4);
    assert_eq!(deep("exist A.A<A|", "A<A", ""), 4);
}

/// A fault of each number, as a part of a rule. Those of 4 are too many nodes and too many labels.
fn faults() -> Vec<(u8, String)> {
    vec![
        (25, "(exist A.AoA)".into()),
        (25, "()".into()),
        (4, format!("({})", chain(33))),
        (4, format!("({})", with_labels(17, 0))),
        (5, "(exist A.A('te-st'))".into()),
        (5, "(exist A.A(''))".into()),
        (9, "(exist A.A<B)".into()),
        (9, "A('TEST')".into()),
        (10, "(exist A,B,C,D,E.A<E)".into()),
    ]
}

#[test]
fn of_two_faults_the_one_that_is_met_first_is_answered() {
    let order = |number: u8| [25, 4, 5, 9, 10].iter().position(|other| *other == number);
    for (first, one) in faults() {
        assert_eq!(refusal(&one), first, "{one}");
        for (second, other) in faults() {
            let earlier = if order(first) <= order(second) { first } else { second };
            for sign in ["&", "|"] {
                let text = [one.as_str(), sign, other.as_str()].concat();
                assert_eq!(refusal(&text), earlier, "{text}");
            }
        }
        // 20 comes before them all.
        let mut short = [7; 598];
        assert_eq!(rule_from_text(one.as_bytes(), &mut short), Err(20));
        assert_eq!(short, [7; 598]);
        let mut rule = [7; 599];
        assert_eq!(rule_from_text(one.as_bytes(), &mut rule), Err(first));
        assert_eq!(rule, [7; 599]);
        // Above 4,096 bytes it is 25, whatever else.
        assert_eq!(refusal(format!("{one}{}", " ".repeat(4096))), 25);
    }
}

#[test]
fn the_reader_leaves_the_bytes_past_the_file() {
    let mut rule = [7; 600];
    assert_eq!(rule_from_text(P1.as_bytes(), &mut rule), Ok(44));
    assert_eq!(rule[..44], *P1_FILE);
    assert_eq!(rule[44..], [7; 556]);
    let mut short = [7; 598];
    assert_eq!(rule_from_text(P1.as_bytes(), &mut short), Err(20));
    assert_eq!(rule_from_text(b"", &mut short), Err(20));
    assert_eq!(short, [7; 598]);
    assert_eq!(rule_from_text(P1.as_bytes(), &mut []), Err(20));
}

/// 16 labels of 24 bytes and 64 nodes fill the longest file.
#[test]
fn the_longest_file_has_599_bytes() {
    let has = |number: usize| format!("A('{:_>24}')", number % 16);
    let text = format!("exist A . {}", (0..32).map(has).collect::<Vec<String>>().join("&"));
    let mut rule = [7; 599];
    assert_eq!(rule_from_text(text.as_bytes(), &mut rule), Ok(599));
    assert_eq!(read_rule(&rule).unwrap().nodes.len(), 64);
}

#[test]
fn the_writer_leaves_the_bytes_past_the_text() {
    let mut text = vec![7; 4100];
    assert_eq!(text_from_rule(P1_FILE, &mut text), Ok(53));
    assert_eq!(text[..53], *b"!(exist A.(exist B.((A('EVENING')&B('TEST'))&A i B)))");
    assert!(text[53..].iter().all(|byte| *byte == 7));
    let mut short = vec![7; 4095];
    assert_eq!(text_from_rule(P1_FILE, &mut short), Err(20));
    assert_eq!(text_from_rule(b"", &mut short), Err(20));
    assert_eq!(text_from_rule(P1_FILE, &mut []), Err(20));
    assert!(short.iter().all(|byte| *byte == 7));
    let mut whole = vec![7; 4096];
    assert_eq!(text_from_rule(P1_FILE, &mut whole), Ok(53));
}

#[test]
fn the_writer_meets_the_refusals_of_the_rule() {
    let five = [[BEFORE, 0, 0], [SOME, 0, 0], [SOME, 1, 1], [SOME, 2, 2], [SOME, 3, 3], [SOME, 0, 4]];
    for (rule, number) in [
        (b"RU".to_vec(), 1),
        (b"RUX".to_vec(), 2),
        (b"RUL\x02\x00".to_vec(), 3),
        (b"RUL\x01\x00\x11".to_vec(), 4),
        (b"RUL\x01\x00\x01\x01a".to_vec(), 1),
        (b"RUL\x01\x00\x01\x01-".to_vec(), 5),
        (b"RUL\x01\x00\x02\x01A\x01a".to_vec(), 5),
        (b"RUL\x01\x00\x00\x01\x09\x00\x00".to_vec(), 6),
        ([P1_FILE, &[0]].concat(), 7),
        (file(&[], &[[BEFORE, 0, 0], [AND, 0, 0], [SOME, 0, 1]]), 8),
        (file(&[], &[[BEFORE, 0, 1], [SOME, 0, 0]]), 9),
        (file(&[], &five), 10),
    ] {
        let mut text = vec![7; 4096];
        assert_eq!(text_from_rule(&rule, &mut text), Err(number));
        assert!(text.iter().all(|byte| *byte == 7));
        assert_eq!(text_from_rule(&rule, &mut text[..4095]), Err(20));
    }
}

#[test]
fn each_kind_of_node_written_out() {
    assert_eq!(text(&[], &[[BEFORE, 0, 0], [SOME, 0, 0]]), "(exist A.A < A)");
    assert_eq!(text(&[], &[[OVERLAPS, 0, 0], [SOME, 0, 0]]), "(exist A.A o A)");
    assert_eq!(text(&[], &[[INCLUDES, 0, 0], [SOME, 0, 0]]), "(exist A.A i A)");
    assert_eq!(text(&[], &[[SAME, 0, 0], [SOME, 0, 0]]), "(exist A.same(A,A))");
    assert_eq!(text(&["A_1", "TEST"], &[[HAS_LABEL, 0, 1], [SOME, 0, 0]]), "(exist A.A('TEST'))");
    assert_eq!(text(&[], &[[BEFORE, 0, 0], [NOT, 0, 0], [SOME, 0, 1]]), "(exist A.!A < A)");
    assert_eq!(text(&[], &[[BEFORE, 0, 0], [NOT, 0, 0], [NOT, 1, 0], [SOME, 0, 2]]), "(exist A.!!A < A)");
    assert_eq!(text(&[], &[[BEFORE, 0, 0], [SOME, 0, 0], [NOT, 1, 0]]), "!(exist A.A < A)");
    let and = [[BEFORE, 0, 0], [OVERLAPS, 0, 0], [AND, 0, 1], [NOT, 2, 0], [SOME, 0, 3]];
    assert_eq!(text(&[], &and), "(exist A.!(A < A&A o A))");
    // The order of the nodes does not show, that of the fields does.
    let turned = [[OVERLAPS, 0, 0], [BEFORE, 0, 0], [AND, 1, 0], [NOT, 2, 0], [SOME, 0, 3]];
    assert_eq!(text(&[], &turned), "(exist A.!(A < A&A o A))");
}

#[test]
fn names_are_written_by_level() {
    // Variables 3 and 1, outermost first, are A and B.
    assert_eq!(text(&[], &[[BEFORE, 3, 1], [SOME, 1, 0], [SOME, 3, 1]]), "(exist A.(exist B.A < B))");
    let four = [[BEFORE, 0, 1], [INCLUDES, 2, 3], [AND, 0, 1], [SOME, 0, 2], [SOME, 1, 3], [SOME, 2, 4], [SOME, 3, 5]];
    assert_eq!(text(&[], &four), "(exist A.(exist B.(exist C.(exist D.(D < C&B i A)))))");
    // A variable bound again: the innermost "some" names the use, and after it the outer one.
    let again = [[BEFORE, 2, 2], [SOME, 2, 0], [OVERLAPS, 2, 2], [AND, 1, 2], [SOME, 2, 3]];
    assert_eq!(text(&[], &again), "(exist A.((exist B.B < B)&A o A))");
    let between = [[BEFORE, 0, 1], [SOME, 0, 0], [SOME, 1, 1], [SOME, 0, 2]];
    assert_eq!(text(&[], &between), "(exist A.(exist B.(exist C.C < B)))");
    // Side by side they have the same level.
    let beside = [[BEFORE, 0, 0], [SOME, 0, 0], [SAME, 3, 3], [SOME, 3, 2], [AND, 1, 3]];
    assert_eq!(text(&[], &beside), "((exist A.A < A)&(exist A.same(A,A)))");
}

#[test]
fn an_or_is_written_as_it_became() {
    let file = rule_file(b"exist A . A<A | A o A").unwrap();
    assert_eq!(rule_text(&file), Ok(b"(exist A.!(!A < A&!A o A))".to_vec()));
}

/// 31 ands of 3 bytes, 32 "has label" of 29 and one "some" of 10.
#[test]
fn the_longest_text_has_1031_bytes() {
    let has = |number: usize| format!("A('{:_>24}')", number % 16);
    let typed = format!("exist A . {}", (0..32).map(has).collect::<Vec<String>>().join("&"));
    let written = rule_text(&rule_file(typed.as_bytes()).unwrap()).unwrap();
    assert_eq!(written.len(), 31 * 3 + 32 * 29 + 10);
    assert_eq!(written.len(), 1031);
}

#[test]
fn figure_1_written_and_read_again() {
    for typed in FIGURE_1 {
        let file = rule_file(typed.as_bytes()).unwrap();
        let text = rule_text(&file).unwrap();
        assert_eq!(rule_file(&text), Ok(file), "{typed}");
    }
    let second = rule_file(FIGURE_1[1].as_bytes()).unwrap();
    let text = "!(exist A.(exist B.((!(!A('DL_MOBPRM')&!A('DL_ARMPRM'))&B('DL_FAIL'))&A i B)))";
    assert_eq!(String::from_utf8(rule_text(&second).unwrap()).unwrap(), text);
}
