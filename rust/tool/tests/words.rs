//! What is said of routines in text and of refused programs: errors with their spot, refusals with their reason.

use tca_tool::bytes::{kind, program_file, Part, Row, TypeRow};
use tca_tool::check::check;
use tca_tool::show::{show, sort_of, Sort};
use tca_tool::text::read_program;

/// The error of a text that cannot be read.
fn error(text: &str) -> String {
    read_program(text).expect_err(text).to_string()
}

#[test]
fn errors_have_line_and_column() {
    for (text, said) in [
        ("", "line 1, column 1: `type`, `tool`, `name` or `term` is awaited here (here is the text's end)"),
        ("term\n", "line 1, column 5: a row is awaited here"),
        ("term\n  if true\n     str 7\n", "line 3, column 11: a row is awaited here (here is the text's end)"),
        ("term str 7 str 8", "line 1, column 12: the routine is whole before this"),
        ("term\nstr x", "line 2, column 5: a number, 0 to 4294967295, is awaited here (here is `x`)"),
        ("term str 4294967296", "line 1, column 10: a number, 0 to 4294967295"),
        ("term nil", "line 1, column 6: an empty list needs its type"),
        ("term foreign 7", "line 1, column 6: a foreign function needs its type"),
        ("term foreign 0 : Str", "line 1, column 14: a tool's number, 1 to 65535"),
        ("term native str 1", "line 1, column 6: a native function needs its arguments"),
        ("term x", "line 1, column 6: no let or native function around binds this name"),
        ("term apply 0 str 1", "line 1, column 6: what is applied is no function: it has type Str"),
        ("term project 3 {true, str 1}", "line 1, column 6: there is no place 3 in {Bool, Str}"),
        ("term list-project 1 str 1", "line 1, column 6: list-project needs a list of tuples"),
        ("term fix str 1", "line 1, column 6: fix needs a native function"),
        ("term zip 1 str 1", "line 1, column 6: zip needs a function"),
        ("term zip 9 str 1", "line 1, column 10: an argument's place, 1 to 8"),
        ("term let x : Str = true x", "line 1, column 12: `=` is awaited here; a bound name has its term's type"),
        ("type A = B", "line 1, column 10: no type is called B"),
        ("type A = Str type A = Bool", "line 1, column 19: the type A is declared twice"),
        (
            "type A = {Str, Str, Str, Str, Str, Str, Str, Str, Str}",
            "line 1, column 51: a function or tuple has at most 8",
        ),
        ("type A = {}", "line 1, column 11: a type is awaited here"),
        ("tool t = 1 term let t = true t", "line 1, column 21: t is a tool"),
        ("term str 1 : Nat", "line 1, column 14: no type is called Nat"),
        ("term §", "line 1, column 6: `§` is no part of a routine in text"),
        ("term then", "line 1, column 6: a row is awaited here (here is `then`)"),
    ] {
        assert!(error(text).starts_with(said), "{text:?}\n  says {}\n  not  {said}", error(text));
    }
    assert!(error(&format!("term {}", "isnil ".repeat(2_000))).contains("there are over 1024 rows"));
    assert!(error(&format!("type A = {} Str", "List ".repeat(2_000))).contains("there are over 256 types"));
}

/// The bytes of a text, whatever the library says of them.
fn bytes(text: &str) -> Vec<u8> {
    read_program(text).unwrap_or_else(|error| panic!("{text}: {error}")).file()
}

#[test]
fn left_out_types_are_filled_in() {
    for text in [
        "term let x = true let x = false x",
        "tool locate = 900 : foreign() -> Str term let p = locate() {p, p}",
        "term apply 2 zip 1,2 native(a: Bool, b: Bool) if a then b else false [true, false] [true, true]",
        "term apply 0 fix native(f: native() -> Str) f()",
        "term list-project 2 [{str 1, file 2}, {str 3, file 4}]",
        "term isnil cons str 1 nil",
        "term project 1 {native(x: Str) -> Str x, nil : List File}",
        "name x = 9 term native(x: Str, n1: Bool, y: File) {n9, x, y, n1}",
    ] {
        let file = bytes(text);
        let (lines, accepted) = check("text", &file);
        assert!(accepted, "{text}\n{}", lines.join("\n"));
        let shown = show(&file, None, None, &[]).lines.join("\n");
        assert!(bytes(&shown) == file, "{shown}");
    }
    // The worked example of document 01 comes out byte for byte.
    let first = bytes("type A = Str type B = Bool term if true str 7 str 8");
    assert_eq!(first.len(), 114);
    assert_eq!(
        first[82..],
        [10, 0, 0, 0, 0, 0, 0, 0, 3, 0, 1, 0, 0, 0, 0, 0, 1, 0, 0, 0, 7, 0, 0, 0, 1, 0, 0, 0, 8, 0, 0, 0]
    );
    // Words get the least numbers that the text does not use itself.
    assert!(bytes("term let a = true let n1 = a let b = n1 b").windows(8).any(|row| row == [5, 0, 0, 0, 3, 0, 0, 0]));
}

/// What `check` says of rows over the types of a text.
fn checked(text: &str) -> String {
    check("file", &bytes(text)).0.join("\n")
}

#[test]
fn a_row_that_fails_typing_has_its_rule_and_its_types() {
    let functions = "type S = Str type B = Bool type L = List Str type P = {Str, Bool} type N = native(n1: Str) -> Str \
                     type F = foreign() -> Str type Z = native(n1: L) -> L type M = native(n2: N, n1: Str) -> Str term ";
    for (text, at, found, wanted) in [
        ("str 1 : Bool", "the row itself", "Bool, type 1", "Str, type 0"),
        ("file 1 : Bool", "the row itself", "Bool, type 1", "File"),
        ("true : Str", "the row itself", "Str, type 0", "Bool, type 1"),
        ("n4 : Str", "name n4", "no binder", "a let or native function around it that binds the name"),
        ("let n4 = : Str true n4 : Str", "name n4, bound at row 0", "Str, type 0", "Bool, type 1"),
        ("native : F str 1", "the row itself", "foreign() -> Str, type 5", "a native function type"),
        ("native : N true", "row 1, its body", "Bool, type 1", "Str, type 0"),
        ("foreign 1 : N", "the row itself", "native(n1: Str) -> Str, type 4", "a foreign function type"),
        ("apply 0 : Str str 1", "row 1, its function", "Str, type 0", "a function type"),
        ("apply 1 : Str native : N n1 : Str true", "row 3, its argument 1", "Bool, type 1", "Str, type 0"),
        (
            "apply 1 : Str foreign 1 : F true",
            "the row itself, its n",
            "1 argument",
            "0 arguments, by foreign() -> Str, type 5",
        ),
        ("apply 0 : Bool foreign 1 : F", "the row itself", "Bool, type 1", "Str, type 0"),
        ("if : Str str 1 str 2 str 3", "row 1, its condition", "Str, type 0", "Bool, type 1"),
        ("if : Str true true str 3", "row 2, its then", "Bool, type 1", "Str, type 0"),
        ("if : Str true str 2 true", "row 3, its else", "Bool, type 1", "Str, type 0"),
        ("fix : N foreign 1 : F", "row 1, its child", "a row foreign 1", "a row native: fix takes a written function"),
        (
            "fix : N native : N str 1",
            "row 1, its child, the type of its first argument",
            "Str, type 0",
            "native() -> Str, which",
        ),
        (
            "fix : Z native : M str 1",
            "the row itself",
            "t6 = native(n1: List Str) -> List Str",
            "native(n1: Str) -> Str, type 4",
        ),
        ("nil : Str", "the row itself", "Str, type 0", "a list type"),
        ("cons : L true nil : L", "row 1, its head", "Bool, type 1", "Str, type 0"),
        ("cons : L str 1 str 2", "row 2, its tail", "Str, type 0", "List Str, type 2"),
        ("isnil : Str nil : L", "the row itself", "Str, type 0", "Bool, type 1"),
        ("isnil str 1", "row 1, its child", "Str, type 0", "a list type"),
        ("zip 2 : N native : N str 1", "the row itself, its mask", "zip 2", "arguments 1 to 1 only, by row 1"),
        (
            "zip 1 : N native : N str 1",
            "the row itself",
            "native(n1: Str) -> Str, type 4",
            "t6 = native(n1: List Str) -> List Str",
        ),
        ("tuple 2 : P true true", "row 1, its element 1", "Bool, type 1", "Str, type 0"),
        ("tuple 1 : P str 1", "the row itself, its n", "1 elements", "2 elements, by {Str, Bool}, type 3"),
        (
            "project 3 : Str {str 1, true}",
            "the row itself, its place",
            "place 3",
            "a place 1 to 2, by {Str, Bool}, type 3",
        ),
        ("project 1 : Bool {str 1, true}", "the row itself", "Bool, type 1", "Str, type 0"),
        ("project 1 : Str str 1", "row 1, its child", "Str, type 0", "a tuple type"),
        ("list-project 1 : L nil : L", "row 1, its child: the elements of its list", "Str, type 0", "a tuple type"),
        ("let n1 = : Bool true str 1", "the row itself", "Bool, type 1", "Str, type 0"),
    ] {
        let said = checked(&format!("{functions}{text}"));
        assert!(said.contains("(refusal 9)"), "{said}");
        for words in [
            format!("  at      {at}\n"),
            format!("  found   {found}"),
            format!("  wanted  {wanted}"),
            ">> ".to_string(),
        ] {
            assert!(said.contains(&words), "{text}: {words}\n{said}");
        }
    }
}

/// What `check` says of types and rows given as numbers.
fn of_rows(types: &[TypeRow], rows: &[Row]) -> String {
    check("file", &program_file(types, rows)).0.join("\n")
}

fn row(kind: u8, n: u8, ty: u16, word: u32) -> Row {
    Row { kind, n, ty, word }
}

#[test]
fn a_malformed_row_has_its_fault() {
    let types = [TypeRow::new(1, 0, &[]), TypeRow::new(3, 0, &[])];
    let truth = row(kind::TRUE, 0, 1, 0);
    for (rows, place, why) in [
        (vec![row(20, 0, 0, 0)], 0, "kind 20 is unknown; kinds are 1 to 19"),
        (vec![row(kind::ISNIL, 1, 1, 0), truth], 0, "field n is 1; it must be 0, being unused in this kind"),
        (vec![row(kind::TUPLE, 9, 1, 0), truth], 0, "field n is 9; it must be 1 to 8"),
        (vec![row(kind::ZIP, 0, 1, 0), truth], 0, "field n is 0; it must be a mask of 1 to 255"),
        (vec![row(kind::TRUE, 0, 1, 5)], 0, "field word is 5; it must be 0, being unused in this kind"),
        (vec![row(kind::LET, 0, 1, 65_536), truth, truth], 0, "field word is 65536; it must be a name, 1 to 65,535"),
        (vec![row(kind::TRUE, 0, 2, 0)], 0, "it states type 2; the table has 2 types, counted from 0"),
        (vec![truth, truth], 1, "it stands behind the tree's end: the rows before it are a whole routine"),
        (
            vec![row(kind::IF, 0, 1, 0), truth],
            2,
            "the tree is unfinished: 2 rows or trees are missing behind the last row",
        ),
    ] {
        let said = of_rows(&types, &rows);
        assert!(said.contains(&format!("row {place}: ")) && said.contains("(refusal 7)"), "{said}");
        assert!(said.contains(&format!("  why     {why}\n")), "{why}\n{said}");
        assert!(said.contains(&format!(">> {place:4} | ")), "{said}");
    }
    let said = of_rows(&types, &[row(kind::FUTURE, 0, 0, 3)]);
    assert!(said.contains("(refusal 8)") && said.contains("this row stands for call 3"), "{said}");
}

#[test]
fn a_bad_type_has_its_field() {
    let plain = TypeRow::new(1, 0, &[]);
    let part = |name, ty| Part { name, ty };
    let function = TypeRow::new(6, 0, &[]);
    for (bad, why) in [
        (TypeRow { form: 8, ..plain }, "form 8 is unknown; forms are 1 to 7"),
        (TypeRow { n: 1, ..plain }, "field n is 1; it must be 0, being unused in this form"),
        (TypeRow::new(5, 0, &[]), "field n is 0; it must be 1 to 8"),
        (TypeRow { result: 1, ..plain }, "field result is 1; it must be 0, being unused in this form"),
        (TypeRow::new(4, 2, &[]), "field result is type 2; it must be a type before this one"),
        (TypeRow::new(5, 0, &[part(0, 2)]), "pair 1 is of type 2; it must be a type before this one"),
        (TypeRow::new(5, 0, &[part(3, 0)]), "pair 1 has name 3; a tuple's elements have no names, so it must be 0"),
        (TypeRow::new(6, 0, &[part(0, 0)]), "pair 1 has name 0; an argument's name is 1 to 65,535"),
        (
            TypeRow::new(6, 0, &[part(3, 0), part(3, 0)]),
            "pair 2 has name 3, as an argument before it; names must differ",
        ),
        (
            TypeRow { n: 0, ..TypeRow::new(6, 0, &[part(3, 0)]) },
            "pair 1 is name 3, type 0; it must be zero, being unused",
        ),
        (
            TypeRow::new(7, 1, &[]),
            "its result is type 1, which is not ground; a foreign function takes and gives ground types only",
        ),
        (TypeRow::new(7, 0, &[part(1, 1)]), "its argument 1 is type 1, which is not ground; a foreign function takes"),
        (plain, "it equals type 0; no type may stand twice"),
    ] {
        let said = of_rows(&[plain, function, bad], &[row(kind::STR, 0, 0, 1)]);
        assert!(said.contains("type row 2: ") && said.contains("(refusal 6)"), "{said}");
        assert!(said.contains(&format!("  why     {why}")), "{why}\n{said}");
        assert!(said.contains(">> type t2 = "), "{said}");
    }
}

#[test]
fn damaged_marks_and_counts_do_not_hide_the_rest() {
    let text = "tool locate = 900 : foreign() -> Str term let p = locate() {p, p}";
    let whole = bytes(text);
    let count_of = |shown: &[String]| shown.iter().filter(|line| line.contains(" | ")).count();
    // Any byte of the mark, either count.
    for (at, value) in [(0, b'X'), (1, 0), (2, 7), (3, 2), (5, 1), (6, 200), (7, 9), (8, 0), (8, 99), (9, 200)] {
        let mut file = whole.clone();
        file[at] = value;
        let shown = show(&file, None, None, &[]);
        assert!(shown.damaged);
        assert_eq!(count_of(&shown.lines), 6, "byte {at}\n{}", shown.lines.join("\n"));
    }
    let record = library::load(&whole).unwrap().as_bytes().to_vec();
    for (at, value) in [(0, 0), (2, 7), (3, 2), (10, 70), (12, 0), (16, 9)] {
        let mut record = record.clone();
        record[at] = value;
        assert_eq!(sort_of(&record).0, Sort::Record);
        let shown = show(&record, None, None, &[]);
        assert!(
            shown.damaged && shown.lines[..4].iter().any(|line| line.starts_with("# why ")),
            "{}",
            shown.lines.join("\n")
        );
        assert_eq!(count_of(&shown.lines), 6, "byte {at}\n{}", shown.lines.join("\n"));
    }
    // A count of 2,048 rows where there are 6: six lines, and one for the rest.
    let mut many = record.clone();
    (many[8], many[9]) = (0, 8);
    let shown = show(&many, None, None, &[]).lines.join("\n");
    assert!(shown.lines().count() < 20 && shown.contains("# rows 7 to 2047 cannot be read: kind 0"), "{shown}");
}
