//! What the program prints.

use super::*;
use crate::file::read_text;
use crate::report::report;

const NAMELESS: Names = Names(&[]);

/// The line on the only rule of a stuck game.
fn only_line(table: &[i64], configuration: &[i64]) -> String {
    let text = report(table, configuration, NAMELESS).expect("a good game");
    let lines: Vec<&str> = text.lines().collect();
    let [_, _, line] = lines[..] else {
        panic!("one rule: {text}");
    };
    line.to_string()
}

/// What is wrong with a file of this text.
fn fault(text: &str) -> String {
    match read_text("game.txt", text) {
        Ok(game) => panic!("{:?}", game.table),
        Err(text) => text,
    }
}

#[test]
fn the_game_of_its_own() {
    let expected = "\
stuck at cabinet[spin[0], line[7, 7, 3], {1: 520, 2: 2500}]: of 7 rules none applies
(rules, conditions and the nodes of a left are counted from 0, a node before its children; X0 is variable 0, s3 symbol 3)
rule 0, action 10: the left differs at node 0: the rule has spin (symbol 1, 1 child), the configuration has cabinet (symbol 3, 3 children)
rule 1, action 10: condition 0 fails: z.lt(0, X0) (which is false) is not true; X0 is 0
rule 2, action 20: the left differs at node 1: the rule has bonus (symbol 2, 1 child), the configuration has spin (symbol 1, 1 child)
rule 3, action 30: the left differs at node 5: X1 was 7 at node 3, the configuration has 3
rule 4, action 40: the left differs at node 3: the rule has a dictionary of 0 entries, the configuration has a dictionary of 2 entries
rule 5, action 50: condition 1 fails: z.le(1000, map.lookup(X2, 1)) (which is false) is not true; X2 is {1: 520, 2: 2500}
rule 6, action 60: the left differs at node 5: the rule has 7, the configuration has 3
";
    assert_eq!(answer(&[]).as_deref(), Ok(expected));
}

#[test]
fn games_that_are_not_stuck_or_have_no_rules() {
    let sample = concat!(env!("CARGO_MANIFEST_DIR"), "/../../examples/spin.txt");
    let expected = "not stuck: a step takes rule 0, action 10\n";
    assert_eq!(answer(&[sample.into()]).as_deref(), Ok(expected));
    let text = report(&[0], &[2, -5], NAMELESS);
    let expected = "stuck at -5: the table has no rules\n".to_string();
    assert_eq!(text, Ok(expected));
}

#[test]
fn help_names_each_use() {
    for flag in ["--help", "-h"] {
        let text = answer(&[flag.into()]).expect("help");
        assert_eq!(text, HELP);
    }
    assert!(HELP.contains("reasons FILE") && HELP.contains("--example reasons -- ../examples/"));
}

#[test]
fn nodes_of_each_kind() {
    let differs = |left: &[i64], configuration: &[i64]| {
        let table = [&[1, 7, 0], left, &[2, 0]].concat();
        only_line(&table, configuration)
    };
    let at_0 = "rule 0, action 7: the left differs at node 0: ";
    for (left, configuration, what) in [
        (&[8, 3][..], &[2, 5][..], "symbol 3 with 0 children|5"),
        (&[1, 1], &[0, 0], "true|error"),
        (&[0, 0], &[1, 0], "error|false"),
        (
            &[5, 1, 2, 1, 2, 1],
            &[9, 1, 2, 1],
            "a dictionary of 1 entry|symbol 1 with 1 child",
        ),
        (&[2, -1], &[2, 1], "-1|1"),
    ] {
        let (rule, other) = what.split_once('|').expect("both");
        let expected = format!("{at_0}the rule has {rule}, the configuration has {other}");
        assert_eq!(differs(left, configuration), expected);
    }
    // f[g[X], X]: whole terms at a variable's later place.
    assert_eq!(
        differs(&[10, 1, 9, 2, 3, 4, 3, 4], &[10, 1, 9, 2, 8, 5, 9, 6, 1, 1]),
        "rule 0, action 7: the left differs at node 3: X4 was s5[] at node 2, the configuration has s6[true]"
    );
}

#[test]
fn both_sides_of_a_condition() {
    // pair[X0, X1] with one condition, and 3 and 4 in the pair.
    let fails = |sides: &[i64]| {
        let table = [&[1, 7, 1, 10, 4, 3, 0, 3, 1, 2, 0], sides].concat();
        let line = only_line(&table, &[10, 4, 2, 3, 2, 4]);
        line.replace("rule 0, action 7: condition 0 fails: ", "")
    };
    assert_eq!(
        fails(&[3, 0, 3, 1]),
        "X0 (which is 3) is not X1 (which is 4)"
    );
    assert_eq!(fails(&[1, 1, 0, 0]), "true is not error");
    assert_eq!(
        fails(&[4, 8, 3, 0, 2, 1, 4, 8, 3, 1, 3, 0]),
        "z.plus(X0, 1) (which is 4) is not z.plus(X1, X0) (which is 7); X0 is 3, X1 is 4"
    );
    assert_eq!(
        fails(&[4, 15, 4, 16, 4, 15, 3, 1]),
        "map.empty() (which is {}) is not map.lookup(map.empty(), X1) (which is error); X1 is 4"
    );
}

#[test]
fn large_terms_are_cut() {
    let chain = [[9, 6].repeat(32_767), vec![8, 6]].concat();
    let text = report(&[0], &chain, NAMELESS).expect("a good game");
    let shown = format!("{}..{}", "s6[".repeat(40), "]".repeat(40));
    assert_eq!(text, format!("stuck at {shown}: the table has no rules\n"));
    let entries = (0..64).flat_map(|key| [2, key, 1, 1]);
    let map: Vec<i64> = [5, 64].into_iter().chain(entries).collect();
    let text = report(&[0], &map, NAMELESS).expect("a good game");
    assert!(text.contains("stuck at {0: true, 1: true, "));
    assert!(text.contains("18: true, 19: ..}: the table"), "{text}");
}

#[test]
fn faults_of_a_file() {
    let good = "1,0,0,3,0,3,0\n2,5\nanything\n";
    let game = read_text("game.txt", good).expect("a good file");
    assert_eq!((game.table.len(), game.configuration), (7, vec![2, 5]));
    assert_eq!(
        fault("1,0\n"),
        "game.txt, line 2: empty; write the configuration there, as numbers with commas between them"
    );
    assert!(fault("").starts_with("game.txt, line 1: empty; write the table there"));
    for (number, text) in [
        (1, "x"),
        (2, "0,+1"),
        (3, "0,1,01"),
        (1, "-0"),
        (2, "0, 1"),
        (2, "0,"),
        (1, "9223372036854775808"),
        (1, "1\r"),
    ] {
        let said = fault(&format!("{text}\n2,5\n"));
        let place = format!("game.txt, line 1, number {number}: ");
        assert!(
            said.starts_with(&place) && said.contains("is no word; write"),
            "{said}"
        );
    }
    assert!(fault("0\n2,x\n").starts_with("game.txt, line 2, number 2: \"x\" is no word"));
}

#[test]
fn what_cannot_be_answered() {
    let missing = answer(&["no such file".into()]).expect_err("no file");
    assert!(missing.starts_with("no such file: ") && missing.contains("; give a file"));
    let two = answer(&["one".into(), "two".into()]).expect_err("two files");
    assert_eq!(
        two,
        "give no argument, or one file: reasons [FILE] (--help says more)"
    );
    let refused = |table: &[i64], configuration: &[i64]| {
        let refusal = report(table, configuration, NAMELESS).expect_err("refused");
        refusal.number()
    };
    assert_eq!(refused(&[1], &[]), 1);
    assert_eq!(refused(&[0], &[9, 1]), 2);
}
