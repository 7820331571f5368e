//! The command line text: P8 to P12, each refusal, and malformed inputs.

use interpreter::cli_answer;

const TABLE: &str = "3,10,1,9,1,3,0,9,1,4,9,3,0,2,1,4,12,2,0,3,0,1,1,10,0,9,1,3,0,10,2,3,0,9,1,3,0,20,0,10,2,3,0,3,1,3,1";
const INITIAL: &str = "9,1,2,2";

fn input(table: &str, configuration: &str, log: &str, limit: &str) -> String {
    format!("{table}\n{configuration}\n{log}\n{limit}\n")
}

fn assert_answer(input: &str, answer: &str) {
    let bytes = cli_answer(input.as_bytes());
    assert_eq!(String::from_utf8_lossy(&bytes), answer, "input: {input}");
}

fn assert_sample(log: &str, limit: &str, answer: &str) {
    assert_answer(&input(TABLE, INITIAL, log, limit), answer);
}

fn assert_unreadable(text: &str) {
    assert_answer(text, "refused,7\n");
}

#[test]
fn p8_the_whole_case() {
    assert_sample("10,20", "4", "reproduced,2,1,2\n9,1,2,2\n");
}

#[test]
fn p9_limit_3() {
    assert_sample("10,20", "3", "refused,6\n");
}

#[test]
fn p10_log_20() {
    assert_sample("20", "4", "not reproduced\n");
}

#[test]
fn p11_empty_log() {
    assert_sample("", "4", "reproduced,0\n9,1,2,2\n");
}

#[test]
fn p12_three_actions() {
    assert_sample("10,10,20", "4", "reproduced,3,0,1,2\n9,1,2,1\n");
}

#[test]
fn refusals_1_to_5() {
    assert_answer(&input("1", INITIAL, "10", "4"), "refused,1\n");
    assert_answer(&input(TABLE, "9,1", "10", "4"), "refused,2\n");
    assert_answer(&input("1", "9,1", "10", "4"), "refused,1\n");
    assert_sample("10", "0", "refused,4\n");
    assert_sample("10", "1", "refused,4\n");
    assert_sample("10", "32769", "refused,4\n");
    assert_sample("10", "18446744073709551615", "refused,4\n");
    // Twice the limit is above 1,024 words of out.
    assert_sample("", "513", "refused,5\n");
    assert_sample("", "512", "reproduced,0\n9,1,2,2\n");
    // Four frames of 1,024 words each are the whole work area.
    assert_sample("10,10,20", "511", "reproduced,3,0,1,2\n9,1,2,1\n");
    assert_sample("10,10,10,20", "511", "refused,5\n");
}

#[test]
fn a_log_of_256_actions() {
    // X to X, action 65,535
    let table = "1,65535,0,3,0,3,0";
    let log = vec!["65535"; 256].join(",");
    let zeros = ",0".repeat(256);
    let answer = format!("reproduced,256{zeros}\n2,-5\n");
    // 257 frames of 4 words, and of 14.
    assert_answer(&input(table, "2,-5", &log, "1"), &answer);
    assert_answer(&input(table, "2,-5", &log, "6"), &answer);
    assert_answer(&input(table, "2,-5", &log, "7"), "refused,5\n");
    assert_unreadable(&input(table, "2,-5", &(log + ",65535"), "1"));
}

#[test]
fn words_of_all_sizes() {
    // X to X
    let table = "1,0,0,3,0,3,0";
    for word in ["0", "-1", "9223372036854775807", "-9223372036854775808"] {
        let configuration = format!("2,{word}");
        let answer = format!("reproduced,1,0\n{configuration}\n");
        assert_answer(&input(table, &configuration, "0", "1"), &answer);
    }
}

#[test]
fn numbers_too_large_by_one() {
    assert_unreadable(&input(TABLE, "2,9223372036854775808", "10", "4"));
    assert_unreadable(&input(TABLE, "2,-9223372036854775809", "10", "4"));
    assert_unreadable(&input("9223372036854775808", INITIAL, "10", "4"));
    assert_answer(
        &input("9223372036854775807", INITIAL, "10", "4"),
        "refused,1\n",
    );
    assert_sample("65535", "4", "not reproduced\n");
    assert_unreadable(&input(TABLE, INITIAL, "65536", "4"));
    assert_unreadable(&input(TABLE, INITIAL, "-1", "4"));
    assert_unreadable(&input(TABLE, INITIAL, "10", "18446744073709551616"));
    assert_unreadable(&input(TABLE, INITIAL, "10", "-4"));
    let long = "9".repeat(400);
    assert_unreadable(&input(TABLE, INITIAL, "10", &long));
    assert_unreadable(&input(TABLE, &format!("2,{long}"), "10", "4"));
}

#[test]
fn malformed_numbers() {
    let malformed = [
        "-0", "01", "+1", "00", "-01", "-", "--1", "1-", " 1", "1 ", "1.0", "0x1", "\"1\"", "a",
        "1,", ",1", "1,,1", ",", "\t1", "1e3", "\u{b2}", "\u{0}", "1\u{0}", "1_0",
    ];
    for number in malformed {
        assert_unreadable(&input(number, INITIAL, "10", "4"));
        assert_unreadable(&input(TABLE, number, "10", "4"));
        assert_unreadable(&input(TABLE, INITIAL, number, "4"));
        assert_unreadable(&input(TABLE, INITIAL, "10", number));
    }
    assert_unreadable(&input(TABLE, INITIAL, "10", "4,4"));
}

#[test]
fn malformed_lines() {
    let whole = input(TABLE, INITIAL, "10,20", "4");
    assert_unreadable("");
    assert_unreadable("\n");
    assert_unreadable("\n\n\n\n");
    // Each part of the input but the whole.
    for end in 0..whole.len() {
        assert_unreadable(&whole[..end]);
    }
    for behind in ["\n", "5\n", "x", " ", "\r\n"] {
        assert_unreadable(&format!("{whole}{behind}"));
    }
    assert_unreadable(&whole.replace('\n', "\r\n"));
    assert_unreadable(&whole.replace('\n', "\r"));
    assert_unreadable(&format!("\n{whole}"));
    assert_unreadable(&input("", INITIAL, "10", "4"));
    assert_unreadable(&input(TABLE, "", "10", "4"));
    assert_unreadable(&input(TABLE, INITIAL, "10", ""));
    assert_unreadable(&format!("{TABLE}\n{INITIAL}\n4\n"));
}

#[test]
fn bytes_that_are_no_text() {
    let mut bytes = input(TABLE, INITIAL, "10", "4").into_bytes();
    bytes[0] = 0xff;
    assert_eq!(cli_answer(&bytes), b"refused,7\n");
}

/// A line of so many numbers and so many bytes: the first numbers are as long as it takes.
fn line(numbers: usize, bytes: usize) -> String {
    let mut missing = bytes - (2 * numbers - 1);
    let mut line = Vec::new();
    for _ in 0..numbers {
        let more = missing.min(17);
        missing -= more;
        line.push("1".repeat(1 + more));
    }
    let line = line.join(",");
    assert_eq!(line.len(), bytes);
    line
}

#[test]
fn lines_too_long() {
    // What can be read is refused by the replay, what can't is 7.
    let table = |numbers, bytes| input(&line(numbers, bytes), INITIAL, "10", "4");
    assert_answer(&table(2_048, 16_384), "refused,1\n");
    assert_unreadable(&table(2_048, 16_385));
    assert_answer(&table(2_048, 4_095), "refused,1\n");
    assert_unreadable(&table(2_049, 4_097));
    let configuration = |numbers, bytes| input(TABLE, &line(numbers, bytes), "10", "4");
    assert_answer(&configuration(1_024, 16_384), "refused,2\n");
    assert_unreadable(&configuration(1_024, 16_385));
    assert_unreadable(&configuration(1_025, 2_049));
}

#[test]
fn a_configuration_of_512_nodes() {
    let chain = "9,0,".repeat(511) + "2,0";
    assert_answer(
        &input(TABLE, &chain, "", "512"),
        &format!("reproduced,0\n{chain}\n"),
    );
    assert_answer(&input(TABLE, &chain, "", "511"), "refused,4\n");
}

/// The example of a cabinet with meters in a dictionary, within another limit.
fn progressive(limit: u64) -> String {
    let example = include_str!("../../../examples/progressive.txt");
    let lines: Vec<&str> = example.lines().collect();
    input(lines[0], lines[1], lines[2], &limit.to_string())
}

#[test]
fn meters_in_a_dictionary() {
    let answer = "reproduced,6,0,2,1,3,0,4\n\
                  10,20,2,75,5,3,2,1,2,520,2,2,2,2500,2,9,5,1,2,1,2,0\n";
    assert_answer(&progressive(16), answer);
    // The last configuration has 11 nodes, the first 7.
    assert_answer(&progressive(11), answer);
    assert_answer(&progressive(10), "refused,6\n");
    assert_answer(&progressive(7), "refused,6\n");
    assert_answer(&progressive(6), "refused,4\n");
    // The jackpot of meter 2 first: nothing has fed it.
    let early = progressive(16).replace("\n1,2,1,3,1,4\n", "\n3\n");
    assert_answer(&early, "not reproduced\n");
    // The keys of the meters fall.
    let falling = progressive(16).replace("5,2,2,1,2,980,2,2,", "5,2,2,2,2,980,2,1,");
    assert_answer(&falling, "refused,2\n");
}
