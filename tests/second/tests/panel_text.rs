//! The panel text of document 01, against literal bytes.

use second::panel;

/// What follows the G line.
fn plays(input: &str, expected: &str) {
    let output = panel(input.as_bytes());
    let whole = format!("G\t9366\n{expected}");
    assert_eq!(String::from_utf8_lossy(&output), whole, "{input:?}");
}

/// Each of them alone is one malformed line, with or without its line feed.
fn malformed(lines: &[&[u8]]) {
    for line in lines {
        let ended = [line, &b"\n"[..]].concat();
        assert_eq!(panel(&ended), b"G\t9366\nE\t1\t20\n", "{ended:?}");
        assert_eq!(panel(line), b"G\t9366\nE\t1\t20\n", "{line:?}");
    }
}

#[test]
fn the_example() {
    let input = b"W\t1\t3\nW\t5\t5\nW\t7\t2\nW\t0\t11\nT\t9\nR\t0\n";
    let expected = b"G\t9366\nT\t6\nR\t0\t05\nP\t0\t0\nP\t1\t0\nP\t2\t1\nP\t3\t1\nP\t4\t2\nP\t5\t2\n";
    assert_eq!(panel(input), expected);
}

#[test]
fn reading_87_one_digit_is_the_low_one() {
    plays("W\t5\tA\nR\t5\nW\t5\tA0\nR\t5\n", "R\t5\t0A\nR\t5\tA0\n");
    plays("W\t0\tA\nR\t0\nT\t99\n", "R\t0\t01\nT\t48\n");
}

#[test]
fn reading_88_digit_counts() {
    malformed(&[b"W\t1\t003", b"W\t10\t3", b"R\t00", b"W\t01\t3", b"L\t0007\t0", b"L\t0\t0007"]);
    malformed(&[b"W\t\t3", b"W\t1\t", b"R\t", b"T\t", b"V\t", b"L\t\t0", b"L\t0\t"]);
    malformed(&[b"W", b"W\t1", b"R", b"T", b"V", b"L", b"L\t0"]);
}

#[test]
fn reading_89_leading_zeros() {
    plays("T\t00001\nT\t000000\n", "T\t0\nE\t2\t20\n");
    plays("W\t0\tF\nT\t00001\nT\t1\n", "T\t1\nT\t0\n");
    plays("W\t0\t8\nV\t1\nV\t0\nL\t007\t020\nR\tC\nR\tC\nR\tD\n", "R\tC\t1D\nR\tC\t1C\nR\tD\t14\n");
}

#[test]
fn reading_90_bounds_of_cycles() {
    plays("T\t0\nT\t65535\nT\t65536\nT\t99999\n", "T\t0\nT\t0\nE\t3\t20\nE\t4\t20\n");
    plays("W\t3\t0\nW\t0\tA\nT\t0\nT\t65536\nT\t65535\n", "T\t0\nE\t4\t20\nT\t12288\n");
}

#[test]
fn reading_91_both_places_of_the_pen_are_bounded() {
    plays("L\t64\t0\nL\t255\t255\nL\t256\t0\nL\t0\t256\n", "E\t1\t8\nE\t2\t8\nE\t3\t20\nE\t4\t20\n");
    plays("L\t64\t256\nL\t999\t0\nL\t63\t255\nL\t0\t0\n", "E\t1\t20\nE\t2\t20\n");
}

#[test]
fn reading_92_blanking_is_one_character() {
    malformed(&[b"V\t00", b"V\t01", b"V\t2", b"V\tA", b"V\t10"]);
    plays("V\t1\nR\t0\nV\t0\nR\t0\n", "R\t0\t07\nR\t0\t05\n");
}

#[test]
fn reading_93_lower_case() {
    malformed(&[b"w\t1\t3", b"r\t0", b"t\t1", b"v\t0", b"l\t0\t0"]);
    malformed(&[b"W\ta\t0", b"W\t1\ta", b"W\t1\t0f", b"W\t1\tf0", b"R\tb", b"W\t1\tG", b"R\tG"]);
    malformed(&[b"G\t9366", b"E\t1\t20", b"P\t0\t0", b"X", b"WW\t1\t3", b"T\tA", b"L\tA\t0"]);
}

#[test]
fn reading_94_fields_are_exact() {
    malformed(&[b"\tR\t0", b"R\t0\t", b"R\t\t0", b"R\t0\t0", b"W\t1\t3\t", b"W\t1\t3\t0", b"T\t1\t"]);
    malformed(&[b"V\t0\t", b"L\t0\t0\t", b"L\t0\t\t0", b"\t", b"\t\t", b" ", b"R 0", b"R\t 0", b"R\t0 "]);
    malformed(&[b" R\t0", b"T\t+1", b"T\t-1", b"T\t-0", b"L\t+1\t0", b"L\t0\t-1", b"W\t1\t+3", b"V\t+1"]);
    malformed(&[b"T\t1.0", b"T\t1,0", b"T\t1_0", b"T\t0x1", b"W\t1\t0x", b"R\t-"]);
}

#[test]
fn reading_95_only_lf_ends_a_line() {
    malformed(&[b"R\t0\r", b"\r", b"R\r0", b"R\t0\rR\t0", b"T\t1\r", b"V\t0\r"]);
    malformed(&[b"R\t0\0", b"\0", b"R\0\t0", b"R\t\0", b"T\t\x001", b"R\t0\x0B", b"R\t0\x0C"]);
    malformed(&[b"R\t\x80", b"\xFF", b"\xEF\xBB\xBFR\t0", b"T\t\xD9\xA1", b"W\t1\t\xB3", b"R\t0\x85"]);
}

#[test]
fn reading_96_addresses_without_a_register_are_well_formed() {
    plays("R\t4\nW\tC\t0\nW\t4\t0\n", "E\t1\t4\nE\t2\t5\nE\t3\t4\n");
}

#[test]
fn reading_97_each_lf_is_a_line() {
    plays("\n", "E\t1\t20\n");
    plays("\n\n\n", "E\t1\t20\nE\t2\t20\nE\t3\t20\n");
    plays("\nT\t0\n\nT\t0", "E\t1\t20\nT\t0\nE\t3\t20\nT\t0\n");
}

#[test]
fn reading_98_the_last_lf_may_be_missing() {
    plays("R\t0", "R\t0\t05\n");
    plays("R\t0\n", "R\t0\t05\n");
    plays("R\t0\n\n", "R\t0\t05\nE\t2\t20\n");
}

#[test]
fn reading_99_empty_input() {
    assert_eq!(panel(b""), b"G\t9366\n");
}

#[test]
fn reading_100_greatest_input() {
    let full = String::from_utf8(panel(&[b'\n'; 65_536])).unwrap();
    let lines: Vec<&str> = full.lines().collect();
    assert_eq!((lines.len(), lines[0]), (65_537, "G\t9366"));
    assert_eq!((lines[1], lines[65_536]), ("E\t1\t20", "E\t65536\t20"));
    let all_malformed = lines[1..].iter().zip(1..).all(|(line, n)| *line == format!("E\t{n}\t20"));
    assert!(all_malformed);
    for byte in [b'\n', b'R', 0, 0xFF] {
        assert_eq!(panel(&[byte; 65_537]), b"E\t0\t21\n");
        assert_eq!(panel(&[byte; 200_000]), b"E\t0\t21\n");
    }
    let one_line = [b'R'; 65_536];
    assert_eq!(panel(&one_line), b"G\t9366\nE\t1\t20\n");
    let drawing = [&b"W\t1\t3\nW\t0\t80\nT\t1\n"[..], &[b'\n'; 65_537]].concat();
    assert_eq!(panel(&drawing), b"E\t0\t21\n");
}

#[test]
fn reading_101_every_output_line_is_ended() {
    for input in ["", "R\t0", "T\t1", "X", "W\t1\t3\nW\t0\t80\nT\t1"] {
        assert_eq!(panel(input.as_bytes()).last(), Some(&b'\n'), "{input:?}");
    }
}

#[test]
fn reading_102_digits_on_output() {
    plays("R\t1\nW\tB\tAF\nR\tB\nW\tA\tF\nR\tA\n", "R\t1\t00\nR\tB\tAF\nR\tA\t0F\n");
    plays("W\t5\tFF\nW\t0\t10\nT\t00010\nT\t300\n", "T\t10\nT\t246\n");
    plays("W\t1\t3\nW\t9\t64\nW\tB\t7\nW\t0\t80\nT\t1\n", "T\t1\nP\t100\t7\n");
}

#[test]
fn reading_103_e_lines_stand_in_order() {
    let input = "W\t1\t3\nR\t4\nR\t1\n\nW\t0\t80\nW\t1\t0\nT\t1\nV\t2\n";
    plays(input, "E\t2\t4\nR\t1\t03\nE\t4\t20\nE\t6\t6\nT\t1\nE\t8\t20\nP\t0\t0\n");
}

#[test]
fn reading_104_unfinished_commands() {
    plays("W\t1\t3\nW\t5\t5\nW\t0\t10\nT\t2\n", "T\t2\nP\t0\t0\nP\t1\t0\n");
    plays("W\t1\t3\nW\t5\t5\nW\t0\t10\n", "");
    plays("W\t1\t3\nW\t0\t80\nT\t1\nW\t0\t4\nV\t1\nV\t0\n", "T\t1\nP\t0\t0\n");
    plays("W\t1\t3\nW\t0\t80\nT\t1\nW\t0\t4\nV\t1\nV\t0\nV\t1\n", "T\t1\n");
}

#[test]
fn reading_105_accepted_w_v_l_are_silent() {
    plays("W\t1\t3\nV\t1\nV\t1\nV\t0\nL\t1\t2\nW\t0\t0\n", "");
}

#[test]
fn reading_106_malformed_lines_are_counted() {
    plays("X\nW\t1\t3\n\nR\t0\nR\tF\n", "E\t1\t20\nE\t3\t20\nR\t0\t05\nE\t5\t4\n");
}

#[test]
fn reading_107_refusals_by_a_line_each() {
    plays("R\tE\n", "E\t1\t4\n");
    plays("W\tD\t0\n", "E\t1\t5\n");
    plays("W\t0\tF\nW\t1\t3\n", "E\t2\t6\n");
    plays("L\t64\t0\n", "E\t1\t8\n");
    plays("Q\n", "E\t1\t20\n");
}

#[test]
fn reading_107_no_refusal_of_a_state_or_a_length() {
    for address in 0..16 {
        let lines = |value| format!("W\t{address:X}\t{value:X}\nR\t{address:X}\nT\t9\nV\t{}\n", value % 2);
        let input: String = (0..=255).map(lines).collect();
        let output = String::from_utf8(panel(input.as_bytes())).unwrap();
        for line in output.lines().filter(|line| line.starts_with('E')) {
            assert!(["4", "5", "6"].iter().any(|n| line.ends_with(&format!("\t{n}"))), "{line}");
        }
    }
}

/// Request c: the block 0B slanted, along a line and up; the table is dark, so 41 only moves on.
#[test]
fn slanted_blocks() {
    let expected = [
        "P\t0\t0\nP\t1\t0\nP\t2\t0\nP\t3\t0\n",
        "P\t1\t1\nP\t2\t1\nP\t3\t1\nP\t4\t1\n",
        "P\t2\t2\nP\t3\t2\nP\t4\t2\nP\t5\t2\n",
        "P\t3\t3\nP\t4\t3\nP\t5\t3\nP\t6\t3\n",
    ];
    let input = "W\t1\t3\nW\t2\t4\nW\t0\tB\nT\t99\nR\t9\nR\tB\nW\t0\t41\nT\t99\nR\t9\nR\tB\n";
    let read = "T\t16\nR\t9\t04\nR\tB\t00\nT\t48\nR\t9\t0A\nR\tB\t00\n";
    plays(input, &format!("{read}{}", expected.concat()));

    let expected = [
        "P\t3\t0\n",
        "P\t2\t1\nP\t3\t1\n",
        "P\t1\t2\nP\t2\t2\nP\t3\t2\n",
        "P\t0\t3\nP\t1\t3\nP\t2\t3\nP\t3\t3\n",
        "P\t0\t4\nP\t1\t4\nP\t2\t4\n",
        "P\t0\t5\nP\t1\t5\n",
        "P\t0\t6\n",
    ];
    let input = "W\t1\t3\nW\t9\t3\nW\t2\tC\nW\t0\tB\nT\t99\nR\t9\nR\tB\n";
    plays(input, &format!("T\t16\nR\t9\t03\nR\tB\t04\n{}", expected.concat()));
}

#[test]
fn a_full_screen() {
    let output = String::from_utf8(panel(b"W\t1\t2\nW\t0\tC\nV\t1\nV\t0\nV\t1\n")).unwrap();
    let lines: Vec<&str> = output.lines().collect();
    assert_eq!(lines.len(), 1 + 131_072);
    assert!(lines[1..].iter().all(|line| line.starts_with("P\t")));
    assert_eq!(lines[..4], ["G\t9366", "P\t0\t0", "P\t1\t0", "P\t2\t0"]);
    assert_eq!(lines[512..514], ["P\t511\t0", "P\t0\t1"]);
    assert_eq!(lines[131_072], "P\t511\t255");
}
