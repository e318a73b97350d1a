//! The worked examples of the documents, and laws that any play must keep.

use crate::{player, random, script};

/// The answers to a script.
fn answers(text: &str) -> Vec<String> {
    let mut out = Vec::new();
    script::play(text.as_bytes(), &mut out).expect("all lines are requests");
    String::from_utf8(out).expect("answers are text").lines().map(String::from).collect()
}

/// The last answers to a script, as many as are expected.
#[track_caller]
fn ends_with(text: &str, expected: &[&str]) {
    let all = answers(text);
    assert_eq!(all[all.len() - expected.len()..], *expected, "{text}");
}

fn played(input: &[u8]) -> String {
    let mut out = Vec::new();
    player::play(input, &mut out).expect("memory doesn't fail");
    String::from_utf8(out).expect("answers are text")
}

/// Lines that give a new console a composition.
fn composed(parameters: &str) -> String {
    let lines: String = parameters.split(' ').map(|byte| format!("parameter {byte}\n")).collect();
    format!("new\ncommand 00\n{lines}")
}

fn unspaced(text: &str) -> String {
    text.replace(' ', "")
}

/// Checks windows of rows 1, 2, 3 … of a page; none where the page ends before the row does.
#[track_caller]
fn windows(composition: &str, start: &str, page: &str, expected: &[Option<(u32, u32)>]) {
    for (row, window) in (1..).zip(expected) {
        let asked = format!("{}command {start}\npage {}\nwindow {row}\n", composed(composition), unspaced(page));
        let answer = window.map_or("refused 8".into(), |(place, count)| format!("window {place} {count}"));
        ends_with(&asked, &[&answer]);
    }
}

/// Checks what one column of row 1 shows on each line.
#[track_caller]
fn column(setting: &str, page: &str, column: usize, width: usize, words: &[&str]) {
    let size = width * words.len();
    let all = answers(&format!("{setting}page {}\nstill 1 {size}\n", unspaced(page)));
    let still = &all[all.len() - size..];
    let shown: Vec<&String> = still.iter().skip(column).step_by(width).collect();
    assert_eq!(shown, words, "{page}");
}

mod chip {
    use super::*;
    use crate::composition::Burst;

    #[test]
    fn start_up() {
        ends_with(&format!("{}command 20\nstatus\nread\n", composed("01 00 00 70")), &["byte 44", "byte 00"]);
    }

    #[test]
    fn composition_of_26000_clocks() {
        let text = format!("{}clocks 26000\nstroke\ncommand 60\nread\nread\n", composed("4F 18 89 59"));
        ends_with(&text, &["ok", "ok", "byte 00", "byte 19"]);
    }

    #[test]
    fn shortest_and_longest_frame() {
        let frames = [("00 00 00 00", 6, "00", "01"), ("4F FF 0F 0F", 121_856, "42", "43")];
        for (parameters, clocks, in_last_row_time, in_row_time_0) in frames {
            for (played, row) in [(clocks - 1, in_last_row_time), (clocks, in_row_time_0)] {
                let text = format!("{}clocks {played}\nstroke\ncommand 60\nread\nread\n", composed(parameters));
                ends_with(&text, &[&format!("byte {row}")]);
            }
        }
    }

    #[test]
    fn first_parameter_over_the_limit() {
        let text = "new\ncommand 00\nparameter 50\nparameter D0\nstatus\nparameter CF\n";
        ends_with(text, &["ok", "refused 3", "refused 3", "byte 00", "ok"]);
        ends_with("new\ncommand 00\nparameter 4F\n", &["ok"]);
    }

    #[test]
    fn bursts() {
        for (start, size, space) in [(0x20, 1, 0), (0x25, 2, 7), (0x3F, 8, 55)] {
            assert_eq!(Burst::from_start(start), Burst { size, space });
        }
    }

    #[test]
    fn light_pen_rows() {
        for (clocks, row) in [(0, "19"), (1_000, "00"), (25_000, "18")] {
            let text = format!("{}clocks {clocks}\nstroke\ncommand 60\nread\nread\n", composed("4F 18 89 59"));
            ends_with(&text, &["byte 00", &format!("byte {row}")]);
        }
    }

    #[test]
    fn stroke_between_the_reads() {
        let text = format!("{}clocks 3\nstroke\ncommand 60\nread\nclocks 2\nstroke\nread\n", composed("01 00 00 70"));
        ends_with(&text, &["byte 00"]);
        ends_with(&format!("{text}command 60\nread\nread\n"), &["byte 01", "byte 00"]);
    }

    #[test]
    fn wrong_kind_of_parameter_leaves_what_waits() {
        let text = format!("{}command 80\nparameter 00\nread\nstatus\nparameter 00\nstatus\n", composed("01 00 00 60"));
        ends_with(&text, &["byte 00", "byte 08", "ok", "byte 00"]);
        ends_with(
            "new\ncommand 60\nparameter 33\nstatus\nread\nread\nread\nstatus\n",
            &["byte 08", "byte 00", "byte 00", "byte 00", "byte 08"],
        );
    }

    #[test]
    fn dropped_parameters() {
        ends_with("new\ncommand 80\nparameter 00\ncommand A0\nstatus\n", &["byte 48"]);
        ends_with("new\ncommand 60\nread\ncommand A0\nstatus\n", &["byte 40"]);
        ends_with("new\ncommand 80\ncommand 01\nstatus\n", &["refused 2", "byte 00"]);
    }
}

mod rows {
    use super::*;

    #[test]
    fn stop_code_and_its_burst() {
        let page = "41 F1 42 43";
        for (start, count) in [("20", 2), ("21", 2), ("22", 3), ("23", 3)] {
            windows("03 00 00 40", start, page, &[Some((0, count))]);
            windows("01 00 00 40", start, page, &[Some((0, 2))]);
        }
    }

    #[test]
    fn field_positions() {
        for start in ["20", "21", "22", "23"] {
            windows("01 00 00 00", start, "81 41 90 F0", &[Some((0, 4))]);
        }
        column(&composed("01 00 00 00"), "81 41 90 F0", 0, 4, &["00020041"]);
        column(&composed("01 00 00 00"), "81 41 90 F0", 1, 4, &["00008070"]);
    }

    #[test]
    fn stop_code_as_a_character() {
        let page = "85 F1 41 F3 90 42 43";
        windows("03 01 00 00", "22", page, &[Some((0, 4)), Some((4, 0))]);
        windows("03 01 00 00", "23", page, &[Some((0, 5)), Some((5, 0))]);
    }

    #[test]
    fn stop_code_behind_an_end_of_row() {
        windows("02 00 00 40", "20", "F0 41 F1 42 43 44", &[Some((0, 3))]);
        windows("03 00 00 40", "20", "F0 41 F1 42 43 44", &[Some((0, 3))]);
    }

    #[test]
    fn spaced_rows() {
        let text = format!("{}page 41424344\n", composed("81 02 00 40"));
        ends_with(&format!("{text}window 1\nwindow 2\nwindow 3\n"), &["window 0 2", "refused 6", "window 2 2"]);
    }

    #[test]
    fn seventeen_field_characters() {
        let pairs: String = (0x41..=0x51).map(|character| format!("80{character:02X}")).collect();
        // 17 characters and 18 clocks of retrace: on two lines the 34 bytes come in time.
        let text = format!("{}command 20\npage {pairs}\nfree\n", composed("10 00 01 08"));
        ends_with(
            &format!("{text}clocks 33\nstatus\nclocks 1\nstatus\nclocks 1\nstatus\n"),
            &["byte 44", "00710000", "byte 45", "00310000", "byte 44"],
        );
        let shown: Vec<String> =
            [0x51].into_iter().chain(0x42..=0x51).map(|code| format!("008000{code:02X}")).collect();
        let all = answers(&format!("{text}clocks 87\n"));
        assert_eq!(all[all.len() - 17..], shown);
    }

    const U1_L3: &str = "02 00 12 40";

    #[test]
    fn words() {
        let setting = composed(U1_L3);
        let shows = |page, at, words: &[&str]| column(&setting, page, at, 5, words);
        shows("41 41 41", 0, &["00000041", "00000141", "00000241"]);
        shows("A1 41 41", 1, &["00020041", "00024141", "00020241"]);
        shows("9C 41 41", 1, &["000C8041", "000C8141", "000C8241"]);
        shows("B0 D1 41", 1, &["00038051", "0002C151", "00029251"]);
        shows("41 F5 41", 1, &["00010000", "00010100", "00010200"]);
        shows("41 F0 41", 2, &["00010000", "00010100", "00010200"]);
        shows("41 A1 41", 1, &["00010000", "00010100", "00010200"]);
    }

    #[test]
    fn cursors() {
        let cursor = "command 80\nparameter 01\nparameter 00\n";
        let block = format!("{}{cursor}", composed("02 00 12 60"));
        column(&block, "41 41 41", 1, 5, &["00008041", "00008141", "00008241"]);
        let underline = format!("{}{cursor}", composed("02 00 12 70"));
        column(&underline, "41 41 41", 1, 5, &["00000041", "00004141", "00000241"]);
    }

    #[test]
    fn blink_count_16() {
        // A frame of U 1, L 3, H 3, Z 2, R 1, V 1 has 30 clocks.
        let setting = format!("{}clocks {}\n", composed(U1_L3), 16 * 30);
        column(&setting, "82 41 41", 1, 5, &["00010041", "00010141", "00010241"]);
        let setting = format!("{setting}command 80\nparameter 01\nparameter 00\n");
        column(&setting, "82 41 41", 1, 5, &["00018041", "00018141", "00018241"]);
    }

    #[test]
    fn underline_of_8_and_line_mode() {
        column(&composed("02 00 82 40"), "41 41 41", 0, 5, &["00010041", "00000141", "00010241"]);
        column(&composed("02 00 12 C0"), "41 41 41", 0, 5, &["00000241", "00000041", "00000141"]);
    }
}

mod windows_and_stills {
    use super::*;

    #[test]
    fn end_to_end() {
        let page = "41 F1 42 43 44 45 46 F3 47 48";
        windows("03 03 00 40", "22", page, &[Some((0, 3)), Some((3, 4)), Some((7, 2)), Some((9, 0))]);
        windows("03 03 00 40", "21", page, &[Some((0, 2)), Some((2, 4)), Some((6, 2)), Some((8, 0))]);
    }

    #[test]
    fn still_in_a_longer_buffer() {
        ends_with(
            &format!("{}page 4142\nstill 1 6\n", composed("01 00 00 70")),
            &["ok", "00000041", "00000042", "00110000", "00110000", "FFFFFFFF", "FFFFFFFF"],
        );
    }

    #[test]
    fn lacking_dropped_byte() {
        windows("03 01 00 40", "22", "41 F3", &[None, None]);
        windows("03 01 00 40", "22", "41 F3 00", &[Some((0, 3)), Some((3, 0))]);
        windows("03 01 00 40", "21", "41 F3", &[Some((0, 2)), Some((2, 0))]);
    }

    #[test]
    fn order_of_refusals() {
        let long = "00".repeat(16_385);
        ends_with(&format!("new\npage {long}\nstill 0 0\n"), &["refused 1"]);
        ends_with(&format!("{}page {long}\nstill 0 0\n", composed("01 00 00 70")), &["refused 4"]);
        ends_with(&format!("{}still 0 0\n", composed("01 00 00 70")), &["refused 6"]);
        ends_with(
            &format!("{}still 1 3\n", composed("01 00 00 70")),
            &["refused 7", "FFFFFFFF", "FFFFFFFF", "FFFFFFFF"],
        );
        ends_with(
            &format!("{}still 1 1\nstill 1 4\n", composed("00 00 00 70")),
            &["refused 8", "FFFFFFFF", "FFFFFFFF", "FFFFFFFF", "FFFFFFFF"],
        );
    }
}

mod frames {
    use super::*;

    /// In which clocks of row time 0 a byte is asked for.
    fn requests(source: &str, clocks: usize) -> String {
        let text = format!("{}command 25\npage 414243444546\n{source}\nclocks {clocks}\n", composed("05 00 03 40"));
        let all = answers(&text);
        let asks = |word: &String| word.starts_with("006") || word.starts_with("007");
        all[all.len() - clocks..].iter().map(|word| if asks(word) { '#' } else { '.' }).collect()
    }

    #[test]
    fn bursts_of_two_with_spaces_of_seven() {
        assert_eq!(requests("free", 20), "##.......##.......##");
        assert_eq!(requests("spans 1+3", 14), "#####.......##");
        // Busy clocks in a burst space cost nothing.
        assert_eq!(requests("spans 1+3 6+5", 14), "#####.......##");
    }

    const EDGE: &str = "01 00 00 70";

    #[test]
    fn in_time_by_one_clock() {
        ends_with(
            &format!("{}command 20\npage 4142\nspans 0+2\nclocks 8\nstatus\n", composed(EDGE)),
            &[
                "00610000", "00610000", "00710000", "00710000", "00800041", "00800042", "00910000", "00910000",
                "byte 64",
            ],
        );
    }

    #[test]
    fn late_by_one_clock() {
        let late = ["00810000", "00810000", "00910000", "00910000", "byte 66"];
        ends_with(&format!("{}command 20\npage 4142\nspans 0+3\nclocks 8\nstatus\n", composed(EDGE)), &late);
        let text = format!("{}command 20\npage 41\nfree\nclocks 8\nstatus\n", composed(EDGE));
        ends_with(&text, &late);
        let all = answers(&text);
        assert_eq!(all[all.len() - 9..all.len() - 5], ["00610000", "00610000", "00710000", "00710000"]);
    }

    #[test]
    fn calls_right_before_a_clock() {
        let shown = |calls: &str| {
            let text = format!("{}page 4142\nfree\n{calls}clocks 8\nstatus\n", composed(EDGE));
            answers(&text).iter().any(|answer| answer.ends_with("0041"))
        };
        assert!(shown("command 20\n"));
        assert!(shown("command 20\ncommand 40\ncommand 20\n"));
        assert!(!shown("command 20\ncommand 40\n"));
        let at_row_time_1 = |calls: &str| format!("{}{calls}clocks 4\nstatus\n", composed(EDGE));
        ends_with(&at_row_time_1("clocks 4\ncommand A0\n"), &["byte 60"]);
        ends_with(&at_row_time_1("command A0\nclocks 4\ncommand C0\n"), &["byte 00"]);
        ends_with(&at_row_time_1("command 20\nclocks 4\ncommand 40\n"), &["byte 60"]);
        ends_with(&at_row_time_1("command A0\ncommand E0\n"), &["byte 60"]);
    }
}

mod the_player {
    use super::*;

    #[test]
    fn example() {
        let input = b"064142\n0000\n0101\n0100\n0100\n0170\n0020\n050008\n02\n02\n";
        let output = "00\n00\n00\n00\n00\n00\n00\n00610000\n00610000\n00310000\n00310000\n00800041\n00800042\n00910000\n00910000\n64\n44\n";
        assert_eq!(played(input), output);
    }

    #[test]
    fn faults() {
        let zeros = |count| "0".repeat(count);
        let faults = [
            ("\n".into(), "FF0109000100"),
            ("0".into(), "FF0109000100"),
            ("00a0".into(), "FF0109000103"),
            ("0G".into(), "FF0109000102"),
            ("02\r".into(), "FF0109000103"),
            (zeros(67), "FF0109000100"),
            (zeros(66), "FF020A000100"),
            (zeros(66) + "x", "FF0109000100"),
            (zeros(65) + "x0", "FF0109000142"),
            ("07".into(), "FF020A000100"),
            ("06".into(), "FF020A000100"),
            ("0500".into(), "FF020A000100"),
            ("0001".into(), "FF0302000100"),
            ("04".into(), "FF0301000100"),
            ("050001".into(), "FF0301000100"),
            ("0001\n0641".into(), "FF0302000100\nFF020A000200"),
            ("07\n0641".into(), "FF020A000100\n00"),
        ];
        for (input, output) in faults {
            assert_eq!(played(input.as_bytes()), format!("{output}\n"), "{input}");
        }
    }

    #[test]
    fn no_line_and_no_clock() {
        assert_eq!(played(b""), "");
        assert_eq!(played(b"050000\n"), "");
        assert_eq!(played(b"\n\n"), "FF0109000100\nFF0109000200\n");
    }

    #[test]
    fn page_limit() {
        let line = format!("06{}\n", "41".repeat(32));
        let full = line.repeat(512);
        let over = played(format!("{full}0641\n02\n0641\n").as_bytes());
        assert!(over.ends_with("00\nFF0204020100\n00\nFF0204020300\n"));
    }

    #[test]
    fn last_line() {
        let input = "02\n".repeat(65_534) + "x\n02\nx\n";
        let output = played(input.as_bytes());
        assert!(output.ends_with("\n00\nFF0109FFFF01\n"));
        assert_eq!(output.lines().count(), 65_535);
    }
}

mod laws {
    use super::*;

    /// Clocks asked for one by one answer the same as all at once.
    #[test]
    fn clocks_one_by_one() {
        for seed in 0..40 {
            let text = random::script::make(seed);
            let singly: String = text.lines().map(one_by_one).collect();
            assert!(answers(&text) == answers(&singly), "seed {seed}");
        }
    }

    fn one_by_one(line: &str) -> String {
        match line.strip_prefix("clocks ").and_then(|count| count.parse().ok()) {
            // Five clocks that are refused answer once, so these stay together.
            Some(count) if count != 5 => "clocks 1\n".repeat(count),
            _ => format!("{line}\n"),
        }
    }

    /// A row of a frame that has come in time shows what its still shows.
    #[test]
    fn frames_show_stills() {
        let setting = format!("{}command 20\n", composed("04 02 11 00"));
        let page = "A1 41 C5 F0 80 42 43 44 45 92 46 47 EA 48 49 F2 41 4A";
        let text = format!("{setting}page {}\nfree\n", unspaced(page));
        // W 7, L 2: row times of 14 clocks. IRQ is on in row 3.
        for (row, irq) in [(1, 0), (2, 0), (3, 0x0080_0000)] {
            let frame = answers(&format!("{text}clocks {}\n", 14 * (row + 1)));
            let still = answers(&format!("{text}still {row} 14\n"));
            for (clock, shown) in frame[frame.len() - 14..].iter().zip(&still[still.len() - 14..]) {
                let drq_and_irq = 0x0040_0000 | irq;
                let picture = u32::from_str_radix(clock, 16).unwrap() & !drq_and_irq;
                assert_eq!(format!("{picture:08X}"), *shown, "row {row}");
            }
        }
    }

    #[test]
    fn the_same_seed_gives_the_same() {
        assert_eq!(random::script::make(7), random::script::make(7));
        assert_eq!(random::player::make(7), random::player::make(7));
    }

    /// No input stops the player, and each line that counts prints something or asks for no clock.
    #[test]
    fn player_takes_everything() {
        for seed in 0..60 {
            played(&random::player::make(seed));
        }
    }
}
