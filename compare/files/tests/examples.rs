//! What can be tried without the product's program.

use std::path::Path;

use compare_files::cases::examples;
use compare_files::tally::Tally;
use compare_files::{first_difference, second_lines};
use event_text::{decode, encode};
use second::generate::{self, open_body, push_record, tagged_with};

#[test]
fn the_second_program_gives_the_stored_lines_of_every_example() {
    let cases = examples(Path::new("../../examples")).unwrap();
    assert!(cases.len() >= 12);
    for case in cases {
        let lines = second_lines(&case.file);
        assert_eq!(Some(lines), case.stored, "{}", case.name);
    }
}

#[test]
fn generated_files_come_back_from_their_text() {
    for seed in 0..150 {
        let file = generate::file(seed, 200);
        assert!(encode(&decode(&file)).unwrap().bytes == file, "{seed}");
    }
}

#[test]
fn rare_answers_and_strange_lines_are_told() {
    let mut tally = Tally::default();
    let few = tally.faults();
    assert!(few.iter().any(|fault| fault == "'A no 6' was seen 0 times"));
    assert!(few.iter().all(|fault| fault.ends_with("was seen 0 times")));
    tally.file(&[1, 0, 1, 5], "1 T 0 1\nend\n");
    let last = tally.faults().pop();
    assert_eq!(last, Some("this can't occur: 1 T 0 1".into()));
}

#[test]
fn up_lines_end_in_the_priority_of_their_frame_and_others_do_not() {
    let mut file = vec![1];
    push_record(&mut file, &open_body(([2; 6], 5), 1, 4, 3));
    let tci = Some(0xB005);
    push_record(&mut file, &tagged_with(0, [2; 6], tci, 7, &[8, 0]));
    for (line, strange) in [
        ("2 A up 0 7 5", false),
        ("2 A up 0 7", true),
        ("2 A up 0 7 4", true),
        ("2 A up 0 7 05", true),
        ("2 A up 0 7 1 5", true),
        ("2 A dup 0 7", false),
        ("2 A dup 0 7 5", true),
        ("2 A rogue 0 7", false),
        ("2 A rogue 0 7 5", true),
    ] {
        let mut tally = Tally::default();
        tally.file(&file, &format!("1 O 0\n{line}\nend\n"));
        let told = format!("this can't occur: {line}");
        assert_eq!(tally.faults().contains(&told), strange, "{line}");
    }
}

#[test]
fn the_first_difference() {
    let differ = |a: &str, b: &str| {
        first_difference(("a", a.as_bytes()), ("b", b.as_bytes())).map(|(line, _)| line)
    };
    assert_eq!(differ("1 bad\nend\n", "1 bad\nend\n"), None);
    assert_eq!(differ("1 bad\nend\n", "1 bad\ncut\n"), Some(2));
    assert_eq!(differ("1 bad\nend\n", "1 bad\nend"), Some(2));
    assert_eq!(differ("1 bad\n", "1 bad\nend\n"), Some(2));
    assert_eq!(differ("", "version\n"), Some(1));
}
