//! The model against the customer's sample of cases: answer, all tables and the list, whole.

use cases::index::Asked;
use cases::{by_model, difference, index, vectors, Case};
use model::Profile;

#[test]
fn the_model_agrees_with_every_vector() {
    assert_eq!(vectors::E9.lines().next(), Some("# Document 01 with requests E2,E1,E6,E7,E4,E10,E13,E9 in force."));
    let vectors = vectors::customers();
    assert_eq!(vectors.len(), 320);
    for (case, wanted) in &vectors {
        if let Some(difference) = difference(wanted, &by_model(case)) {
            panic!("{}: {difference}", case.name);
        }
    }
}

#[test]
fn the_model_agrees_with_every_vector_about_an_index() {
    let vectors = vectors::indexes();
    assert_eq!(vectors.len(), 640);
    for (case, wanted) in &vectors {
        assert_eq!(index::by_model(case), *wanted, "{}: {:?} of {}", case.name, case.asked, case.number);
    }
}

/// The reader itself: a case by hand, and files that it must refuse.
#[test]
fn the_reader_reads_what_its_form_says() {
    let text = "# note\ncase a\nfile 1 41\nfile 2 -\nlent 0 3 7 -2\nstart 0 -1 2\nanswer refused 4 1 0 9\nend\n";
    let vector = vectors::read(text).unwrap().remove(0);
    let (case, outcome) = (vector.case, vector.outcome);
    assert_eq!(case.files[0], b"A");
    assert!(case.files[1].is_empty());
    assert_eq!(case.list, [7, 5, 3]);
    assert_eq!((case.start, case.profile), ([0, -1, 2], Profile::Plain));
    assert_eq!(outcome.list, [7, 5, 3]);
    assert_eq!(outcome.answer, model::Answer::Refused { number: 4, file: 1, line: 0, column: 9 });
    assert!(vectors::read(&text.replace("4 1 0 9", "4 1 0")).is_err(), "a refusal without its column");
    let asked = vectors::read(&text.replace("answer", "profile\nanswer")).unwrap().remove(0).case;
    assert_eq!(asked, Case { profile: Profile::Boards, ..case });
    assert!(vectors::read(&text.replace("answer", "profile 0\nanswer")).is_err(), "the word stands alone");
    for bad in ["case a\n", "end\n", "case a\nend\n", "case a\nfile 9 41\nend\n", "case a\nfile 1 4\nend\n"] {
        assert!(vectors::read(bad).is_err(), "{bad}");
    }
}

/// Calls about indexes: by hand, and words that are no call.
#[test]
fn the_reader_reads_calls_about_indexes() {
    let head = "case a\nfile 1 41\nfile 6 42\nstart 0 0 0\nanswer accepted\n";
    let write = "index_write 6 2 255\nwrote 42 0 0 0 0\nbuffer ffff\n";
    let check = "index_check -7 5454\njudged 1 2 3 4 5\n";
    let read = |calls: &str| vectors::read(&format!("{head}{calls}end\n"));
    let vector = read(&format!("{write}{check}")).unwrap().remove(0);
    let [(wrote, left), (judged, told)] = &vector.indexes[..] else { panic!("two calls") };
    assert_eq!(
        (wrote.asked, wrote.number, &wrote.file[..], &wrote.lent[..]),
        (Asked::Write, 6, &b"B"[..], &[255; 2][..])
    );
    assert_eq!((left.answer.number, left.answer.file, &left.lent[..]), (42, 0, &[255; 2][..]));
    assert_eq!(
        (judged.asked, judged.number, &judged.file[..], &judged.lent[..]),
        (Asked::Check, -7, &b"A"[..], &b"TT"[..])
    );
    let answer = model::index::Answer { number: 1, file: 2, line: 3, column: 4, length: 5 };
    assert_eq!((told.answer, &told.lent[..]), (answer, &b"TT"[..]));
    for (good, bad) in [
        ("wrote", "judged"),
        ("buffer ffff\n", ""),
        (" 0 0\n", " 0\n"),
        ("index_write 6", "index_write"),
        ("ff\n", "f\n"),
    ] {
        assert!(read(&write.replacen(good, bad, 1)).is_err(), "{bad} for {good}");
    }
    assert!(read(&format!("{write}{write}")).is_ok() && read("judged 0 0 0 0 0\n").is_err());
}
