//! Worked cases, as lines with the answers that they must have.

use reference::script::Rehearsal;

/// Plays a text of lines, each answer on lines of its own after `> `.
fn check(n: usize, need: usize, text: &str) {
    let mut rehearsal = Rehearsal::new(n, need, None);
    let mut answers = Vec::new().into_iter();
    for line in text.lines().map(str::trim).filter(|line| !line.is_empty()) {
        match line.strip_prefix("> ") {
            Some(expected) => assert_eq!(answers.next().as_deref(), Some(expected), "in {text}"),
            None => {
                assert_eq!(answers.next(), None, "before {line} in {text}");
                answers = rehearsal.play(line).into_iter();
            }
        }
    }
    assert_eq!(answers.next(), None, "at the end of {text}");
}

#[test]
fn a_drive_that_was_out_is_weak_until_mended() {
    check(
        3,
        2,
        "
        out 2
        > ok
        put 0 0507
        > ok version 1
        show
        > drive 0 in: 0:1
        > drive 1 in: 0:1
        > drive 2 out:
        in 2
        > ok
        count
        > weak 1: 2
        > object 0 version 1 pieces 2
        mend 0 2
        > ok 1
        mend 0 2
        > ok 0
        count
        > weak 0:
        > object 0 version 1 pieces 3
    ",
    );
}

#[test]
fn two_weak_are_more_than_may_be() {
    check(
        3,
        2,
        "
        out 2
        > ok
        put 0 0507
        > ok version 1
        in 2
        > ok
        out 0
        > ok
        count
        > weak 2: 0 2
        > object 0 version 1 pieces 1
        read 0
        > refused 7
        mend 0 2
        > refused 7
    ",
    );
}

#[test]
fn a_stop_after_one_piece_brings_the_old_version_back() {
    check(
        3,
        2,
        "
        put 0 0507
        > ok version 1
        begin 0 09
        > ok version 2
        write 0 0
        > ok
        stop 0
        > stopped
        read 0
        > refused 2
        settle 0
        > ok found 1 version 1025
        show
        > drive 0 in: 0:1
        > drive 1 in: 0:1
        > drive 2 in: 0:1
        write 0 0
        > ok
        write 0 1
        > ok
        finish 0
        > refused 6
        write 0 2
        > ok
        finish 0
        > ok version 1025
        read 0
        > ok version 1025 0507
        tidy 0 1
        > ok 1
        show
        > drive 0 in: 0:1 0:1025
        > drive 1 in: 0:1025
        > drive 2 in: 0:1 0:1025
        sweep 0
        > ok 1
        heal
        > ok tidied 1 mended 0
    ",
    );
}

#[test]
fn a_stop_after_two_pieces_brings_the_new_version_to_an_end() {
    check(
        3,
        2,
        "
        put 0 0507
        > ok version 1
        begin 0 09
        > ok version 2
        write 0 0
        > ok
        write 0 1
        > ok
        stop 0
        > stopped
        settle 0
        > ok found 2 version 1025
        show
        > drive 0 in: 0:1 0:2
        > drive 1 in: 0:1 0:2
        > drive 2 in: 0:1
        write 0 0
        > ok
        write 0 1
        > ok
        write 0 2
        > ok
        finish 0
        > ok version 1025
        read 0
        > ok version 1025 09
    ",
    );
}

#[test]
fn the_same_two_stops_with_a_drive_out() {
    for (written, found, bytes) in [(1, 1, "0507"), (2, 2, "09")] {
        let writes = ["write 0 0\n> ok\n", "write 0 1\n> ok\n"][..written].concat();
        check(
            3,
            2,
            &format!(
                "
            out 2
            > ok
            put 0 0507
            > ok version 1
            begin 0 09
            > ok version 2
            {writes}
            stop 0
            > stopped
            settle 0
            > ok found {found} version 1025
            write 0 0
            > ok
            write 0 1
            > ok
            finish 0
            > ok version 1025
            read 0
            > ok version 1025 {bytes}
        "
            ),
        );
    }
}

#[test]
fn a_changed_byte_is_a_piece_less() {
    check(
        3,
        2,
        "
        put 0 0507
        > ok version 1
        spoil 1 0 1
        > ok
        spoil 1 0 1
        > refused 7
        read 0
        > ok version 1 0507
        show
        > drive 0 in: 0:1
        > drive 1 in:
        > drive 2 in: 0:1
        count
        > weak 1: 1
        > object 0 version 1 pieces 2
    ",
    );
}

#[test]
fn a_torn_writing_is_no_piece() {
    check(
        3,
        2,
        "
        stop 2
        > ok
        put 0 0507
        > stopped
        show
        > drive 0 in: 0:1
        > drive 1 in:
        > drive 2 in:
        count
        > weak 0:
        settle 0
        > ok none
        read 0
        > ok none
        count
        > weak 0:
        > object 0 none
        begin 0
        > ok version 1026
    ",
    );
}

#[test]
fn what_settled_to_none_never_comes_back() {
    check(
        3,
        2,
        "
        begin 0 05
        > ok version 1
        write 0 0
        > ok
        write 0 1
        > ok
        out 1
        > ok
        give up 0
        > ok unknown
        settle 0
        > ok none
        in 1
        > ok
        stop 0
        > stopped
        settle 0
        > ok none
        put 0
        > ok version 1026
        read 0
        > ok version 1026
        heal
        > ok tidied 2 mended 0
    ",
    );
}

#[test]
fn the_file_is_cut_before_or_after_its_renaming() {
    check(
        2,
        1,
        "
        stop old
        > ok
        begin 0 05
        > stopped
        begin 0 05
        > ok version 1
        stop 0
        > stopped
        settle 0
        > ok none
        stop new
        > ok
        put 0 05
        > stopped
        settle 0
        > ok found 1026 version 2049
        write 0 0
        > ok
        write 0 1
        > ok
        stop old
        > ok
        finish 0
        > stopped
        settle 0
        > ok found 2049 version 3073
        stop 1
        > ok
        count
        > weak 0:
        > object 0 version 1026 pieces 2
        give up 0
        > ok unknown
        stop new
        > ok
        stop 0
        > stopped
        settle 0
        > ok found 2049 version 4097
    ",
    );
}

#[test]
fn a_step_of_many_is_stopped_as_a_whole() {
    check(
        3,
        2,
        "
        put 0 05
        > ok version 1
        put 0 06
        > ok version 2
        put 1 07
        > ok version 3
        put 1 08
        > ok version 4
        stop 4
        > ok
        heal
        > stopped
        show
        > drive 0 in: 0:2 1:4
        > drive 1 in: 0:2 1:3 1:4
        > drive 2 in: 0:2 1:3 1:4
        stop 1
        > ok
        sweep 1
        > stopped
        show
        > drive 0 in: 0:2 1:4
        > drive 1 in: 0:2 1:4
        > drive 2 in: 0:2 1:3 1:4
    ",
    );
}

#[test]
fn four_versions_leave_no_place() {
    check(
        2,
        1,
        "
        put 0 01
        > ok version 1
        put 0 02
        > ok version 2
        put 0 03
        > ok version 3
        put 0 04
        > ok version 4
        put 0 05
        > refused 5
        write 0 0
        > refused 5
        finish 0
        > refused 6
        give up 0
        > ok unknown
        settle 0
        > ok found 4 version 6
        show
        > drive 0 in: 0:4
        > drive 1 in: 0:4
    ",
    );
}

#[test]
fn refusals_by_the_lowest_number() {
    check(
        3,
        2,
        "
        begin 256 05
        > refused 1
        read 99999999999999999999999999
        > refused 1
        write 0 3
        > refused 1
        write 0 0
        > refused 4
        finish 0
        > refused 4
        give up 0
        > refused 4
        settle 0
        > refused 4
        mend 0 0
        > refused 7
        out 0
        > ok
        mend 0 0
        > refused 5
        tidy 0 0
        > refused 5
        sweep 0
        > refused 5
        sweep 3
        > refused 1
        begin 0 05
        > ok version 1
        write 0 0
        > refused 5
        begin 0 05
        > refused 3
        tidy 0 0
        > refused 3
        mend 0 0
        > refused 3
        read 0
        > refused 3
        give up 0
        > ok unknown
        begin 0 05
        > refused 2
        tidy 0 0
        > refused 2
        mend 0 0
        > refused 2
        read 0
        > refused 2
        write 0 0
        > refused 4
        settle 0
        > ok none
        tidy 0 1
        > ok 0
        wipe 3
        > refused 1
        in 3
        > refused 1
        spoil 3 0 1
        > refused 1
        spoil 0 256 1
        > refused 1
        spoil 0 0 1
        > refused 7
    ",
    );
}

#[test]
fn an_object_may_have_65536_bytes_and_no_more() {
    let mut rehearsal = Rehearsal::new(2, 1, None);
    let longest = "5a".repeat(65_536);
    assert_eq!(rehearsal.play(&format!("begin 0 {longest}00")), ["refused 1"]);
    assert_eq!(rehearsal.play(&format!("put 0 {longest}")), ["ok version 1"]);
    assert_eq!(rehearsal.play("read 0"), [format!("ok version 1 {longest}")]);
}

#[test]
fn the_number_is_raised_without_a_stop_too() {
    let mut rehearsal = Rehearsal::new(2, 1, None);
    for version in 1..=1_024 {
        assert_eq!(rehearsal.play("put 0"), [format!("ok version {version}")]);
        rehearsal.play("heal");
    }
    rehearsal.play("stop old");
    assert_eq!(rehearsal.play("begin 0"), ["stopped"]);
    assert_eq!(rehearsal.play("settle 0"), ["ok found 1024 version 1025"]);
    rehearsal.play("stop 0");
    assert_eq!(rehearsal.play("settle 0"), ["ok found 1024 version 2049"]);
}
