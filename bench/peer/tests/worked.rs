//! Worked books: what the peer answers is checked against values that were worked out by hand or elsewhere.

use peer::script::Session;

fn answers(script: &str) -> String {
    let mut session = Session::new();
    let mut out = String::new();
    session.feed(script.as_bytes(), &mut out);
    session.finish(&mut out);
    out
}

const THREE: &str = "enter ac = abc2\nenter a2b = c\nenter bc = c2\n";

/// The answers of calls on the book of three equations, without those of its entering.
fn on_three(calls: &str) -> String {
    let all = answers(&format!("{THREE}{calls}"));
    all.split_inclusive('\n').skip(3).collect()
}

#[test]
fn three_equations_settle_within_just_their_limits() {
    assert_eq!(
        on_three("settle report 4 50\nsettle report 5 49\nsettle report 5 50\ntable"),
        "refused 8: adding, place 259\n\
         refused 6: step, place 773\n\
         settled: 5 rules, 10 lines, 50 steps\n\
         rule 1: bc -> c2, line 6\n\
         rule 2: a2c -> c3, line 9\n\
         rule 3: a2b -> c, line 5\n\
         rule 4: c4 -> c2, line 10\n\
         rule 5: ac3 -> ac, line 7\n"
    );
}

#[test]
fn a_match_tells_a_chain_that_replays() {
    assert_eq!(
        on_three(
            "settle report 5 50\nmatch a2b3c2 bc2 7 7\nreplay a2b3c2 6 6 6 9 10 10 -6\n\
             match a2b3c2 bc2 6 7\nmatch a2b3c2 bc2 7 6\nmatch a b 0 0"
        ),
        "settled: 5 rules, 10 lines, 50 steps\n\
         equal: 7 steps, chain 6 6 6 9 10 10 -6\n\
         end: bc2, net -2 -2 0 0 0 0 0 0\n\
         refused 10: match, place 0\n\
         refused 6: step, place 2\n\
         different: 0 steps\n"
    );
}

#[test]
fn a_right_load_that_a_rule_fits_is_changed() {
    assert_eq!(
        answers("enter b2 = bc\nenter c2 = b2\nsettle report 9 13\nsettle report 9 14\ntable"),
        "equation 1: b2 = bc\n\
         equation 2: c2 = b2\n\
         refused 6: step, place 258\n\
         settled: 2 rules, 5 lines, 14 steps\n\
         rule 1: bc -> c2, line 4\n\
         rule 2: b2 -> c2, line 5\n"
    );
}

#[test]
fn counts_that_do_not_fit_are_refused_after_the_budget() {
    assert_eq!(
        answers(
            "enter a = b40000\nsettle listed 1 9\nstandard a2 1\nstandard a2 2\nreplay a -32768"
        ),
        "equation 1: a = b40000\n\
         settled: 1 rules, 2 lines, 1 steps\n\
         refused 6: step, place 1\n\
         refused 7: step, place 1\n\
         refused 11: replay, place 1\n"
    );
}

#[test]
fn a_file_is_adopted_with_just_its_steps() {
    let file = "0100010001000100100016001e002600010200020100010200020100020001020002010001000100";
    assert_eq!(
        answers(&format!(
            "enter a2 = b\nsettle report 1 1\nwrite 39\nwrite 40\nreopen\nadopt report 0 {file}\n\
             adopt report 1 {file}\nexamine 1 1 {file}\nexamine 3 1 {file}\nexamine 1 0 {file}"
        )),
        format!(
            "equation 1: a2 = b\n\
             settled: 1 rules, 2 lines, 1 steps\n\
             refused 13: write, place 0\n\
             wrote: 40 bytes, {file}\n\
             reopened\n\
             refused 6: table, place 1\n\
             adopted: 1 rules, 2 lines, 1 steps\n\
             examined: 0\n\
             examined: 26\n\
             examined: 6\n"
        )
    );
}

#[test]
fn lines_that_cannot_be_read_are_told_by_number() {
    assert_eq!(
        answers("# a comment\n\nnew now\nenter a1 = b\nlines\n"),
        "line 3: not understood\nline 4: not understood\nno lines\n"
    );
}
