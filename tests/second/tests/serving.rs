//! Document 02, K6: one call that serves all points.

use second::bench::Bench;
use second::random::Random;
use second::refusal::Refusal;
use second::serve::{ask_list, most_rounds, row, take_turn, Turn};
use second::step::Answer;
use second::world::{longest_list, longest_serve};

fn says(bench: &mut Bench, line: &str) -> String {
    bench.line(line.as_bytes())
}

/// "Worst met, 129 (n − 1) + 259": one round less than are given.
fn longest(count: usize) -> usize {
    129 * (count - 1) + 259
}

/// With the image opened again after each beginning and step.
#[test]
fn the_longest_known_calls() {
    for count in [1, 2, 3, 8] {
        assert_eq!(longest_serve(count), Ok(longest(count)));
        assert_eq!(most_rounds(count), longest(count) + 1);
    }
}

/// By the row alone, for 32 too.
#[test]
fn the_longest_known_rows() {
    for count in [1, 2, 3, 8, 32] {
        let (mut world, list, writes) = longest_list(count).expect("a world");
        let mut steps = vec![0; count];
        let answers = row(count, |turn| {
            let (Turn::Begin(i) | Turn::Step(i)) = turn;
            let newest = world.records[list[i].0].clone().expect("joined");
            let (answer, shared, record) =
                take_turn(turn, &mut world.image, &world.shared, &newest, &writes[i]);
            steps[i] += usize::from(matches!(turn, Turn::Step(_)));
            world.shared = shared;
            world.records[list[i].0] = Some(record);
            Ok::<_, ()>(answer)
        });
        let retries = |i: usize| Answer::Committed(i as u16);
        assert_eq!(answers, Ok((0..count).map(retries).collect()));
        assert_eq!(steps.into_iter().max(), Some(longest(count)), "{count} points");
    }
}

/// The turns of a row, where the point at place i is refused at the turn that is given for
/// it, counted from its beginning on; the others never end.
fn turns(refused_at: &[Option<usize>]) -> Vec<Turn> {
    let mut made = Vec::new();
    let count = refused_at.len();
    let mut turns = vec![0; count];
    let last = row(count, |turn| {
        made.push(turn);
        let (Turn::Begin(i) | Turn::Step(i)) = turn;
        turns[i] += 1;
        let is_refused = refused_at[i] == Some(turns[i] - 1);
        Ok::<_, ()>(match turn {
            _ if is_refused => Some(Answer::Refused(Refusal::LogBroken)),
            Turn::Begin(_) => None,
            Turn::Step(_) => Some(Answer::Stored),
        })
    });
    let expected = |at: &Option<usize>| match at {
        Some(_) => Answer::Refused(Refusal::LogBroken),
        None => Answer::Stored,
    };
    assert_eq!(last, Ok(refused_at.iter().map(expected).collect()));
    made
}

/// "It begins all writes in list order, then gives each unfinished one a step a round";
/// "one refused at its beginning or a step gets no further step".
#[test]
fn the_row() {
    let [b, s] = [Turn::Begin, Turn::Step];
    let row = turns(&[Some(2), Some(0), Some(1), Some(3)]);
    assert_eq!(row, [b(0), b(1), b(2), b(3), s(0), s(2), s(3), s(0), s(3), s(3)]);
    for count in [1, 2, 7, 32] {
        assert_eq!(turns(&vec![None; count]).len(), count * (1 + 129 * (count - 1) + 260));
    }
    assert_eq!(turns(&[None, Some(0), Some(0)]).len(), 3 + 129 * 2 + 260);
}

/// 26 and 27, for every count of points and writes that a line can have.
#[test]
fn what_26_and_27_ask() {
    for count in 0..=40 {
        let numbers: Vec<usize> = (0..count).map(|i| 7 * i).collect();
        for writes in 0..=40 {
            let is_list = (1..=32).contains(&count) && writes == count;
            let answer = if is_list { Ok(()) } else { Err(Refusal::BadList) };
            assert_eq!(ask_list(&numbers, writes), answer, "{count} points, {writes} writes");
        }
    }
    for (i, j) in (0..32).flat_map(|j| (0..j).map(move |i| (i, j))) {
        let mut numbers: Vec<usize> = (20..52).collect();
        numbers[j] = numbers[i];
        assert_eq!(ask_list(&numbers, 32), Err(Refusal::ListedTwice));
        assert_eq!(ask_list(&numbers, 31), Err(Refusal::BadList));
    }
}

/// A line of 163 words, each number of 20 digits with many blanks before it.
#[test]
fn long_lines() {
    let mut bench = Bench::new();
    for line in ["image 1024", "layout", "open 1024", "join 0", "join 1"] {
        says(&mut bench, line);
    }
    let mut line = format!("serve {:020} {:020}", 40, 40);
    for number in 0..160 {
        line.push_str(&format!("{}{:020}", " ".repeat(900), number % 32));
    }
    assert_eq!(says(&mut bench, &line), "refused 26\n");
    assert_eq!(says(&mut bench, &format!("{line} 0")), "error\n");
    let blanks = " ".repeat(200_000);
    let line = format!("serve 2 2{blanks}0 1 0 5 1 512 5 2");
    assert_eq!(says(&mut bench, &line), "served 0 committed 0\nserved 1 committed 1\n");
}

/// Random ladders: what a list of calls never meets, many times.
#[test]
fn ladders_end_unfinished() {
    let mut maker = second::maker::Maker::new(Random::new(5));
    for _ in 0..60 {
        maker.script.clear();
        second::ladder::climb(&mut maker);
    }
    for answer in ["stored", "moved", "extending"] {
        assert!(maker.bench.tally.of("serve", answer) > 3, "{answer}");
    }
    assert!(maker.bench.tally.of("event", "served, committed in the last round") > 3);
}
