//! Serving a list, three ways: the call through C, its row of beginnings and
//! steps made one by one through C on copies of all memory, and the second
//! implementation.

use crate::c::*;
use crate::expected;
use crate::lent::{Both, Lent};
use crate::table::*;
use crate::world::{difference, World, WIDE};

/// What a call that serves is lent: whose records, and each length as C is
/// told it.
#[derive(Clone, Debug)]
pub struct List {
    pub places: Vec<usize>,
    pub heads: usize,
    pub tables: usize,
    pub texts: usize,
    pub answers: usize,
    pub writes: Vec<Write>,
    /// The texts one after the other; then zeros, up to `size`.
    pub bytes: Vec<u8>,
    pub size: usize,
}

/// The first `count` of these; what is missing is a copy of the filling.
fn so_many<T: Copy>(mut content: Vec<T>, count: usize, filling: T) -> Vec<T> {
    content.resize(count, filling);
    content
}

/// What a row of beginnings and steps has left.
struct Row {
    image: Lent<u64>,
    shared: Lent<Shared>,
    points: Vec<Lent<Point>>,
    answers: Vec<Served>,
}

impl World {
    pub fn serve(&mut self, words: usize, list: &List) -> Result<(u32, Vec<Served>), String> {
        let n = list.places.len();
        self.last = ("serve", [words, n, list.writes.len(), list.size]);
        self.count_list(words, list);
        let points: Vec<Point> = list.places.iter().map(|&p| *self.point(p)).collect();
        let salt = self.random.any() as u32;
        let heads: Vec<Head> = points.iter().map(|point| point.head).collect();
        let mut heads = self.both(&heads, list.heads.max(n));
        let tables = so_many(points.iter().map(|point| point.table).collect(), list.tables, [salt as u16; 256]);
        let mut tables = self.both(&tables, list.tables);
        let texts = so_many(points.iter().map(|point| point.text).collect(), list.texts, [salt as u8; 1_024]);
        let mut texts = self.both(&texts, list.texts);
        let mut answers = self.both(&vec![Served { kind: salt, value: !salt }; list.answers], list.answers);
        let writes = self.both(&list.writes, list.writes.len());
        let bytes = self.both(&list.bytes, list.size);
        let row = self.row(words, list, &points);
        let (image, shared, _) = self.there(0);
        // SAFETY: memory of the sizes that are said is lent.
        let there = unsafe {
            shim_serve(
                image,
                words,
                shared,
                heads.there.pointer(),
                list.heads,
                tables.there.pointer(),
                list.tables,
                texts.there.pointer(),
                list.texts,
                answers.there.pointer(),
                list.answers,
                writes.there.pointer(),
                list.writes.len(),
                bytes.there.pointer(),
                list.size,
            )
        };
        let is_even = [list.heads, list.tables, list.texts, list.answers].iter().all(|&count| count == n);
        let mut after = points.clone();
        let (image, shared, _) = self.here(words, 0);
        let (told, text) = (answers.here.all_mut(), bytes.here.part(list.size));
        let here = expected::serve(image, shared, &mut after, is_even, told, &list.writes, text);
        for (i, point) in after.iter().enumerate().take(if here == 0 { n } else { 0 }) {
            heads.here.all_mut()[i] = point.head;
            tables.here.all_mut()[i] = point.table;
            texts.here.all_mut()[i] = point.text;
        }
        self.agree(there, here)?;
        heads.agree("heads")?;
        tables.agree("tables")?;
        texts.agree("texts")?;
        answers.agree("answers")?;
        writes.agree("writes")?;
        bytes.agree("bytes")?;
        let told = answers.here.all().to_vec();
        if here == 0 {
            self.take_back(list, &after, &heads, &mut tables, &mut texts)?;
            self.compare_row(row, list, &told)?;
        }
        self.tally.answered("serve", here);
        for &answer in told.iter().take(if here == 0 { n } else { 0 }) {
            self.tally.served(answer);
        }
        Ok((here, told))
    }

    /// The records come back from the arrays, by `store_get`, and go there
    /// again by `store_put`, which changes nothing.
    fn take_back(
        &mut self,
        list: &List,
        after: &[Point],
        heads: &Both<Head>,
        tables: &mut Both<Table>,
        texts: &mut Both<Text>,
    ) -> Result<(), String> {
        let (first, rows, bytes) = (heads.there.pointer(), tables.there.pointer(), texts.there.pointer());
        for (i, (&p, point)) in list.places.iter().zip(after).enumerate() {
            *self.points[p].here.part_mut(1).first_mut().expect("a record") = *point;
            // SAFETY: place i is inside, and the record is one.
            unsafe { shim_get(first, rows, bytes, i, self.points[p].there.pointer()) };
            self.points[p].agree_by(&format!("record {i} of the list"), difference)?;
            unsafe { shim_put(first, rows, bytes, i, self.points[p].there.pointer()) };
        }
        heads.agree("heads put back")?;
        tables.agree("tables put back")?;
        texts.agree("texts put back")
    }

    /// The row that serving is, through C on copies; none for an image of
    /// which there is no copy, and where the call is refused.
    fn row(&mut self, words: usize, list: &List, points: &[Point]) -> Option<Row> {
        let n = points.len();
        let starts: Vec<usize> = list.writes.iter().scan(0usize, |sum, write| {
            let start = *sum;
            *sum = sum.saturating_add(write.size);
            Some(start)
        }).collect();
        let sum: u128 = list.writes.iter().map(|write| write.size as u128).sum();
        let counts = [list.heads, list.tables, list.texts, list.answers, list.writes.len()];
        let twice = (1..n).any(|i| points[..i].iter().any(|point| point.head.number == points[i].head.number));
        let is_refused = counts.iter().any(|&count| count != n) || n == 0 || n > 32 || twice || sum != list.size as u128;
        if is_refused || words > self.image().len() || list.size > list.bytes.len() {
            return None;
        }
        let (image, shared) = (self.image().to_vec(), *self.shared());
        let image = Lent::new(&mut self.random, &image);
        let shared = Lent::new(&mut self.random, &[shared]);
        let lent: Vec<Lent<Point>> = points.iter().map(|&point| Lent::new(&mut self.random, &[point])).collect();
        let mut room = Lent::new(&mut self.random, &[0u8; 1_024]);
        let mut answers = vec![Served { kind: 0, value: 0 }; n];
        for i in 0..n {
            let Write { offset, size } = list.writes[i];
            let text = Lent::new(&mut self.random, &list.bytes[starts[i]..starts[i] + size]);
            let (memory, record) = (image.pointer(), lent[i].pointer());
            // SAFETY: memory of the sizes that are said is lent.
            let why = unsafe { shim_begin(memory, words, shared.pointer(), record, offset, text.pointer(), size) };
            if why != 0 {
                answers[i] = Served { kind: REFUSED, value: why };
            }
        }
        for _ in 0..129 * (n - 1) + 260 {
            let mut is_done = true;
            for i in 0..n {
                if [COMMITTED, REFUSED].contains(&answers[i].kind) {
                    continue;
                }
                is_done = false;
                let before = lent[i].all()[0].head;
                let record = lent[i].pointer();
                let lent_room = room.part_mut(1_024).as_mut_ptr();
                // SAFETY: as above.
                let answer = unsafe { shim_step(image.pointer(), words, shared.pointer(), record, lent_room) };
                self.tally.turned("turn of a list", answer, &before, &lent[i].all()[0].head);
                answers[i] = Served { kind: answer.kind, value: answer.value };
            }
            if is_done {
                break;
            }
        }
        Some(Row { image, shared, points: lent, answers })
    }

    /// The call has left what the row left.
    fn compare_row(&mut self, row: Option<Row>, list: &List, told: &[Served]) -> Result<(), String> {
        let Some(row) = row else { return Ok(()) };
        self.tally.count("serve", "beside its row");
        let wrong = |what: &str| Err(format!("{what}: the call and its row through C differ"));
        if row.answers != told {
            return Err(format!("the call answers {told:?}, its row {:?}", row.answers));
        }
        if row.image.all() != self.image.there.all() {
            return wrong("image");
        }
        if row.shared.all() != self.shared.there.all() {
            return wrong("shared record");
        }
        for (i, (&p, point)) in list.places.iter().zip(&row.points).enumerate() {
            if point.all() != self.points[p].there.all() {
                return wrong(&format!("record {i} of the list"));
            }
        }
        Ok(())
    }

    fn count_list(&mut self, words: usize, list: &List) {
        let n = list.places.len();
        let numbers: Vec<u32> = list.places.iter().map(|&p| self.point(p).head.number).collect();
        let reads = list.places.iter().any(|&p| self.point(p).head.phase == READING);
        let is_twice = |i: usize, is: &dyn Fn(usize, usize) -> bool| (0..i).any(|k| is(k, i));
        let place_twice = (1..n).any(|i| is_twice(i, &|k, i| list.places[k] == list.places[i]));
        let above_twice = (1..n).any(|i| is_twice(i, &|k, i| numbers[i] > 31 && numbers[k] == numbers[i]));
        let sum: u128 = list.writes.iter().map(|write| write.size as u128).sum();
        let even = |count: usize| count == n;
        self.count_image(words);
        for (is, what) in [
            (n == 0, "of no points"),
            (n == 1, "of one point"),
            (n == 32, "of 32 points"),
            (n == 33, "of 33 points"),
            (n > 33, "of more points"),
            (!even(list.tables), "with tables too few or too many"),
            (!even(list.texts), "with texts too few or too many"),
            (!even(list.answers), "with answers too few or too many"),
            (!even(list.writes.len()), "with writes too few or too many"),
            (sum != list.size as u128, "with bytes too few or too many"),
            (sum > usize::MAX as u128 && sum as usize == list.size, "with sizes that wrap"),
            (place_twice, "with a place twice"),
            (above_twice, "with a number above 31 twice"),
            (list.heads >= WIDE, "with heads beyond 32 bits"),
            (list.size >= WIDE, "with bytes beyond 32 bits"),
            (words >= WIDE, "with an image beyond 32 bits"),
            (reads, "with a read under way"),
        ] {
            if is {
                self.tally.count("list", what);
            }
        }
    }
}
