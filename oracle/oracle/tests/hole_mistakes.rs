// Mistakes in counting holes: each gives another answer to some list, to some frame and to some
// text, where these can tell it, and to none where they cannot.

mod common {
    pub mod hole_cases;
    pub mod holes;
}

use common::hole_cases::vectors;
use common::holes::{higher_u, higher_v, last, lower_u, lower_v, up_to, Holes, Pair, Sheet, RIGHT};

fn no_question(_: &[Pair], _: Pair) -> bool {
    true
}

/// The corner directly beside, on one side.
fn next_to(corners: &[Pair], (u, v): Pair, (du, dv): Pair) -> bool {
    corners.contains(&(u + du, v + dv))
}

/// The least and the greatest u of a row, or v of a column, where it has a corner.
fn ends(corners: &[Pair], on: impl Fn(&&Pair) -> bool, of: fn(&Pair) -> i32) -> Option<[i32; 2]> {
    let line = || corners.iter().filter(&on).map(of);
    Some([line().min()?, line().max()?])
}

fn row_ends(corners: &[Pair], v: i32) -> Option<[i32; 2]> {
    ends(corners, |corner| corner.1 == v, |corner| corner.0)
}

fn column_ends(corners: &[Pair], u: i32) -> Option<[i32; 2]> {
    ends(corners, |corner| corner.0 == u, |corner| corner.1)
}

/// The greatest u and v of some corners.
fn most(corners: &[Pair]) -> Pair {
    let most = |of: fn(&Pair) -> i32| corners.iter().map(of).max().unwrap_or(-1);
    (most(|corner| corner.0), most(|corner| corner.1))
}

/// The corners of some components, one behind the other.
fn all_listed(sheets: &[Sheet]) -> Vec<Pair> {
    sheets.iter().flat_map(|sheet| sheet.listed.clone()).collect()
}

fn with_contested(sheet: &Sheet) -> Vec<Pair> {
    [&sheet.listed[..], &sheet.contested].concat()
}

/// A component's corners, and of the one before those in rows, or in columns, where it has none
/// itself.
fn left_over(sheets: &[Sheet], number: usize, rows: bool, columns: bool) -> Vec<Pair> {
    let own = &sheets[number].listed;
    let before = if number == 0 { &[][..] } else { &sheets[number - 1].listed };
    let in_row = |corner: &Pair| own.iter().any(|other| other.1 == corner.1);
    let in_column = |corner: &Pair| own.iter().any(|other| other.0 == corner.0);
    let stays = |corner: &&Pair| rows && !in_row(corner) || columns && !in_column(corner);
    own.iter().chain(before.iter().filter(stays)).copied().collect()
}

/// A mistake's name, the letters of the kinds that tell it, and what makes it.
type Mistake = (&'static str, &'static str, fn(&mut Holes));

/// In what is asked of a place.
const OF_QUESTIONS: [Mistake; 41] = [
    ("every place that is not held", "lft", |h| h.questions = [no_question; 4]),
    ("the row alone", "lft", |h| h.questions = [lower_u, higher_u, no_question, no_question]),
    ("the column alone", "lft", |h| h.questions = [no_question, no_question, lower_v, higher_v]),
    ("the row or the column", "lft", |h| {
        h.counts = |answers| answers[..2] == [true; 2] || answers[2..] == [true; 2];
    }),
    ("one side of the row or the column each", "lft", |h| {
        h.counts = |answers| (answers[0] || answers[1]) && (answers[2] || answers[3]);
    }),
    ("any three of the four", "lft", |h| {
        h.counts = |answers| answers.iter().filter(|answer| **answer).count() >= 3;
    }),
    ("any of the four", "lft", |h| h.counts = |answers| answers.contains(&true)),
    ("no lower u asked", "lft", |h| h.questions[0] = no_question),
    ("no higher u asked", "lft", |h| h.questions[1] = no_question),
    ("no lower v asked", "lft", |h| h.questions[2] = no_question),
    ("no higher v asked", "lft", |h| h.questions[3] = no_question),
    ("the lower u alone", "lft", |h| {
        h.questions = [lower_u, no_question, no_question, no_question];
    }),
    ("the higher u and the higher v alone", "lft", |h| {
        h.questions = [no_question, higher_u, no_question, higher_v];
    }),
    ("above for left", "lft", |h| h.questions[0] = lower_v),
    ("below for right", "lft", |h| h.questions[1] = higher_v),
    ("left for above", "lft", |h| h.questions[2] = lower_u),
    ("right for below", "lft", |h| h.questions[3] = higher_u),
    ("rows by u on the lower side", "lft", |h| {
        h.questions[0] = |corners, (u, _)| row_ends(corners, u).is_some_and(|[low, _]| low < u);
    }),
    ("rows by u on the higher side", "lft", |h| {
        h.questions[1] = |corners, (u, _)| row_ends(corners, u).is_some_and(|[_, high]| high > u);
    }),
    ("columns by v on the lower side", "lft", |h| {
        h.questions[2] = |corners, (_, v)| column_ends(corners, v).is_some_and(|[low, _]| low < v);
    }),
    ("columns by v on the higher side", "lft", |h| {
        h.questions[3] =
            |corners, (_, v)| column_ends(corners, v).is_some_and(|[_, high]| high > v);
    }),
    ("the row's least beside v", "lft", |h| {
        h.questions[0] = |corners, (_, v)| row_ends(corners, v).is_some_and(|[low, _]| low < v);
    }),
    ("the row's greatest beside v", "lft", |h| {
        h.questions[1] = |corners, (_, v)| row_ends(corners, v).is_some_and(|[_, high]| high > v);
    }),
    ("the column's least beside u", "lft", |h| {
        h.questions[2] = |corners, (u, _)| column_ends(corners, u).is_some_and(|[low, _]| low < u);
    }),
    ("the column's greatest beside u", "lft", |h| {
        h.questions[3] =
            |corners, (u, _)| column_ends(corners, u).is_some_and(|[_, high]| high > u);
    }),
    ("the row's greatest for its least", "lft", |h| {
        h.questions[0] = |corners, (u, v)| row_ends(corners, v).is_some_and(|[_, high]| high < u);
    }),
    ("the row's least for its greatest", "lft", |h| {
        h.questions[1] = |corners, (u, v)| row_ends(corners, v).is_some_and(|[low, _]| low > u);
    }),
    ("the column's greatest for its least", "lft", |h| {
        h.questions[2] =
            |corners, (u, v)| column_ends(corners, u).is_some_and(|[_, high]| high < v);
    }),
    ("the column's least for its greatest", "lft", |h| {
        h.questions[3] = |corners, (u, v)| column_ends(corners, u).is_some_and(|[low, _]| low > v);
    }),
    ("neighbours only", "lft", |h| {
        h.questions = [
            |corners, place| next_to(corners, place, (-1, 0)),
            |corners, place| next_to(corners, place, (1, 0)),
            |corners, place| next_to(corners, place, (0, -1)),
            |corners, place| next_to(corners, place, (0, 1)),
        ];
    }),
    ("a neighbour at a lower u", "lft", |h| {
        h.questions[0] = |corners, place| next_to(corners, place, (-1, 0));
    }),
    ("a neighbour at a higher u", "lft", |h| {
        h.questions[1] = |corners, place| next_to(corners, place, (1, 0));
    }),
    ("a neighbour at a lower v", "lft", |h| {
        h.questions[2] = |corners, place| next_to(corners, place, (0, -1));
    }),
    ("a neighbour at a higher v", "lft", |h| {
        h.questions[3] = |corners, place| next_to(corners, place, (0, 1));
    }),
    ("diagonal neighbours", "lft", |h| {
        h.questions = [
            |corners, place| next_to(corners, place, (-1, -1)),
            |corners, place| next_to(corners, place, (1, 1)),
            |corners, place| next_to(corners, place, (-1, 1)),
            |corners, place| next_to(corners, place, (1, -1)),
        ];
    }),
    ("beyond the first column anything", "lft", |h| {
        h.questions[0] = |corners, place| place.0 == 0 || lower_u(corners, place);
    }),
    ("beyond the last column anything", "lft", |h| {
        h.questions[1] = |corners, place| place.0 == most(corners).0 || higher_u(corners, place);
    }),
    ("beyond the first row anything", "lft", |h| {
        h.questions[2] = |corners, place| place.1 == 0 || lower_v(corners, place);
    }),
    ("beyond the last row anything", "lft", |h| {
        h.questions[3] = |corners, place| place.1 == most(corners).1 || higher_v(corners, place);
    }),
    ("a corner anywhere at a lower u", "lft", |h| {
        h.questions[0] = |corners, (u, _)| corners.iter().any(|corner| corner.0 < u);
    }),
    ("a corner anywhere at a higher v", "lft", |h| {
        h.questions[3] = |corners, (_, v)| corners.iter().any(|corner| corner.1 > v);
    }),
];

/// In what holds a place, and in whose corners are asked.
const OF_CORNERS: [Mistake; 15] = [
    ("places claimed twice held", "lft", |h| {
        h.held = |sheets, place| with_contested(last(sheets)).contains(&place);
    }),
    ("places claimed twice beside others", "lft", |h| {
        h.asked = |sheets, number| with_contested(&sheets[number]);
    }),
    ("a place claimed twice beside itself", "lft", |h| {
        h.asked = |sheets, number| with_contested(&sheets[number]);
        h.questions = [
            |corners, (u, v)| row_ends(corners, v).is_some_and(|[low, _]| low <= u),
            |corners, (u, v)| row_ends(corners, v).is_some_and(|[_, high]| high >= u),
            |corners, (u, v)| column_ends(corners, u).is_some_and(|[low, _]| low <= v),
            |corners, (u, v)| column_ends(corners, u).is_some_and(|[_, high]| high >= v),
        ];
    }),
    ("listed corners among the holes", "lft", |h| h.held = |_, _| false),
    ("the corners of all components", "lft", |h| h.asked = |sheets, _| all_listed(sheets)),
    ("the corners of the components so far", "lft", |h| {
        h.asked = |sheets, number| all_listed(&sheets[..=number]);
    }),
    ("the corners of this component and the next", "lft", |h| {
        h.asked = |sheets, number| all_listed(&sheets[number..sheets.len().min(number + 2)]);
    }),
    ("the corners of the component before", "lft", |h| {
        h.asked = |sheets, number| sheets[number.saturating_sub(1)].listed.clone();
    }),
    ("the corners of the first component", "lft", |h| {
        h.asked = |sheets, _| sheets[0].listed.clone();
    }),
    ("rows left over where there is no corner", "lft", |h| {
        h.asked = |sheets, number| left_over(sheets, number, true, false);
    }),
    ("columns left over where there is no corner", "lft", |h| {
        h.asked = |sheets, number| left_over(sheets, number, false, true);
    }),
    ("rows and columns left over", "lft", |h| {
        h.asked = |sheets, number| left_over(sheets, number, true, true);
    }),
    ("a place held by any component", "lft", |h| {
        h.held = |sheets, place| all_listed(sheets).contains(&place);
    }),
    ("a place held by the component before alone", "lft", |h| {
        h.held = |sheets, place| sheets[sheets.len().saturating_sub(2)].listed.contains(&place);
    }),
    ("the place next to it held", "lft", |h| {
        h.held = |sheets, (u, v)| last(sheets).listed.contains(&(u + 1, v));
    }),
];

/// In the places gone through, and in what is reported.
const OF_PLACES: [Mistake; 12] = [
    ("as many columns as rows", "lft", |h| {
        h.places = |sheet| up_to((sheet.most().1, sheet.most().1))
    }),
    ("as many rows as columns", "lft", |h| {
        h.places = |sheet| up_to((sheet.most().0, sheet.most().0))
    }),
    ("rows for columns", "lft", |h| h.places = |sheet| up_to((sheet.most().1, sheet.most().0))),
    ("all columns but the last two", "lft", |h| {
        h.places = |sheet| up_to((sheet.most().0 - 2, sheet.most().1));
    }),
    ("all rows but the last two", "lft", |h| {
        h.places = |sheet| up_to((sheet.most().0, sheet.most().1 - 2));
    }),
    ("two places from every rim", "lft", |h| {
        h.places = |sheet| {
            let (u, v) = sheet.most();
            let inside = |&(x, y): &Pair| x > 1 && y > 1 && x < u - 1 && y < v - 1;
            up_to((u, v)).into_iter().filter(inside).collect()
        };
    }),
    ("columns up to 31", "lf", |h| {
        h.places = |sheet| up_to((sheet.most().0.min(31), sheet.most().1));
    }),
    ("rows up to 31", "lf", |h| h.places = |sheet| up_to((sheet.most().0, sheet.most().1.min(31)))),
    ("columns up to 255", "l", |h| {
        h.places = |sheet| up_to((sheet.most().0.min(255), sheet.most().1));
    }),
    ("one hole at most", "lft", |h| h.reported = |counts| *counts.last().unwrap_or(&0).min(&1)),
    ("the sum so far", "lft", |h| h.reported = |counts| counts.iter().sum()),
    ("the first component's for all", "lft", |h| h.reported = |counts| counts[0]),
];

#[test]
fn the_rules_are_right() {
    for (sheets, right) in vectors().into_iter().flat_map(|(_, cases)| cases) {
        assert_eq!(RIGHT.answer(&sheets), right, "{sheets:?}");
    }
}

#[test]
fn every_mistake_is_told() {
    let vectors = vectors();
    for (name, tells, make) in [&OF_QUESTIONS[..], &OF_CORNERS, &OF_PLACES].concat() {
        let mut wrong = RIGHT;
        make(&mut wrong);
        for (kind, cases) in &vectors {
            let told =
                cases.iter().filter(|(sheets, right)| wrong.answer(sheets) != *right).count();
            println!("{name}: {told} of {} {kind}", cases.len());
            assert_eq!(told > 0, tells.contains(*kind), "{name}: {kind}");
        }
    }
}

/// A place that is not held has no listed corner on it, so that it does not matter whether its row
/// and its column are asked up to it or through it; nor does a larger rectangle, beyond which no
/// corner is.
#[test]
fn what_is_no_mistake() {
    let mut through = RIGHT;
    through.questions = [
        |corners, (u, v)| row_ends(corners, v).is_some_and(|[low, _]| low <= u),
        |corners, (u, v)| row_ends(corners, v).is_some_and(|[_, high]| high >= u),
        |corners, (u, v)| column_ends(corners, u).is_some_and(|[low, _]| low <= v),
        |corners, (u, v)| column_ends(corners, u).is_some_and(|[_, high]| high >= v),
    ];
    let mut larger = RIGHT;
    larger.places = |sheet| up_to((sheet.most().0 + 1, sheet.most().1 + 2));
    for (sheets, right) in vectors().into_iter().flat_map(|(_, cases)| cases) {
        assert_eq!(through.answer(&sheets), right);
        assert_eq!(larger.answer(&sheets), right);
    }
}
