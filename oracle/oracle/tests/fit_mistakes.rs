// Mistakes in the fits of the classes' call: each gives another answer to some case of kind 10.

mod common {
    pub mod fits;
}

use common::fits::{greater, Fits, Side, RIGHT};
use frame::Frame;
use oracle::judge::Refusal;
use oracle::vectors::stages::fits::{fit_cases, Fitted};
use oracle::vectors::Vector;
use oracle::words;

/// The rows of the call in their order.
const ROWS: [u32; 7] = [1, 2, 3, 18, 4, 5, 6];

/// Fits tried behind a row and those before it.
fn behind<const ROW: u32>(other: &Refusal) -> bool {
    let place = |row: u32| ROWS.iter().position(|&other| other == row);
    place(other.row) <= place(ROW)
}

/// Fits written before a row is tried that then refuses.
fn written_before<const ROW: u32>(refusal: &Refusal, fits: &mut [f32]) {
    if refusal.row == ROW {
        fits.fill(-1.0);
    }
}

/// The first half-edge along the side that a half-edge runs along.
fn first_along(frame: &Frame, e: usize) -> usize {
    let (from, to) = frame.ends(e);
    (0..e).find(|&other| frame.ends(other) == (to, from)).unwrap_or(e)
}

/// The distance at the only end that has a match, or -1.
fn only_end(side: &Side) -> f32 {
    match side.ends {
        [Some(distance), None] | [None, Some(distance)] => distance,
        _ => -1.0,
    }
}

/// The distance at the only end with a match below the tolerance, or -1.
fn only_end_below(side: &Side) -> f32 {
    let below = side.ends.map(|end| end.filter(|&distance| distance < side.tolerance));
    below[0].or(below[1]).unwrap_or(-1.0)
}

/// The greater distance where it meets a test, or -1.
fn if_greater(side: &Side, test: impl Fn(f32) -> bool) -> f32 {
    side.both().map(greater).filter(|&fit| test(fit)).unwrap_or(-1.0)
}

type Mistake = (&'static str, fn(&mut Fits));

/// In the fit of a Grid half-edge.
const OF_GRIDS: [Mistake; 20] = [
    ("the lesser", |f| {
        f.grid = |side| {
            let [start, end] = side.grid();
            if end < start {
                end
            } else {
                start
            }
        };
    }),
    ("the end's where neither is greater", |f| {
        f.grid = |side| {
            let [start, end] = side.grid();
            greater([end, start])
        };
    }),
    ("the start's", |f| f.grid = |side| side.grid()[0]),
    ("the end's", |f| f.grid = |side| side.grid()[1]),
    ("the sum", |f| f.grid = |side| side.grid().iter().sum()),
    ("the mean", |f| f.grid = |side| side.grid().iter().sum::<f32>() / 2.0),
    ("the difference", |f| f.grid = |side| (side.grid()[0] - side.grid()[1]).abs()),
    ("0 taken for greater than -0", |f| {
        f.grid = |side| side.grid().into_iter().max_by(f32::total_cmp).unwrap();
    }),
    ("the greater by its bits", |f| {
        f.grid = |side| f32::from_bits(side.grid().map(f32::to_bits).into_iter().max().unwrap());
    }),
    ("-0 made 0", |f| f.grid = |side| greater(side.grid()).abs()),
    ("0 made -0", |f| {
        f.grid = |side| if greater(side.grid()) == 0.0 { -0.0 } else { greater(side.grid()) };
    }),
    ("slot 0's distances", |f| f.grid = |side| greater(side.slots.map(|slots| slots[0]))),
    ("slot 1's distances", |f| f.grid = |side| greater(side.slots.map(|slots| slots[1]))),
    ("the last slot on equal distance", |f| {
        f.grid = |side| {
            let last = |[first, second]: [f32; 2]| if first < second { first } else { second };
            greater(side.slots.map(last))
        };
    }),
    ("uninformative axes too", |f| {
        f.grid = |side| {
            let least = |[first, second]: [f32; 2]| if second < first { second } else { first };
            greater(side.slots.map(least))
        };
    }),
    ("-1", |f| f.grid = |_| -1.0),
    ("the tolerance", |f| f.grid = |side| side.tolerance),
    ("what is left to the tolerance", |f| f.grid = |side| side.tolerance - greater(side.grid())),
    ("a half-edge taken for its twin", |f| f.side = first_along),
    ("the next half-edge's", |f| {
        f.side = |frame, e| {
            let next = if e % 3 == 2 { e - 2 } else { e + 1 };
            let found = words::matches(frame, &words::axes(frame), next);
            if found.iter().all(Option::is_some) {
                next
            } else {
                e
            }
        };
    }),
];

/// In the fit of the others.
const OF_OTHERS: [Mistake; 18] = [
    ("a Diagonal's greater distance", |f| f.diagonal = |side| if_greater(side, |_| true)),
    ("0 for a Diagonal", |f| f.diagonal = |_| 0.0),
    ("NaN for a Diagonal", |f| f.diagonal = |_| f32::NAN),
    ("1 for a Diagonal", |f| f.diagonal = |_| 1.0),
    ("nothing for a Diagonal", |f| f.diagonal = |side| side.before),
    ("a Diagonal's only distance below the tolerance", |f| f.diagonal = only_end_below),
    ("a Spurious one's greater distance", |f| f.spurious = |side| if_greater(side, |_| true)),
    ("0 for a Spurious one", |f| f.spurious = |_| 0.0),
    ("NaN for a Spurious one", |f| f.spurious = |_| f32::NAN),
    ("1 for a Spurious one", |f| f.spurious = |_| 1.0),
    ("infinity for a Spurious one", |f| f.spurious = |_| f32::INFINITY),
    ("nothing for a Spurious one", |f| f.spurious = |side| side.before),
    ("nothing where a match is missing", |f| {
        f.spurious = |side| if side.both().is_none() { side.before } else { -1.0 };
    }),
    ("a Spurious one's distance at the only match", |f| f.spurious = only_end),
    ("a Spurious one's only distance below the tolerance", |f| f.spurious = only_end_below),
    ("a greater distance equal to the tolerance", |f| {
        f.spurious = |side| if_greater(side, |fit| fit <= side.tolerance);
    }),
    ("a start equal to the tolerance", |f| {
        f.spurious = |side| match side.both() {
            Some([start, end]) if start == side.tolerance && end < start => start,
            _ => -1.0,
        };
    }),
    ("an end equal to the tolerance", |f| {
        f.spurious = |side| match side.both() {
            Some([start, end]) if end == side.tolerance && start < end => end,
            _ => -1.0,
        };
    }),
];

/// In row 1 over the fits, and in what refusals leave.
const OF_ROWS: [Mistake; 26] = [
    ("any number of fits", |f| f.pairs = |_, _| true),
    ("fewer fits", |f| f.pairs = |fits, half_edges| fits <= half_edges),
    ("more fits", |f| f.pairs = |fits, half_edges| fits >= half_edges),
    ("one fit less", |f| f.pairs = |fits, half_edges| fits == half_edges || fits + 1 == half_edges),
    ("one fit more", |f| f.pairs = |fits, half_edges| fits == half_edges || fits == half_edges + 1),
    ("no fits", |f| f.pairs = |fits, half_edges| fits == half_edges || fits == 0),
    ("fits where there are no half-edges", |f| {
        f.pairs = |fits, half_edges| fits == half_edges || half_edges == 0;
    }),
    ("a fit for each triangle", |f| {
        f.pairs = |fits, half_edges| fits == half_edges || 3 * fits == half_edges;
    }),
    ("whole triangles of fits", |f| {
        f.pairs = |fits, half_edges| fits == half_edges || fits.is_multiple_of(3);
    }),
    ("fits behind row 2", |f| f.before = behind::<2>),
    ("fits behind row 3", |f| f.before = behind::<3>),
    ("fits behind row 18", |f| f.before = behind::<18>),
    ("fits behind row 4", |f| f.before = behind::<4>),
    ("fits behind row 5", |f| f.before = behind::<5>),
    ("fits behind row 6", |f| f.before = behind::<6>),
    ("the number of fits for a place", |f| f.told = |fits| [1, fits as u32]),
    ("told as row 9", |f| f.told = |_| [9, 0]),
    ("fits written before row 1", |f| f.refused = written_before::<1>),
    ("fits written before row 2", |f| f.refused = written_before::<2>),
    ("fits written before row 3", |f| f.refused = written_before::<3>),
    ("fits written before row 18", |f| f.refused = written_before::<18>),
    ("fits written before row 4", |f| f.refused = written_before::<4>),
    ("fits written before row 5", |f| f.refused = written_before::<5>),
    ("fits written before row 6", |f| f.refused = written_before::<6>),
    ("the triangles before row 6 written", |f| {
        f.refused = |refusal, fits| {
            if refusal.row == 6 {
                fits[..3 * refusal.place as usize].fill(-1.0);
            }
        };
    }),
    ("classes written before the fits are looked at", |f| f.classes_first = true),
];

#[test]
fn the_rules_are_right() {
    for fitted in fit_cases() {
        assert_eq!(RIGHT.answer(&fitted).parted(&fitted.answer()), None);
    }
}

#[test]
fn every_mistake_is_told() {
    let cases: Vec<_> = fit_cases().into_iter().map(|case| (case.clone(), case.answer())).collect();
    for (name, make) in [&OF_GRIDS[..], &OF_OTHERS, &OF_ROWS].concat() {
        let mut wrong = RIGHT;
        make(&mut wrong);
        let told = cases.iter().filter(|(case, right)| wrong.answer(case) != *right).count();
        println!("{name}: {told} of {}", cases.len());
        assert!(told > 0, "{name} passes for right");
    }
}

/// Every row refuses some case with fits that pair, and some case is refused by row 1 in its stead.
#[test]
fn every_row_beside_fits() {
    for row in ROWS {
        let paired = |fitted: &Fitted| fitted.fits.len() == fitted.case.frame.half_edges();
        let own = |fitted: &Fitted| {
            let refusal = Fitted::of(fitted.case.clone()).refusal();
            refusal.is_some_and(|refusal| refusal.row == row)
        };
        let cases: Vec<Fitted> = fit_cases().into_iter().filter(own).collect();
        let (paired, off): (Vec<_>, Vec<_>) = cases.iter().partition(|case| paired(case));
        let longer = |case: &&&Fitted| case.fits.len() > case.case.frame.half_edges();
        let long = off.iter().filter(longer).count();
        assert!(!paired.is_empty() && long > 0 && off.len() > long, "row {row}");
        assert!(paired.iter().all(|case| case.refusal().map(|r| r.row) == Some(row)));
        assert!(off.iter().all(|case| case.refusal() == Some(Refusal::at(1, 0))));
    }
}
