// Document 02's holes, in parts each of which can be got wrong.

pub type Pair = (i32, i32);

/// What is known of one component.
#[derive(Clone, Debug, Default)]
pub struct Sheet {
    /// The places of its listed corners.
    pub listed: Vec<Pair>,
    /// The places that several of its corners claim.
    pub contested: Vec<Pair>,
}

impl Sheet {
    /// The greatest u and the greatest v of the listed corners.
    pub fn most(&self) -> Pair {
        let most = |of: fn(&Pair) -> i32| self.listed.iter().map(of).max().unwrap_or(-1);
        (most(|place| place.0), most(|place| place.1))
    }
}

/// Whether the corners at these places give a place what is asked.
pub type Question = fn(&[Pair], Pair) -> bool;

/// The rules, each of which can be got wrong.
pub struct Holes {
    /// Of the row at a lower and at a higher u; of the column at a lower and at a higher v.
    pub questions: [Question; 4],
    /// Whether a place with these answers counts.
    pub counts: fn([bool; 4]) -> bool,
    /// Whether a place is held, of all components up to this one.
    pub held: fn(&[Sheet], Pair) -> bool,
    /// The corners that the questions are asked of, of all components and this one's number.
    pub asked: fn(&[Sheet], usize) -> Vec<Pair>,
    /// The places that are gone through.
    pub places: fn(&Sheet) -> Vec<Pair>,
    /// What a component reports, of the counts of all up to it.
    pub reported: fn(&[u32]) -> u32,
}

pub fn lower_u(corners: &[Pair], (u, v): Pair) -> bool {
    corners.iter().any(|&(x, y)| y == v && x < u)
}

pub fn higher_u(corners: &[Pair], (u, v): Pair) -> bool {
    corners.iter().any(|&(x, y)| y == v && x > u)
}

pub fn lower_v(corners: &[Pair], (u, v): Pair) -> bool {
    corners.iter().any(|&(x, y)| x == u && y < v)
}

pub fn higher_v(corners: &[Pair], (u, v): Pair) -> bool {
    corners.iter().any(|&(x, y)| x == u && y > v)
}

/// The places from (0,0) to these numbers.
pub fn up_to((u, v): Pair) -> Vec<Pair> {
    (0..=u).flat_map(|x| (0..=v).map(move |y| (x, y))).collect()
}

pub fn last(sheets: &[Sheet]) -> &Sheet {
    sheets.last().expect("the component itself")
}

pub const RIGHT: Holes = Holes {
    questions: [lower_u, higher_u, lower_v, higher_v],
    counts: |answers| answers == [true; 4],
    held: |sheets, place| last(sheets).listed.contains(&place),
    asked: |sheets, number| sheets[number].listed.clone(),
    places: |sheet| up_to(sheet.most()),
    reported: |counts| *counts.last().unwrap_or(&0),
};

impl Holes {
    fn of(&self, sheets: &[Sheet], number: usize) -> u32 {
        let asked = (self.asked)(sheets, number);
        let hole = |&place: &Pair| {
            let held = (self.held)(&sheets[..=number], place);
            !held && (self.counts)(self.questions.map(|question| question(&asked, place)))
        };
        (self.places)(&sheets[number]).iter().filter(|place| hole(place)).count() as u32
    }

    /// The holes of each component.
    pub fn answer(&self, sheets: &[Sheet]) -> Vec<u32> {
        let counts: Vec<u32> = (0..sheets.len()).map(|number| self.of(sheets, number)).collect();
        (1..=counts.len()).map(|upto| (self.reported)(&counts[..upto])).collect()
    }
}
