//! Which legs from a place are the only least way from their first line to their end, before it is asked
//! for other first lines with the same marks. Such a leg is called sole here.
//!
//! One search onward from the place's own line serves all of these legs. It goes along with the
//! stretch, up to the place where another way is not longer, and no further.
//!
//! - A leg is sole to its last line just if the one before it is, and every other line that arrives where
//!   the last line begins comes a longer way or is banned before it. So once a way of the map is not
//!   longer, no later leg is sole, unless that way's class is too low for it.
//! - A leg is sole to its end node if it is sole to its last line and every other line that arrives there
//!   comes a longer way.
//! - A leg that is sole under a class is so under a higher one, and so are the legs with fewer lines
//!   before the same end.

use crate::depot_map::Direction;
use crate::fields::LONGEST_LEG;
use crate::leg_tests::LegTester;
use crate::places::Places;
use crate::search::Bounds;
use crate::writer::MOST_LINES;

/// The legs from one place, up to the furthest that may be.
pub struct Row {
    pub from: usize,
    pub furthest: usize,
    /// The lowest class of the leg to each place.
    classes: [u8; MOST_LINES + 1],
}

impl Row {
    /// The first place from this one on to which the leg has this class or a lower one.
    fn first_of_class(&self, place: usize, class: u8) -> usize {
        let classes = self.classes[place..=self.furthest].iter();
        place + classes.take_while(|&&of_leg| of_leg < class).count()
    }

    /// The last place to which the leg has the class of the leg to this one.
    fn last_of_class(&self, place: usize) -> usize {
        self.first_of_class(place, self.classes[place] + 1) - 1
    }
}

/// Which sole legs are asked for.
#[derive(Clone, Copy, PartialEq, Eq)]
pub enum Wanted {
    All,
    Furthest,
}

/// A way that leaves the stretch at one place and is not longer to another: the legs from before the
/// first to the other are not sole, if their class is not higher than the way's.
#[derive(Clone, Copy, Default)]
pub struct Detour {
    departs: usize,
    class: u8,
}

/// The places to which legs are known to be sole, and those of which it is not known yet.
struct Found {
    open: Places,
    sole: Places,
}

impl Found {
    fn take(&mut self, place: usize) {
        self.sole.insert(place);
        self.open.remove(place);
    }
}

/// What else arrives at a place of the stretch, as soon as the stretch itself or sooner.
enum Others {
    None,
    /// Such lines alone as are banned before the next line of the stretch; one of them.
    Banned(u32),
    /// One that may go on to the next line.
    Allowed(u32),
}

impl LegTester<'_> {
    pub fn row(&self, from: usize) -> Row {
        let mut row = Row {
            from,
            furthest: from,
            classes: [0; MOST_LINES + 1],
        };
        let mut class = 0;
        for (place, &line) in (from + 1..).zip(&self.lines[from..]) {
            if self.leg_length(from, place) > LONGEST_LEG {
                break;
            }
            class = class.max(self.map.line(line).frc);
            row.classes[place] = class;
            row.furthest = place;
        }
        row
    }

    /// The places of these to which the legs are sole, or the furthest of them at least.
    pub fn sole_places(&mut self, row: &Row, mut open: Places, wanted: Wanted) -> Places {
        for place in open.iter() {
            let detour = self.detours[place];
            if row.from < detour.departs && row.classes[place] >= detour.class {
                open.remove(place);
            }
        }
        let sole = Places::NONE;
        let mut found = Found { open, sole };
        if open.contains(row.from + 1) {
            found.take(row.from + 1);
        }
        while let Some(goal) = self.look_ahead(row, found.open) {
            self.follow(row, goal, &mut found);
            if let (Wanted::Furthest, Some(last)) = (wanted, found.sole.last()) {
                found.open = found.open.from(last + 1);
            }
        }
        if let Some(last) = found.sole.last() {
            self.reach = self.leg_length(row.from, last);
        }
        found.sole
    }

    /// The place whose class the next search is under: where the legs get as long as those from the place
    /// before or half as long again as the first that is asked for.
    fn look_ahead(&self, row: &Row, open: Places) -> Option<usize> {
        let first = open.first()?;
        let length = self.leg_length(row.from, first);
        let goal = self.reach.max(length + length / 2);
        let mut ahead = first;
        for place in open.iter() {
            if self.leg_length(row.from, place) > goal {
                break;
            }
            ahead = place;
        }
        Some(ahead)
    }

    /// Searches under the class of the leg to the goal, which is decided then, and further along the legs
    /// of that class.
    fn follow(&mut self, row: &Row, goal: usize, found: &mut Found) {
        let count = self.lines.len();
        let end = row.last_of_class(goal);
        let bounds = Bounds {
            first: self.lines[row.from],
            class: row.classes[goal],
            limit: self.leg_length(row.from, end.min(count - 1)),
        };
        self.effort.searches += 1;
        self.search.begin(self.map, bounds);
        for place in row.from + 1..=end {
            self.effort.leg_tests += 1;
            if place == count {
                found.take(place);
                return;
            }
            let length = self.leg_length(row.from, place);
            let others = self.search_up_to(place, length, bounds);
            if self.ends_with(row, place, others, found) {
                return;
            }
            // To come back to the first line is not the least way to it.
            if self.lines[place] == bounds.first {
                found.open = found.open.before(place + 1);
                return;
            }
        }
    }

    /// Takes down what these others mean. Gives whether no leg to a later place is sole under the class
    /// of the search.
    fn ends_with(&mut self, row: &Row, place: usize, others: Others, found: &mut Found) -> bool {
        match others {
            Others::None => found.take(place),
            Others::Banned(line) => {
                let detour = self.detour(row, place, line);
                if row.classes[place] >= detour.class {
                    self.detours[place] = detour;
                    found.open.remove(place);
                }
            }
            Others::Allowed(line) => {
                let detour = self.detour(row, place, line);
                self.detours[place..=row.furthest].fill(detour);
                let first = row.first_of_class(place, detour.class);
                found.open = found.open.before(first);
                return true;
            }
        }
        false
    }

    /// Goes on with the search up to the length of the leg to this place, or until it is known that
    /// something else may go on there.
    #[inline]
    fn search_up_to(&mut self, place: usize, length: u32, bounds: Bounds) -> Others {
        let node = self.map.line(self.lines[place]).start;
        let is_met = self.search.advance(self.map, bounds, length, Some(node));
        let others = self.others(place, length);
        if !is_met || matches!(others, Others::Allowed(_)) {
            return others;
        }
        self.search.advance(self.map, bounds, length, None);
        self.others(place, length)
    }

    /// After a search up to this length, which is that of the leg to this place.
    #[inline]
    fn others(&self, place: usize, length: u32) -> Others {
        let (own, next) = (self.lines[place - 1], self.lines[place]);
        let node = self.map.line(next).start;
        let mut others = Others::None;
        for arriving in self.map.view(Direction::Back).lines_at(node) {
            let line = arriving.line();
            if line == own || !self.search.is_within(line, length) {
                continue;
            }
            if !self.map.is_banned(line, next) {
                return Others::Allowed(line);
            }
            others = Others::Banned(line);
        }
        others
    }

    /// The way by which this line arrives at the place, from where it leaves the stretch for the last
    /// time.
    fn detour(&self, row: &Row, place: usize, arriving: u32) -> Detour {
        let mut departs = place;
        let mut class = 0;
        let mut line = arriving;
        while let Some(length) = self.search.least(line) {
            while self.leg_length(row.from, departs) > length {
                departs -= 1;
            }
            let is_own = self.lines[departs - 1] == line;
            if is_own && self.leg_length(row.from, departs) == length {
                break;
            }
            class = class.max(self.map.line(line).frc);
            let Some(before) = self.search.some_before(self.map, line) else {
                break;
            };
            line = before;
        }
        Detour { departs, class }
    }
}
