//! A talk: lines for `console`, and what it should print for each.

use crate::random::Random;
use crate::rules::console::Console;
use crate::rules::plan::Plan;
use crate::rules::site::Site;

#[derive(Default)]
pub struct Talk {
    console: Console,
    pub lines: Vec<Vec<u8>>,
    pub printed: Vec<Vec<u8>>,
}

impl Talk {
    /// The talk of these lines.
    pub fn of(lines: &[Vec<u8>]) -> Talk {
        let mut talk = Talk::default();
        lines.iter().for_each(|line| talk.say(line.clone()));
        talk
    }

    pub fn say(&mut self, line: impl Into<Vec<u8>>) {
        let line = line.into();
        assert!(!line.contains(&b'\n'), "a line has no LF within");
        self.printed.push(self.console.print(&line));
        self.lines.push(line);
    }

    /// The site of the book as it stands.
    pub fn site(&self) -> &Site {
        self.console.site()
    }

    /// The plan of that site. There have to be stations.
    pub fn plan(&mut self) -> Plan {
        self.console.plan().expect("the book has stations")
    }

    /// Lays out the site and sets its links in some order, from either end, with other lines in between.
    pub fn build(&mut self, random: &mut Random, site: &Site, between: fn(&mut Talk, &mut Random)) {
        self.say(format!("lay out {}", site.n()));
        let mut links = site.links();
        random.shuffle(&mut links);
        for (a, b) in links {
            if random.once_in(8) {
                between(self, random);
            }
            let (a, b) = if random.once_in(2) { (a, b) } else { (b, a) };
            self.say(format!("link {a} {b}"));
        }
    }
}
