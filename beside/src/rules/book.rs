//! The book: a site that is built link by link, with at most 32 links each.

use super::refusal::{check_count, refuse, Refusal};
use super::site::Site;

/// How many links a station of a book holds at most.
pub const MOST_LINKS: usize = 32;

#[derive(Clone, Debug, Default)]
pub struct Book {
    pub site: Site,
}

impl Book {
    pub fn lay_out(&mut self, n: usize) -> Result<(), Refusal> {
        check_count(n)?;
        self.site = Site::without_links(n);
        Ok(())
    }

    pub fn link(&mut self, a: usize, b: usize) -> Result<(), Refusal> {
        self.check_ends(a, b)?;
        if self.site.linked(a, b) {
            return refuse(4, a.min(b));
        }
        let full = |end: &usize| self.site.neighbours(*end).len() >= MOST_LINKS;
        if let Some(first) = [a, b].into_iter().find(full) {
            return refuse(6, first);
        }
        self.site.set(a, b);
        Ok(())
    }

    pub fn unlink(&mut self, a: usize, b: usize) -> Result<(), Refusal> {
        self.check_ends(a, b)?;
        if !self.site.linked(a, b) {
            return refuse(5, a.min(b));
        }
        self.site.take_away(a, b);
        Ok(())
    }

    fn check_ends(&self, a: usize, b: usize) -> Result<(), Refusal> {
        let n = self.site.n();
        check_count(n)?;
        if let Some(first) = [a, b].into_iter().find(|&end| end >= n) {
            return refuse(2, first);
        }
        if a == b {
            return refuse(3, a);
        }
        Ok(())
    }
}
