//! The cache places of a record as a list of links, oldest first.

use crate::record::Record;

impl Record {
    /// The links in the cache places, without the unused ones at the end.
    pub fn cached_links(&self) -> Vec<u16> {
        let mut links = self.cached.to_vec();
        while links.last() == Some(&0) {
            links.pop();
        }
        links
    }

    /// Write the cache places: these links, and 0 in those that are left.
    pub fn set_cached(&mut self, links: &[u16]) {
        self.cached = [0; 4];
        self.cached[..links.len()].copy_from_slice(links);
    }
}
