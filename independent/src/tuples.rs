//! The one search for tuples: sets of two or more pairwise disjoint clusters
//! whose union is a given cluster. From what a row length is (RULES 5). Used
//! for row lengths, and for the rescoring formulas on tables that no build
//! made; never for the trees of a list.

/// Hands every such set of at most `most` of the `clusters` (ascending, as
/// indices) to `visit`. Sets are tried with rising indices, so each comes
/// once.
pub fn each_tuple(clusters: &[u32], whole: u32, most: usize, visit: &mut dyn FnMut(&[usize])) {
    let small = |&i: &usize| clusters[i] != whole && clusters[i] & !whole == 0;
    let within: Vec<usize> = (0..clusters.len()).filter(small).collect();
    let mut trial = Trial { clusters, within, most, chosen: Vec::new(), visit };
    trial.extend(0, whole);
}

struct Trial<'a> {
    clusters: &'a [u32],
    within: Vec<usize>,
    most: usize,
    chosen: Vec<usize>,
    visit: &'a mut dyn FnMut(&[usize]),
}

impl Trial<'_> {
    /// `missing` is what the chosen clusters leave uncovered.
    fn extend(&mut self, from: usize, missing: u32) {
        if missing == 0 {
            (self.visit)(&self.chosen);
            return;
        }
        if self.chosen.len() + 1 == self.most {
            self.close(from, missing);
            return;
        }
        for at in from..self.within.len() {
            let c = self.clusters[self.within[at]];
            if c & !missing == 0 {
                self.chosen.push(self.within[at]);
                self.extend(at + 1, missing & !c);
                self.chosen.pop();
            }
        }
    }

    /// Only one more may be chosen, so it has to be all that is missing.
    fn close(&mut self, from: usize, missing: u32) {
        let rest = &self.within[from..];
        if let Ok(at) = rest.binary_search_by_key(&missing, |&i| self.clusters[i]) {
            self.chosen.push(rest[at]);
            (self.visit)(&self.chosen);
            self.chosen.pop();
        }
    }
}
