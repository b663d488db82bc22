//! What was found: each thing once, in the order in which it was found.

#[derive(Clone, Debug, Default)]
pub struct Findings {
    all: Vec<String>,
}

impl Findings {
    pub fn add(&mut self, finding: String) {
        if !self.all.contains(&finding) {
            self.all.push(finding);
        }
    }

    pub fn into_list(self) -> Vec<String> {
        self.all
    }
}
