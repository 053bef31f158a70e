//! A list of numbers, and one number for it. A length stands before each list, 0 for what is not
//! there, and 1 before what is.

const PRIME: u128 = 2305843009213693951;

/// h = (h * 1000003 + x + 1) mod (2^61 - 1) for each x.
pub fn hash(start: u64, list: &[u64]) -> u64 {
    list.iter().fold(start, |h, x| {
        ((u128::from(h) * 1_000_003 + u128::from(*x) + 1) % PRIME) as u64
    })
}

#[derive(Clone, Debug, Default)]
pub struct Numbers {
    pub list: Vec<u64>,
    /// Where a part begins, and what it is: to find the first number that differs.
    pub parts: Vec<(usize, String)>,
}

impl Numbers {
    pub fn part(&mut self, name: impl Into<String>) {
        self.parts.push((self.list.len(), name.into()));
    }

    pub fn put(&mut self, number: u64) {
        self.list.push(number);
    }

    pub fn all(&mut self, numbers: &[u64]) {
        self.list.extend_from_slice(numbers);
    }

    pub fn bit(&mut self, bit: bool) {
        self.put(u64::from(bit));
    }

    pub fn maybe<T>(&mut self, value: Option<T>, put: impl FnOnce(&mut Self, T)) {
        match value {
            None => self.put(0),
            Some(value) => {
                self.put(1);
                put(self, value);
            }
        }
    }

    pub fn text(&mut self, text: &[u8]) {
        self.put(text.len() as u64);
        self.list.extend(text.iter().map(|byte| u64::from(*byte)));
    }

    pub fn maybe_text(&mut self, text: Option<&[u8]>) {
        self.maybe(text, |numbers, text| numbers.text(text));
    }
}
