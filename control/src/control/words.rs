use std::slice::Iter;

/// The words of a command, from SM on. They may be any bytes.
#[derive(Clone, Debug, PartialEq, Eq)]
pub struct Words(Box<[Box<[u8]>]>);

impl Words {
    /// Copies these words.
    pub fn of(words: impl IntoIterator<Item = impl AsRef<[u8]>>) -> Words {
        Words(words.into_iter().map(|it| it.as_ref().into()).collect())
    }

    /// Returns how many there are.
    pub fn len(&self) -> usize {
        self.0.len()
    }

    /// Returns whether there are none.
    pub fn is_empty(&self) -> bool {
        self.0.is_empty()
    }

    /// Returns the word at this place. Place 0 is SM; past the last one the word is empty.
    pub fn get(&self, index: usize) -> &[u8] {
        self.0.get(index).map_or(&[], |it| it)
    }

    /// Returns whether the word at this place is this one, in any case.
    pub fn is(&self, index: usize, word: &str) -> bool {
        index < self.len() && self.get(index).eq_ignore_ascii_case(word.as_bytes())
    }

    /// Returns all words in order.
    pub fn iter(&self) -> Iter<'_, Box<[u8]>> {
        self.0.iter()
    }

    /// Returns the shard or the server at this place, if the word there is a number.
    pub(super) fn number(&self, index: usize) -> Option<u16> {
        let digits = self.get(index);
        // A number has only one valid form.
        let is_plain =
            digits == b"0" || digits.first().is_some_and(|it| (b'1'..=b'9').contains(it));
        let text = std::str::from_utf8(digits).ok().filter(|_| is_plain)?;
        text.parse().ok()
    }
}

impl<'a> IntoIterator for &'a Words {
    type Item = &'a Box<[u8]>;
    type IntoIter = Iter<'a, Box<[u8]>>;

    fn into_iter(self) -> Iter<'a, Box<[u8]>> {
        self.iter()
    }
}

#[cfg(test)]
mod tests {
    use super::*;

    #[test]
    fn a_number_is_written_in_one_way() {
        let numbers = ["0", "4095", "65536", "-1", "+1", "01", "", "a", " 1"];
        let words = Words::of(numbers);
        let read: Vec<_> = (0..numbers.len()).map(|it| words.number(it)).collect();
        let none = [None; 7];
        assert_eq!(read[..2], [Some(0), Some(4_095)]);
        assert_eq!(read[2..], none);
    }
}
