//! Numbers for the values of a class of columns: 1 for the first that is met, and so on. Nothing is ever forgotten, so that a number means one value for as long
//! as the session lasts.

use std::collections::HashMap;
use std::rc::Rc;

use source::Value;

/// The numbers of a class.
#[derive(Clone, Debug)]
pub(crate) struct Dictionary {
    numbers: HashMap<Rc<Value>, u32>,
    values: Vec<Rc<Value>>,
    most: u32,
}

/// All numbers are given.
#[derive(Clone, Copy, Debug, PartialEq, Eq)]
pub(crate) struct Full;

impl Dictionary {
    pub(crate) fn new() -> Dictionary {
        Dictionary::of_most(u32::MAX)
    }

    /// A dictionary of so many numbers at most.
    fn of_most(most: u32) -> Dictionary {
        Dictionary {
            numbers: HashMap::new(),
            values: Vec::new(),
            most,
        }
    }

    /// The number of a value, which gets one if it has none.
    pub(crate) fn number(&mut self, value: &Value) -> Result<u32, Full> {
        if let Some(&number) = self.numbers.get(value) {
            return Ok(number);
        }
        let last = u32::try_from(self.values.len()).unwrap_or(u32::MAX);
        if last >= self.most {
            return Err(Full);
        }
        let value = Rc::new(value.clone());
        self.values.push(Rc::clone(&value));
        self.numbers.insert(value, last + 1);
        Ok(last + 1)
    }

    /// The value that has a number.
    pub(crate) fn value(&self, number: u32) -> Option<&Value> {
        let place = usize::try_from(number).ok()?.checked_sub(1)?;
        self.values.get(place).map(Rc::as_ref)
    }
}

#[cfg(test)]
mod tests {
    use super::{Dictionary, Full};
    use source::Value;

    #[test]
    fn numbers_rise_from_one_and_stay() {
        let mut dictionary = Dictionary::new();
        let [first, second] = [Value::Text("W-NORD".into()), Value::Number(-7)];
        assert_eq!(dictionary.number(&first), Ok(1));
        assert_eq!(dictionary.number(&second), Ok(2));
        assert_eq!(dictionary.number(&first), Ok(1));
        assert_eq!(dictionary.value(1), Some(&first));
        assert_eq!(dictionary.value(2), Some(&second));
        assert_eq!(dictionary.value(0), None);
        assert_eq!(dictionary.value(3), None);
    }

    /// 4,294,967,295 values are more than a test can have: a dictionary of two numbers stands for it.
    #[test]
    fn a_full_dictionary_gives_no_number_twice() {
        let mut dictionary = Dictionary::of_most(2);
        for number in 1..=2 {
            assert_eq!(dictionary.number(&Value::Number(number)), Ok(number as u32));
        }
        assert_eq!(dictionary.number(&Value::Number(3)), Err(Full));
        assert_eq!(dictionary.number(&Value::Number(1)), Ok(1));
        assert_eq!(dictionary.value(3), None);
    }
}
