//! The form store: forms 1 to 20, kept packed within one total.

pub const FORMS: usize = 20;

pub struct FormStore {
    forms: Vec<Option<Vec<u8>>>,
    /// The most bytes of one form, and of all.
    longest: usize,
    total: usize,
}

impl FormStore {
    /// The packed store.
    pub fn packed() -> FormStore {
        FormStore::with_limits(1024, 8192)
    }

    pub fn with_limits(longest: usize, total: usize) -> FormStore {
        FormStore { forms: vec![None; FORMS], longest, total }
    }

    pub fn get(&self, number: u8) -> Option<&[u8]> {
        self.forms.get(usize::from(number).checked_sub(1)?)?.as_deref()
    }

    /// Replaces one form, or answers 19 (too long) or 20 (full) and changes nothing.
    pub fn put(&mut self, number: u8, form: &[u8]) -> Result<(), u8> {
        let number = usize::from(number);
        if !(1..=FORMS).contains(&number) || form.len() > self.longest {
            return Err(19);
        }
        let mut others = 0;
        for (i, other) in self.forms.iter().enumerate() {
            if i + 1 != number {
                others += other.as_ref().map_or(0, Vec::len);
            }
        }
        if others + form.len() > self.total {
            return Err(20);
        }
        self.forms[number - 1] = Some(form.to_vec());
        Ok(())
    }

    pub fn clear(&mut self) {
        self.forms.fill(None);
    }
}
