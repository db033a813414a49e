//! The records of names in a sector of their own (02, A7).

/// A record's mark and length.
pub const HEAD: usize = 3;

/// "The mark 4E 52, a length of 1 to 32, and the scene's name in bytes 20 to 7E"; only a wrong copy
/// takes anything else.
pub struct Form {
    /// Whether the whole mark is asked for, and not its first byte alone.
    pub whole_mark: bool,
    pub shortest: u8,
    pub longest: u8,
    pub first_byte: u8,
    pub last_byte: u8,
    /// Whether a record that the sector's end cuts off is taken.
    pub past_end: bool,
}

impl Form {
    pub const RIGHT: Self = Self {
        whole_mark: true,
        shortest: 1,
        longest: 32,
        first_byte: 0x20,
        last_byte: 0x7E,
        past_end: false,
    };

    /// The whole good record that begins here, if one does.
    #[inline(always)]
    pub fn record<'a>(&self, bytes: &'a [u8]) -> Option<&'a [u8]> {
        let (length, rest) = self.marked(bytes)?;
        let name = match rest.get(..length) {
            None if self.past_end => rest,
            name => name?,
        };
        self.are_name_bytes(name).then(|| &bytes[..HEAD + name.len()])
    }

    /// The length of the name, if a mark and a good length stand here, and all that follows.
    #[inline(always)]
    pub fn marked<'a>(&self, bytes: &'a [u8]) -> Option<(usize, &'a [u8])> {
        let [0x4E, second, length, rest @ ..] = bytes else { return None };
        let is_mark = *second == 0x52 || !self.whole_mark;
        let length = usize::from(*length);
        (is_mark && self.is_length(length)).then_some((length, rest))
    }

    /// Whether these bytes are a good name.
    pub fn is_name(&self, bytes: &[u8]) -> bool {
        self.is_length(bytes.len()) && self.are_name_bytes(bytes)
    }

    #[inline(always)]
    fn is_length(&self, length: usize) -> bool {
        (usize::from(self.shortest)..=usize::from(self.longest)).contains(&length)
    }

    #[inline(always)]
    fn are_name_bytes(&self, bytes: &[u8]) -> bool {
        bytes.iter().all(|byte| (self.first_byte..=self.last_byte).contains(byte))
    }
}

/// The names that a reader sees: "the first place without a whole good record ends them".
pub fn names_of(image: &[u8]) -> impl Iterator<Item = &[u8]> {
    let mut rest = image;
    core::iter::from_fn(move || {
        let found = Form::RIGHT.record(rest)?;
        rest = &rest[found.len()..];
        Some(&found[HEAD..])
    })
}
