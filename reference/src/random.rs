//! A small random source (xorshift64*) and the texts made from it.

const WORDS: [&str; 108] = [
    "the", "of", "and", "a", "to", "in", "is", "you", "that", "it", "he", "was", "for", "on",
    "are", "as", "with", "his", "they", "I", "at", "be", "this", "have", "from", "or", "one",
    "had", "by", "word", "but", "not", "what", "all", "were", "we", "when", "your", "can", "said",
    "there", "use", "an", "each", "which", "she", "do", "how", "their", "if", "will", "up",
    "other", "about", "out", "many", "then", "them", "these", "so", "some", "her", "would", "make",
    "like", "him", "into", "time", "has", "look", "two", "more", "write", "go", "see", "number",
    "no", "way", "could", "people", "my", "than", "first", "water", "been", "call", "who", "oil",
    "its", "now", "find", "long", "down", "day", "did", "get", "come", "made", "may", "part",
    "please", "hello", "thanks", "phone", "tomorrow", "morning", "GA", "SK",
];

pub struct Random(u64);

impl Random {
    pub fn new(seed: u64) -> Random {
        // The state must not be 0.
        Random(seed.wrapping_mul(0x9E37_79B9_7F4A_7C15) | 1)
    }

    pub fn bits(&mut self) -> u64 {
        self.0 ^= self.0 >> 12;
        self.0 ^= self.0 << 25;
        self.0 ^= self.0 >> 27;
        self.0.wrapping_mul(0x2545_F491_4F6C_DD1D)
    }

    /// A number below `limit`, which must not be 0.
    pub fn below(&mut self, limit: usize) -> usize {
        (((self.bits() >> 32) * limit as u64) >> 32) as usize
    }

    /// True one time in `times`.
    pub fn one_in(&mut self, times: usize) -> bool {
        self.below(times) == 0
    }

    pub fn pick<T: Copy>(&mut self, from: &[T]) -> T {
        from[self.below(from.len())]
    }

    /// Bytes spread evenly below `limit` (at most 256).
    pub fn uniform(&mut self, length: usize, limit: usize) -> Vec<u8> {
        (0..length).map(|_| self.below(limit) as u8).collect()
    }

    /// English-like text: words, capitals, numbers and signs.
    pub fn english(&mut self, length: usize) -> Vec<u8> {
        let mut text = Vec::with_capacity(length + 16);
        while text.len() < length {
            match self.below(40) {
                0 => text.extend(self.below(2000).to_string().bytes()),
                1 => {
                    let word = self.pick(&WORDS);
                    text.push(word.as_bytes()[0].to_ascii_uppercase());
                    text.extend(word.bytes().skip(1));
                }
                _ => text.extend(self.pick(&WORDS).bytes()),
            }
            let end = match self.below(60) {
                0..=3 => ", ",
                4..=6 => ". ",
                7 => "? ",
                8 => "'s ",
                9 => "\r\n",
                10 => self.pick(&["! ", ": ", "; ", " - ", " (", ") ", " + ", "/"]),
                _ => " ",
            };
            text.extend(end.bytes());
        }
        text.truncate(length);
        text
    }
}
