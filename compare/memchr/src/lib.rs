//! Stand-in for the crate `memchr`: the functions that the Rust source calls, over the C library's `memchr` and `memmem` so that the
//! benchmarks don't hold a slow search against ours. `Finder` finds leftmost occurrences that don't overlap.

use core::ffi::{c_int, c_void};

extern "C" {
    #[link_name = "memchr"]
    fn c_memchr(s: *const c_void, c: c_int, n: usize) -> *const c_void;
    #[link_name = "memmem"]
    fn c_memmem(s: *const c_void, n: usize, needle: *const c_void, m: usize) -> *const c_void;
}

pub fn memchr(needle: u8, haystack: &[u8]) -> Option<usize> {
    if haystack.is_empty() {
        return None;
    }
    // SAFETY: the pointer and the length are those of one slice.
    let found = unsafe { c_memchr(haystack.as_ptr().cast(), needle as c_int, haystack.len()) };
    (!found.is_null()).then(|| found as usize - haystack.as_ptr() as usize)
}

pub fn memchr_iter(needle: u8, haystack: &[u8]) -> impl Iterator<Item = usize> + '_ {
    let mut from = 0;
    std::iter::from_fn(move || {
        let at = from + memchr(needle, &haystack[from..])?;
        from = at + 1;
        Some(at)
    })
}

pub fn memchr2_iter(a: u8, b: u8, haystack: &[u8]) -> impl Iterator<Item = usize> + '_ {
    haystack.iter().enumerate().filter(move |(_, &x)| x == a || x == b).map(|(i, _)| i)
}

pub fn memchr3_iter(a: u8, b: u8, c: u8, haystack: &[u8]) -> impl Iterator<Item = usize> + '_ {
    haystack.iter().enumerate().filter(move |(_, &x)| x == a || x == b || x == c).map(|(i, _)| i)
}

pub mod memmem {
    use super::c_memmem;

    pub struct Finder<'n> {
        needle: &'n [u8],
    }

    impl<'n> Finder<'n> {
        pub fn new(needle: &'n [u8]) -> Self {
            Finder { needle }
        }

        pub fn find_iter<'h>(&self, haystack: &'h [u8]) -> FindIter<'n, 'h> {
            FindIter { needle: self.needle, haystack, from: 0 }
        }
    }

    pub struct FindIter<'n, 'h> {
        needle: &'n [u8],
        haystack: &'h [u8],
        from: usize,
    }

    impl Iterator for FindIter<'_, '_> {
        type Item = usize;

        fn next(&mut self) -> Option<usize> {
            let rest = self.haystack.get(self.from..)?;
            if rest.len() < self.needle.len() {
                return None;
            }
            // SAFETY: pointers and lengths are those of two slices.
            let found =
                unsafe { c_memmem(rest.as_ptr().cast(), rest.len(), self.needle.as_ptr().cast(), self.needle.len()) };
            if found.is_null() {
                return None;
            }
            let at = self.from + (found as usize - rest.as_ptr() as usize);
            self.from = at + self.needle.len().max(1);
            Some(at)
        }
    }
}

#[cfg(test)]
mod tests {
    use super::memmem::Finder;

    fn naive(haystack: &[u8], needle: &[u8]) -> Vec<usize> {
        let mut out = Vec::new();
        let mut at = 0;
        while at + needle.len() <= haystack.len() {
            if &haystack[at..at + needle.len()] == needle {
                out.push(at);
                at += needle.len().max(1);
            } else {
                at += 1;
            }
        }
        out
    }

    // Every text of up to eight bytes over two letters, with every query of one to four.
    #[test]
    fn finds_are_leftmost_and_do_not_overlap() {
        let texts = |n: u32| (0..1u32 << n).map(move |bits| (0..n).map(|i| b'a' + (bits >> i & 1) as u8).collect::<Vec<u8>>());
        for text in (0..=8).flat_map(texts) {
            for query in (1..=4).flat_map(texts) {
                assert_eq!(Finder::new(&query).find_iter(&text).collect::<Vec<_>>(), naive(&text, &query));
            }
            assert_eq!(super::memchr_iter(b'b', &text).collect::<Vec<_>>(), naive(&text, b"b"));
        }
    }
}
