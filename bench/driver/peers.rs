//! The implementations, all with the same calls.

/// One implementation.
pub struct Peer {
    pub name: &'static str,
    pub read: fn(&[u64], &[u64], &mut [u64], u64) -> u64,
    pub letter: fn(&[u64], &mut [u64], u64) -> u64,
    pub comes: fn(&mut [u64], &mut [u64], u64) -> u64,
    pub goes: fn(&mut [u64], &mut [u64], u64) -> u64,
}

/// The calls of a C library, as functions over slices.
macro_rules! foreign {
    ($module:ident, $read:ident, $letter:ident, $comes:ident, $goes:ident) => {
        mod $module {
            unsafe extern "C" {
                fn $read(
                    note: *const u64,
                    note_len: usize,
                    here: *const u64,
                    here_len: usize,
                    out: *mut u64,
                    out_len: usize,
                    d: u64,
                ) -> u64;
                fn $letter(
                    list: *const u64,
                    list_len: usize,
                    out: *mut u64,
                    out_len: usize,
                    m: u64,
                ) -> u64;
                fn $comes(
                    note: *mut u64,
                    note_len: usize,
                    list: *mut u64,
                    list_len: usize,
                    n: u64,
                ) -> u64;
                fn $goes(
                    note: *mut u64,
                    note_len: usize,
                    list: *mut u64,
                    list_len: usize,
                    n: u64,
                ) -> u64;
            }

            // Each call reads and writes only the words of its slices, which are apart from each other.

            pub fn read(note: &[u64], here: &[u64], out: &mut [u64], d: u64) -> u64 {
                unsafe {
                    $read(
                        note.as_ptr(),
                        note.len(),
                        here.as_ptr(),
                        here.len(),
                        out.as_mut_ptr(),
                        out.len(),
                        d,
                    )
                }
            }

            pub fn letter(list: &[u64], out: &mut [u64], m: u64) -> u64 {
                unsafe { $letter(list.as_ptr(), list.len(), out.as_mut_ptr(), out.len(), m) }
            }

            pub fn comes(note: &mut [u64], list: &mut [u64], n: u64) -> u64 {
                unsafe {
                    $comes(
                        note.as_mut_ptr(),
                        note.len(),
                        list.as_mut_ptr(),
                        list.len(),
                        n,
                    )
                }
            }

            pub fn goes(note: &mut [u64], list: &mut [u64], n: u64) -> u64 {
                unsafe {
                    $goes(
                        note.as_mut_ptr(),
                        note.len(),
                        list.as_mut_ptr(),
                        list.len(),
                        n,
                    )
                }
            }
        }
    };
}

foreign!(
    proved,
    ridgeweek_read,
    ridgeweek_letter,
    ridgeweek_comes,
    ridgeweek_goes
);
#[cfg(flint)]
foreign!(flint, flint_read, flint_letter, flint_comes, flint_goes);

/// The proved library first, then those that it is held against.
pub fn all() -> Vec<Peer> {
    vec![
        Peer {
            name: "proved",
            read: proved::read,
            letter: proved::letter,
            comes: proved::comes,
            goes: proved::goes,
        },
        Peer {
            name: "plain",
            read: plain::read,
            letter: plain::letter,
            comes: plain::comes,
            goes: plain::goes,
        },
        #[cfg(flint)]
        Peer {
            name: "FLINT",
            read: flint::read,
            letter: flint::letter,
            comes: flint::comes,
            goes: flint::goes,
        },
    ]
}
