//! strftime's formats.

use super::random::Random;

/// What may stand after a `%`.
pub const LETTERS: &[u8] = b"deFfgGHIjJklmMpPRsSTuUVwWY%";

pub fn format(r: &mut Random, out: &mut Vec<u8>) {
    let start = out.len();
    match r.weighed(&[30, 50, 10, 6, 4]) {
        // All letters, so that each is held against many dates.
        0 => out.extend(
            b"%d|%e|%F|%f|%g|%G|%H|%I|%j|%k|%l|%m|%M|%p|%P|%R|%s|%S|%T|%u|%U|%V|%w|%W|%Y|%%",
        ),
        1 => {
            for _ in 0..r.between(1, 8) {
                out.extend([b'%', r.pick(LETTERS)]);
                if r.one_in(2) {
                    out.push(r.pick(b" -:/.T,xQ0"));
                }
            }
        }
        2 => out.extend(b"%J"),
        3 => {
            // Near 1,024 bytes.
            let size = r.pick(&[1022, 1023, 1024, 1024, 1024, 1025]);
            let letter = r.pick(LETTERS);
            while out.len() - start + 2 <= size {
                out.extend([b'%', letter]);
            }
            while out.len() - start < size {
                out.push(b'.');
            }
        }
        _ => {
            out.extend(b"%Y");
            match r.below(4) {
                0 => out.extend([b'%', r.pick(b"aAbBcCDEhiKLnNoOqQrtvxXyzZ-5 .")]),
                1 => out.push(b'%'),
                2 => out.extend(b"%J%q"),
                _ => out.truncate(start),
            }
        }
    }
}
