//! Group (b): the listing, byte for byte.

use super::random::Random;
use super::Checks;
use second::listing;

const G1_LISTING: &str = "k 4 L 4
t 1 4 4 0
t 2 2 1 1
t 3 1 1 0
t 4 1 1 0
l 1 4 4 0
l 2 2 1 1
l 3 1 1 0
l 4 1 1 0
sum 1 1
ME no
";

/// Kind 3, r=2, m=1, w=2, L=2, a=3, S=T=1, b=c=0: case 10, which is ME.
const TWISTED: [u8; 21] = [3, 0, 2, 0, 1, 2, 2, 0, 0, 0, 3, 1, 1, 0, 0, 0, 0, 0, 0, 0, 0];

const TWISTED_LISTING: &str = "k 4 L 2
t 1 2 2 0
t 2 2 2 0
t 3 1 1 0
t 4 1 1 0
l 1 4 4 0
l 2 2 2 0
sum 0 0
ME yes
";

pub fn check(checks: &mut Checks, _: &mut Random) {
    let mut g1 = vec![0x01, 0x00, 0x04, 0x04, 0x01, 0x30];
    g1.resize(65, 0);
    let mut see = |input: &[u8], wanted: &str, what: &str| {
        let got = String::from_utf8_lossy(&listing(input)).into_owned();
        checks.same(got.as_str(), wanted, || what.to_string());
    };
    see(&g1, G1_LISTING, "listing of G1");
    see(&TWISTED, TWISTED_LISTING, "listing of case 10");
    see(&[], "refused 1\n", "no bytes");
    see(&[5], "refused 1\n", "kind 5");
    see(&g1[..64], "refused 2\n", "64 bytes");
    see(&TWISTED[..20], "refused 2\n", "20 bytes of kind 3");
    g1.push(0);
    see(&g1, "refused 2\n", "66 bytes");
    g1.pop();
    g1[1] = 0xff;
    see(&g1, "refused 3\n", "k = 65284");
    g1[1] = 0;
    g1[3] = 33;
    see(&g1, "refused 4\n", "L = 33");
    g1[3] = 4;
    g1[4] = 0;
    see(&g1, "refused 5\n", "ν = 0");
    g1[4] = 1;
    g1[5] = 0x38;
    see(&g1, "refused 6\n", "a_5 with k = 4");
}
