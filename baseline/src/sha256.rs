//! SHA-256 (FIPS 180-4) in plain software, with the rounds unrolled.

const INITIAL: [u32; 8] = [0x6a09e667, 0xbb67ae85, 0x3c6ef372, 0xa54ff53a, 0x510e527f, 0x9b05688c, 0x1f83d9ab, 0x5be0cd19];

const K: [u32; 64] = [
    0x428a2f98, 0x71374491, 0xb5c0fbcf, 0xe9b5dba5, 0x3956c25b, 0x59f111f1, 0x923f82a4, 0xab1c5ed5, 0xd807aa98, 0x12835b01,
    0x243185be, 0x550c7dc3, 0x72be5d74, 0x80deb1fe, 0x9bdc06a7, 0xc19bf174, 0xe49b69c1, 0xefbe4786, 0x0fc19dc6, 0x240ca1cc,
    0x2de92c6f, 0x4a7484aa, 0x5cb0a9dc, 0x76f988da, 0x983e5152, 0xa831c66d, 0xb00327c8, 0xbf597fc7, 0xc6e00bf3, 0xd5a79147,
    0x06ca6351, 0x14292967, 0x27b70a85, 0x2e1b2138, 0x4d2c6dfc, 0x53380d13, 0x650a7354, 0x766a0abb, 0x81c2c92e, 0x92722c85,
    0xa2bfe8a1, 0xa81a664b, 0xc24b8b70, 0xc76c51a3, 0xd192e819, 0xd6990624, 0xf40e3585, 0x106aa070, 0x19a4c116, 0x1e376c08,
    0x2748774c, 0x34b0bcb5, 0x391c0cb3, 0x4ed8aa4a, 0x5b9cca4f, 0x682e6ff3, 0x748f82ee, 0x78a5636f, 0x84c87814, 0x8cc70208,
    0x90befffa, 0xa4506ceb, 0xbef9a3f7, 0xc67178f2,
];

/// A hash in progress.
pub struct Sha256 {
    state: [u32; 8],
    block: [u8; 64],
    filled: usize,
    length: u64,
}

impl Default for Sha256 {
    fn default() -> Self {
        Self { state: INITIAL, block: [0; 64], filled: 0, length: 0 }
    }
}

impl Sha256 {
    /// Takes further bytes of the message.
    pub fn update(&mut self, mut bytes: &[u8]) {
        self.length += bytes.len() as u64;
        if self.filled > 0 {
            let taken = bytes.len().min(64 - self.filled);
            self.block[self.filled..self.filled + taken].copy_from_slice(&bytes[..taken]);
            self.filled += taken;
            bytes = &bytes[taken..];
            if self.filled < 64 {
                return;
            }
            compress(&mut self.state, &self.block);
            self.filled = 0;
        }
        let (blocks, rest) = bytes.as_chunks::<64>();
        for block in blocks {
            compress(&mut self.state, block);
        }
        self.block[..rest.len()].copy_from_slice(rest);
        self.filled = rest.len();
    }

    /// Ends the message, and gives its hash.
    pub fn finish(mut self) -> [u8; 32] {
        self.block[self.filled] = 0x80;
        self.block[self.filled + 1..].fill(0);
        if self.filled >= 56 {
            compress(&mut self.state, &self.block);
            self.block.fill(0);
        }
        self.block[56..].copy_from_slice(&(self.length * 8).to_be_bytes());
        compress(&mut self.state, &self.block);
        let mut hash = [0; 32];
        for (bytes, word) in hash.chunks_exact_mut(4).zip(self.state) {
            bytes.copy_from_slice(&word.to_be_bytes());
        }
        hash
    }
}

/// One round; the caller turns the names of the eight words. The sums of three rotations are nested, and the majority of
/// three words takes the difference of two of them from the round before.
macro_rules! round {
    ($a:ident $b:ident $c:ident $d:ident $e:ident $f:ident $g:ident $h:ident, $differ:ident, $k:expr, $w:expr) => {
        let sum1 = ((($e.rotate_right(14) ^ $e).rotate_right(5)) ^ $e).rotate_right(6);
        let choice = $g ^ ($e & ($f ^ $g));
        $h = $h.wrapping_add($k).wrapping_add($w).wrapping_add(choice).wrapping_add(sum1);
        $d = $d.wrapping_add($h);
        let sum0 = ((($a.rotate_right(9) ^ $a).rotate_right(11)) ^ $a).rotate_right(2);
        let differs = $a ^ $b;
        let majority = (differs & $differ) ^ $b;
        $differ = differs;
        $h = $h.wrapping_add(majority).wrapping_add(sum0);
    };
}

/// Sixteen rounds from round `$i` on; `$next` gives the word of a round from the last sixteen.
macro_rules! sixteen {
    ($i:expr, $next:ident, $a:ident $b:ident $c:ident $d:ident $e:ident $f:ident $g:ident $h:ident, $differ:ident) => {
        round!($a $b $c $d $e $f $g $h, $differ, K[$i], $next!(0));
        round!($h $a $b $c $d $e $f $g, $differ, K[$i + 1], $next!(1));
        round!($g $h $a $b $c $d $e $f, $differ, K[$i + 2], $next!(2));
        round!($f $g $h $a $b $c $d $e, $differ, K[$i + 3], $next!(3));
        round!($e $f $g $h $a $b $c $d, $differ, K[$i + 4], $next!(4));
        round!($d $e $f $g $h $a $b $c, $differ, K[$i + 5], $next!(5));
        round!($c $d $e $f $g $h $a $b, $differ, K[$i + 6], $next!(6));
        round!($b $c $d $e $f $g $h $a, $differ, K[$i + 7], $next!(7));
        round!($a $b $c $d $e $f $g $h, $differ, K[$i + 8], $next!(8));
        round!($h $a $b $c $d $e $f $g, $differ, K[$i + 9], $next!(9));
        round!($g $h $a $b $c $d $e $f, $differ, K[$i + 10], $next!(10));
        round!($f $g $h $a $b $c $d $e, $differ, K[$i + 11], $next!(11));
        round!($e $f $g $h $a $b $c $d, $differ, K[$i + 12], $next!(12));
        round!($d $e $f $g $h $a $b $c, $differ, K[$i + 13], $next!(13));
        round!($c $d $e $f $g $h $a $b, $differ, K[$i + 14], $next!(14));
        round!($b $c $d $e $f $g $h $a, $differ, K[$i + 15], $next!(15));
    };
}

fn compress(state: &mut [u32; 8], block: &[u8; 64]) {
    let mut w = [0u32; 16];
    let (words, _) = block.as_chunks::<4>();
    macro_rules! first {
        ($j:expr) => {{
            w[$j] = u32::from_be_bytes(words[$j]);
            w[$j]
        }};
    }
    macro_rules! later {
        ($j:expr) => {{
            let (early, late) = (w[($j + 1) % 16], w[($j + 14) % 16]);
            let small0 = (early.rotate_right(11) ^ early).rotate_right(7) ^ (early >> 3);
            let small1 = (late.rotate_right(2) ^ late).rotate_right(17) ^ (late >> 10);
            w[$j] = w[$j].wrapping_add(w[($j + 9) % 16]).wrapping_add(small0).wrapping_add(small1);
            w[$j]
        }};
    }
    let [mut a, mut b, mut c, mut d, mut e, mut f, mut g, mut h] = *state;
    let mut differ = b ^ c;
    sixteen!(0, first, a b c d e f g h, differ);
    sixteen!(16, later, a b c d e f g h, differ);
    sixteen!(32, later, a b c d e f g h, differ);
    sixteen!(48, later, a b c d e f g h, differ);
    let _ = differ;
    for (word, add) in state.iter_mut().zip([a, b, c, d, e, f, g, h]) {
        *word = word.wrapping_add(add);
    }
}

#[cfg(test)]
mod tests {
    use super::*;

    fn hex(bytes: &[u8]) -> String {
        bytes.iter().map(|byte| format!("{byte:02x}")).collect()
    }

    fn hash(pieces: &[&[u8]]) -> String {
        let mut hasher = Sha256::default();
        pieces.iter().for_each(|piece| hasher.update(piece));
        hex(&hasher.finish())
    }

    #[test]
    fn standard_vectors() {
        assert_eq!(hash(&[]), "e3b0c44298fc1c149afbf4c8996fb92427ae41e4649b934ca495991b7852b855");
        assert_eq!(hash(&[b"abc"]), "ba7816bf8f01cfea414140de5dae2223b00361a396177a9cb410ff61f20015ad");
        assert_eq!(
            hash(&[b"abcdbcdecdefdefgefghfghighijhijkijkljklmklmnlmnomnopnopq"]),
            "248d6a61d20638b8e5c026930c3e6039a33ce45964ff2167f6ecedd419db06c1"
        );
    }

    #[test]
    fn a_million_times_a() {
        let block = [b'a'; 1000];
        let pieces = vec![&block[..]; 1000];
        assert_eq!(hash(&pieces), "cdc76e5c9914fb9281a1c7e284d73e67f1809a48a497200e046d39ccc7112cd0");
    }

    #[test]
    fn pieces_do_not_matter() {
        let message: Vec<u8> = (0..=255).collect();
        for length in [0, 1, 55, 56, 63, 64, 65, 119, 120, 128, 200] {
            let whole = hash(&[&message[..length]]);
            for cut in 0..=length {
                assert_eq!(hash(&[&message[..cut], &message[cut..length]]), whole);
            }
        }
    }
}
