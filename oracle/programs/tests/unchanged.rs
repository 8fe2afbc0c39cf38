//! The four files are the ones that were given, byte for byte: the digests are those of `sha256sum`.

const DIGESTS: [(&str, &str); 4] = [
    ("usbhs/mod.rs", "87336c3e394131138fe4267e12ac3e935979876acf967368e08a4c47b57ee52e"),
    ("usbhs/endpoint.rs", "a0737feb77739000df86e754e5edbab334f18d6b5593f0da3400e32155cf89bf"),
    ("usbhs/control.rs", "3feeeca5f2eb0532b965789c22a6570026a4acf4e5452a597a25ee5695a05a0e"),
    ("usb/mod.rs", "1c5d0c2a44e9d24bb67aa37dd260e3f4bee697992788736f052dbcf7967fe4b1"),
];

#[test]
fn unchanged() {
    for (file, digest) in DIGESTS {
        let path = format!("{}/../../docs/src/{file}", env!("CARGO_MANIFEST_DIR"));
        assert_eq!(sha256(&std::fs::read(path).unwrap()), digest, "{file}");
    }
}

#[test]
fn digest_of_nothing() {
    assert_eq!(sha256(b""), "e3b0c44298fc1c149afbf4c8996fb92427ae41e4649b934ca495991b7852b855");
}

/// The first 32 bits of the fractional part of a prime's root.
fn root_bits(root: f64) -> u32 {
    (root.fract() * 4_294_967_296.0) as u32
}

/// FIPS 180-4.
fn sha256(data: &[u8]) -> String {
    let primes: Vec<f64> = (2u32..312).filter(|n| (2..*n).all(|d| n % d != 0)).map(f64::from).collect();
    let mut h: Vec<u32> = primes.iter().take(8).map(|p| root_bits(p.sqrt())).collect();
    let k: Vec<u32> = primes.iter().take(64).map(|p| root_bits(p.cbrt())).collect();
    let mut all = data.to_vec();
    all.push(0x80);
    while all.len() % 64 != 56 {
        all.push(0);
    }
    all.extend((data.len() as u64 * 8).to_be_bytes());
    for block in all.chunks(64) {
        let mut w: Vec<u32> = block.chunks(4).map(|b| u32::from_be_bytes(b.try_into().unwrap())).collect();
        for i in 16..64 {
            let s0 = w[i - 15].rotate_right(7) ^ w[i - 15].rotate_right(18) ^ w[i - 15] >> 3;
            let s1 = w[i - 2].rotate_right(17) ^ w[i - 2].rotate_right(19) ^ w[i - 2] >> 10;
            w.push(w[i - 16].wrapping_add(s0).wrapping_add(w[i - 7]).wrapping_add(s1));
        }
        let mut v = h.clone();
        for i in 0..64 {
            let s1 = v[4].rotate_right(6) ^ v[4].rotate_right(11) ^ v[4].rotate_right(25);
            let ch = v[4] & v[5] ^ !v[4] & v[6];
            let t1 = v[7].wrapping_add(s1).wrapping_add(ch).wrapping_add(k[i]).wrapping_add(w[i]);
            let s0 = v[0].rotate_right(2) ^ v[0].rotate_right(13) ^ v[0].rotate_right(22);
            let maj = v[0] & v[1] ^ v[0] & v[2] ^ v[1] & v[2];
            v.rotate_right(1);
            v[4] = v[4].wrapping_add(t1);
            v[0] = t1.wrapping_add(s0).wrapping_add(maj);
        }
        h.iter_mut().zip(v).for_each(|(h, v)| *h = h.wrapping_add(v));
    }
    h.iter().map(|x| format!("{x:08x}")).collect()
}
