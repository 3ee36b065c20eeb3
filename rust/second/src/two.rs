//! The two-share conversions of Goubin, step by step (section 4), at k = 32. Each list of steps
//! holds the value of each assignment in order, and its last entry is the answer.

/// Section 4: "2v means the double modulo 2^k".
fn double(v: u32) -> u32 {
    v.wrapping_mul(2)
}

/// Section 4, Boolean to arithmetic: "T = x' ⊕ G; T = T − G; T = T ⊕ x'; G = G ⊕ r; A = x' ⊕ G;
/// A = A − G; A = A ⊕ T."
fn b2a_steps(x1: u32, r: u32, g: u32) -> [u32; 7] {
    let t1 = x1 ^ g;
    let t2 = t1.wrapping_sub(g);
    let t3 = t2 ^ x1;
    let g1 = g ^ r;
    let a1 = x1 ^ g1;
    let a2 = a1.wrapping_sub(g1);
    let a3 = a2 ^ t3;
    [t1, t2, t3, g1, a1, a2, a3]
}

/// Section 4, arithmetic to Boolean: "T = 2G; X = G ⊕ r; O = G ∧ X; X = T ⊕ A; G = G ⊕ X;
/// G = G ∧ r; O = O ⊕ G; G = T ∧ A; O = O ⊕ G; then k−1 times: G = T ∧ r; G = G ⊕ O; T = T ∧ A;
/// G = G ⊕ T; T = 2G; at the end X = X ⊕ T."
fn a2b_steps(a: u32, r: u32, g: u32) -> [u32; 165] {
    let t1 = double(g);
    let x1 = g ^ r;
    let o1 = g & x1;
    let x2 = t1 ^ a;
    let g1 = g ^ x2;
    let g2 = g1 & r;
    let o2 = o1 ^ g2;
    let g3 = t1 & a;
    let o3 = o2 ^ g3;
    let mut steps = [0; 165];
    steps[..9].copy_from_slice(&[t1, x1, o1, x2, g1, g2, o2, g3, o3]);
    let mut t = t1;
    for round in 0..31 {
        let g1 = t & r;
        let g2 = g1 ^ o3;
        let t1 = t & a;
        let g3 = g2 ^ t1;
        t = double(g3);
        let place = 9 + 5 * round;
        steps[place..place + 5].copy_from_slice(&[g1, g2, t1, g3, t]);
    }
    steps[164] = x2 ^ t;
    steps
}

/// Section 3: "Recording forms give only 0 or 3".
fn put(steps: &[u32], record: &mut [u32]) -> u32 {
    if record.len() != steps.len() {
        return 3;
    }
    record.copy_from_slice(steps);
    0
}

/// From x' and r with x = x' ⊕ r and the fresh word G, the answer A = x − r (section 4). Refuses
/// nothing.
pub fn b2a_2(x1: u32, r: u32, g: u32) -> u32 {
    b2a_steps(x1, r, g)[6]
}

/// From A and r with x = A + r and the fresh word G, the answer X = x ⊕ r (section 4). Refuses
/// nothing.
pub fn a2b_2(a: u32, r: u32, g: u32) -> u32 {
    a2b_steps(a, r, g)[164]
}

/// The seven steps of [`b2a_2`] put into the record (section 4). Gives 0, or 3 with the record as
/// it came when it has not exactly 7 entries (section 3).
pub fn b2a_2_record(x1: u32, r: u32, g: u32, record: &mut [u32]) -> u32 {
    put(&b2a_steps(x1, r, g), record)
}

/// The 5k + 5 steps of [`a2b_2`] put into the record (section 4). Gives 0, or 3 with the record
/// as it came when it has not exactly 165 entries (section 3).
pub fn a2b_2_record(a: u32, r: u32, g: u32, record: &mut [u32]) -> u32 {
    put(&a2b_steps(a, r, g), record)
}
