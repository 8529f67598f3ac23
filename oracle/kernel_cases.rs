// Prints the rows of crates/leaf_tests/src/kernels.rt: every kernel over special values, with the result that Rust's f32 gives.
// The expressions are those of blend.rs of jxl-render 0.12.4 (see NOTICE). Run: rustc -O oracle/kernel_cases.rs -o /tmp/kernel_cases && /tmp/kernel_cases
fn blend(swap: bool, clamp: bool, pre: bool, b: f32, n: f32, ba: f32, na: f32) -> f32 {
    let (base_sample, new_sample, base_alpha, mut new_alpha) = if swap { (n, b, na, ba) } else { (b, n, ba, na) };
    if clamp { new_alpha = new_alpha.clamp(0.0, 1.0); }
    if pre { new_sample + base_sample * (1.0 - new_alpha) } else {
        let base_alpha_rev = 1.0 - base_alpha;
        let new_alpha_rev = 1.0 - new_alpha;
        let mixed_alpha = 1.0 - new_alpha_rev * base_alpha_rev;
        let r = if mixed_alpha > 0.0 { mixed_alpha.recip() } else { 0.0 };
        (new_alpha * new_sample + base_alpha * base_sample * new_alpha_rev) * r
    }
}
fn muladd(swap: bool, clamp: bool, b: f32, n: f32, ba: f32, na: f32) -> f32 {
    let (bs, ns, mut a) = if swap { (n, b, ba) } else { (b, n, na) };
    if clamp { a = a.clamp(0.0, 1.0); }
    bs + a * ns
}
fn mix(swap: bool, clamp: bool, b: f32, n: f32) -> f32 {
    let (mut base, mut new) = (b, n);
    if swap { std::mem::swap(&mut base, &mut new); }
    if clamp { new = new.clamp(0.0, 1.0); }
    base + new * (1.0 - base)
}
fn main() {
    let s = [f32::NAN, -0.0, 0.0, f32::INFINITY, f32::NEG_INFINITY, f32::from_bits(1), -0.5, 1.5, 1.0, 0.25, 0.1, 3.4e38];
    let k = s.len();
    for m in 0..17u32 {
        for i in 0..k {
            let (b, n, ba, na) = (s[i], s[(5 * i + 1 + m as usize) % k], s[(7 * i + 2) % k], s[(i + 5 + m as usize) % k]);
            let mulc = n.clamp(0.0, 1.0);
            let r = match m {
                0 => n, 1 => b + n, 2 => b * n, 3 => b * mulc,
                4 => blend(false, false, false, b, n, ba, na), 5 => blend(false, true, false, b, n, ba, na),
                6 => blend(true, false, false, b, n, ba, na), 7 => blend(true, true, false, b, n, ba, na),
                8 => blend(false, false, true, b, n, ba, na), 9 => blend(true, true, true, b, n, ba, na),
                10 => muladd(false, false, b, n, ba, na), 11 => muladd(false, true, b, n, ba, na), 12 => muladd(true, true, b, n, ba, na),
                13 => mix(false, false, b, n), 14 => mix(false, true, b, n), 15 => mix(true, true, b, n), _ => b,
            };
            let bits = |x: f32| if x.is_nan() { 0x7fc00000 } else { x.to_bits() };
            println!("    [{m}, 0x{:08x}, 0x{:08x}, 0x{:08x}, 0x{:08x}, 0x{:08x}],", bits(b), bits(n), bits(ba), bits(na), bits(r));
        }
    }
}
