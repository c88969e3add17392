// Small functions, right and wrong, for taking facts from rustc (tools/rustc-facts).

// Wrong: a record is rewritten while it is borrowed.
pub fn rewritten() -> u32 {
    let mut v = vec![1u32];
    let r = &v[0];
    v.push(2);
    *r
}

// Wrong: a value is used after it was moved.
pub fn moved(s: String) -> usize {
    let t = s;
    t.len() + s.len()
}

// Wrong: nothing says that 'b outlives 'a.
pub fn bound<'a, 'b>(a: &'a u32, b: &'b u32) -> &'a u32 {
    let _ = a;
    b
}

// Right, by the bound.
pub fn bounded<'a, 'b: 'a>(a: &'a u32, b: &'b u32) -> &'a u32 {
    let _ = a;
    b
}

// Right for the naive analysis; the location-insensitive one refuses it.
pub fn get_default(m: &mut Vec<u32>) -> &mut u32 {
    match m.last_mut() {
        Some(x) => x,
        None => {
            m.push(1);
            m.last_mut().unwrap()
        }
    }
}

// Right for both.
pub fn longest<'a>(a: &'a str, b: &'a str) -> &'a str {
    if a.len() > b.len() { a } else { b }
}

// Right for both: a loop over a vector, which is changed afterwards.
pub fn summed(v: &mut Vec<u32>) -> u32 {
    let mut s = 0;
    for x in v.iter() {
        s += *x;
    }
    v.push(s);
    s
}
