//! The lent distances: a stop's latitude holds its number, and the line that build.sh inserts in geo.rs asks here.
//!
//! One static for the whole process and no lock: the real rayon's worker threads would ask too, and asking must cost little.
use std::sync::atomic::{AtomicPtr, Ordering};

#[derive(Default)]
pub struct Lent {
    starts: Vec<u32>,
    rows: Vec<(u32, f32)>,
}

static LENT: AtomicPtr<Lent> = AtomicPtr::new(std::ptr::null_mut());

impl Lent {
    /// From rows (from, to, metres); an error where one pair has two distances, which the source cannot express.
    pub fn new(stops: usize, pairs: &[(u32, u32, f32)]) -> Result<Self, String> {
        let mut lists: Vec<Vec<(u32, f32)>> = vec![vec![]; stops];
        for &(f, t, d) in pairs {
            match lists[f as usize].iter().find(|e| e.0 == t) {
                Some(e) if e.1.to_bits() != d.to_bits() => return Err(format!("from {f} to {t} two distances: {} {d}", e.1)),
                Some(_) => {}
                None => lists[f as usize].push((t, d)),
            }
        }
        let mut lent = Lent { starts: vec![0], rows: vec![] };
        for list in lists {
            lent.rows.extend(list);
            lent.starts.push(lent.rows.len() as u32);
        }
        Ok(lent)
    }
}

/// Lends these distances until the next call. No search may be running.
pub fn lend(l: Lent) {
    let old = LENT.swap(Box::into_raw(Box::new(l)), Ordering::AcqRel);
    if !old.is_null() {
        drop(unsafe { Box::from_raw(old) });
    }
}

/// The lent distance between two stops, by their latitudes. None only where nothing is lent (the source's formula then runs).
#[inline]
pub fn distance(from: f32, to: f32) -> Option<f32> {
    let p = LENT.load(Ordering::Acquire);
    if p.is_null() {
        return None;
    }
    let l = unsafe { &*p };
    let (f, t) = (from as usize, to as u32);
    let row = &l.rows[l.starts[f] as usize..l.starts[f + 1] as usize];
    match row.iter().find(|e| e.0 == t) {
        Some(e) => Some(e.1),
        None => panic!("no distance lent from {f} to {t}"),
    }
}
