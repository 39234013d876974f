//! How long files are.

/// How many bytes hold any file of `n` slots: 32,808 + 13n.
///
/// ```
/// let map = include_bytes!("../../../examples/map-a.pciv");
/// let mut buffer = map.to_vec();
/// buffer.resize(pciv::longest_file(pciv::check(map)?.n), 0);
/// assert_eq!(pciv::edit(&mut buffer, 0, 1000)?.summary.len, 80);
/// # Ok::<(), pciv::Refusal>(())
/// ```
pub const fn longest_file(n: u64) -> usize {
    32_808 + 13 * n as usize
}

/// The length of the file of `n` slots with `k` overflow entries, 40 + n + 12k + 16m, for n up to
/// 1,048,576 and k up to n. Not every rise of k makes a file longer.
///
/// ```
/// let distances = [0, 254, 255, 300];
/// let k = distances.iter().filter(|&&distance| distance >= 255).count();
/// let mut file = vec![0; pciv::file_len(4, k as u64)];
/// pciv::write(&distances, &mut file)?;
/// assert_eq!(file, include_bytes!("../../../examples/map-a.pciv"));
/// # Ok::<(), pciv::Refusal>(())
/// ```
pub const fn file_len(n: u64, k: u64) -> usize {
    let step = if k > 2048 { k.div_ceil(2048) } else { 0 };
    let m = if step > 0 { k.div_ceil(step) } else { 0 };
    (40 + n + 12 * k + 16 * m) as usize
}

#[cfg(test)]
mod tests {
    use super::*;

    /// n, k and the length, as in docs/FORMAT.md, "Derived counts".
    const LENGTHS: [(u64, u64, usize); 5] = [
        (5_000, 2_048, 29_616),
        (5_000, 2_049, 46_028),
        (5_000, 4_096, 86_960),
        (5_000, 4_097, 76_060),
        (1_048_576, 1_048_576, 13_664_296),
    ];

    #[test]
    fn lengths_of_the_table() {
        for (n, k, len) in LENGTHS {
            assert_eq!(file_len(n, k), len);
            assert!(len <= longest_file(n));
        }
        assert_eq!(longest_file(1_048_576), 13_664_296);
    }

    #[test]
    fn write_needs_that_many_bytes() {
        let few = [
            (0, 0),
            (1, 0),
            (1, 1),
            (4, 2),
            (3_000, 2_047),
            (9_000, 6_145),
        ];
        let table = LENGTHS.map(|(n, k, _)| (n, k));
        for (n, k) in few.into_iter().chain(table) {
            let mut distances = vec![254; n as usize];
            distances[..k as usize].fill(255);
            let mut out = vec![0; file_len(n, k)];
            let summary = crate::write(&distances, &mut out).unwrap();
            assert_eq!((summary.k, summary.len), (k, out.len() as u64));
            let short = out.len() - 1;
            let refusal = crate::write(&distances, &mut out[..short]).unwrap_err();
            assert_eq!(refusal.number, crate::Refusal::BUFFER_TOO_SMALL);
        }
    }
}
