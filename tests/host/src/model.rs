//! Lists and skip tables as the specification's sentences say them, as plainly as can be: every answer by counting.
//! It shares no code and no method with the library: no halving, no run that is sought, whole lists at a time.

/// A refusal's number and what it carries.
pub type Refused = (u32, usize);

const LAST: u32 = 0x10FFFF;
const CLOSING: u32 = 0x1FFFFF;

pub fn check_list(list: &[u32]) -> Result<usize, Refused> {
    if list.len() % 2 == 1 {
        return Err((3, 0));
    }
    let ranges: Vec<(u32, u32)> = list.chunks(2).map(|pair| (pair[0], pair[1])).collect();
    if ranges.len() > 1023 {
        return Err((4, 0));
    }
    let bad = |k: usize| {
        let (first, last) = ranges[k];
        first > last || last > LAST || k > 0 && u64::from(first) <= u64::from(ranges[k - 1].1) + 1
    };
    match (0..ranges.len()).find(|&k| bad(k)) {
        Some(index) => Err((5, index)),
        None => Ok(ranges.len()),
    }
}

pub fn holds(list: &[u32], x: u32) -> bool {
    list.chunks(2).any(|pair| pair[0] <= x && x <= pair[1])
}

/// The packing of a list that `check_list` accepts: headers and offsets.
pub fn packing(list: &[u32]) -> (Vec<u32>, Vec<u8>) {
    let boundaries: Vec<u32> = list.iter().enumerate().map(|(k, &number)| number + (k % 2) as u32).collect();
    let mut headers = Vec::new();
    let mut offsets = Vec::new();
    let mut start = 0;
    let mut before = 0;
    for boundary in boundaries {
        match u8::try_from(boundary - before) {
            Ok(small) => offsets.push(small),
            Err(_) => {
                offsets.push(0);
                headers.push(start << 21 | boundary);
                start = offsets.len() as u32;
            }
        }
        before = boundary;
    }
    offsets.push(0);
    headers.push(start << 21 | CLOSING);
    (headers, offsets)
}

pub fn pack(list: &[u32], headers: usize, offsets: usize) -> Result<(Vec<u32>, Vec<u8>), Refused> {
    check_list(list)?;
    let table = packing(list);
    if offsets < table.1.len() {
        return Err((6, table.1.len()));
    }
    if headers < table.0.len() {
        return Err((7, table.0.len()));
    }
    Ok(table)
}

struct Run {
    sum: u64,
    offsets: Vec<u64>,
}

fn starts(headers: &[u32]) -> Vec<usize> {
    headers.iter().map(|h| (h >> 21) as usize).collect()
}

fn sums(headers: &[u32]) -> Vec<u64> {
    headers.iter().map(|h| u64::from(h & 0x1FFFFF)).collect()
}

/// The runs of a table that keeps W1 to W3.
fn runs(headers: &[u32], offsets: &[u8]) -> Vec<Run> {
    let mut ends = starts(headers);
    ends.push(offsets.len());
    sums(headers)
        .into_iter()
        .enumerate()
        .map(|(k, sum)| Run { sum, offsets: offsets[ends[k]..ends[k + 1]].iter().map(|&o| u64::from(o)).collect() })
        .collect()
}

/// The lowest rule that a table breaks, 1 to 5, or 0.
pub fn lowest_broken(headers: &[u32], offsets: &[u8]) -> usize {
    let sized = |n: usize| (1..=2048).contains(&n);
    if !sized(headers.len()) || !sized(offsets.len()) {
        return 1;
    }
    let (starts, sums) = (starts(headers), sums(headers));
    if starts[0] != 0 {
        return 2;
    }
    if starts.windows(2).any(|two| two[0] >= two[1]) || starts[starts.len() - 1] >= offsets.len() {
        return 3;
    }
    if sums.windows(2).any(|two| two[0] >= two[1]) || sums[sums.len() - 1] <= u64::from(LAST) {
        return 4;
    }
    let mut previous = 0;
    for run in runs(headers, offsets) {
        if previous + run.offsets[..run.offsets.len() - 1].iter().sum::<u64>() > run.sum {
            return 5;
        }
        previous = run.sum;
    }
    0
}

/// One boundary for each offset of a table that keeps the rules, run by run.
fn boundaries(headers: &[u32], offsets: &[u8]) -> Vec<Vec<u64>> {
    let mut previous = 0;
    let mut all = Vec::new();
    for run in runs(headers, offsets) {
        let length = run.offsets.len();
        let mut of_run: Vec<u64> = (1..length).map(|k| previous + run.offsets[..k].iter().sum::<u64>()).collect();
        of_run.push(run.sum);
        previous = run.sum;
        all.push(of_run);
    }
    all
}

pub fn search(headers: &[u32], offsets: &[u8], x: u32) -> Result<(bool, usize), Refused> {
    match lowest_broken(headers, offsets) {
        0 => (),
        rule => return Err((8, rule)),
    }
    if x > LAST {
        return Err((1, 0));
    }
    let x = u64::from(x);
    let boundaries = boundaries(headers, offsets);
    let at_most = boundaries.iter().flatten().filter(|&&b| b <= x).count();
    let run = boundaries.iter().find(|run| x < run[run.len() - 1]).expect("the last sum is above every number");
    let but_last = &run[..run.len() - 1];
    let read = but_last.len().min(but_last.iter().filter(|&&b| b <= x).count() + 1);
    Ok((at_most % 2 == 1, read))
}

/// A table's boundaries up to 0x10FFFF in pairs, as first and last+1, without the equal ones; an open last pair ends at 0x10FFFF.
fn pairs(headers: &[u32], offsets: &[u8]) -> Vec<(u32, u32)> {
    let kept: Vec<u32> =
        boundaries(headers, offsets).into_iter().flatten().filter(|&b| b <= u64::from(LAST)).map(|b| b as u32).collect();
    kept.chunks(2).map(|pair| (pair[0], *pair.get(1).unwrap_or(&(LAST + 1)))).filter(|(first, end)| first != end).collect()
}

/// Where a pair's end equals the start of the next one, the two are one.
fn joined(pairs: &[(u32, u32)]) -> Vec<(u32, u32)> {
    let mut left: Vec<(u32, u32)> = Vec::new();
    for &(first, end) in pairs {
        match left.last_mut() {
            Some(before) if before.1 == first => before.1 = end,
            _ => left.push((first, end)),
        }
    }
    left
}

/// How many pairs of a table that keeps the rules are joined to the one before.
pub fn joins(headers: &[u32], offsets: &[u8]) -> usize {
    let pairs = pairs(headers, offsets);
    pairs.len() - joined(&pairs).len()
}

pub fn unpack(headers: &[u32], offsets: &[u8], room: usize) -> Result<Vec<u32>, Refused> {
    match lowest_broken(headers, offsets) {
        0 => (),
        rule => return Err((8, rule)),
    }
    let list: Vec<u32> =
        joined(&pairs(headers, offsets)).into_iter().flat_map(|(first, end)| [first, end - 1]).collect();
    if room < list.len() {
        return Err((10, list.len()));
    }
    Ok(list)
}
