//! Stored jobs: round trips, and bytes that store none.

use crate::cases::{cuts_added, packed, view, window_read, GatherCase, ScatterCase};
use crate::random::Random;
use strided::{check_job, ElementType, GatherJob, Job, StridedError, LIST_LIMIT, RANK_LIMIT};

fn both(random: &mut Random) -> [Job; 2] {
    let element = random.pick(&[ElementType::I32, ElementType::F64]);
    [
        Job::Gather(GatherCase::random(random, element).job),
        Job::Scatter(ScatterCase::random(random, element).job),
    ]
}

#[test]
fn what_is_written_is_read() {
    let mut random = Random::new(21);
    for _ in 0..1000 {
        for job in both(&mut random) {
            let bytes = job.to_bytes().unwrap();
            assert_eq!(check_job(&bytes), Ok(()));
            assert_eq!(Job::from_bytes(&bytes).unwrap(), job);
        }
    }
}

#[test]
fn the_bytes_are_those_of_the_format() {
    let mut job = cuts_added();
    job.element = ElementType::F64;
    job.dest.strides = vec![-2];
    job.dest.offset = 8;
    let mut expected = vec![0, 0, 0, 114, 1, 2, 2];
    let word = |number: i64| number.to_be_bytes();
    for [extent, stride, offset] in [[3, 1, 0], [3, 1, 0], [5, -2, 8]] {
        expected.push(1);
        expected.extend([word(extent), word(stride), word(offset)].concat());
    }
    expected.extend([0, 1]);
    expected.extend(word(0));
    expected.push(1);
    expected.extend([word(0), word(1)].concat());
    expected[3] = expected.len() as u8 - 4;
    assert_eq!(Job::Scatter(job).to_bytes().unwrap(), expected);
}

/// The job with all lists and layouts as long as they may be, of the largest
/// numbers. It is stored, though it would not compile.
fn largest() -> GatherJob {
    let mut job = window_read();
    let layout = view(
        &[usize::MAX; RANK_LIMIT],
        &[isize::MIN; RANK_LIMIT],
        isize::MIN,
    );
    job.operand = layout.clone();
    job.index = layout.clone();
    job.dest = layout;
    let list = vec![usize::MAX; LIST_LIMIT];
    job.spec.offset_dims = list.clone();
    job.spec.collapsed_slice_dims = list.clone();
    job.spec.start_index_map = list.clone();
    job.spec.slice_sizes = list;
    job.spec.index_vector_dim = usize::MAX;
    job
}

#[test]
fn the_largest_job_is_stored() {
    let job = Job::Gather(largest());
    let bytes = job.to_bytes().unwrap();
    assert_eq!(Job::from_bytes(&bytes), Ok(job));
}

#[test]
fn a_larger_job_is_refused() {
    for len in [17, 300] {
        let mut job = largest();
        job.spec.slice_sizes = vec![0; len];
        let refusal = Job::Gather(job).to_bytes().unwrap_err();
        let named = StridedError::RankMismatch {
            count: len as u64,
            against: 16,
        };
        assert_eq!(refusal, named);
    }
    let mut job = cuts_added();
    job.dest = packed(&[1; 9]);
    let refusal = Job::Scatter(job.clone()).to_bytes().unwrap_err();
    assert_eq!(refusal, StridedError::RankTooLarge { rank: 9, limit: 8 });
    job.updates.strides = vec![];
    let refusal = Job::Scatter(job).to_bytes().unwrap_err();
    assert_eq!(refusal, StridedError::StrideLengthMismatch);
}

#[test]
fn a_job_cut_short_or_too_long_is_refused() {
    let bytes = Job::Gather(largest()).to_bytes().unwrap();
    for len in 0..bytes.len() {
        let refusal = Job::from_bytes(&bytes[..len]).unwrap_err();
        assert_eq!(refusal, StridedError::JobBytes { place: 0 }, "{len} bytes");
    }
    let mut longer = bytes.clone();
    longer.push(0);
    assert!(Job::from_bytes(&longer).is_err());
    // The count says so, too: the byte left over is named.
    let count = longer.len() as u32 - 4;
    longer[..4].copy_from_slice(&count.to_be_bytes());
    let refusal = Job::from_bytes(&longer).unwrap_err();
    let place = bytes.len() as u64;
    assert_eq!(refusal, StridedError::JobBytes { place });
}

#[test]
fn changed_bytes_are_refused_or_another_job() {
    let mut random = Random::new(22);
    let mut read = 0;
    for _ in 0..3000 {
        for job in both(&mut random) {
            let mut bytes = job.to_bytes().unwrap();
            for _ in 0..1 + random.below(3) {
                let place = random.below(bytes.len());
                bytes[place] = random.word() as u8;
            }
            match Job::from_bytes(&bytes) {
                Ok(job) => {
                    read += 1;
                    assert_eq!(check_job(&bytes), Ok(()));
                    assert_eq!(job.to_bytes().unwrap(), bytes);
                }
                Err(refusal) => assert_eq!(check_job(&bytes), Err(refusal)),
            }
        }
    }
    assert!(read > 0);
}

#[test]
fn any_bytes_are_refused_or_a_job() {
    let mut random = Random::new(23);
    for _ in 0..20_000 {
        let len = random.below(200);
        let mut bytes = random.list(len, |random| random.pick(&[0, 1, 2, 3, 8, 9, 16, 255]));
        // A true count lets the reader come further.
        if let Some(count) = bytes.get_mut(..4) {
            count.copy_from_slice(&(len as u32 - 4).to_be_bytes());
        }
        match Job::from_bytes(&bytes) {
            Ok(job) => assert_eq!(job.to_bytes().unwrap(), bytes),
            Err(refusal) => assert_eq!(refusal.number(), 10),
        }
    }
}

#[test]
fn a_job_knows_its_element() {
    let mut job = window_read();
    assert_eq!(Job::Gather(job.clone()).element(), ElementType::I32);
    job.element = ElementType::F64;
    assert_eq!(Job::Gather(job).element(), ElementType::F64);
    assert_eq!(Job::Scatter(cuts_added()).element(), ElementType::I32);
}
