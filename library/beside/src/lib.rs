//! One program, compiled twice: over guillotiere 0.7.0 itself (by the oracle) and over the library. Only the `use` line differs.

/// What a day left behind: each answer as a line.
pub type Diary = Vec<String>;

macro_rules! day {
    ($(#[$doc:meta])* $name:ident, $library:ident) => {
        $(#[$doc])*
        pub fn $name(seed: u64, steps: usize) -> Diary {
            use $library::{size2, AllocatorOptions, AtlasAllocator, DEFAULT_OPTIONS};

            let mut stream = oracle::random::Stream::new(seed);
            let mut size = size2(stream.between(1, 2_000), stream.between(1, 2_000));
            let small = stream.between(-2, 300);
            let options = AllocatorOptions {
                alignment: size2(stream.between(1, 9), stream.between(1, 9)),
                small_size_threshold: small,
                large_size_threshold: small + stream.between(0, 500),
                ..DEFAULT_OPTIONS
            };
            let mut atlas = AtlasAllocator::with_options(size, &options);
            let mut live = Vec::new();
            let mut diary = Diary::new();
            for _ in 0..steps {
                match stream.below(1_000) {
                    0 => {
                        atlas.clear();
                        live.clear();
                    }
                    1 => {
                        size = size2(stream.between(1, 2_000), stream.between(1, 2_000));
                        atlas.reset(size, &options);
                        live.clear();
                    }
                    2..=9 if size.width < 60_000 && size.height < 60_000 => {
                        size = size2(size.width + stream.between(0, 900), size.height + stream.between(0, 900));
                        atlas.grow(size);
                    }
                    10..=19 => atlas.for_each_allocated_rectangle(|id, r| {
                        diary.push(format!("allocated {} {} {} {} {}", id.serialize(), r.min.x, r.min.y, r.max.x, r.max.y));
                    }),
                    20..=29 => atlas.for_each_free_rectangle(|r| {
                        diary.push(format!("free {} {} {} {}", r.min.x, r.min.y, r.max.x, r.max.y));
                    }),
                    30..=499 if !live.is_empty() => {
                        let id = live.swap_remove(stream.below(live.len()));
                        let r = atlas[id];
                        diary.push(format!("freed {} {} {} {}", r.min.x, r.min.y, r.max.x, r.max.y));
                        atlas.deallocate(id);
                    }
                    _ => {
                        let most = 1 + stream.below(400) as i32;
                        match atlas.allocate(size2(stream.between(-1, most), stream.between(-1, most))) {
                            Some(got) => {
                                let r = got.rectangle;
                                let id = got.id.serialize();
                                diary.push(format!("{id} {} {} {} {}", r.min.x, r.min.y, r.max.x, r.max.y));
                                live.push(got.id);
                            }
                            None => diary.push("none".into()),
                        }
                    }
                }
                let size = atlas.size();
                diary.push(format!("{} {} {}", size.width, size.height, atlas.is_empty()));
            }
            diary
        }
    };
}

day!(
    /// A day of random calls at guillotiere itself.
    theirs,
    oracle
);
day!(
    /// The same day at the library.
    ours,
    ferrunchju
);
