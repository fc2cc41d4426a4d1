//! Smaller legends to ask for. Each is smaller in one thing and the same in all others, so that shrinking ends.

use super::{Asked, Job};
use oracle::{Colors as From, Config};

/// Lists with fewer elements: either half, then one less.
pub(crate) fn fewer<T: Clone>(list: &[T]) -> Vec<Vec<T>> {
    let (front, back) = list.split_at(list.len() / 2);
    let halves = [front, back].into_iter().filter(|half| half.len() < list.len()).map(<[T]>::to_vec);
    let less = (0..list.len().min(80)).map(|at| [&list[..at], &list[at + 1..]].concat());
    halves.chain(less).collect()
}

/// Plainer numbers: 0, and 1 where it is neither.
pub(crate) fn plainer_floats(x: f32) -> Vec<f32> {
    let plain = [0f32, 1.0];
    let rank = plain.iter().position(|other| other.to_bits() == x.to_bits()).unwrap_or(plain.len());
    plain[..rank].to_vec()
}

fn smaller_config(config: &Config) -> Vec<Config> {
    let others = [
        Config { low: None, ..*config },
        Config { high: None, ..*config },
        Config { zero_is_nodata: false, ..*config },
        Config { nodata_color: 0, ..*config },
    ];
    others.into_iter().filter(|other| other != config).collect()
}

/// Two lists of one length, both without the same elements.
fn fewer_pairs<T: Clone>(list: &[T], colors: &From) -> Vec<(Vec<T>, From)> {
    match colors {
        From::List(words) if words.len() == list.len() => {
            let pairs: Vec<_> = list.iter().cloned().zip(words.iter().copied()).collect();
            let parted = |pairs: Vec<(T, u32)>| {
                let (list, words) = pairs.into_iter().unzip();
                (list, From::List(words))
            };
            fewer(&pairs).into_iter().map(parted).collect()
        }
        _ => fewer(list).into_iter().map(|list| (list, colors.clone())).collect(),
    }
}

fn plainer_colors(colors: &From) -> Vec<From> {
    match colors {
        From::Preset(0, false) => vec![],
        From::Preset(..) => vec![From::Preset(0, false)],
        From::List(words) if words.iter().all(|&word| word == 0xff00_0000) => vec![],
        From::List(words) => vec![From::List(vec![0xff00_0000; words.len()])],
    }
}

/// Each bound plainer by itself.
fn plainer_bounds(start: f32, end: f32) -> Vec<(f32, f32)> {
    let starts = plainer_floats(start).into_iter().map(|start| (start, end));
    starts.chain(plainer_floats(end).into_iter().map(|end| (start, end))).collect()
}

/// One range of a list plainer.
fn plainer_ranges<T: Clone>(list: &[T], plainer: impl Fn(&T) -> Vec<T>) -> Vec<Vec<T>> {
    let others = |at: usize| {
        let other = move |range: T| [&list[..at], &[range], &list[at + 1..]].concat();
        plainer(&list[at]).into_iter().map(other).collect::<Vec<_>>()
    };
    (0..list.len().min(4)).flat_map(others).collect()
}

fn smaller_linear(colors: From, start: f32, end: f32) -> Vec<Job> {
    let lists = if let From::List(words) = &colors { fewer(words) } else { vec![] };
    let lists = lists.into_iter().map(From::List).chain(plainer_colors(&colors));
    let lists = lists.map(|colors| Job::Linear { colors, start, end });
    let bounds = plainer_bounds(start, end).into_iter();
    lists.chain(bounds.map(|(start, end)| Job::Linear { colors: colors.clone(), start, end })).collect()
}

fn smaller_equal_bands(count: usize, colors: From, start: f32, end: f32) -> Vec<Job> {
    let lists = fewer_pairs(&vec![(); count.min(300)], &colors).into_iter();
    let lists = lists.map(|(list, colors)| Job::EqualBands { count: list.len(), colors, start, end });
    let colored = plainer_colors(&colors).into_iter();
    let colored = colored.map(|colors| Job::EqualBands { count, colors, start, end });
    let bounds = plainer_bounds(start, end).into_iter();
    let bounds = bounds.map(|(start, end)| Job::EqualBands { count, colors: colors.clone(), start, end });
    lists.chain(colored).chain(bounds).collect()
}

fn smaller_manual_ranges(ranges: Vec<(f32, f32)>, colors: From) -> Vec<Job> {
    let lists = fewer_pairs(&ranges, &colors).into_iter();
    let lists = lists.map(|(ranges, colors)| Job::ManualRanges { ranges, colors });
    let plainer = plainer_ranges(&ranges, |&(start, end)| plainer_bounds(start, end)).into_iter();
    let plainer = plainer.map(|ranges| Job::ManualRanges { ranges, colors: colors.clone() });
    let colored = plainer_colors(&colors).into_iter();
    let colored = colored.map(|colors| Job::ManualRanges { ranges: ranges.clone(), colors });
    lists.chain(plainer).chain(colored).collect()
}

fn smaller_bands(bands: Vec<(f32, f32, u32)>) -> Vec<Job> {
    let plain = |&(start, end, color): &(f32, f32, u32)| {
        plainer_bounds(start, end).into_iter().map(|(start, end)| (start, end, color)).collect()
    };
    let lists = fewer(&bands).into_iter().chain(plainer_ranges(&bands, plain));
    lists.map(|bands| Job::BandsAsGiven { bands }).collect()
}

fn smaller_values(values: Vec<i64>, colors: From) -> Vec<Job> {
    let lists = fewer_pairs(&values, &colors).into_iter();
    let lists = lists.map(|(values, colors)| Job::Values { values, colors });
    let colored = plainer_colors(&colors).into_iter();
    lists.chain(colored.map(|colors| Job::Values { values: values.clone(), colors })).collect()
}

fn smaller_key_range(start: i64, end: i64, colors: From) -> Vec<Job> {
    let count = end.checked_sub(start).filter(|difference| (0..300).contains(difference)).map_or(0, |last| last + 1);
    let shorter = fewer_pairs(&vec![(); count as usize], &colors).into_iter().filter(|_| count > 0);
    let shorter = shorter.map(|(list, colors)| Job::KeyRange { start, end: start + list.len() as i64 - 1, colors });
    let colored = plainer_colors(&colors).into_iter().map(|colors| Job::KeyRange { start, end, colors });
    shorter.chain(colored).collect()
}

fn smaller_stored_categories(categories: Vec<(i64, u32)>, table: Option<Vec<u32>>) -> Vec<Job> {
    let lists = fewer(&categories).into_iter();
    let lists = lists.map(|categories| Job::StoredCategories { categories, table: table.clone() });
    let tables = table.iter().flat_map(|words| fewer(words)).filter(|words| !words.is_empty());
    let tables = tables.map(Some).chain(table.is_some().then_some(None));
    let tables = tables.map(|table| Job::StoredCategories { categories: categories.clone(), table });
    lists.chain(tables).collect()
}

fn smaller_job(job: &Job) -> Vec<Job> {
    let bounded = |start, end, job: &dyn Fn(f32, f32) -> Job| {
        plainer_bounds(start, end).into_iter().map(|(start, end)| job(start, end)).collect()
    };
    match job.clone() {
        Job::Linear { colors, start, end } => smaller_linear(colors, start, end),
        Job::LinearOverEntries { entries, start, end } => {
            bounded(start, end, &|start, end| Job::LinearOverEntries { entries, start, end })
        }
        Job::StoredLinear { entries, start, end } => {
            bounded(start, end, &|start, end| Job::StoredLinear { entries, start, end })
        }
        Job::EqualBands { count, colors, start, end } => smaller_equal_bands(count, colors, start, end),
        Job::ManualRanges { ranges, colors } => smaller_manual_ranges(ranges, colors),
        Job::BandsAsGiven { bands } => smaller_bands(bands),
        Job::Values { values, colors } => smaller_values(values, colors),
        Job::KeyRange { start, end, colors } => smaller_key_range(start, end, colors),
        Job::StoredCategories { categories, table } => smaller_stored_categories(categories, table),
    }
}

/// Smaller legends to ask for: fewer parts first, then plainer ones.
pub(crate) fn smaller_asked(asked: &Asked) -> Vec<Asked> {
    let jobs = smaller_job(&asked.job).into_iter().map(|job| Asked { job, config: asked.config });
    let configs = smaller_config(&asked.config).into_iter().map(|config| Asked { job: asked.job.clone(), config });
    jobs.chain(configs).collect()
}
