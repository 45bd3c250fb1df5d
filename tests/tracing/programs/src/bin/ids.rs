//! Makes and closes so many spans in each of some threads, some of them kept a while, and looks for an id that came
//! twice.
//!
//!     ids SPANS THREADS
use programs::{root, site, Quiet};
use std::collections::VecDeque;
use tracing::Dispatch;
use tracing_subscriber::prelude::*;
use tracing_subscriber::Registry;

fn main() {
    let mut words = std::env::args().skip(1).map(|word| word.parse::<usize>().expect("a number"));
    let spans = words.next().expect("how many spans");
    let threads = words.next().unwrap_or(1);
    let dispatch = Dispatch::new(Registry::default().with(Quiet));
    let mut ids: Vec<u64> = std::thread::scope(|scope| {
        let work = || {
            let mut ids = Vec::with_capacity(spans);
            let mut kept = VecDeque::new();
            for at in 0..spans {
                let id = root(&dispatch, site!("s"));
                ids.push(id.into_u64());
                kept.push_back(id);
                if kept.len() > at % 7 {
                    kept.drain(..).for_each(|id| {
                        dispatch.try_close(id);
                    });
                }
            }
            kept.into_iter().for_each(|id| {
                dispatch.try_close(id);
            });
            ids
        };
        let all: Vec<_> = (0..threads).map(|_| scope.spawn(work)).collect();
        all.into_iter().flat_map(|thread| thread.join().unwrap()).collect()
    });
    ids.sort_unstable();
    let again = ids.windows(2).filter(|pair| pair[0] == pair[1]).count();
    println!("{} ids, {again} of them again", ids.len());
    std::process::exit(i32::from(again > 0));
}
