//! Runs the proved library beside the Rust that it is a port of, and compares every answer.
//! `compare` alone runs everything; `compare vectors NAME` prints a sample of the Rust's answers (docs/VECTORS.md).

mod atoms;
mod csgp;
mod entries;
mod ffi;
mod film;
mod groups;
mod indifference;
mod limits;
mod listing;
mod messages;
mod play;
mod profile;
mod queue;
mod random;
mod repaint;
mod sbgp;
mod sgpd;
mod starts;
mod stbl;
mod sync;
mod tables;
mod tally;
mod vectors;
mod walk;
mod writing;

/// The longest input of document 01's domain.
const MIB: usize = 1 << 20;

/// The files of stored vectors that hold right answers, by the file of their damaged lines.
const FILES: [&str; 4] = ["atoms", "tables", "document", "descriptions"];
const LISTINGS: [&str; 3] = ["listing", "films", "records"];
const REQUESTS: [&str; 4] = ["film_listings", "starts", "writing", "sync"];

fn vectors_of(name: &str) -> vectors::Vectors {
    let mut vectors = vectors::Vectors::default();
    let parts: &[fn(&mut vectors::Vectors)] = match name {
        "atoms" => &[atoms::vectors],
        "tables" => &[sbgp::vectors, csgp::vectors],
        "document" => &[sbgp::document, csgp::document],
        "descriptions" => &[sgpd::vectors, entries::vectors],
        "records" => &[sgpd::records, entries::records],
        "listing" => &[listing::vectors],
        "films" => &[film::vectors],
        "film_listings" => &[film::listing_vectors],
        "starts" => &[starts::vectors],
        "writing" => &[writing::vectors],
        "sync" => &[sync::vectors],
        _ => panic!("vectors of what?"),
    };
    parts.iter().for_each(|part| part(&mut vectors));
    vectors
}

pub fn main() {
    let words: Vec<String> = std::env::args().skip(1).collect();
    if let [word, name] = words.as_slice() {
        assert!(word == "vectors", "vectors of what?");
        match name.as_str() {
            "damaged" => vectors::print_damaged(&FILES.map(vectors_of)),
            "damaged_listing" => vectors::print_damaged_listing(&LISTINGS.map(vectors_of)),
            "damaged_requests" => vectors::print_damaged_requests(&REQUESTS.map(vectors_of)),
            name => vectors_of(name).print(),
        }
        return;
    }
    let parts: [fn(&mut tally::Tally); 21] = [
        csgp::run,
        csgp::run_long,
        atoms::run,
        sgpd::run,
        sgpd::run_long,
        entries::run,
        entries::run_long,
        sbgp::run,
        limits::run,
        listing::run,
        listing::run_pairs,
        indifference::run,
        film::run,
        starts::run,
        writing::run,
        sync::run,
        play::run,
        repaint::run,
        queue::run,
        profile::run,
        groups::run,
    ];
    let tallies = std::thread::scope(|threads| {
        let running = parts.map(|part| {
            threads.spawn(move || {
                let mut tally = tally::Tally::new();
                part(&mut tally);
                ffi::leave();
                tally
            })
        });
        running.map(|thread| thread.join().expect("a part of the comparison was cut off"))
    });
    tally::report(&tallies);
}
