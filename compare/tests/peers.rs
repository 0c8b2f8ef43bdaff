//! The benchmark's peers list exactly what the simple implementation lists, and the table's evidence, for the backed
//! sets and for all, has a true record for the same targets, rights and sets.

use compare::evidence::{self, Failing, Record};
use compare::random::{self, Random};
use compare::{simple, table, tane};

#[test]
fn the_peers_list_what_the_simple_implementation_lists() {
    for seed in 0..1_500 {
        let mut random = Random::new(seed);
        let visible = random.pick(&[2, 4, 6, 7]);
        let rows = random.pick(&[3, 6, 20]);
        let file = random::small_draft(&mut random, visible, rows).file();
        let catalogue = simple::check(&file).unwrap();
        let listing = simple::full_listing(&catalogue).concat();
        assert_eq!(table::listing(&catalogue), listing, "table, seed {seed}");
        assert_eq!(tane::listing(&catalogue), listing, "TANE, seed {seed}");
        for of in [Failing::Backed, Failing::All] {
            let (made, plain) = (table::evidence(&catalogue, of), evidence::records(&catalogue, of));
            assert!(made.iter().all(|record| evidence::fault(&catalogue, record).is_none()), "evidence, seed {seed}");
            assert_eq!(sets(made), sets(plain), "evidence, {of:?}, seed {seed}");
        }
    }
}

/// What some records are for, in order.
fn sets(mut records: Vec<Record>) -> Vec<(u8, u8, u16)> {
    records.sort_by_key(|record| (record.target, record.right, record.set));
    records.iter().map(|record| (record.target, record.right, record.set)).collect()
}
