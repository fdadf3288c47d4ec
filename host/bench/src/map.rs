//! The bytes of the map in use, twelve an extent, against four bytes a page, after
//! the workloads of the source documents scaled to our sizes; and how their writes were
//! placed.

use second::random::Random;
use utasiro::{Block, Device, Refusal, Sizes};

use crate::progress;

/// A device under a workload.
struct Load {
    name: &'static str,
    device: Device,
    number: u64,
    writes: u32,
    cut: u32,
    pieces: u32,
    most_used: u32,
    most_open: u32,
    reclaims: u32,
    copied: u32,
    without_pages: u32,
    /// The request that the slots did not suffice for, if one came.
    slots_ran_out: Option<u64>,
}

impl Load {
    fn new(name: &'static str, sizes: Sizes) -> Load {
        let device = Device::fresh(sizes).expect("sizes of document 01");
        Load {
            name,
            device,
            number: 0,
            writes: 0,
            cut: 0,
            pieces: 0,
            most_used: 0,
            most_open: 0,
            reclaims: 0,
            copied: 0,
            without_pages: 0,
            slots_ran_out: None,
        }
    }

    fn logical(&self) -> u32 {
        self.device.head().logical
    }

    /// Writes, reclaiming when no page is free. Once the slots have run out the
    /// workload has ended, and nothing more is done.
    fn write(&mut self, start: u32, count: u32) {
        while self.slots_ran_out.is_none() {
            match self.device.write(self.number + 1, start, count) {
                Ok(pieces) => {
                    self.writes += 1;
                    self.pieces += pieces.len() as u32;
                    self.cut += u32::from(pieces.len() > 1);
                    return self.accepted();
                }
                Err(Refusal::NoPages) => {
                    self.without_pages += 1;
                    let reclaimed = self.device.reclaim().expect("something is stale where nothing is free");
                    self.reclaims += 1;
                    self.copied += reclaimed.copies.len() as u32;
                }
                Err(refusal) => self.refused(refusal),
            }
        }
    }

    fn trim(&mut self, start: u32, count: u32) {
        if self.slots_ran_out.is_some() {
            return;
        }
        match self.device.trim(self.number + 1, start, count) {
            Ok(()) => self.accepted(),
            Err(refusal) => self.refused(refusal),
        }
    }

    fn accepted(&mut self) {
        self.number += 1;
        self.most_used = self.most_used.max(self.device.head().used);
        self.most_open = self.most_open.max(self.open().0);
        if self.number % 500 == 0 {
            progress::show(&format!("map: {}, request {}", self.name, self.number));
        }
    }

    fn refused(&mut self, refusal: Refusal) {
        assert_eq!(refusal, Refusal::NoNodes, "{}: request {}", self.name, self.number + 1);
        self.slots_ran_out = Some(self.number + 1);
    }

    /// Writes so many pages from `start` on, in requests of at most so many.
    fn write_in_order(&mut self, start: u32, count: u32, most: u32) {
        for first in (start..start + count).step_by(most as usize) {
            self.write(first, most.min(start + count - first));
        }
    }

    /// The blocks that are filled in part, and the free pages in them.
    fn open(&self) -> (u32, u32) {
        let head = self.device.head();
        let fills =
            (0..head.blocks).filter_map(|block| Block::at(self.device.blocks(), block)).map(|b| b.fill);
        let open = fills.filter(|&fill| fill > 0 && fill < head.pages);
        open.fold((0, 0), |(blocks, free), fill| (blocks + 1, free + head.pages - fill))
    }

    /// A row of the table on how writes were placed.
    fn placed(&self) -> String {
        let (open, free) = self.open();
        format!(
            "| {} | {} | {} | {} | {} | {} | {} | {} | {} | {} | {} | {} | {free} |",
            self.name,
            self.writes,
            self.cut,
            self.pieces,
            self.device.head().used,
            self.most_used,
            self.reclaims,
            self.copied,
            self.without_pages,
            u32::from(self.slots_ran_out.is_some()),
            open,
            self.most_open,
        )
    }

    fn row(&self) -> String {
        let head = self.device.head();
        let table = 4 * u64::from(head.logical);
        let (bytes, most) = (12 * u64::from(head.used), 12 * u64::from(self.most_used));
        let ended = match self.slots_ran_out {
            Some(request) => format!("slots ran out at request {request}"),
            None => format!("{} requests, {} reclaims", self.number, self.reclaims),
        };
        format!(
            "| {} | {} x {} | {ended} | {bytes} | {table} | {:.1} % | {:.1} % |",
            self.name,
            head.blocks,
            head.pages,
            100.0 * bytes as f64 / table as f64,
            100.0 * most as f64 / table as f64,
        )
    }
}

/// 3 % of the blocks are extra, as in 003.
fn sizes(blocks: u32, pages: u32) -> Sizes {
    Sizes { blocks, pages, logical: (blocks - 2 - blocks * 3 / 100) * pages, slots: 8192 }
}

/// 003, PIC and MP3: three quarters are filled with files, then a quarter is deleted
/// and copied again, ten times. Requests are of at most so many pages; 16 are 64 KB,
/// which is what its traces have on average.
fn files(name: &'static str, sizes: Sizes, file: u32, request: u32) -> Load {
    let mut load = Load::new(name, sizes);
    let mut random = Random::new(51);
    let count = load.logical() / 4 * 3 / file;
    for k in 0..count {
        load.write_in_order(k * file, file, request);
    }
    for _ in 0..10 {
        let mut chosen: Vec<u32> = (0..count).collect();
        let again = count / 3;
        for k in 0..again as usize {
            chosen.swap(k, random.between(k as u32, count - 1) as usize);
        }
        chosen.truncate(again as usize);
        chosen.iter().for_each(|&k| load.trim(k * file, file));
        chosen.iter().for_each(|&k| load.write_in_order(k * file, file, request));
    }
    load
}

/// 001: half of the logical pages filled in order, then random writes of so many
/// pages each, three tenths of the logical pages in all.
fn aged(name: &'static str, sizes: Sizes, count: u32) -> Load {
    let mut load = Load::new(name, sizes);
    let mut random = Random::new(52);
    let logical = load.logical();
    load.write_in_order(0, logical / 2, sizes.pages);
    for _ in 0..logical / 10 * 3 / count {
        let place = random.between(0, logical / count - 1);
        load.write(place * count, count);
    }
    load
}

/// 000, Spew: requests of 2 to 256 pages (8 KB to 1 MB in steps of 8 KB) at random
/// places, about one and a half times the logical pages in all.
fn spew(name: &'static str, sizes: Sizes) -> Load {
    let mut load = Load::new(name, sizes);
    let mut random = Random::new(53);
    let logical = load.logical();
    for _ in 0..logical / 84 {
        let count = 2 * random.between(1, sizes.pages.min(256) / 2);
        load.write(random.between(0, (logical - count) / 2) * 2, count);
    }
    load
}

/// Both tables, as lines of Markdown; `quick` on small devices.
pub fn tables(quick: bool) -> [Vec<String>; 2] {
    let (mlc, large) =
        if quick { (sizes(64, 128), sizes(64, 256)) } else { (sizes(1024, 128), sizes(1024, 256)) };
    let loads = [
        files("003, files of 486 pages: copied, then deleted and copied again", mlc, 486, 16),
        files("003, files of 1,126 pages: the same", mlc, 1126, 16),
        files("003, files of 486 pages: the same in requests of 128 pages", mlc, 486, 128),
        files("003, files of 1,126 pages: the same in requests of 128 pages", mlc, 1126, 128),
        aged("001, half in order, then random writes of 32 pages over 30 %", large, 32),
        aged("001, the same with random writes of one page", large, 1),
        spew("000, random writes of 2 to 256 pages", large),
    ];
    progress::clear();
    let table = |head: [&str; 2], row: fn(&Load) -> String| -> Vec<String> {
        head.iter().map(|line| line.to_string()).chain(loads.iter().map(row)).collect()
    };
    [
        table(
            [
                "| workload | B x N | ended after | bytes of the map | four bytes a page | the map is | at most |",
                "|---|---:|---|---:|---:|---:|---:|",
            ],
            Load::row,
        ),
        table(
            [
                "| workload | writes | cut | pieces | extents | at most | reclaims | copied pages | refused 5 | refused 6 | blocks in part | at most | free in them |",
                "|---|---:|---:|---:|---:|---:|---:|---:|---:|---:|---:|---:|---:|",
            ],
            Load::placed,
        ),
    ]
}
