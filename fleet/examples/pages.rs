//! Pages of 4 KiB in memory. A shard has as many pages as were filled, and moves in pieces while calls go on.
//!
//! ```console
//! $ pages --name 1 --servers 2 --shards 1    # a server; 2 likewise
//! ```
//!
//! A request of 8 bytes counts at the page with that number, and the answer is the count. A request of `fill` and 8
//! bytes fills this many pages. Numbers are in big-endian order.
use durkenzo_fleet::{Call, Came, Changes, Fault, Fleet, Options, Piece, Service, Shard};
use std::cmp::Ordering;
use std::collections::BTreeSet;
use std::error::Error;

const PAGE: usize = 4096;
/// The size of a page in a piece: its number, and its bytes.
const ENTRY: usize = 8 + PAGE;

#[derive(Default)]
struct Pages {
    pages: Vec<Box<[u8]>>,
    /// The pages that aren't copied to the next owner. There are none if there is no copy.
    uncopied: Option<Uncopied>,
}

#[derive(Default)]
struct Uncopied {
    /// The first page that was never copied.
    next: usize,
    /// The pages before that one that have changed since they were copied.
    changed: BTreeSet<usize>,
}

impl Pages {
    /// Adds pages until there are this many. They aren't zero, because memory that is zero isn't resident.
    fn fill(&mut self, count: usize) {
        let numbers = self.pages.len()..count;
        let page = |number| {
            let mut page = vec![number as u8 | 1; PAGE];
            page[..8].fill(0);
            page.into_boxed_slice()
        };
        self.pages.extend(numbers.map(page));
    }

    /// Counts at a page. If the page isn't there, the count is 0.
    fn count(&mut self, number: usize) -> u64 {
        let Some(page) = self.pages.get_mut(number) else {
            return 0;
        };
        if let Some(uncopied) = &mut self.uncopied {
            if number < uncopied.next {
                uncopied.changed.insert(number);
            }
        }
        let count = number_of(&page[..8]) + 1;
        page[..8].copy_from_slice(&count.to_be_bytes());
        count
    }

    /// Returns the page to copy next.
    fn next_page(&mut self) -> Option<(usize, &[u8])> {
        let uncopied = self.uncopied.as_mut()?;
        let number = match uncopied.next < self.pages.len() {
            true => {
                uncopied.next += 1;
                uncopied.next - 1
            }
            false => uncopied.changed.pop_first()?,
        };
        Some((number, &self.pages[number]))
    }

    /// Returns how many bytes of pieces are left.
    fn left(&self) -> u64 {
        let pages = |it: &Uncopied| self.pages.len() - it.next + it.changed.len();
        (self.uncopied.as_ref().map_or(0, pages) * ENTRY) as u64
    }
}

struct Store;

impl Service for Store {
    type Body = Pages;

    fn add(&self, _: Shard, came: Came<'_>) -> Result<Pages, Fault> {
        let mut pages = Pages::default();
        match came {
            Came::New | Came::Lost => {}
            Came::Handed(bytes) => self.add_piece(&mut pages, bytes)?,
        }
        Ok(pages)
    }

    fn answer(&self, pages: &mut Pages, call: Call<'_>) -> Vec<u8> {
        let answer = match call.request().strip_prefix(b"fill") {
            Some(count) => {
                pages.fill(number_of(count) as usize);
                pages.pages.len() as u64
            }
            None => pages.count(number_of(call.request()) as usize),
        };
        answer.to_be_bytes().to_vec()
    }

    fn hand_over(&self, pages: &mut Pages) -> Vec<u8> {
        self.begin_copy(pages);
        self.next_piece(pages, usize::MAX).bytes
    }

    fn changes(&self) -> Option<&dyn Changes<Pages>> {
        Some(self)
    }
}

impl Changes<Pages> for Store {
    fn begin_copy(&self, pages: &mut Pages) {
        pages.uncopied = Some(Uncopied::default());
    }

    fn next_piece(&self, pages: &mut Pages, most: usize) -> Piece {
        let mut bytes = Vec::with_capacity(most.min(pages.pages.len() * ENTRY));
        while bytes.len() + ENTRY <= most.max(ENTRY) {
            let Some((number, page)) = pages.next_page() else {
                break;
            };
            bytes.extend((number as u64).to_be_bytes());
            bytes.extend(page);
        }
        let left = pages.left();
        Piece { bytes, left }
    }

    fn end_copy(&self, pages: &mut Pages) {
        pages.uncopied = None;
    }

    fn begin_body(&self, _: Shard) -> Result<Pages, Fault> {
        Ok(Pages::default())
    }

    fn add_piece(&self, pages: &mut Pages, piece: &[u8]) -> Result<(), Fault> {
        for entry in piece.chunks(ENTRY) {
            if entry.len() != ENTRY {
                return Err("a page ends too early".into());
            }
            let (number, page) = entry.split_at(8);
            let number = number_of(number) as usize;
            match number.cmp(&pages.pages.len()) {
                Ordering::Less => pages.pages[number].copy_from_slice(page),
                Ordering::Equal => pages.pages.push(page.into()),
                Ordering::Greater => return Err("pages before it are missing".into()),
            }
        }
        Ok(())
    }
}

/// Returns the number in these bytes, of which at most 8 count.
fn number_of(bytes: &[u8]) -> u64 {
    let spelled = bytes.iter().take(8);
    spelled.fold(0, |number, byte| number << 8 | u64::from(*byte))
}

fn main() -> Result<(), Box<dyn Error>> {
    let fleet = Fleet::join(Store, Options::parse())?;
    println!("server {} at {}", fleet.server(), fleet.address());
    Ok(fleet.serve()?)
}
