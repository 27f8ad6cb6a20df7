//! An area that a file keeps.

use litmus::{area_records, AppendRefusal, Area, Refusal};
use std::error::Error;
use std::fs::{self, File};
use std::io::{self, Read};
use std::os::unix::fs::FileExt;
use std::path::Path;

const UNREPAIRED: &str =
    "behind the last finished frame lie unfinished bytes; 'area repair' clears them";

/// An area that a file keeps, whose log has no fault.
pub struct Kept {
    file: File,
    /// What the file holds.
    bytes: Vec<u8>,
    /// Where the log ends.
    end: usize,
}

/// Takes each record of an area, with the place of its frame, and gives where the log ends.
pub fn walk(area: &[u8], mut take: impl FnMut(usize, &[u8])) -> Result<usize, Refusal> {
    let mut place = 0;
    for record in area_records(area) {
        let record = record?;
        take(place, record);
        place += 1 + record.len();
    }
    Ok(place)
}

/// Makes a file, which must not be there, with as many blank bytes.
pub fn create(path: &Path, size: u64) -> io::Result<()> {
    let mut file = File::create_new(path)?;
    let made = io::copy(&mut io::repeat(Area::BLANK).take(size), &mut file)
        .and_then(|_| file.sync_all())
        .and_then(|()| sync_folder(path));
    if made.is_err() {
        let _ = fs::remove_file(path);
    }
    made
}

/// The folder is what keeps a new file's name.
fn sync_folder(path: &Path) -> io::Result<()> {
    let folder = path.parent().filter(|folder| *folder != Path::new(""));
    File::open(folder.unwrap_or(Path::new(".")))?.sync_all()
}

impl Kept {
    pub fn open(path: &Path) -> Result<Kept, Box<dyn Error>> {
        let mut file = File::options().read(true).write(true).open(path)?;
        let mut bytes = Vec::new();
        file.read_to_end(&mut bytes)?;
        let end = walk(&bytes, |_, _| ())?;
        Ok(Kept { file, bytes, end })
    }

    /// Appends a record that can be read, and gives the place of its frame. The flag, which is the
    /// last store, waits until all others are safely in the file.
    pub fn append(&mut self, record: &[u8]) -> Result<usize, Box<dyn Error>> {
        let mut whole = self.bytes.clone();
        let appended = Area::new(&mut whole).append(record);
        let stores = appended.map_err(|refusal| self.words(record, refusal))?;
        let mut cut = self.bytes.clone();
        Area::new(&mut cut).append_some(record, stores as u64 - 1)?;
        self.store(cut)?;
        self.store(whole)?;
        let place = self.end;
        self.end += stores;
        Ok(place)
    }

    /// Why a record is not appended.
    fn words(&self, record: &[u8], refusal: AppendRefusal) -> String {
        let (takes, free) = (1 + record.len(), self.bytes.len() - self.end);
        match refusal {
            AppendRefusal::NoRoom => {
                format!("no room: it takes {takes} bytes with its flag, and {free} are free")
            }
            AppendRefusal::Unrepaired => UNREPAIRED.to_string(),
            AppendRefusal::Log(refusal) | AppendRefusal::Record(refusal) => refusal.to_string(),
        }
    }

    /// Blanks what lies behind the last finished frame, and gives how many bytes that took.
    pub fn repair(&mut self) -> Result<usize, Box<dyn Error>> {
        let mut image = self.bytes.clone();
        let stores = Area::new(&mut image).repair()?;
        self.store(image)?;
        Ok(stores)
    }

    /// Stores the bytes that differ in the image, one a write and front to back. Then they are
    /// safely in the file.
    fn store(&mut self, image: Vec<u8>) -> io::Result<()> {
        let pairs = (0..).zip(self.bytes.iter().zip(&image));
        for (place, (_, &byte)) in pairs.filter(|(_, (old, new))| old != new) {
            self.file.write_all_at(&[byte], place)?;
        }
        self.file.sync_data()?;
        self.bytes = image;
        Ok(())
    }
}
