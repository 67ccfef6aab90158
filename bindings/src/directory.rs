use crate::c;
use crate::library::{on_both, on_lists};
use crate::{Library, Refusal, Sheet};

/// Where the rows of a [`Library`] stand: a place for each container that has a row, ascending by key.
///
/// The lists are plain data, as the rows are. A directory matches its library where its used places are those that a build
/// writes; every call that goes by it is else refused with 29. What is changed by hand, rows or places, has to be built anew
/// by [`Library::build_directory`].
///
/// ```
/// use hrbotaj::{Library, LookUp, Refusal, Sheet};
///
/// # fn main() -> Result<(), Refusal> {
/// let sheet = Sheet::new(&[0.0, 0.0], &[8.0, 4.0], Some(8), None, Some(0.0))?;
/// let mut posts = Library::with_directory(64, 16);
/// posts.insert(&sheet, 7, &[2.5, 1.5])?;
/// posts.insert(&sheet, 9, &[2.25, 1.5])?;
/// posts.insert(&sheet, 3, &[6.5, 0.5])?;
/// assert_eq!(posts.search(&sheet, &[2.5, 1.5])?, Some(7));
///
/// // containers 6 and 10 are in use: row 0, and two rows from row 1 on
/// let directory = posts.directory.as_ref().unwrap();
/// assert_eq!(directory.places().collect::<Vec<_>>(), [(6, 0..1), (10, 1..3)]);
/// assert_eq!(posts.look_up(&sheet, 10)?, LookUp { place: Some(1), reads: 2 });
/// assert_eq!(posts.look_up(&sheet, 11)?, LookUp { place: None, reads: 2 });
///
/// // rows that were changed by hand no longer match it
/// posts.keys[0] = 5;
/// assert_eq!(posts.search(&sheet, &[2.5, 1.5]), Err(Refusal::MISMATCH));
/// posts.build_directory(&sheet)?;
/// assert_eq!(posts.search(&sheet, &[2.5, 1.5])?, Some(7));
/// # Ok(())
/// # }
/// ```
#[derive(Clone, Debug, Default, PartialEq, Eq)]
pub struct Directory {
    /// The container of each place.
    pub keys: Vec<u64>,
    /// Its first row, counted from 0.
    pub firsts: Vec<u64>,
    /// How many rows it has.
    pub counts: Vec<u64>,
    /// How many places are in use.
    pub used: u64,
}

/// What a look-up of a container tells.
#[derive(Clone, Copy, Debug, PartialEq, Eq)]
pub struct LookUp {
    /// The container's place in the directory, counted from 0, or none where no row has the key.
    pub place: Option<u64>,
    /// How many places were read: the middle one of those left, of two the lower, until found; 17 at most.
    pub reads: u64,
}

impl Directory {
    /// A directory with space for so many places, none in use: that of a library without rows.
    pub fn with_space(places: usize) -> Directory {
        Directory { keys: vec![0; places], firsts: vec![0; places], counts: vec![0; places], used: 0 }
    }

    /// The containers in use, ascending: the key and the rows of each. They are as the directory has them, whether it
    /// matches or not; a place whose rows would end past 2^64 - 1 ends them there.
    pub fn places(&self) -> impl Iterator<Item = (u64, std::ops::Range<u64>)> + '_ {
        let used = usize::try_from(self.used).unwrap_or(usize::MAX);
        let rows = self.firsts.iter().zip(&self.counts).map(|(first, count)| *first..first.saturating_add(*count));
        self.keys.iter().copied().zip(rows).take(used)
    }
}

impl Library {
    /// A library with space for so many rows, none in use, and a directory with space for so many places. A directory needs
    /// a place for each container that has a row: as many as the rows are always enough.
    pub fn with_directory(rows: usize, places: usize) -> Library {
        Library { directory: Some(Directory::with_space(places)), ..Library::with_space(rows) }
    }

    /// Builds the directory of the rows, whatever it holds, in the space that it has; a library that has none is given one
    /// with a place for each row of its space. Every entry past the places in use becomes 0. A refused build leaves the
    /// library as it was.
    ///
    /// Refusals: 24, 13, 12 (more containers have rows than the directory has places).
    pub fn build_directory(&mut self, sheet: &Sheet) -> Result<(), Refusal> {
        let had = self.directory.is_some();
        let places = self.keys.len();
        let directory = self.directory.get_or_insert_with(|| Directory::with_space(places));
        // SAFETY: each list is an array's or a vector's pointer and length; what is written are fields of the directory,
        // which is borrowed alone: three vectors with memory of their own, and the count.
        let number = unsafe {
            on_both!(
                gemlab_directory_build,
                sheet,
                self,
                (as_ptr, self.used),
                directory,
                (as_mut_ptr, &mut directory.used),
            )
        };
        let built = Refusal::judge(number);
        if built.is_err() && !had {
            self.directory = None;
        }
        built
    }

    /// Where the directory has the container of this key. A library without a directory is looked up as one whose directory
    /// has no place, so that 29 says that it has a row.
    ///
    /// Refusals: 24, 13, 29.
    pub fn look_up(&self, sheet: &Sheet, key: u64) -> Result<LookUp, Refusal> {
        let none = Directory::default();
        let directory = self.directory.as_ref().unwrap_or(&none);
        let (mut found, mut place, mut reads) = (0, 0, 0);
        // SAFETY: each list is an array's or a vector's pointer and length, and an empty vector's pointer is aligned and not
        // null too; what is written are three locals.
        let number = unsafe {
            on_both!(
                gemlab_directory_look_up,
                sheet,
                self,
                (as_ptr, self.used),
                directory,
                (as_ptr, directory.used),
                key,
                &mut found,
                &mut place,
                &mut reads,
            )
        };
        Refusal::judge(number).map(|()| LookUp { place: (found == 1).then_some(place), reads })
    }
}
