use std::error::Error;
use std::fmt;

/// Why a call was turned away: a number from the table in `include/gemlab.h`. A refused call has changed nothing.
#[derive(Clone, Copy, Debug, PartialEq, Eq, PartialOrd, Ord, Hash)]
pub struct Refusal(pub u64);

/// The numbers with the header's names and what they say.
macro_rules! refusals {
    ($($number:literal $name:ident $meaning:literal,)*) => {
        impl Refusal {
            $(
                #[doc = concat!(stringify!($number), ": ", $meaning, ".")]
                pub const $name: Refusal = Refusal($number);
            )*

            /// What the number says.
            pub fn meaning(self) -> &'static str {
                match self.0 {
                    $($number => $meaning,)*
                    _ => "no refusal of this library",
                }
            }

            /// The header's name of the number, without `GEMLAB_`.
            pub fn name(self) -> Option<&'static str> {
                match self.0 {
                    $($number => Some(stringify!($name)),)*
                    _ => None,
                }
            }
        }
    };
}

refusals! {
    1 DIMENSION "the dimension is not 2 or 3",
    2 LENGTH "another position's length differs from the dimension",
    3 LIMIT "a float is not finite or past its limit",
    4 NO_DIVISIONS "divisions 0",
    5 ONE_DIVISION "divisions 1",
    6 MANY_DIVISIONS "divisions, or an axis of a cell index, above 1,024",
    7 CORNERS "xmax is not above xmin on some axis",
    8 TOLERANCE "the tolerance is 0 or negative",
    9 BORDER "the border is negative",
    10 SIDE "the side of a container is at most twice the tolerance",
    11 OUTSIDE "the position is outside the sheet or the index",
    12 FULL "the call needs more new rows, places of a directory, large-cell entries or entries for marks than are free",
    13 DAMAGED "what was handed in is damaged",
    14 SHORT "the lent list is shorter than the listing, or the lent buffer than the text",
    15 CLOSE "the ends of a line, or of a cylinder's axis, are too close",
    16 UNFIT "a circle in 3D, a cylinder or a plane in 2D, or a filter on an axis that is not there",
    17 RATIO "a ratio exceeds its divisions",
    18 NO_CELLS "no cells",
    19 BROKEN_MESH "a corner names no point, or the flat lists hold no whole number of points or cells",
    20 CUTOFF "the cutoff is outside 0 to 1",
    21 PERCENTAGE "the percentage is outside 0 to 1",
    22 NO_EXTENT "no extent, or 0 divisions, on some axis",
    23 ALL_LARGE "every cell is large, and the percentage keeps them so",
    24 TOO_LONG "a lent list holds more than 65,536 points, cells, rows, places or marks",
    25 COORDINATES "the coordinate list is not of length 4",
    26 NO_ROW "the id that is to be struck off has no row",
    27 MALFORMED "a line of the text is malformed",
    28 NO_DECIMAL "a coordinate to export is not, bit for bit, the value of any decimal that an import takes",
    29 MISMATCH "the used places of a directory do not match the rows",
}

impl Refusal {
    /// A call's number as a result: 0 is success.
    pub(crate) fn judge(number: u64) -> Result<(), Refusal> {
        match number {
            0 => Ok(()),
            n => Err(Refusal(n)),
        }
    }
}

impl fmt::Display for Refusal {
    fn fmt(&self, f: &mut fmt::Formatter) -> fmt::Result {
        write!(f, "refused {}: {}", self.0, self.meaning())
    }
}

impl Error for Refusal {}
