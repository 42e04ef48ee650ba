//! Known mistakes that can be planted, one at a time, in the running thread.

use std::cell::Cell;
use std::ops::RangeInclusive;

/// The terminator counts only when its sprite covers the line.
pub const TERMINATOR_MUST_COVER: u32 = 1;
/// Y from 225 to 254 never covers a line.
pub const HIGH_Y_IS_BELOW: u32 = 2;
/// Sprites of colour 0 do not count among the four.
pub const ONLY_COLOURED_COUNT: u32 = 3;
/// A drawn sprite with no visible column fetches nothing but its Y.
pub const OFF_SIDE_NOT_FETCHED: u32 = 4;
/// Refresh takes 5S from the notes of the due lines only.
pub const FIFTH_FROM_REDRAWN: u32 = 5;
/// Reset leaves the redraw mark alone.
pub const RESET_FORGETS_MARK: u32 = 6;
/// Data write leaves the map alone.
pub const WRITE_FORGETS_MAP: u32 = 7;
/// Data read at 16,383 leaves the address there.
pub const READ_DOES_NOT_WRAP: u32 = 8;
/// Graphics II uses the first third of its tables for all lines.
pub const THIRDS_FORGOTTEN: u32 = 9;
/// Sprites of colour 0 do not take part in coincidence.
pub const ONLY_COLOURED_COINCIDE: u32 = 10;
/// A cell's colour byte is not among the fetches.
pub const COLOUR_NOT_FETCHED: u32 = 11;
/// The byte of a sprite's right half is not among the fetches.
pub const RIGHT_HALF_NOT_FETCHED: u32 = 12;
/// The Y of the fifth sprite is not among the fetches.
pub const FIFTH_NOT_FETCHED: u32 = 13;
/// Data write leaves the map alone when the byte is there already.
pub const EQUAL_WRITE_FORGETS_MAP: u32 = 14;
/// Refresh leaves the redraw mark set.
pub const REFRESH_KEEPS_MARK: u32 = 15;
/// Refresh leaves the map as it was.
pub const REFRESH_KEEPS_MAP: u32 = 16;
/// Refresh answers how many lines look different now.
pub const COUNT_OF_CHANGED: u32 = 17;
/// Refresh redraws every line and counts the due ones.
pub const ALL_REDRAWN: u32 = 18;
/// Refresh redraws only with the redraw mark set; else it only counts.
pub const REFRESH_ONLY_COUNTS: u32 = 19;
/// Refresh redraws a line and leaves its note.
pub const NOTE_NOT_WRITTEN: u32 = 20;
/// Full draw leaves the map as it was.
pub const FULL_DRAW_KEEPS_MAP: u32 = 21;

/// A run makes the calls after a differing read too.
pub const GOES_ON_AFTER_DIFFERING: u32 = 22;
/// A run does not count the differing read among the records done.
pub const DIFFERING_NOT_COUNTED: u32 = 23;
/// A run gives the place after the differing read.
pub const PLACE_ONE_TOO_HIGH: u32 = 24;
/// A run gives the buffer or status as the differing read left it.
pub const FOUND_AFTER_READ: u32 = 25;
/// Data write in a run leaves the map alone.
pub const RUN_FORGETS_MAP: u32 = 26;
/// A log's sum has the trailer's first bytes in it.
pub const SUM_WITH_TRAILER: u32 = 27;
/// A log may have any distance.
pub const DISTANCE_NOT_TESTED: u32 = 28;
/// A record may have operation 7.
pub const OPERATION_7: u32 = 29;
/// A record may draw line 192.
pub const LINE_192_IN_LOG: u32 = 30;
/// A reset in a log may have any value.
pub const RESET_WITH_VALUE: u32 = 31;
/// Records are tested before lengths and trailer.
pub const RECORD_TESTED_FIRST: u32 = 32;
/// A run makes the calls before a wrong record.
pub const RUN_BEFORE_TESTED: u32 = 33;
/// The numbers of a log's trailer are read high byte first.
pub const TRAILER_HIGH_FIRST: u32 = 34;

/// Sprites coincide on the 256 visible columns only.
pub const ONLY_VISIBLE_COINCIDE: u32 = 35;
/// Sprites do not coincide left of column 0.
pub const NO_COINCIDENCE_ON_THE_LEFT: u32 = 36;
/// Sprites do not coincide right of column 255.
pub const NO_COINCIDENCE_ON_THE_RIGHT: u32 = 37;
/// The fourth drawn sprite does not take part in coincidence.
pub const FOURTH_DOES_NOT_COINCIDE: u32 = 38;
/// Sprites do not coincide at column -32.
pub const FIRST_COLUMN_FORGOTTEN: u32 = 39;
/// Sprites do not coincide at columns 285 and 286. Only magnified ones get
/// there, so those that meet at 286 meet at 285 too.
pub const LAST_COLUMNS_FORGOTTEN: u32 = 40;

/// The count of lost first bytes goes from 65,535 to 0.
pub const COUNT_WRAPS: u32 = 41;
/// The count stops at 65,534.
pub const COUNT_STOPS_EARLY: u32 = 42;
/// A control write that completes a pair counts.
pub const PAIR_COUNTS: u32 = 43;
/// A control write whose byte begins to wait counts.
pub const FIRST_BYTE_COUNTS: u32 = 44;
/// Data write drops a first byte and does not count it.
pub const DATA_WRITE_FORGETS_COUNT: u32 = 45;
/// Data read drops a first byte and does not count it.
pub const DATA_READ_FORGETS_COUNT: u32 = 46;
/// Status read drops a first byte and does not count it.
pub const STATUS_READ_FORGETS_COUNT: u32 = 47;
/// The three calls count though nothing waits.
pub const COUNTS_WITHOUT_WAITING: u32 = 48;
/// Reset leaves the count as it was.
pub const RESET_KEEPS_COUNT: u32 = 49;
/// Reset clears the count and then counts the byte that waits.
pub const RESET_COUNTS: u32 = 50;
/// Reading a snapshot leaves the count as it was.
pub const SNAPSHOT_KEEPS_COUNT: u32 = 51;
/// The count's two bytes in the block have the high one first.
pub const COUNT_HIGH_FIRST: u32 = 52;
/// A run leaves the count as it was.
pub const RUN_KEEPS_COUNT: u32 = 53;

/// A point is that of the cell to the right.
pub const POINT_OF_NEIGHBOUR: u32 = 54;
/// A point leaves the first drawn sprite out.
pub const POINT_WITHOUT_FRONT: u32 = 55;
/// A point shows the sprite of the highest number.
pub const POINT_FROM_BEHIND: u32 = 56;
/// A point shows the fifth sprite too.
pub const POINT_OF_FIFTH: u32 = 57;
/// A sprite of colour 0 hides the sprites behind it at a point.
pub const UNCOLOURED_HIDES: u32 = 58;
/// A point moves status, as drawing its line does.
pub const POINT_DRAWS: u32 = 59;
/// A point's column is tested before its line.
pub const COLUMN_TESTED_FIRST: u32 = 60;
/// A point at column 256 is that at column 0.
pub const COLUMN_256: u32 = 61;
/// A point's column goes round at 256.
pub const POINT_COLUMN_WRAPS: u32 = 62;
/// A point's line goes round at 256.
pub const POINT_LINE_WRAPS: u32 = 63;
/// A point at Text's margins is that of a cell.
pub const POINT_IN_MARGIN: u32 = 64;
/// A point of a blank line is that of a cell, as in Graphics I.
pub const BLANK_POINT_READS: u32 = 65;
/// A point in Text takes the cells as 8 wide.
pub const POINT_TEXT_8_WIDE: u32 = 66;
/// A point without a colour is black, external video or not.
pub const POINT_WITHOUT_EXTERNAL: u32 = 67;
/// A drawn sprite beside the point has nothing but its Y fetched.
pub const BESIDE_NOT_FETCHED: u32 = 68;

/// A point in Text takes the cells as 7 wide.
pub const POINT_TEXT_7_WIDE: u32 = 69;
/// A point in Text has its column counted from column 7.
pub const POINT_TEXT_FROM_7: u32 = 70;
/// A point in the first column of a Text cell but the first is bit 6 of the
/// cell before.
pub const POINT_TEXT_BIT_6: u32 = 71;
/// A line in Text takes the cells as 7 wide.
pub const LINE_TEXT_7_WIDE: u32 = 72;
/// A line in Text has its columns counted from column 7.
pub const LINE_TEXT_FROM_7: u32 = 73;
/// A line in Text has bit 6 of the cell before in the first column of each cell
/// but the first.
pub const LINE_TEXT_BIT_6: u32 = 74;

/// A sprite's origin is its place among the drawn ones.
pub const PLACE_AS_NUMBER: u32 = 75;
/// A sprite of colour 0 is an origin, of whatever shows through it.
pub const UNCOLOURED_IS_ORIGIN: u32 = 76;
/// The origins backdrop and black are exchanged.
pub const BACKDROP_AND_BLACK: u32 = 77;
/// The origins black and external are exchanged.
pub const BLACK_AND_EXTERNAL: u32 = 78;
/// The backdrop at Text's margins and on blank lines is the pattern plane's.
pub const MARGIN_IS_PATTERN: u32 = 79;
/// Origins are cleared before the tests, in a call that is refused too.
pub const ORIGINS_BEFORE_TESTED: u32 = 80;
/// A 0 bit in Text shows the backdrop.
pub const TEXT_0_IS_BACKDROP: u32 = 81;
/// Where coloured sprites overlap, the origin is the one behind the others.
pub const HIDDEN_IS_ORIGIN: u32 = 82;

/// Refresh looks at the colours only where a name or a pattern is marked too.
pub const COLOURS_NOT_ALONE: u32 = 83;
/// Refresh looks at the sprite patterns only where an attribute is marked too.
pub const SPRITE_PATTERNS_NOT_ALONE: u32 = 84;
/// Refresh takes the last byte of the patterns as not marked, where it alone of
/// them is.
pub const LAST_PATTERN_BYTE: u32 = 85;
/// Refresh takes the last byte of the attributes as not marked, where it
/// alone of them is.
pub const LAST_ATTRIBUTE: u32 = 86;
/// Refresh takes the last byte of the sprite patterns as not marked, where it
/// alone of them is.
pub const LAST_SPRITE_PATTERN_BYTE: u32 = 87;
/// Refresh takes the sprites' colour bytes as not marked.
pub const SPRITE_COLOUR_FORGOTTEN: u32 = 88;
/// Refresh in Multicolor looks at all eight bytes of a pattern for each line.
pub const ALL_EIGHT_BYTES: u32 = 89;
/// Refresh redraws the next line where one line of a row is due.
pub const ONE_LINE_TOO_FAR: u32 = 90;
/// Refresh redraws the whole row where several of its lines are due, and counts
/// those.
pub const ROW_REDRAWN_WHOLE: u32 = 91;

/// The highest fault number.
pub const LAST: u32 = 91;

/// A few words for each fault, from 1 up.
pub const NAMES: [&str; LAST as usize] = [
    "the terminator counts only where it covers",
    "Y 225 to 254 is always below the screen",
    "only coloured sprites count among the four",
    "a sprite off to the side is not fetched",
    "5S comes from the redrawn lines only",
    "reset leaves the redraw mark",
    "a data write leaves the map",
    "a data read does not wrap",
    "Graphics II forgets its thirds",
    "only coloured sprites coincide",
    "a cell's colour is not fetched",
    "the right half of a sprite is not fetched",
    "the fifth sprite's Y is not fetched",
    "a write of an equal byte leaves the map",
    "a refresh leaves the redraw mark",
    "a refresh leaves the map",
    "a refresh counts the lines that changed",
    "a refresh redraws every line",
    "a refresh without the redraw mark only counts",
    "a refresh leaves the notes",
    "a full draw leaves the map",
    "a run goes on after a differing read",
    "a run does not count the differing read",
    "a run gives a place one too high",
    "a run gives the byte after the differing read",
    "a data write in a run leaves the map",
    "a log's sum has trailer bytes in it",
    "a log's distance is not tested",
    "operation 7 is let through",
    "line 192 of a log is let through",
    "a reset with a value is let through",
    "records are tested before the log's form",
    "records are run before all are tested",
    "a log's trailer is read high byte first",
    "sprites coincide on visible columns only",
    "sprites do not coincide left of column 0",
    "sprites do not coincide right of column 255",
    "the fourth drawn sprite does not coincide",
    "sprites do not coincide at column -32",
    "sprites do not coincide at columns 285 and 286",
    "the count of lost bytes wraps",
    "the count of lost bytes stops at 65,534",
    "a completed pair counts as a lost byte",
    "a byte that begins to wait counts as lost",
    "a data write does not count the byte it drops",
    "a data read does not count the byte it drops",
    "a status read does not count the byte it drops",
    "a lost byte is counted where none waits",
    "a reset leaves the count of lost bytes",
    "a reset counts the byte that waits",
    "a snapshot read leaves the count of lost bytes",
    "the block has the count's high byte first",
    "a run leaves the count of lost bytes",
    "a point takes the neighbour's cell",
    "a point leaves the front sprite out",
    "a point has the highest sprite in front",
    "a point shows the fifth sprite",
    "a sprite of colour 0 hides others at a point",
    "a point moves status",
    "a point's column is tested before its line",
    "column 256 of a point is let through",
    "a point's column wraps",
    "a point's line wraps",
    "a point reads a cell at Text's margins",
    "a point of a blank line reads a cell",
    "a point takes Text's cells as 8 wide",
    "a point ignores external video",
    "a sprite beside a point is not fetched",
    "a point takes Text's cells as 7 wide",
    "a point counts Text's columns from 7",
    "a point counts Text's bits one too far",
    "a line takes Text's cells as 7 wide",
    "a line counts Text's columns from 7",
    "a line counts Text's bits one too far",
    "a sprite's origin is its place among the drawn",
    "a sprite of colour 0 is an origin",
    "the origins backdrop and black are exchanged",
    "the origins black and external are exchanged",
    "Text's margins and blank lines are the pattern plane's",
    "origins are written by a refused call",
    "a 0 bit in Text is the backdrop's",
    "a hidden sprite is an origin",
    "colours are not looked at by themselves",
    "sprite patterns are not looked at by themselves",
    "the last byte of the patterns alone is forgotten",
    "the last attribute alone is forgotten",
    "the last sprite pattern byte alone is forgotten",
    "a sprite's colour byte is forgotten",
    "Multicolor looks at all eight bytes of a pattern",
    "one due line of a row is drawn one too far down",
    "several due lines of a row have all of it redrawn",
];

/// The mistakes about a pixel's origin, which a line and a point both make.
pub const OF_ORIGINS: [u32; 7] = [
    PLACE_AS_NUMBER,
    UNCOLOURED_IS_ORIGIN,
    BACKDROP_AND_BLACK,
    BLACK_AND_EXTERNAL,
    MARGIN_IS_PATTERN,
    TEXT_0_IS_BACKDROP,
    HIDDEN_IS_ORIGIN,
];

/// The mistakes about which bytes are marked.
pub const OF_MARKS: RangeInclusive<u32> = COLOURS_NOT_ALONE..=ALL_EIGHT_BYTES;
/// Those, and the mistakes about which lines of a row are redrawn.
pub const OF_ROWS: RangeInclusive<u32> = COLOURS_NOT_ALONE..=ROW_REDRAWN_WHOLE;

/// The ways to miscount Text's cells, for a point and for a line: 7 wide, from
/// column 7, a bit too far.
pub const POINT_MISCOUNTS: [u32; 3] = [POINT_TEXT_7_WIDE, POINT_TEXT_FROM_7, POINT_TEXT_BIT_6];
pub const LINE_MISCOUNTS: [u32; 3] = [LINE_TEXT_7_WIDE, LINE_TEXT_FROM_7, LINE_TEXT_BIT_6];

thread_local! {
    static PLANTED: Cell<u32> = const { Cell::new(0) };
}

/// Plants a fault for this thread; 0 takes it away.
pub fn plant(number: u32) {
    PLANTED.with(|cell| cell.set(number));
}

/// The planted fault, 0 for none.
pub fn number() -> u32 {
    PLANTED.with(|cell| cell.get())
}

/// Whether that fault is the planted one.
pub fn planted(fault: u32) -> bool {
    number() == fault
}

/// Where a column of Text lies under the planted one of these mistakes;
/// `from_first` counts from column 8. None where none is planted, or where it
/// makes no difference.
pub fn miscounted(ways: [u32; 3], from_first: usize) -> Option<(usize, usize)> {
    let [is_7_wide, is_from_7, is_too_far] = ways.map(planted);
    if is_7_wide {
        Some((from_first / 7, from_first % 7))
    } else if is_from_7 {
        Some(((from_first + 1) / 6, (from_first + 1) % 6))
    } else if is_too_far {
        // Six columns are taken off only while more than six are left.
        let before = from_first.checked_sub(1)?;
        Some((before / 6, before % 6 + 1))
    } else {
        None
    }
}
