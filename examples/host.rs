//! A first lesson in the library: draws a forecast of 96 points, reads STATUS, writes the picture as a plain PBM file,
//! takes the curve away again, and reads the file back. With a name, host morning.pbm, it keeps the file under it.
//! README.md says how to build it. Where something is not as it should be it says so and ends with status 1.

/// `include/gdp.h` says what each field means; some only the library reads.
#[repr(C)]
#[derive(Clone, Copy)]
#[allow(dead_code)]
#[rustfmt::skip]
struct State {
    x: u16, y: u16, done: u16, ctrl1: u8, ctrl2: u8, csize: u8, deltax: u8, deltay: u8, xlp: u8, ylp: u8,
    code: u8, modes: u8, signals: u8,
}
#[repr(C)]
struct Answer {
    number: u8,
    value: u16,
    state: State,
}
#[repr(C)]
struct PbmAnswer {
    number: u8,
    value: u32,
}
const _: () = assert!(size_of::<State>() == 16 && align_of::<State>() == 2);
const _: () = assert!(size_of::<Answer>() == 20 && std::mem::offset_of!(Answer, state) == 4);
const _: () = assert!(size_of::<PbmAnswer>() == 8 && std::mem::offset_of!(PbmAnswer, value) == 4);

// Safe to call with any numbers, as long as each pointer comes with the length of its own memory.
#[link(name = "gdp", kind = "static")]
extern "C" {
    fn gdp_fresh(format: u8) -> Answer;
    fn gdp_write(state: State, address: u8, value: u8) -> Answer;
    fn gdp_read(state: State, address: u8) -> Answer;
    fn gdp_grant(state: State, n: u16, pic: *mut u8, pic_len: usize, table: *const u8, table_len: usize) -> Answer;
    fn gdp_write_pbm(format: u8, pic: *const u8, pic_len: usize, buffer: *mut u8, buffer_len: usize) -> PbmAnswer;
    fn gdp_read_pbm(format: u8, file: *const u8, file_len: usize, pic: *mut u8, pic_len: usize) -> PbmAnswer;
}

const EF9366: u8 = 0; // the format: 512 by 256 dots
const STATUS: u8 = 0; // CMD when written
const CTRL1: u8 = 1;
const DELTAX: u8 = 5;
const DELTAY: u8 = 7;
const X_UPPER: u8 = 8; // then X's lower 8 bits, and Y likewise
const PEN: u8 = 0x43; // CTRL1: down, a flag when ready rises, and bit 1 high
const ERASER: u8 = 0x41; // the same with bit 1 low
const VECTOR: u8 = 0x11; // X and Y grow
const VECTOR_DOWN: u8 = 0x15; // X grows, Y falls

const LEFT: u16 = 24;
const STEP: u8 = 5;
/// Sulphide over a day of quarter hours: the height of each point.
const FORECAST: [u8; 96] = [
    45, 45, 45, 45, 46, 46, 46, 47, 48, 49, 51, 53, 56, 60, 65, 71, 78, 86, 95, 106, 117, 129, 142, 155, 168, 179, 190,
    198, 205, 209, 210, 209, 205, 198, 190, 179, 168, 155, 142, 130, 117, 106, 95, 86, 78, 71, 66, 61, 58, 56, 54, 54,
    54, 54, 56, 58, 60, 63, 67, 71, 76, 81, 87, 93, 100, 106, 113, 119, 125, 130, 135, 139, 142, 143, 144, 143, 142,
    139, 135, 130, 125, 119, 113, 106, 100, 93, 87, 81, 76, 71, 67, 63, 60, 57, 54, 52,
];
const TABLE: [u8; 480] = [0; 480]; // no character is drawn, but each grant is lent a table

/// The library keeps nothing between calls: this is the whole card.
struct Card {
    state: State,
    picture: Vec<u8>,
}

impl Card {
    /// Goes on with an answer's state, if the call was accepted.
    fn taken(&mut self, answer: Answer, call: &str) -> usize {
        expect(&format!("the refusal number of {call}"), answer.number.into(), 0);
        self.state = answer.state;
        answer.value.into()
    }
    fn put(&mut self, address: u8, value: u8) {
        self.taken(unsafe { gdp_write(self.state, address, value) }, "a write");
    }
    fn status(&mut self) -> usize {
        self.taken(unsafe { gdp_read(self.state, STATUS) }, "a read")
    }
    fn go(&mut self, x: u16, y: u16) {
        let halves = [x >> 8, x & 255, y >> 8, y & 255];
        (X_UPPER..).zip(halves).for_each(|(address, half)| self.put(address, half as u8));
    }
    /// A vector command, run to its end. Answers the write cycles used.
    fn vector(&mut self, from: u8, to: u8) -> usize {
        self.put(DELTAX, STEP);
        self.put(DELTAY, from.abs_diff(to));
        self.put(STATUS, if to < from { VECTOR_DOWN } else { VECTOR });
        let (pic, pic_len) = (self.picture.as_mut_ptr(), self.picture.len());
        self.taken(unsafe { gdp_grant(self.state, 65535, pic, pic_len, TABLE.as_ptr(), TABLE.len()) }, "a grant")
    }
    fn curve(&mut self) -> usize {
        FORECAST.windows(2).map(|ends| self.vector(ends[0], ends[1])).sum()
    }
    fn lit(&self) -> usize {
        self.picture.iter().map(|byte| byte.count_ones() as usize).sum()
    }
    /// The picture as a plain PBM file.
    fn file(&self) -> Vec<u8> {
        let mut file = vec![0; 133_131];
        let (pic, pic_len) = (self.picture.as_ptr(), self.picture.len());
        let written = unsafe { gdp_write_pbm(EF9366, pic, pic_len, file.as_mut_ptr(), file.len()) };
        expect("the refusal number of the file", written.number.into(), 0);
        file.truncate(written.value as usize);
        file
    }
    fn show(&mut self, file: &[u8]) {
        let (pic, pic_len) = (self.picture.as_mut_ptr(), self.picture.len());
        let read = unsafe { gdp_read_pbm(EF9366, file.as_ptr(), file.len(), pic, pic_len) };
        expect("the refusal number of reading the file", read.number.into(), 0);
    }
}

fn expect(what: &str, found: usize, wanted: usize) {
    if found != wanted {
        eprintln!("host.rs: {what} is {found} and should be {wanted}.");
        std::process::exit(1)
    }
}

fn keep(name: &std::ffi::OsStr, file: &[u8]) {
    if let Err(why) = std::fs::write(name, file) {
        eprintln!("host.rs: the picture could not be written to {}: {why}.", name.to_string_lossy());
        std::process::exit(1)
    }
}

fn main() {
    let fresh = unsafe { gdp_fresh(EF9366) };
    let mut card = Card { state: fresh.state, picture: vec![0; 16384] };
    card.taken(fresh, "a fresh state");
    expect("the first STATUS", card.status(), 0x05);
    card.put(CTRL1, PEN);
    card.go(LEFT, FORECAST[0].into());
    let start = card.state;
    let (cycles, dots) = (card.curve(), card.lit());
    expect("the number of lit dots", dots, cycles - 94); // where two vectors meet a dot is written twice
    println!("drawn: 95 vectors, {cycles} cycles, {dots} dots lit");
    let (first, second) = (card.status(), card.status());
    expect("STATUS after the curve", first, 0xC5); // no pen sequence, ready, ready's flag, a flag
    expect("STATUS read again", second, 0x05); // reading clears the flags
    println!("STATUS: {first:02X}, read again {second:02X}");
    let file = card.file();
    if let Some(name) = std::env::args_os().nth(1) {
        keep(&name, &file);
    }
    println!("as plain PBM: {} bytes", file.len());
    // From the same start, or ties fall otherwise and dots stay.
    card.go(start.x, start.y);
    card.put(CTRL1, ERASER);
    expect("the eraser's number of cycles", card.curve(), cycles);
    expect("the number of dots left", card.lit(), 0);
    println!("taken away: {cycles} cycles, the picture is dark again");
    card.show(&file);
    expect("the number of dots read back", card.lit(), dots);
    println!("read back: {dots} dots lit");
}
