//! Pseudo-random scripts: scenes in changing order, each with its own kind of trouble.

use std::fmt::{Display, Write};

use super::bytes::{self, Size};
use super::rng::Rng;
use crate::composition::{Burst, Composition};
use crate::page;

/// All scenes. None has more than some 8,000 clocks.
const SCENES: [fn(&mut Maker); 17] = [
    without_composition,
    ports,
    interrupted_parameters,
    whole_frames,
    meddled_frames,
    many_frames,
    lateness_by_one_clock,
    short_pages,
    changing_sources,
    large_screens,
    largest_screen,
    stills_and_windows,
    stop_codes,
    limits,
    pen_strokes,
    calls_at_edges,
    many_field_characters,
];

pub fn make(seed: u64) -> String {
    let mut maker = Maker { rng: Rng::new(seed), text: String::new(), clocks: 0 };
    let goal = maker.rng.between(2_000, 50_000);
    let mut scenes = SCENES;
    loop {
        maker.rng.shuffle(&mut scenes);
        for scene in scenes {
            scene(&mut maker);
            if maker.clocks >= goal {
                return maker.text;
            }
        }
    }
}

struct Maker {
    rng: Rng,
    text: String,
    /// How many clocks the script asks for.
    clocks: u32,
}

/// What a scene knows of the console: the composition it has given it, and its latest Start.
struct Setting {
    composition: Composition,
    start: u8,
}

impl Setting {
    fn burst(&self) -> Burst {
        Burst::from_start(self.start)
    }
}

/// Single lines.
impl Maker {
    fn line(&mut self, line: impl Display) {
        writeln!(self.text, "{line}").expect("a string takes all text");
    }

    fn command(&mut self, byte: u8) {
        self.line(format_args!("command {byte:02X}"));
    }

    fn parameter(&mut self, byte: u8) {
        self.line(format_args!("parameter {byte:02X}"));
    }

    fn clocks(&mut self, count: u32) {
        self.line(format_args!("clocks {count}"));
        self.clocks += count;
    }

    fn some_clocks(&mut self, least: u32, most: u32) {
        let count = self.rng.between(least, most);
        self.clocks(count);
    }

    fn page(&mut self, bytes: &[u8]) {
        let digits: String = bytes.iter().map(|byte| format!("{byte:02X}")).collect();
        self.line(format_args!("page {}", if digits.is_empty() { "-" } else { &digits }));
    }

    fn spans(&mut self, spans: &[(u32, u32)]) {
        let fields: String = spans.iter().map(|(first, length)| format!(" {first}+{length}")).collect();
        self.line(format_args!("spans{fields}"));
    }

    fn turns(&mut self, free: u32, busy: u32) {
        self.line(format_args!("turns {free} {busy}"));
    }

    fn window(&mut self, row: u32) {
        self.line(format_args!("window {row}"));
    }

    fn still(&mut self, row: u32, size: u32) {
        self.line(format_args!("still {row} {size}"));
    }
}

/// Small groups of lines.
impl Maker {
    /// Gives the console a composition, sometimes with a refused parameter on the way, and a Start.
    fn set_up(&mut self, size: &Size) -> Setting {
        if self.rng.one_in(3) {
            self.line("new");
        }
        let parameters = bytes::parameters(&mut self.rng, size);
        self.reset(parameters);
        let composition = Composition::from_parameters(parameters);
        let start = self.start_byte(&composition);
        if self.rng.one_in(2) {
            self.load_cursor(&composition);
        }
        self.command(start);
        Setting { composition, start }
    }

    fn reset(&mut self, parameters: [u8; 4]) {
        self.command(0x00);
        if self.rng.one_in(6) {
            let most = self.rng.pick(&[80, 127]);
            let too_wide = self.rng.between(80, most) as u8 | self.rng.pick(&[0x00, 0x80]);
            self.parameter(too_wide);
        }
        for parameter in parameters {
            self.parameter(parameter);
        }
    }

    /// A Start of any burst, or of one with which rows would come in time on a free bus, be it rows
    /// of one byte a column or of as many bytes as a row can take.
    fn start_byte(&mut self, composition: &Composition) -> u8 {
        let any = 0x20 | self.rng.byte() & 0x1F;
        let bytes_a_column = match self.rng.between(0, 3) {
            0 => return any,
            1 => 1,
            _ if composition.fields_have_positions => 1,
            _ => 2,
        };
        let in_time = |byte: &u8| {
            let last = take_on_free_bus((bytes_a_column * composition.columns) as usize, Burst::from_start(*byte));
            last < composition.row_clocks()
        };
        let fitting: Vec<u8> = (0x20..=0x3F).filter(in_time).collect();
        if fitting.is_empty() {
            any
        } else {
            self.rng.pick(&fitting)
        }
    }

    /// Loads the cursor, mostly with a place on the screen.
    fn load_cursor(&mut self, composition: &Composition) {
        let column = self.near(composition.columns);
        let row = self.near(composition.rows);
        self.command(0x80);
        self.parameter(column);
        self.parameter(row);
    }

    fn near(&mut self, count: u32) -> u8 {
        match self.rng.between(0, 9) {
            0 => self.rng.byte(),
            1 => count as u8,
            _ => self.rng.between(0, count - 1) as u8,
        }
    }

    /// Makes a source over the page, on any of the three buses.
    fn any_bus(&mut self, composition: &Composition) {
        match self.rng.between(0, 2) {
            0 => self.line("free"),
            1 => self.any_turns(),
            _ => self.any_spans(composition),
        }
    }

    fn any_turns(&mut self) {
        let (free, busy) = match self.rng.between(0, 5) {
            0 => (self.rng.between(0, 255), self.rng.between(0, 255)),
            1 => (self.rng.between(0, 2), self.rng.between(0, 2)),
            _ => (self.rng.between(1, 9), self.rng.between(0, 4)),
        };
        self.turns(free, busy);
    }

    fn any_spans(&mut self, composition: &Composition) {
        let count = self.rng.between(0, 8);
        let spans: Vec<(u32, u32)> = (0..count)
            .map(|_| {
                let first = self.rng.between(0, composition.frame_clocks());
                (first, self.rng.between(0, composition.line_clocks()))
            })
            .collect();
        self.spans(&spans);
    }

    /// The same, but on a bus that is nearly always free, so that most rows come in time.
    fn gentle_bus(&mut self) {
        match self.rng.between(0, 3) {
            0 => {
                let (free, busy) = (self.rng.between(8, 255), self.rng.between(0, 2));
                self.turns(free, busy);
            }
            1 => {
                let spans: Vec<(u32, u32)> =
                    (0..20).map(|_| (self.rng.between(0, 8_000), self.rng.between(0, 3))).collect();
                self.spans(&spans);
            }
            _ => self.line("free"),
        }
    }

    /// A page of about the length that a frame takes, and which it may or may not lack.
    fn any_page(&mut self, setting: &Setting) {
        let mut bytes = bytes::fitting(&mut self.rng, &setting.composition, setting.burst());
        match self.rng.between(0, 9) {
            0 => bytes.clear(),
            1 => {
                bytes.pop();
            }
            2 => bytes.truncate(bytes.len() / 2),
            3 => bytes.extend(bytes::mixed(&mut self.rng, 40)),
            _ => {}
        }
        self.page(&bytes);
    }

    /// Plays clocks in pieces, with calls between them.
    fn clocks_with(&mut self, count: u32, pieces: u32, mut call: impl FnMut(&mut Maker)) {
        let mut cuts: Vec<u32> = (1..pieces).map(|_| self.rng.between(0, count)).collect();
        cuts.sort_unstable();
        let mut played = 0;
        for cut in cuts {
            self.clocks(cut - played);
            played = cut;
            call(self);
        }
        self.clocks(count - played);
    }

    /// A call that alters nothing in a running frame.
    fn harmless_call(&mut self, composition: &Composition) {
        match self.rng.between(0, 6) {
            0 | 1 => self.line("status"),
            2 => self.line("read"),
            3 => self.line("stroke"),
            4 => self.refused_command(),
            5 => {
                let row = self.rng.between(0, composition.rows + 1);
                self.window(row);
            }
            _ => {
                let row = self.rng.between(0, composition.rows + 1);
                self.still(row, composition.row_clocks());
            }
        }
    }

    fn refused_command(&mut self) {
        let byte = loop {
            let byte = self.rng.byte();
            let is_command = byte & 0x1F == 0 || byte & 0xE0 == 0x20;
            if !is_command {
                break byte;
            }
        };
        self.command(byte);
    }

    /// A call that may well alter the running frame.
    fn meddling_call(&mut self, composition: &Composition) {
        match self.rng.between(0, 11) {
            0 => self.command(0x40),
            1 => {
                self.command(0x40);
                let start = self.start_byte(composition);
                self.command(start);
            }
            2 => {
                let start = self.start_byte(composition);
                self.command(start);
            }
            3 => self.command(0xE0),
            4 | 5 => self.load_cursor(composition),
            6 => {
                self.command(0x80);
                let column = self.near(composition.columns);
                self.parameter(column);
            }
            7 => self.command(0xA0),
            8 => self.command(0xC0),
            9 => self.reset_in_part(),
            10 => {
                self.command(0x60);
                self.line("read");
                self.line("stroke");
                self.line("read");
            }
            _ => self.harmless_call(composition),
        }
    }

    /// A Reset of which some parameters are still to come.
    fn reset_in_part(&mut self) {
        self.command(0x00);
        for _ in 0..self.rng.between(0, 3) {
            let parameter = self.rng.between(0, 79) as u8;
            self.parameter(parameter);
        }
    }

    fn any_port_call(&mut self) {
        match self.rng.between(0, 9) {
            0 | 1 => {
                let command = self.rng.pick(&[0x00, 0x20, 0x25, 0x3F, 0x40, 0x60, 0x60, 0x80, 0x80, 0xA0, 0xC0, 0xE0]);
                self.command(command);
            }
            2 => {
                let byte = self.rng.byte();
                self.command(byte);
            }
            3..=5 => {
                let byte = if self.rng.one_in(2) { self.rng.byte() } else { self.rng.between(0, 8) as u8 };
                self.parameter(byte);
            }
            6 => self.line("status"),
            7 => self.line("read"),
            8 => self.line("stroke"),
            _ => self.some_clocks(0, 9),
        }
    }

    /// Windows and stills of all rows, or of some if there are many, and of rows that can't be.
    fn questions(&mut self, setting: &Setting) {
        let composition = &setting.composition;
        let clocks = composition.row_clocks();
        let mut rows = vec![0, composition.rows + 1, self.rng.between(0, 255)];
        if composition.rows <= 12 {
            rows.extend(1..=composition.rows);
        } else {
            rows.extend([1, composition.rows]);
            rows.extend((0..6).map(|_| self.rng.between(1, composition.rows)));
        }
        for row in rows {
            self.window(row);
            let size = self.rng.pick(&[clocks, clocks, clocks - 1, clocks + 2, 0]);
            self.still(row, size);
        }
    }
}

/// take(k) on a bus that is always free, and the same as open(k).
fn take_on_free_bus(k: usize, burst: Burst) -> u32 {
    let before = k - 1;
    before as u32 + (before / burst.size) as u32 * burst.space
}

fn without_composition(m: &mut Maker) {
    m.line("new");
    m.line("status");
    for _ in 0..m.rng.between(4, 20) {
        match m.rng.between(0, 11) {
            0 => m.line("stroke"),
            1 => m.line("clocks 5"),
            2 => m.window(1),
            3 => m.still(1, 4),
            4 => m.reset_in_part(),
            5 => m.command(0xE0),
            6 => m.command(0x60),
            7 => {
                let start = 0x20 | m.rng.byte() & 0x1F;
                m.command(start);
            }
            8 => m.refused_command(),
            9 => m.line("read"),
            10 => {
                let byte = m.rng.byte();
                m.parameter(byte);
            }
            _ => m.line("status"),
        }
    }
}

fn ports(m: &mut Maker) {
    let setting = m.set_up(&bytes::TINY);
    m.any_page(&setting);
    m.any_bus(&setting.composition);
    for _ in 0..m.rng.between(60, 200) {
        m.any_port_call();
    }
}

/// Parameters with all between them that must not disturb them.
fn interrupted_parameters(m: &mut Maker) {
    let setting = m.set_up(&bytes::TINY);
    let bytes = bytes::fitting_of(&mut m.rng, &bytes::BRIGHT, &setting.composition, setting.burst());
    m.page(&bytes);
    m.line("free");
    for _ in 0..m.rng.between(2, 5) {
        m.command(0x80);
        for count in [setting.composition.columns, setting.composition.rows] {
            call_between_parameters(m, "read");
            let parameter = m.near(count);
            m.parameter(parameter);
        }
        m.line("status");
        m.still(1, setting.composition.row_clocks());
        m.command(0x60);
        call_between_parameters(m, "parameter 01");
        m.line("read");
        call_between_parameters(m, "parameter 02");
        m.line("read");
    }
    let parameters = bytes::parameters(&mut m.rng, &bytes::TINY);
    m.command(0x00);
    for parameter in parameters {
        call_between_parameters(m, "read");
        m.parameter(parameter);
    }
    let composition = Composition::from_parameters(parameters);
    m.line("status");
    m.command(setting.start);
    m.clocks(composition.frame_clocks());
}

/// A call of the wrong kind for what waits, or one that has nothing to do with it.
fn call_between_parameters(m: &mut Maker, wrong_kind: &str) {
    match m.rng.between(0, 7) {
        0 | 1 => m.line(wrong_kind),
        2 => m.line("status"),
        3 => m.line("stroke"),
        4 => m.refused_command(),
        5 => m.some_clocks(0, 20),
        _ => {}
    }
}

fn whole_frames(m: &mut Maker) {
    let size = m.rng.pick(&[bytes::TINY, bytes::SMALL, bytes::MIDDLE]);
    let setting = m.set_up(&size);
    let composition = setting.composition;
    m.any_page(&setting);
    let makings: [fn(&mut Maker, &Composition); 3] = [|m, _| m.line("free"), |m, _| m.any_turns(), Maker::any_spans];
    for making in makings {
        making(m, &composition);
        let pieces = m.rng.between(1, 12);
        m.clocks_with(composition.frame_clocks().min(2_500), pieces, |m| m.harmless_call(&composition));
        m.line("status");
    }
}

fn meddled_frames(m: &mut Maker) {
    let size = m.rng.pick(&[bytes::TINY, bytes::SMALL, bytes::SMALL, bytes::MIDDLE]);
    let setting = m.set_up(&size);
    let composition = setting.composition;
    m.any_page(&setting);
    m.any_bus(&composition);
    let frames = m.rng.between(2, 6);
    let pieces = m.rng.between(2, 10);
    m.clocks_with((frames * composition.frame_clocks()).min(4_000), pieces, |m| {
        m.meddling_call(&composition);
    });
    m.line("status");
    // Whatever went before, the next frame is to be armed in most scripts.
    let start = m.start_byte(&composition);
    m.command(start);
    m.clocks((2 * composition.frame_clocks()).min(2_500));
    m.line("status");
}

/// So many frames that the blink count goes all the way round.
fn many_frames(m: &mut Maker) {
    let size = m.rng.pick(&[bytes::SMALLEST, bytes::TINY, bytes::BLINKING, bytes::BLINKING, bytes::BLINKING]);
    let setting = m.set_up(&size);
    let composition = setting.composition;
    let mut bytes = bytes::fitting_of(&mut m.rng, &bytes::BRIGHT, &composition, setting.burst());
    bytes::make_blink(&mut m.rng, &mut bytes);
    m.page(&bytes);
    m.line("free");
    m.load_cursor(&composition);
    let frames = m.rng.between(34, 70);
    let most_clocks = m.clocks + 7_000;
    for _ in 0..frames {
        if m.clocks > most_clocks {
            break;
        }
        if m.rng.one_in(12) {
            preset_frame(m, &composition);
        } else {
            m.clocks(composition.frame_clocks());
        }
        if m.rng.one_in(3) {
            let row = m.rng.between(1, composition.rows);
            m.still(row, composition.row_clocks());
        }
        if m.rng.one_in(6) {
            m.load_cursor(&composition);
        }
    }
    m.line("status");
}

/// A frame that goes on from its row time 1 somewhere, to its end or nearly so.
fn preset_frame(m: &mut Maker, composition: &Composition) {
    m.some_clocks(0, composition.frame_clocks() - 1);
    m.command(0xE0);
    let left = composition.frame_clocks() - composition.row_clocks();
    let short_by = m.rng.pick(&[0, 0, 1]);
    m.clocks(left - short_by);
    m.still(1, composition.row_clocks());
    m.clocks(short_by);
}

/// Each row in turn is held back so that its last byte comes in the last clock that is still in
/// time, and then one clock later.
fn lateness_by_one_clock(m: &mut Maker) {
    let size = m.rng.pick(&[bytes::TINY, bytes::SMALL, bytes::MIDDLE]);
    let setting = m.set_up(&size);
    let (composition, burst) = (setting.composition, setting.burst());
    let bytes = bytes::fitting(&mut m.rng, &composition, burst);
    m.page(&bytes);
    let mut clocks_left = 5_000;
    for row in 1..=composition.rows {
        let Some(found) = page::find(&bytes, &composition, burst, row) else {
            return;
        };
        for too_much in [0, 1] {
            let Some(spans) = stall(&mut m.rng, &composition, burst, row, found.row.taken, too_much) else {
                continue;
            };
            if clocks_left < composition.frame_clocks() {
                return;
            }
            clocks_left -= composition.frame_clocks();
            m.spans(&spans);
            m.clocks(composition.frame_clocks());
            m.line("status");
        }
    }
}

/// Spans that hold a row's bytes back by all the clocks it has to spare, and some more. None if the
/// row takes no bytes or is late on a free bus.
fn stall(
    rng: &mut Rng,
    composition: &Composition,
    burst: Burst,
    row: u32,
    taken: usize,
    too_much: u32,
) -> Option<Vec<(u32, u32)>> {
    if taken == 0 {
        return None;
    }
    let last_clock = composition.row_clocks() - 1;
    let spare = last_clock.checked_sub(take_on_free_bus(taken, burst))? + too_much;
    let row_time = (row - 1) * composition.row_clocks();
    let mut held = [1 + rng.index(taken), 1 + rng.index(taken)];
    held.sort_unstable();
    let [first, second] = held.map(|k| row_time + take_on_free_bus(k, burst));
    let at_first = rng.between(0, spare);
    // What comes behind the first stall comes later by it.
    Some(vec![(first, at_first), (second + at_first, spare - at_first)])
}

/// Pages that end with a row's last byte, or one byte before it.
fn short_pages(m: &mut Maker) {
    let size = m.rng.pick(&[bytes::TINY, bytes::SMALL]);
    let setting = m.set_up(&size);
    let (composition, burst) = (setting.composition, setting.burst());
    let whole = bytes::fitting(&mut m.rng, &composition, burst);
    for _ in 0..m.rng.between(1, 4) {
        let row = m.rng.between(1, composition.rows);
        let need = bytes::need(&whole, &composition, burst, row).expect("the page has what a frame takes");
        for lacking in [1, 0] {
            m.page(&whole[..need.saturating_sub(lacking)]);
            for asked in row.saturating_sub(1)..=row + 1 {
                m.window(asked);
                m.still(asked, composition.row_clocks());
            }
            m.any_bus(&composition);
            m.clocks(composition.frame_clocks().min(800));
            m.line("status");
        }
    }
}

fn changing_sources(m: &mut Maker) {
    let size = m.rng.pick(&[bytes::TINY, bytes::SMALL, bytes::MIDDLE]);
    let setting = m.set_up(&size);
    let composition = setting.composition;
    m.any_page(&setting);
    m.any_bus(&composition);
    let frames = m.rng.between(1, 5);
    let pieces = m.rng.between(2, 12);
    m.clocks_with((frames * composition.frame_clocks()).min(5_000), pieces, |m| {
        if m.rng.one_in(2) {
            m.any_page(&setting);
        }
        if m.rng.one_in(8) {
            m.line("turns 0 0");
        } else {
            m.any_bus(&composition);
        }
    });
    m.line("status");
}

/// Average, wide, tall and full screens; one frame, or the front of it.
fn large_screens(m: &mut Maker) {
    let size = m.rng.pick(&[bytes::AVERAGE, bytes::AVERAGE, bytes::WIDE, bytes::TALL, bytes::FULL]);
    let setting = m.set_up(&size);
    let composition = setting.composition;
    let bytes = bytes::fitting(&mut m.rng, &composition, setting.burst());
    m.page(&bytes);
    m.gentle_bus();
    let pieces = m.rng.between(1, 4);
    m.clocks_with(composition.frame_clocks().min(7_500), pieces, |m| m.harmless_call(&composition));
    m.line("status");
    m.window(composition.rows);
    let row = m.rng.between(1, composition.rows);
    m.still(row, composition.row_clocks());
}

/// The composition of the longest frame, of which only the first row times are played.
fn largest_screen(m: &mut Maker) {
    let setting = m.set_up(&bytes::FULLEST);
    let composition = setting.composition;
    let bytes = bytes::fitting(&mut m.rng, &composition, setting.burst());
    m.page(&bytes);
    m.line("free");
    let row_times = m.rng.between(1, 3);
    m.clocks(row_times * composition.row_clocks() + 200);
    m.line("stroke");
    m.window(63);
    m.window(64);
    m.still(1, 4096);
    m.line("status");
}

fn stills_and_windows(m: &mut Maker) {
    let size = m.rng.pick(&[bytes::SMALLEST, bytes::TINY, bytes::SMALL, bytes::MIDDLE, bytes::AVERAGE, bytes::TALL]);
    let setting = m.set_up(&size);
    m.any_page(&setting);
    m.questions(&setting);
    // A new Start in mid-frame counts at once for windows and stills.
    m.line("free");
    m.some_clocks(1, 60);
    let start = 0x20 | m.rng.byte() & 0x1F;
    m.command(start);
    m.questions(&setting);
    m.clocks(setting.composition.frame_clocks().min(1_000));
}

/// Stop codes in all places of their bursts, and another N for windows and stills in mid-frame.
fn stop_codes(m: &mut Maker) {
    let size = m.rng.pick(&[bytes::TINY, bytes::SMALL, bytes::MIDDLE]);
    let setting = m.set_up(&size);
    let composition = setting.composition;
    let mut bytes = bytes::fitting_of(&mut m.rng, &bytes::STOPPING, &composition, setting.burst());
    bytes.extend(bytes::of(&mut m.rng, &bytes::STOPPING, 40));
    bytes::plant_behind_stops(&mut m.rng, &mut bytes);
    m.page(&bytes);
    m.gentle_bus();
    m.clocks(composition.frame_clocks().min(1_500));
    m.line("status");
    for burst_size in 0..4 {
        m.some_clocks(0, composition.row_clocks());
        m.command(0x20 | burst_size);
        for _ in 0..3 {
            let row = m.rng.between(1, composition.rows);
            m.window(row);
            m.still(row, composition.row_clocks());
        }
    }
    m.clocks(composition.frame_clocks().min(1_500));
}

/// The longest page, the most and the largest spans, and one more of each.
fn limits(m: &mut Maker) {
    let setting = m.set_up(&bytes::SMALL);
    let composition = setting.composition;
    m.any_page(&setting);
    m.any_bus(&composition);
    m.some_clocks(1, composition.row_clocks());
    let too_long = bytes::mixed(&mut m.rng, page::LONGEST + 1);
    m.page(&too_long);
    let mut refused =
        ["free", "turns 1 1", "turns 0 0", "spans", "spans 2147483648+1", "window 0", "still 0 0", "still 1 3"];
    m.rng.shuffle(&mut refused);
    for line in refused {
        m.line(line);
    }
    m.clocks(composition.row_clocks());
    m.page(&too_long[1..]);
    m.line("window 1");
    m.line("free");
    m.clocks(composition.row_clocks());
    for spans in [[(2_147_483_648, 1)], [(1, 2_147_483_648)], [(u32::MAX, u32::MAX)], [(2_147_483_647, 2_147_483_647)]]
    {
        m.spans(&spans);
    }
    m.spans(&[(composition.line_clocks(), 2_147_483_647), (0, 0)]);
    m.clocks(composition.frame_clocks().min(1_000));
    let mut many: Vec<(u32, u32)> = (0..257).map(|at| (7 * at, m.rng.between(0, 5))).collect();
    m.rng.shuffle(&mut many);
    m.spans(&many);
    m.clocks(composition.row_clocks());
    m.spans(&many[1..]);
    m.clocks(composition.frame_clocks().min(2_000));
    m.line("status");
}

fn pen_strokes(m: &mut Maker) {
    let setting = m.set_up(&bytes::SMALL);
    let composition = setting.composition;
    for _ in 0..composition.row_times() {
        m.some_clocks(0, composition.row_clocks());
        m.line("stroke");
        m.command(0x60);
        m.line("read");
        if m.rng.one_in(3) {
            m.some_clocks(0, composition.line_clocks());
            m.line("stroke");
        }
        if m.rng.one_in(4) {
            m.parameter(0x12);
        }
        if !m.rng.one_in(4) {
            m.line("read");
        }
        if m.rng.one_in(3) {
            m.line("status");
        }
    }
}

/// Calls right before the first clock of row times, and a clock beside it.
fn calls_at_edges(m: &mut Maker) {
    let size = m.rng.pick(&[bytes::TINY, bytes::SMALL]);
    for _ in 0..m.rng.between(2, 6) {
        let setting = m.set_up(&size);
        let composition = setting.composition;
        m.any_page(&setting);
        m.any_bus(&composition);
        for _ in 0..composition.row_times().min(8) {
            edge_call(m, &composition);
            let beside = m.rng.pick(&[0, 0, 0, 1]);
            m.clocks(composition.row_clocks() - beside);
            if beside == 1 {
                edge_call(m, &composition);
                m.clocks(1);
            }
        }
        m.line("status");
        m.clocks(composition.row_clocks());
    }
}

fn edge_call(m: &mut Maker, composition: &Composition) {
    match m.rng.between(0, 15) {
        0 => m.command(0x40),
        1 => {
            m.command(0x40);
            m.command(0x20);
        }
        2 => {
            let start = m.start_byte(composition);
            m.command(start);
        }
        3 | 4 => m.command(0xA0),
        5 | 6 => m.command(0xC0),
        7 => m.command(0xE0),
        8..=10 => m.line("status"),
        11 => m.load_cursor(composition),
        12 => m.reset_in_part(),
        _ => {}
    }
}

/// Transparent field codes, so many that the memory of field characters overruns.
fn many_field_characters(m: &mut Maker) {
    let size = Size { columns: (17, 40), rows: (1, 3), lines: (1, 3), retrace: (0, 10) };
    let mut parameters = bytes::parameters(&mut m.rng, &size);
    parameters[3] &= !0x40;
    m.reset(parameters);
    let composition = Composition::from_parameters(parameters);
    let start = m.start_byte(&composition);
    m.command(start);
    let bytes = bytes::rows_of_fields(&mut m.rng, composition.columns as usize, composition.rows);
    m.page(&bytes);
    m.gentle_bus();
    for _ in 0..composition.row_times() {
        m.clocks_with(composition.row_clocks(), 6, |m| m.line("status"));
        m.line("status");
    }
    for row in 1..=composition.rows {
        m.still(row, composition.row_clocks());
    }
}
