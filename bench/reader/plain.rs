//! A reader of session files in plain Rust: what the product's reader is timed against.

pub const MAX_BYTES: usize = 65_536;
pub const MAX_NODES: u16 = 64;
pub const MAX_LINKS: usize = 512;

/// The first check that a file fails.
#[derive(Clone, Copy, Debug, PartialEq, Eq)]
pub struct Fault {
    pub number: u8,
    pub line: usize,
    pub field: usize,
}

#[derive(Clone, Copy, Debug, PartialEq, Eq)]
pub enum Kind {
    Cost,
    Width,
}

#[derive(Clone, Copy, Debug, PartialEq, Eq)]
pub enum Detector {
    Tree,
    Credit,
}

#[derive(Clone, Copy, Debug, PartialEq, Eq)]
pub enum Channel {
    Queue,
    Stack,
    Picked,
}

#[derive(Clone, Copy, Debug, PartialEq, Eq)]
pub struct Settings {
    pub nodes: u8,
    pub root: u8,
    pub kind: Kind,
    pub detector: Detector,
    pub channel: Channel,
}

#[derive(Clone, Copy, Debug, PartialEq, Eq)]
pub struct Link {
    pub from: u8,
    pub to: u8,
    pub cost: u16,
    pub width: u16,
}

#[derive(Clone, Copy, Debug, PartialEq, Eq)]
pub enum Word {
    Deliver,
    Work,
    Control,
}

#[derive(Clone, Copy, Debug, PartialEq, Eq)]
pub struct Step {
    pub word: Word,
    pub pick: u16,
}

#[derive(Clone, Debug, PartialEq, Eq)]
pub struct Session {
    pub settings: Settings,
    pub links: Vec<Link>,
    pub steps: Vec<Step>,
}

/// Reads a whole session file.
pub fn read(bytes: &[u8]) -> Result<Session, Fault> {
    if bytes.len() > MAX_BYTES {
        return Err(Fault {
            number: 1,
            line: 0,
            field: 0,
        });
    }
    let mut lines = Lines {
        rest: bytes,
        number: 0,
    };
    let settings = read_settings(&mut lines)?;
    let links = read_links(&mut lines, settings.nodes)?;
    let steps = read_steps(&mut lines)?;
    Ok(Session {
        settings,
        links,
        steps,
    })
}

fn read_settings(lines: &mut Lines) -> Result<Settings, Fault> {
    #[derive(Clone, Copy)]
    enum Column {
        Nodes,
        Root,
        Kind,
        Detector,
        Channel,
    }
    let columns = lines.names([
        (b"nodes", Column::Nodes),
        (b"root", Column::Root),
        (b"kind", Column::Kind),
        (b"detector", Column::Detector),
        (b"channel", Column::Channel),
    ])?;
    let fields = lines.fields::<5>()?;
    let mut settings = Settings {
        nodes: 1,
        root: 0,
        kind: Kind::Cost,
        detector: Detector::Tree,
        channel: Channel::Queue,
    };
    let mut root_field = 0;
    for (place, (column, text)) in columns.iter().zip(fields).enumerate() {
        let bad = lines.bad_field(place);
        match column {
            Column::Nodes => settings.nodes = number(text, 1, MAX_NODES).ok_or(bad)? as u8,
            Column::Root => {
                settings.root = number(text, 0, MAX_NODES - 1).ok_or(bad)? as u8;
                root_field = place;
            }
            Column::Kind => {
                settings.kind = match text {
                    b"cost" => Kind::Cost,
                    b"width" => Kind::Width,
                    _ => return Err(bad),
                }
            }
            Column::Detector => {
                settings.detector = match text {
                    b"tree" => Detector::Tree,
                    b"credit" => Detector::Credit,
                    _ => return Err(bad),
                }
            }
            Column::Channel => {
                settings.channel = match text {
                    b"queue" => Channel::Queue,
                    b"stack" => Channel::Stack,
                    b"picked" => Channel::Picked,
                    _ => return Err(bad),
                }
            }
        }
    }
    if settings.root >= settings.nodes {
        return Err(lines.bad_field(root_field));
    }
    Ok(settings)
}

fn read_links(lines: &mut Lines, nodes: u8) -> Result<Vec<Link>, Fault> {
    #[derive(Clone, Copy)]
    enum Column {
        From,
        To,
        Cost,
        Width,
    }
    let columns = lines.names([
        (b"from", Column::From),
        (b"to", Column::To),
        (b"cost", Column::Cost),
        (b"width", Column::Width),
    ])?;
    let last_node = u16::from(nodes) - 1;
    let mut links = Vec::with_capacity(MAX_LINKS);
    let mut seen = [0u64; MAX_NODES as usize]; // a bit for each pair of ends
    while lines.rest.first().is_some_and(u8::is_ascii_digit) {
        let fields = lines.fields::<4>()?;
        if links.len() == MAX_LINKS {
            return Err(lines.fault(7));
        }
        let mut link = Link {
            from: 0,
            to: 0,
            cost: 0,
            width: 0,
        };
        for (place, (column, text)) in columns.iter().zip(fields).enumerate() {
            let bad = lines.bad_field(place);
            match column {
                Column::From => link.from = number(text, 0, last_node).ok_or(bad)? as u8,
                Column::To => link.to = number(text, 0, last_node).ok_or(bad)? as u8,
                Column::Cost => link.cost = number(text, 0, u16::MAX).ok_or(bad)?,
                Column::Width => link.width = number(text, 1, u16::MAX).ok_or(bad)?,
            }
        }
        if link.from == link.to {
            return Err(lines.fault(5));
        }
        let (row, bit) = (&mut seen[usize::from(link.from)], 1 << link.to);
        if *row & bit != 0 {
            return Err(lines.fault(6));
        }
        *row |= bit;
        links.push(link);
    }
    Ok(links)
}

fn read_steps(lines: &mut Lines) -> Result<Vec<Step>, Fault> {
    #[derive(Clone, Copy)]
    enum Column {
        Step,
        Pick,
    }
    let columns = lines.names([(b"step", Column::Step), (b"pick", Column::Pick)])?;
    let mut steps = Vec::with_capacity(lines.rest.len() / b"work 0\n".len());
    while !lines.rest.is_empty() {
        let fields = lines.fields::<2>()?;
        let mut step = Step {
            word: Word::Deliver,
            pick: 0,
        };
        for (place, (column, text)) in columns.iter().zip(fields).enumerate() {
            let bad = lines.bad_field(place);
            match column {
                Column::Step => {
                    step.word = match text {
                        b"deliver" => Word::Deliver,
                        b"work" => Word::Work,
                        b"control" => Word::Control,
                        _ => return Err(bad),
                    }
                }
                Column::Pick => step.pick = number(text, 0, u16::MAX).ok_or(bad)?,
            }
        }
        steps.push(step);
    }
    Ok(steps)
}

/// The number that a text writes, if it lies in the range.
fn number(text: &[u8], least: u16, greatest: u16) -> Option<u16> {
    if text.len() > 5 || (text.len() > 1 && text[0] == b'0') {
        return None;
    }
    let mut value = 0u32;
    for byte in text {
        if !byte.is_ascii_digit() {
            return None;
        }
        value = value * 10 + u32::from(byte - b'0');
    }
    if value < u32::from(least) || value > u32::from(greatest) {
        return None;
    }
    Some(value as u16)
}

/// The lines of a file that are still to be read.
struct Lines<'a> {
    rest: &'a [u8],
    number: usize, // of the line taken last
}

impl<'a> Lines<'a> {
    /// Takes the next line, which must have `N` fields: runs of visible bytes, each ended by a
    /// space, the last by a line feed.
    fn fields<const N: usize>(&mut self) -> Result<[&'a [u8]; N], Fault> {
        self.number += 1;
        if self.rest.is_empty() {
            return Err(self.fault(8));
        }
        let mut fields = [self.rest; N];
        for (place, field) in fields.iter_mut().enumerate() {
            let end = if place + 1 < N { b' ' } else { b'\n' };
            match self.rest.iter().position(|byte| !byte.is_ascii_graphic()) {
                Some(length) if length > 0 && self.rest[length] == end => {
                    *field = &self.rest[..length];
                    self.rest = &self.rest[length + 1..];
                }
                _ => return Err(self.fault(2)),
            }
        }
        Ok(fields)
    }

    /// Takes a names line; the answer is the table's columns in the file's order.
    fn names<C: Copy, const N: usize>(&mut self, table: [(&[u8], C); N]) -> Result<[C; N], Fault> {
        let fields = self.fields::<N>()?;
        let mut columns = table.map(|(_, column)| column);
        for (name, column) in table {
            let place = fields
                .iter()
                .position(|&text| text == name)
                .ok_or(self.fault(3))?;
            columns[place] = column;
        }
        Ok(columns)
    }

    /// A fault at the line taken last.
    fn fault(&self, number: u8) -> Fault {
        Fault {
            number,
            line: self.number,
            field: 0,
        }
    }

    /// A bad field, counted from 0, in the line taken last.
    fn bad_field(&self, place: usize) -> Fault {
        Fault {
            number: 4,
            line: self.number,
            field: place + 1,
        }
    }
}
