// The plain program that `tmhost blocks` is measured against: it reads its input whole, goes over it once
// byte by byte, builds each block as a tree and prints it, without limits of memory and without proofs.
use std::io::{self, BufWriter, Read, Write};

enum Item {
    Text(Vec<u8>),
    Block(Node),
}

struct Node {
    channel: bool,
    name: Vec<u8>,
    items: Vec<Item>,
}

struct Level {
    node: Node,
    text: Vec<u8>,
}

enum Place {
    Outside,
    Tag,
    Body,
    Escape,
}

fn flush(level: &mut Level) {
    if !level.text.is_empty() {
        let text = std::mem::take(&mut level.text);
        level.node.items.push(Item::Text(text));
    }
}

fn print_text(bytes: &[u8], out: &mut impl Write) -> io::Result<()> {
    for &b in bytes {
        if b < 32 || b == 127 {
            write!(out, "\\x{b:02x}")?;
        } else {
            out.write_all(&[b])?;
        }
    }
    Ok(())
}

fn print_node(node: &Node, out: &mut impl Write) -> io::Result<()> {
    out.write_all(b"{")?;
    print_text(&node.name, out)?;
    out.write_all(if node.channel { b"#" } else { b":" })?;
    for item in &node.items {
        match item {
            Item::Text(text) => print_text(text, out)?,
            Item::Block(inner) => print_node(inner, out)?,
        }
    }
    out.write_all(b"}")
}

// The end behind a fault or an open block.
fn stop(mut out: impl Write) -> ! {
    let done = out.flush();
    std::process::exit(if done.is_ok() { 1 } else { 2 })
}

fn main() -> io::Result<()> {
    let mut input = Vec::new();
    io::stdin().lock().read_to_end(&mut input)?;
    let mut out = BufWriter::with_capacity(65_536, io::stdout().lock());
    let mut levels: Vec<Level> = Vec::new();
    let mut name: Vec<u8> = Vec::new();
    let mut place = Place::Outside;
    let mut start = 0;
    for (at, &c) in input.iter().enumerate() {
        if !matches!(place, Place::Outside) && at - start + 1 >= 16_777_216 && !(c == 5 && levels.len() == 1) {
            writeln!(out, "fault 3 TooLong {at}")?;
            stop(out);
        }
        match place {
            Place::Outside => {
                if c == 2 {
                    start = at;
                    place = Place::Tag;
                }
            }
            Place::Tag => {
                if c == b':' || c == b'#' {
                    let node = Node { channel: c == b'#', name: std::mem::take(&mut name), items: Vec::new() };
                    levels.push(Level { node, text: Vec::new() });
                    place = Place::Body;
                } else if c < 32 || name.len() == 64 {
                    writeln!(out, "fault 1 BadTag {at}")?;
                    stop(out);
                } else {
                    name.push(c);
                }
            }
            Place::Body => match c {
                2 => {
                    if levels.len() == 32 {
                        writeln!(out, "fault 2 TooDeep {at}")?;
                        stop(out);
                    }
                    flush(levels.last_mut().unwrap());
                    place = Place::Tag;
                }
                5 => {
                    let mut level = levels.pop().unwrap();
                    flush(&mut level);
                    match levels.last_mut() {
                        Some(outer) => outer.node.items.push(Item::Block(level.node)),
                        None => {
                            write!(out, "{start} {} ", at + 1)?;
                            print_node(&level.node, &mut out)?;
                            out.write_all(b"\n")?;
                            place = Place::Outside;
                        }
                    }
                }
                27 => place = Place::Escape,
                _ => levels.last_mut().unwrap().text.push(c),
            },
            Place::Escape => {
                let text = &mut levels.last_mut().unwrap().text;
                if c != 2 && c != 5 && c != 27 {
                    text.push(27);
                }
                text.push(c);
                place = Place::Body;
            }
        }
    }
    if !matches!(place, Place::Outside) {
        writeln!(out, "unfinished {start}")?;
        stop(out);
    }
    out.flush()
}
