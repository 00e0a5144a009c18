//! A small GFA reader by 01's rules, under the names that the Rust calls its own by.
//! It has one answer to everything that 01 refuses: an error, which the Rust unwraps.

use crate::handle::*;
use std::collections::BTreeSet;
use std::marker::PhantomData;

pub trait OptFields {}
impl OptFields for () {}

pub struct Path<N, T> {
    pub path_name: Vec<u8>,
    pub segment_names: Vec<u8>,
    kept: PhantomData<(N, T)>,
}

pub struct GFA<N, T> {
    pub segments: Vec<(N, Vec<u8>)>,
    pub links: Vec<(Handle, Handle)>,
    pub paths: Vec<Path<N, T>>,
}

pub struct GFAParser;

type Fields<'a> = Vec<&'a [u8]>;

fn name(bytes: &[u8]) -> Result<usize, String> {
    let text = std::str::from_utf8(bytes).map_err(|_| "a name".to_string())?;
    let id: u64 = text.parse().map_err(|_| "a name".to_string())?;
    if id.to_string() == text && 1 <= id && id <= u32::MAX as u64 {
        Ok(id as usize)
    } else {
        Err("a name out of range or not plain".to_string())
    }
}

fn sign(byte: Option<&u8>) -> Result<bool, String> {
    match byte {
        Some(b'+') => Ok(false),
        Some(b'-') => Ok(true),
        _ => Err("an orientation".to_string()),
    }
}

fn oriented(field: &[u8], orientation: &[u8]) -> Result<Handle, String> {
    let id = name(field)?;
    let reverse = sign(orientation.first())?;
    if orientation.len() == 1 { Ok(Handle::pack(id, reverse)) } else { Err("a sign".to_string()) }
}

fn path_step(step: &[u8]) -> Result<(usize, Orientation), String> {
    let reverse = sign(step.last())?;
    let id = name(&step[..step.len() - 1])?;
    Ok((id, if reverse { Orientation::Backward } else { Orientation::Forward }))
}

impl<T> Path<usize, T> {
    pub fn iter(&self) -> impl Iterator<Item = (usize, Orientation)> + '_ {
        let steps = self.segment_names.split(|&byte| byte == b',');
        steps.map(|step| path_step(step).expect("read before"))
    }
}

fn fields(line: &[u8], needed: usize) -> Result<Fields<'_>, String> {
    let all: Fields = line.split(|&byte| byte == b'\t').collect();
    if all.len() < needed || line.contains(&13) || all[1..needed].iter().any(|f| f.is_empty()) {
        return Err("too few fields, an empty one, or byte 13".to_string());
    }
    Ok(all)
}

impl GFA<usize, ()> {
    fn segment(&mut self, line: &[u8]) -> Result<(), String> {
        let f = fields(line, 3)?;
        let id = name(f[1])?;
        if !f[2].iter().all(|letter| b"ACGTNacgtn".contains(letter)) {
            return Err("a letter".to_string());
        }
        self.segments.push((id, f[2].to_vec()));
        Ok(())
    }

    fn link(&mut self, line: &[u8]) -> Result<(), String> {
        let f = fields(line, 6)?;
        if f[5] != b"0M" && f[5] != b"*" {
            return Err("an overlap".to_string());
        }
        self.links.push((oriented(f[1], f[2])?, oriented(f[3], f[4])?));
        Ok(())
    }

    fn path(&mut self, line: &[u8]) -> Result<(), String> {
        let f = fields(line, 4)?;
        for step in f[2].split(|&byte| byte == b',') {
            path_step(step)?;
        }
        let (path_name, segment_names) = (f[1].to_vec(), f[2].to_vec());
        self.paths.push(Path { path_name, segment_names, kept: PhantomData });
        Ok(())
    }

    /// A segment twice, or a link or path that names none.
    fn names_stand(&self) -> Result<(), String> {
        let declared: BTreeSet<usize> = self.segments.iter().map(|s| s.0).collect();
        let ends = self.links.iter().flat_map(|l| [l.0, l.1]).map(|v| v.unpack_number() as usize);
        let steps = self.paths.iter().flat_map(|p| p.iter()).map(|step| step.0);
        if declared.len() < self.segments.len() || !ends.chain(steps).all(|id| declared.contains(&id)) {
            return Err("a segment twice, or a name without one".to_string());
        }
        Ok(())
    }
}

impl GFAParser {
    pub fn new() -> GFAParser {
        GFAParser
    }

    pub fn parse_lines<'a, I>(&self, lines: I) -> Result<GFA<usize, ()>, String>
    where
        I: Iterator<Item = &'a [u8]>,
    {
        let mut gfa = GFA { segments: Vec::new(), links: Vec::new(), paths: Vec::new() };
        for line in lines {
            let line = line.strip_suffix(b"\n").unwrap_or(line);
            match line.split(|&byte| byte == b'\t').next() {
                Some(b"S") => gfa.segment(line)?,
                Some(b"L") => gfa.link(line)?,
                Some(b"P") => gfa.path(line)?,
                _ => (), // W lines have become P lines by now
            }
        }
        gfa.names_stand()?;
        Ok(gfa)
    }
}
