//! Reads a job text from standard input, lays every node at the depth, and prints the cutting list: for each piece its
//! tile, turn, mirror mark and place. A node that leaves the plane is `refused 8 0`, one piece too many `refused 9 0`;
//! nothing else is printed then. The text is taken to be well formed, and its book is not checked.

use std::fmt::Write as _;
use std::io::{self, Read, Write as _};
use std::iter;
use std::process::ExitCode;

const PLANE: i64 = 1_048_576;
const MOST_PIECES: usize = 4096;
const MOST_TILES: usize = 8;
const MOST_DEPTH: usize = 12;
const MOST_COEFFICIENT: i64 = 32;

enum Refusal {
    OffPlane,
    NoPlace,
}

/// An element of Z[zeta] by its coefficients of 1, zeta, zeta^2, ..; a turn by zeta is one N-th of a circle.
trait Ring: Copy {
    const N: usize;
    const D: usize;

    fn from_coefficients(c: &[i64]) -> Self;
    fn coefficients(&self) -> &[i64];
    fn plus(self, other: Self) -> Self;
    fn times(self, other: Self) -> Self;
    fn conjugate(self) -> Self;

    fn kept(self) -> Result<Self, Refusal> {
        if self
            .coefficients()
            .iter()
            .all(|c| (-PLANE..=PLANE).contains(c))
        {
            Ok(self)
        } else {
            Err(Refusal::OffPlane)
        }
    }
}

#[derive(Clone, Copy)]
struct Gaussian([i64; 2]);

impl Ring for Gaussian {
    const N: usize = 4;
    const D: usize = 2;

    fn from_coefficients(c: &[i64]) -> Self {
        Gaussian([c[0], c[1]])
    }

    fn coefficients(&self) -> &[i64] {
        &self.0
    }

    fn plus(self, other: Self) -> Self {
        let ([a, b], [x, y]) = (self.0, other.0);
        Gaussian([a + x, b + y])
    }

    fn times(self, other: Self) -> Self {
        let ([a, b], [x, y]) = (self.0, other.0);
        Gaussian([a * x - b * y, a * y + b * x])
    }

    fn conjugate(self) -> Self {
        let [a, b] = self.0;
        Gaussian([a, -b])
    }
}

#[derive(Clone, Copy)]
struct Tenfold([i64; 4]);

impl Ring for Tenfold {
    const N: usize = 10;
    const D: usize = 4;

    fn from_coefficients(c: &[i64]) -> Self {
        Tenfold([c[0], c[1], c[2], c[3]])
    }

    fn coefficients(&self) -> &[i64] {
        &self.0
    }

    fn plus(self, other: Self) -> Self {
        let ([a, b, c, d], [x, y, z, w]) = (self.0, other.0);
        Tenfold([a + x, b + y, c + z, d + w])
    }

    // zeta^4 = zeta^3 - zeta^2 + zeta - 1, zeta^5 = -1 and zeta^6 = -zeta.
    fn times(self, other: Self) -> Self {
        let ([a, b, c, d], [x, y, z, w]) = (self.0, other.0);
        let fourth = b * w + c * z + d * y;
        Tenfold([
            a * x - c * w - d * z - fourth,
            a * y + b * x - d * w + fourth,
            a * z + b * y + c * x - fourth,
            a * w + b * z + c * y + d * x + fourth,
        ])
    }

    fn conjugate(self) -> Self {
        let [a, b, c, d] = self.0;
        Tenfold([a + b, -b, b - d, -b - c])
    }
}

#[derive(Clone, Copy)]
struct Placed<R> {
    tile: usize,
    turn: usize,
    mirrored: bool,
    place: R,
}

struct Step {
    label: usize,
    direction: usize,
}

struct Tile<R> {
    outline: Vec<Step>,
    children: Vec<Placed<R>>,
}

struct Job<R> {
    /// zeta^0, zeta^1, ..
    units: Vec<R>,
    factor: R,
    lengths: Vec<R>,
    tiles: Vec<Tile<R>>,
    depth: usize,
    seeds: Vec<Placed<R>>,
}

impl<R: Ring> Job<R> {
    /// Where a placement with this turn and mark, and its place at `base`, brings a point.
    fn image(&self, base: R, turn: usize, mirrored: bool, point: R) -> Result<R, Refusal> {
        let point = if mirrored {
            point.conjugate().kept()?
        } else {
            point
        };
        let turned = self.units[turn].times(point).kept()?;
        base.plus(turned).kept()
    }

    fn child_under(&self, parent: &Placed<R>, child: &Placed<R>) -> Result<Placed<R>, Refusal> {
        let turn = if parent.mirrored {
            R::N - child.turn
        } else {
            child.turn
        };
        let base = self.factor.times(parent.place).kept()?;
        Ok(Placed {
            tile: child.tile,
            turn: (parent.turn + turn) % R::N,
            mirrored: parent.mirrored != child.mirrored,
            place: self.image(base, parent.turn, parent.mirrored, child.place)?,
        })
    }

    /// Refuses where a placed tile's own corners leave the plane.
    fn keep_corners(&self, p: &Placed<R>) -> Result<(), Refusal> {
        let mut corner = R::from_coefficients(&[0; 4]);
        for step in &self.tiles[p.tile].outline {
            let edge = self.units[step.direction]
                .times(self.lengths[step.label])
                .kept()?;
            corner = corner.plus(edge).kept()?;
            self.image(p.place, p.turn, p.mirrored, corner)?;
        }
        Ok(())
    }

    fn lay(&self, pieces: &mut Vec<Placed<R>>, node: Placed<R>) -> Result<(), Refusal> {
        self.keep_corners(&node)?;
        pieces.push(node);
        Ok(())
    }

    /// Lays the nodes below a seed. The stack holds the parents of the next node, each with its children still to come.
    /// Every node leads down to one that is laid, so a full list refuses each node that is yet to come.
    fn lay_seed(&self, pieces: &mut Vec<Placed<R>>, seed: Placed<R>) -> Result<(), Refusal> {
        need_room(pieces)?;
        if self.depth == 0 {
            return self.lay(pieces, seed);
        }
        let mut stack = vec![(seed, self.tiles[seed.tile].children.iter())];
        while let Some((parent, rest)) = stack.last_mut() {
            let Some(child) = rest.next() else {
                stack.pop();
                continue;
            };
            need_room(pieces)?;
            let node = self.child_under(parent, child)?;
            if stack.len() == self.depth {
                self.lay(pieces, node)?;
            } else {
                stack.push((node, self.tiles[node.tile].children.iter()));
            }
        }
        Ok(())
    }

    fn lay_all(&self) -> Result<Vec<Placed<R>>, Refusal> {
        let mut pieces = Vec::new();
        for seed in &self.seeds {
            self.lay_seed(&mut pieces, *seed)?;
        }
        Ok(pieces)
    }
}

fn need_room<T>(pieces: &[T]) -> Result<(), Refusal> {
    if pieces.len() < MOST_PIECES {
        Ok(())
    } else {
        Err(Refusal::NoPlace)
    }
}

/// A number of a line, if it is there and below a limit.
fn number(numbers: &[i64], at: usize, limit: usize) -> Option<usize> {
    usize::try_from(*numbers.get(at)?)
        .ok()
        .filter(|n| *n < limit)
}

/// The element that a line's numbers give from one of them on.
fn element<R: Ring>(numbers: &[i64], at: usize) -> Option<R> {
    let c = numbers.get(at..at + R::D)?;
    c.iter()
        .all(|c| (-MOST_COEFFICIENT..=MOST_COEFFICIENT).contains(c))
        .then(|| R::from_coefficients(c))
}

fn placed<R: Ring>(numbers: &[i64]) -> Option<Placed<R>> {
    Some(Placed {
        tile: number(numbers, 0, MOST_TILES)?,
        turn: number(numbers, 1, R::N)?,
        mirrored: number(numbers, 2, 2)? == 1,
        place: element(numbers, 3)?,
    })
}

fn step<R: Ring>(numbers: &[i64], labels: usize) -> Option<Step> {
    Some(Step {
        label: number(numbers, 0, labels)?,
        direction: number(numbers, 2, R::N)?,
    })
}

/// The job of a text, if its numbers are in range.
fn read_job<R: Ring>(text: &str) -> Option<Job<R>> {
    let one = R::from_coefficients(&[1, 0, 0, 0]);
    let zeta = R::from_coefficients(&[0, 1, 0, 0]);
    let mut job = Job {
        units: iter::successors(Some(one), |z| Some(z.times(zeta)))
            .take(R::N)
            .collect(),
        factor: one,
        lengths: Vec::new(),
        tiles: Vec::new(),
        depth: 0,
        seeds: Vec::new(),
    };
    for line in text.lines() {
        let (letter, rest) = line.split_once(' ')?;
        let numbers: Vec<i64> = rest
            .split(' ')
            .map(|w| w.parse().ok())
            .collect::<Option<_>>()?;
        match letter {
            "I" => job.factor = element(&numbers, 0)?,
            "L" => job.lengths.push(element(&numbers, 1)?),
            "T" => {
                let steps = numbers.chunks(3).map(|s| step::<R>(s, job.lengths.len()));
                job.tiles.push(Tile {
                    outline: steps.collect::<Option<_>>()?,
                    children: Vec::new(),
                });
            }
            "C" => job.tiles.last_mut()?.children.push(placed(&numbers)?),
            "D" => job.depth = number(&numbers, 0, MOST_DEPTH + 1)?,
            "P" => job.seeds.push(placed(&numbers)?),
            _ => {}
        }
    }
    let mut named = job.tiles.iter().flat_map(|t| &t.children).chain(&job.seeds);
    named.all(|p| p.tile < job.tiles.len()).then_some(job)
}

fn cutting_list<R: Ring>(pieces: &[Placed<R>]) -> String {
    let mut out = String::new();
    for p in pieces {
        write!(out, "{} {} {}", p.tile, p.turn, u8::from(p.mirrored)).expect("a String takes all");
        for c in p.place.coefficients() {
            write!(out, " {c}").expect("a String takes all");
        }
        out.push('\n');
    }
    out
}

fn answer<R: Ring>(text: &str) -> Option<Result<String, Refusal>> {
    let job = read_job::<R>(text)?;
    Some(job.lay_all().map(|pieces| cutting_list(&pieces)))
}

fn main() -> io::Result<ExitCode> {
    let mut text = String::new();
    io::stdin().read_to_string(&mut text)?;
    let answer = match text.lines().next() {
        Some("R 4") => answer::<Gaussian>(&text),
        Some("R 10") => answer::<Tenfold>(&text),
        _ => None,
    };
    let (told, code) = match answer {
        Some(Ok(list)) => (list, ExitCode::SUCCESS),
        Some(Err(Refusal::OffPlane)) => ("refused 8 0\n".into(), ExitCode::FAILURE),
        Some(Err(Refusal::NoPlace)) => ("refused 9 0\n".into(), ExitCode::FAILURE),
        None => {
            eprintln!("not a job text");
            return Ok(ExitCode::FAILURE);
        }
    };
    io::stdout().write_all(told.as_bytes())?;
    Ok(code)
}
