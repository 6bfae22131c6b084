// The calls of crates/p1_normal in Rust, by the same tables: `points` reads lines `CALL N ROUNDS`, and prints
// the sum of the answers.
use std::io::BufRead;

fn gcd(a: u32, b: u32) -> u32 {
    let (mut x, mut y) = (a, b);
    while y > 0 {
        (x, y) = (y, x % y);
    }
    x
}

#[derive(Clone, Copy)]
struct Point {
    u: u32,
    v: u32,
}

#[derive(Clone, Copy)]
struct Turn {
    head: u32,
    factor: u32,
}

struct Matrix {
    a: i32,
    b: i32,
    c: i32,
    d: i32,
}

struct Level {
    n: u32,
    points: Vec<Point>,
    turns: Vec<Turn>,
    numbers: Vec<u32>,
}

impl Level {
    #[inline(never)]
    fn open(n: u32) -> Level {
        let units: Vec<u32> = (0..n).filter(|s| gcd(*s, n) == 1).collect();
        let turns: Vec<Turn> = (0..n)
            .map(|u| {
                let mut turn = Turn { head: u, factor: 1 % n };
                for s in &units {
                    let head = s * u % n;
                    if head < turn.head {
                        turn = Turn { head, factor: *s };
                    }
                }
                turn
            })
            .collect();
        let mut points = Vec::new();
        let mut numbers = vec![0; (n * n) as usize];
        for u in 0..n {
            if turns[u as usize].head != u {
                continue;
            }
            let kept: Vec<u32> = units.iter().copied().filter(|s| s * u % n == u).collect();
            for v in 0..n {
                if numbers[(u * n + v) as usize] == 0 && gcd(gcd(u, v), n) == 1 {
                    points.push(Point { u, v });
                    for s in &kept {
                        numbers[(s * u % n * n + s * v % n) as usize] = points.len() as u32;
                    }
                }
            }
        }
        Level { n, points, turns, numbers }
    }

    fn look_up(&self, p: Point) -> u32 {
        let turn = self.turns[p.u as usize];
        self.numbers[(turn.head * self.n + turn.factor * p.v % self.n) as usize]
    }

    fn act(&self, k: u32, matrix: &Matrix) -> u32 {
        let p = self.points[k as usize];
        let (u, v, n) = (p.u as i32, p.v as i32, self.n as i32);
        let image = Point {
            u: (u * matrix.a + v * matrix.c).rem_euclid(n) as u32,
            v: (u * matrix.b + v * matrix.d).rem_euclid(n) as u32,
        };
        self.look_up(image) - 1
    }

    fn index(&self, u: i64, v: i64) -> Result<u32, u32> {
        let n = i64::from(self.n);
        let p = Point { u: u.rem_euclid(n) as u32, v: v.rem_euclid(n) as u32 };
        match self.look_up(p) {
            0 => Err(gcd(gcd(p.u, p.v), self.n)),
            found => Ok(found - 1),
        }
    }
}

#[inline(never)]
fn act_rounds(level: &Level, rounds: u32) -> u64 {
    let mut sum = 0;
    for round in 0..rounds {
        let matrix = Matrix { a: 0, b: -1, c: 1, d: if round % 2 == 0 { 0 } else { -1 } };
        for k in 0..level.points.len() as u32 {
            sum += u64::from(level.act(k, &matrix));
        }
    }
    sum
}

#[inline(never)]
fn index_rounds(level: &Level, rounds: u32) -> u64 {
    let mut sum = 0;
    for round in 0..rounds {
        for k in 0..level.points.len() as u32 {
            match level.index(i64::from(k) - 7, i64::from(round) - 11) {
                Ok(number) => sum += u64::from(number),
                Err(g) => sum += u64::from(g),
            }
        }
    }
    sum
}

fn main() {
    for line in std::io::stdin().lock().lines() {
        let line = line.unwrap();
        let words: Vec<&str> = line.split(' ').collect();
        let (n, rounds): (u32, u32) = (words[1].parse().unwrap(), words[2].parse().unwrap());
        let level = Level::open(n);
        let sum: u64 = match words[0] {
            "open" => (0..rounds).map(|_| Level::open(n).points.len() as u64).sum(),
            "act" => act_rounds(&level, rounds),
            "index" => index_rounds(&level, rounds),
            _ => panic!("no call of that name"),
        };
        println!("{sum}");
    }
}
