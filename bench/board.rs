// The turns of crates/turn_board as locks of a Mutex: `board` reads lines `CALL THREADS ROUNDS`, and prints the
// number of entries.
use std::io::BufRead;
use std::sync::Mutex;
use std::thread;

#[inline(never)]
fn look_often(state: &Mutex<Vec<u32>>, rounds: u32) {
    for _ in 0..rounds {
        drop(state.lock().unwrap());
    }
}

#[inline(never)]
fn add_often(state: &Mutex<Vec<u32>>, maker: u32, rounds: u32) {
    for _ in 0..rounds {
        state.lock().unwrap().push(maker);
    }
}

fn main() {
    for line in std::io::stdin().lock().lines() {
        let line = line.unwrap();
        let words: Vec<&str> = line.split(' ').collect();
        let (threads, rounds): (u32, u32) = (words[1].parse().unwrap(), words[2].parse().unwrap());
        let state = Mutex::new(Vec::with_capacity((threads * rounds) as usize));
        thread::scope(|scope| {
            for maker in 1..=threads {
                let (state, call) = (&state, words[0]);
                scope.spawn(move || match call {
                    "look" => look_often(state, rounds),
                    "add" => add_often(state, maker, rounds),
                    _ => panic!("no call of that name"),
                });
            }
        });
        println!("{}", state.into_inner().unwrap().len());
    }
}
