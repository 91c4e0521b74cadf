//! `make fuzz` ends with 0 where its time is up, and with 1 and a short list at a difference.
#![cfg(feature = "engine")]

use std::process::{Command, Output};

fn fuzz(environment: &[(&str, &str)]) -> (Option<i32>, String) {
    let mut command = Command::new(env!("CARGO_BIN_EXE_fuzz"));
    let run = command.env_remove("WRONG").envs(environment.iter().copied());
    let Output { status, stdout, .. } = run.output().expect("the program runs");
    (status.code(), String::from_utf8(stdout).expect("text"))
}

#[test]
fn it_ends_when_its_time_is_up() {
    let (status, text) = fuzz(&[("MINUTES", "0.005"), ("SEED", "1000000")]);
    assert!(status == Some(0) && text.contains("fuzz: no difference"), "{text}");
    assert!(text.contains("from seed 1000000 on"), "{text}");
}

#[test]
fn it_ends_with_1_at_a_difference_and_prints_a_short_list() {
    let (status, text) = fuzz(&[("WRONG", "LatestFirst"), ("MINUTES", "2"), ("SEED", "1000000")]);
    assert_eq!(status, Some(1), "{text}");
    let (_, list) = text.split_once("the shortest list found").expect("a list");
    let calls = list.lines().filter(|line| line.contains(": second ")).count();
    assert!((2..=16).contains(&calls), "{text}");
}

#[test]
fn what_it_does_not_understand_gives_2() {
    assert_eq!(fuzz(&[("WRONG", "NoSuchTurn")]).0, Some(2));
    assert_eq!(fuzz(&[("MINUTES", "soon")]).0, Some(2));
}
