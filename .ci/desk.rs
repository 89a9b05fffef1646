//! What hosts/desk.c prints on standard output, by `Desk` of hosts/vorphiel.rs: .ci/hosts compares the two on stored dialogues. `help` is left out, and a
//! line that is no command prints nothing.
#[path = "../hosts/vorphiel.rs"]
mod vorphiel;

use vorphiel::{judge, Counts, Desk, Judged, Refusal};

fn line(said: String, slack: i64) -> String {
    format!("{said}: timing {}\n", if slack >= 0 { "met" } else { "not met" })
}

fn figures(desk: &Desk) -> Result<String, Refusal> {
    let Judged { cost, slack } = desk.read()?;
    Ok(line(format!("cost {cost} slack {slack}"), slack))
}

fn changes(before: Judged, now: Judged) -> String {
    let (cost, slack) = (now.cost as i64 - before.cost as i64, now.slack - before.slack);
    line(format!("cost {} ({cost:+}) slack {} ({slack:+})", now.cost, now.slack), now.slack)
}

fn stage(desk: &Desk, stage: u64) -> String {
    format!("stage {stage} on layer {}, {}\n", desk.plan()[stage as usize], if desk.is_locked(stage) { "locked" } else { "unlocked" })
}

fn rows(desk: &Desk) -> String {
    let numbers: Vec<u64> = (0..desk.stages()).collect();
    let layer = |&stage: &u64| format!("{}{}", if desk.is_locked(stage) { "*" } else { "" }, desk.plan()[stage as usize]);
    let row = |some: &[u64]| {
        let stages: String = some.iter().map(|stage| format!("{stage:>4}")).collect();
        let layers: String = some.iter().map(|stage| format!("{:>4}", layer(stage))).collect();
        format!("stage{stages}\nlayer{layers}\n")
    };
    numbers.chunks(16).map(row).collect()
}

/// What a command prints. The net that was opened last is kept, to judge the desk's plan by it.
fn answer(desk: &mut Desk, net: &mut Vec<u8>, command: &str, numbers: &[u64]) -> Result<String, Refusal> {
    match (command.split_once(' ').unwrap_or((command, "")), numbers) {
        (("open", file), _) => {
            let Ok(bytes) = std::fs::read(file.trim()) else { return Ok(String::new()) };
            let Counts { nodes, stages, layers } = desk.open(&bytes)?;
            *net = bytes;
            assert_eq!((desk.stages(), desk.layers()), (stages, layers));
            Ok(format!("nodes {nodes} stages {stages} layers {layers}\n") + &figures(desk)?)
        }
        (("set", _), &[t, layer]) => {
            let before = desk.read().unwrap_or_default();
            desk.set(t, layer)?;
            Ok(changes(before, desk.read()?))
        }
        (("lock", _), &[t]) => desk.lock(t).map(|()| stage(desk, t)),
        (("unlock", _), &[t]) => desk.unlock(t).map(|()| stage(desk, t)),
        (("show", ""), _) => Ok(figures(desk)? + &rows(desk)),
        _ => Ok(String::new()),
    }
}

fn main() {
    let (mut desk, mut net) = (Desk::default(), Vec::new());
    for command in std::io::stdin().lines().map_while(Result::ok) {
        let numbers: Result<Vec<u64>, _> = command.split_whitespace().skip(1).map(str::parse).collect();
        // A clone alone is altered; the desk is what it was until the clone takes its place.
        let (mut altered, before) = (Box::new(desk.clone()), format!("{desk:?}"));
        match answer(&mut altered, &mut net, command.trim(), &numbers.unwrap_or_default()) {
            Ok(text) => print!("{text}"),
            Err(refusal) => {
                println!("refused {}", refusal.0);
                assert_eq!(format!("{altered:?}"), before);
            }
        }
        assert_eq!(format!("{desk:?}"), before);
        desk = *altered;
        assert_eq!(desk.read().ok(), judge(&net, desk.plan()).ok());
    }
}
