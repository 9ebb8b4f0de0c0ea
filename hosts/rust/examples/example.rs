use docket::{Docket, Figures, Verdict};

fn main() {
    let mut desk = Docket::new();
    desk.lodge(b"kind=problem\nperiods=1\nunits=1\ndemand=50\nspare=0\nunit=100,10,0,20,80,1,1,3,80,80,0,0,0,0,50\nend=problem\n");
    let answer = desk.lodge(b"kind=schedule\nwriter=7\nrun=50\nend=schedule\n");
    match answer.verdict() {
        Verdict::Held(Figures::Schedule { cost, .. }) => println!("a schedule that costs {cost}"),
        _ => println!("{answer}"),
    }
    print!("{}", desk.report());
}
