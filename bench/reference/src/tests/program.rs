use super::run;

const SINK: &str = "addr=1\nfcode=0\ndir=sink\nindex=1\n";
const SOURCE: &str = "addr=2\nfcode=1\ndir=source\nindex=2\n";

#[test]
fn the_example_of_the_document() {
    let output = run(&format!("{SINK}master=1,52\nslave=2;161\n"));
    assert_eq!(output, "addr=1\nfcode=0\ndir=sink\nindex=1\nstate=good\nfills=1\nblocks=0\ndata=2\n");
    assert_eq!(run(&format!("{SINK}master=1,52\nslave=2;161")), output); // no last newline
}

#[test]
fn nothing_in_nothing_out() {
    assert_eq!(run(""), "");
}

#[test]
fn replies_and_ports_by_rising_address() {
    let output = run(&format!("{SOURCE}{SINK}write=2;0,1\nmaster=4098,{}\n", check(4098)));
    assert_eq!(
        output,
        format!(
            "reply=0,1;52\n{SINK}state=never\nfills=0\nblocks=0\ndata=none\n{SOURCE}state=good\nfills=1\nblocks=0\ndata=0,1\n"
        )
    );
}

fn check(word: u16) -> u8 {
    reference::check_byte(&[word])
}

#[test]
fn a_timeout_holds() {
    let filled = format!("{SINK}master=1,52\nslave=2;161\nmaster=1,52\nquiet=64\n");
    assert_eq!(run(&filled), format!("{SINK}state=held\nfills=1\nblocks=0\ndata=2\n"));
}

#[test]
fn the_blocks_that_were_bad() {
    let wrong = format!("{SINK}master=1,52\nslave=2;160\n");
    assert_eq!(run(&wrong), format!("{SINK}state=never\nfills=0\nblocks=1\ndata=none\n"));
    let long = "addr=3\nfcode=4\ndir=sink\nindex=3\n";
    let asked = format!("master=16387,{}\n", check(16387));
    let heard = "slave=0,0,0,0,0,0,0,0,0,0,0,0,0,0,0,0;255,254,255,127\n";
    assert_eq!(run(&format!("{long}{asked}{heard}")), format!("{long}state=never\nfills=0\nblocks=10\ndata=none\n"));
    assert_eq!(run(&format!("{long}{asked}{heard}{asked}quiet=64\n")), format!("{long}state=never\nfills=0\nblocks=0\ndata=none\n"));
}

#[test]
fn refusals_of_the_calls() {
    for (input, refusal) in [
        ("addr=4096\nfcode=0\ndir=sink\nindex=1\n", 2),
        ("addr=99999999999999999999999\nfcode=0\ndir=sink\nindex=1\n", 2),
        ("addr=1\nfcode=5\ndir=sink\nindex=1\n", 2),
        ("addr=1\nfcode=0\ndir=sink\nindex=0\n", 2),
        ("addr=1\nfcode=0\ndir=sink\nindex=256\n", 2),
        ("quiet=65536\n", 2),
        ("slave=1,2,3,4,5,6,7,8,9,10,11,12,13,14,15,16,17;1\n", 2),
        ("slave=1;1,2,3,4,5\n", 2),
        ("write=5000;1\n", 2),
        ("write=5;1\n", 3),
    ] {
        assert_eq!(run(input), format!("refused={refusal}\n"), "{input}");
    }
    assert_eq!(run(&format!("{SINK}{SINK}")), "refused=4\n");
    assert_eq!(run(&format!("{SINK}write=1;5\nnonsense\n")), "refused=5\n");
    assert_eq!(run(&format!("{SOURCE}write=2;5\n")), "refused=2\n");
}

#[test]
fn malformed_lines() {
    for line in [
        "", " ", "nonsense", "addr", "addr=", "addr=-1", "addr=+1", "addr= 1", "fcode=0", "dir=sink", "Addr=1",
        "master=1", "master=1,52,3", "master=65536,1", "master=1,256", "master=,", "slave=1", "slave=1;2;3",
        "slave=1,;2", "slave=70000;1", "slave=1;256", "quiet=", "quiet=x", "quiet=1,2", "write=1", "write=1;65536",
        "write=;1", "write=1;a", "quiet=1\r", "read=1",
    ] {
        assert_eq!(run(&format!("{line}\nquiet=1\n")), "refused=7\n", "{line:?}");
    }
}

#[test]
fn setup_comes_first_and_whole() {
    assert_eq!(run(&format!("quiet=1\n{SINK}")), "refused=7\n");
    assert_eq!(run("addr=1\nfcode=0\ndir=sink\n"), "refused=7\n");
    assert_eq!(run("addr=1\nfcode=0\nquiet=1\n"), "refused=7\n");
    assert_eq!(run("addr=1\ndir=sink\nfcode=0\nindex=1\n"), "refused=7\n");
    assert_eq!(run("addr=1\nfcode=0\ndir=up\nindex=1\n"), "refused=7\n");
}

#[test]
fn replies_before_a_refusal_stay() {
    let input = format!("{SOURCE}write=2;0,1\nmaster=4098,{}\nwrite=9;1\nquiet=1\n", check(4098));
    assert_eq!(run(&input), "reply=0,1;52\nrefused=3\n");
}
